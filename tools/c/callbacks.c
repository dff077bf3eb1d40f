/* A call by an address. */
int apply(int (*step)(int), int value, int times) {
    while (times-- > 0)
        value = step(value);
    return value;
}

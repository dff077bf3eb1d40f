/* Branches and choices. */
int sign(long value) {
    if (value < 0)
        return -1;
    if (value > 0)
        return 1;
    return 0;
}

int clamp(int value, int low, int high) {
    return value < low ? low : value > high ? high : value;
}

_Bool between(unsigned char value, unsigned char low, unsigned char high) {
    return low <= value && value <= high;
}

extern void told(int which);

void tell(int a, int b, _Bool both) {
    if ((a > b || both) && a != 7)
        told(1);
    else if (__builtin_expect(a == b, 0))
        told(2);
    else
        told(both ? 3 : 4);
}

unsigned distance(unsigned a, unsigned b) {
    return a > b ? a - b : b - a;
}

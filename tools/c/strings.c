/* Texts of bytes. */
int compare(const char *a, const char *b) {
    while (*a && *a == *b) {
        a++;
        b++;
    }
    return (unsigned char)*a - (unsigned char)*b;
}

unsigned hash(const unsigned char *text) {
    unsigned value = 2166136261u;
    for (; *text; text++)
        value = (value ^ *text) * 16777619u;
    return value;
}

long parsed(const char *text) {
    long value = 0;
    int minus = *text == '-';
    if (minus)
        text++;
    while (*text >= '0' && *text <= '9')
        value = value * 10 + (*text++ - '0');
    return minus ? -value : value;
}

char *put_hex(char *to, unsigned value) {
    static const char figures[] = "0123456789abcdef";
    for (int shift = 28; shift >= 0; shift -= 4)
        *to++ = figures[value >> shift & 15];
    return to;
}

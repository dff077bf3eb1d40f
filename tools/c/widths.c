/* Numbers of mixed widths. */
short narrow(long value) {
    return (short)(value >> 3);
}

unsigned long wide(unsigned char high, signed char low) {
    return ((unsigned long)high << 40) | (unsigned long)(long)low;
}

unsigned rotated(unsigned value, unsigned by) {
    return value << (by & 31) | value >> (-by & 31);
}

int parts(int a, unsigned b, int c) {
    return a / c - a % c + (int)(b / 10 - b % 10) + (a >> 2) - (int)(b >> 2);
}

signed char bytes(signed char a, unsigned char b) {
    return (signed char)((a * b) ^ (a + b));
}

unsigned char saturated(unsigned char a, unsigned char b) {
    unsigned sum = a + b;
    return sum > 255 ? 255 : (unsigned char)sum;
}

long long product(int a, unsigned b) {
    return (long long)a * b;
}

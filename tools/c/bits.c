/* Single bits. */
int ones(unsigned long value) {
    int count = 0;
    for (; value; value &= value - 1)
        count++;
    return count;
}

unsigned parity(unsigned value) {
    value ^= value >> 16;
    value ^= value >> 8;
    value ^= value >> 4;
    return 0x6996u >> (value & 15) & 1;
}

int leading(unsigned value) {
    return value ? __builtin_clz(value) : 32;
}

unsigned swapped(unsigned value) {
    return value << 24 | (value & 0xff00) << 8 | (value >> 8 & 0xff00) | value >> 24;
}

unsigned crc(const unsigned char *bytes, unsigned long count) {
    unsigned value = ~0u;
    while (count--) {
        value ^= *bytes++;
        for (int bit = 0; bit < 8; bit++)
            value = value >> 1 ^ (value & 1 ? 0xedb88320u : 0);
    }
    return ~value;
}

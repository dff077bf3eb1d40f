/* A product of 128 bits. */
unsigned long high_half(unsigned long a, unsigned long b) {
    return (unsigned long)((unsigned __int128)a * b >> 64);
}

/* Loops that end in one number. */
int sum(const int *row, int count) {
    int total = 0;
    for (int i = 0; i < count; i++)
        total += row[i];
    return total;
}

unsigned long sum_of_bytes(const unsigned char *bytes, unsigned long count) {
    unsigned long total = 0;
    for (unsigned long i = 0; i != count; i++)
        total += bytes[i];
    return total;
}

long dot(const short *a, const short *b, int count) {
    long total = 0;
    for (int i = 0; i < count; i++)
        total += (int)a[i] * b[i];
    return total;
}

int greatest(const int *row, int count) {
    int best = row[0];
    for (int i = 1; i < count; i++)
        best = row[i] > best ? row[i] : best;
    return best;
}

unsigned count_even(const unsigned *row, unsigned count) {
    unsigned found = 0;
    for (unsigned i = 0; i < count; i++)
        if ((row[i] & 1) == 0)
            found++;
    return found;
}

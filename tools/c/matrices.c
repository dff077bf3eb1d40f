/* Loops in loops. */
void product(int n, const int *a, const int *b, int *to) {
    for (int i = 0; i < n; i++)
        for (int j = 0; j < n; j++) {
            int sum = 0;
            for (int k = 0; k < n; k++)
                sum += a[i * n + k] * b[k * n + j];
            to[i * n + j] = sum;
        }
}

void transpose(short (*square)[8]) {
    for (int i = 0; i < 8; i++)
        for (int j = 0; j < i; j++) {
            short kept = square[i][j];
            square[i][j] = square[j][i];
            square[j][i] = kept;
        }
}

void smooth(unsigned short *restrict to, const unsigned short *restrict from, unsigned count) {
    for (unsigned i = 1; i + 1 < count; i++)
        to[i] = (unsigned short)((from[i - 1] + 2 * from[i] + from[i + 1]) / 4);
}

long triangle(int n) {
    long total = 0;
    for (int i = 0; i < n; i++)
        for (int j = i; j < n; j++)
            total += i ^ j;
    return total;
}

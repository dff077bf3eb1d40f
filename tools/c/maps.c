/* Loops that store an element each time round. */
void add_rows(int *to, const int *a, const int *b, int count) {
    for (int i = 0; i < count; i++)
        to[i] = a[i] + b[i];
}

void halve(unsigned char *row, unsigned long count) {
    for (unsigned long i = 0; i < count; i++)
        row[i] /= 2;
}

void widen(long *restrict to, const short *restrict from, int count) {
    for (int i = 0; i < count; i++)
        to[i] = from[i];
}

void every_third(short *row, short value, int count) {
    for (int i = 0; i < count; i += 3)
        row[i] = value;
}

void reverse(int *row, int count) {
    for (int low = 0, high = count - 1; low < high; low++, high--) {
        int kept = row[low];
        row[low] = row[high];
        row[high] = kept;
    }
}

void shift_down(int *row, int count) {
    for (int i = 0; i + 1 < count; i++)
        row[i] = row[i + 1];
}

/* Sorting and looking up. */
void insertion_sort(int *row, int count) {
    for (int i = 1; i < count; i++) {
        int value = row[i], j = i;
        for (; j > 0 && row[j - 1] > value; j--)
            row[j] = row[j - 1];
        row[j] = value;
    }
}

long lower_bound(const long *row, long count, long wanted) {
    long low = 0, high = count;
    while (low < high) {
        long middle = low + (high - low) / 2;
        if (row[middle] < wanted)
            low = middle + 1;
        else
            high = middle;
    }
    return low;
}

int parted(unsigned char *row, int count, unsigned char at) {
    int low = 0;
    for (int i = 0; i < count; i++)
        if (row[i] < at) {
            unsigned char kept = row[low];
            row[low++] = row[i];
            row[i] = kept;
        }
    return low;
}

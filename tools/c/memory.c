/* Copies of whole pieces of memory. */
extern void *memcpy(void *to, const void *from, unsigned long count);
extern void *memset(void *to, int value, unsigned long count);

struct record {
    long key;
    int values[14];
};

void copy_record(struct record *to, const struct record *from) {
    *to = *from;
}

void clear(struct record *records, unsigned count) {
    memset(records, 0, count * sizeof *records);
}

void append(char *to, unsigned long at, const char *text, unsigned long count) {
    memcpy(to + at, text, count);
    to[at + count] = 0;
}

int unaligned(const unsigned char *bytes) {
    int value;
    memcpy(&value, bytes + 1, sizeof value);
    return value;
}

/* What clang makes of this is read, printed, and compared by LLVM's own tools. */
struct pair {
    char tag;
    long value;
};

extern int log_value(const char *text, ...);
extern void told(long value);

int table[64];
static const char text[] = "%ld\n";

int sum(const int *row, int count) {
    int total = 0;
    for (int i = 0; i < count; i++)
        total += row[i];
    return total;
}

void fill(struct pair *pairs, unsigned count, long value) {
    for (unsigned i = 0; i < count; i++) {
        pairs[i].tag = (char)(value >> (i & 7));
        pairs[i].value = value * table[i & 63] - (long)i;
    }
}

long choose(int kind, long value) {
    switch (kind) {
    case 0:
        return value / 3;
    case 1:
        told(value);
        return value % 7;
    case 5:
        return log_value(text, value);
    case 1000:
        return (unsigned char)value;
    default:
        return kind == -1 ? value : ~value;
    }
}

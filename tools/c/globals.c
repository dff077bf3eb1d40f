/* Variables outside functions. */
int counter;
static long hidden = 5;
const unsigned char primes[8] = {2, 3, 5, 7, 11, 13, 17, 19};
int table[4][16];
extern int shared[32];
const char *names[3] = {"one", "two", "three"};
__attribute__((aligned(64))) short line[32];

struct limits {
    char kind;
    int low;
    long high;
} limits = {'a', -1, 1L << 40};

int next(void) {
    return ++counter;
}

long changed(long by) {
    hidden = hidden * 3 + by;
    return hidden;
}

int prime(unsigned at) {
    return at < 8 ? primes[at] : 0;
}

void cell(int row, int column, int value) {
    table[row][column] = value;
    table[1][2] += value;
}

int last_shared(void) {
    return shared[31] + shared[0];
}

const char *name(unsigned which) {
    return which < 3 ? names[which] : "none";
}

int within(int value) {
    return value >= limits.low && value <= limits.high && limits.kind != 0;
}

short *middle(void) {
    return &line[16];
}

/* Vectors of integers, by the compiler's own types. */
typedef int ints __attribute__((vector_size(16)));
typedef short shorts __attribute__((vector_size(8)));
typedef unsigned char lanes __attribute__((vector_size(8)));

ints add_lanes(ints a, ints b) {
    return a * b + (ints){1, -2, 3, -4};
}

ints chosen(ints a, ints b) {
    ints less = a < b;
    return (a & less) | (b & ~less);
}

ints mixed(ints a, ints b) {
    return __builtin_shufflevector(a, b, 0, 5, 2, 7);
}

int lane(ints a, int at) {
    return a[at & 3] + a[0];
}

ints widened(const shorts *from) {
    return __builtin_convertvector(*from, ints);
}

void shifted(lanes *to, unsigned char by) {
    *to = (*to >> 1) + by;
}

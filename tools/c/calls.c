/* Calls: recursion, helpers that stay apart, dots, tails and words on parameters. */
extern int printf(const char *format, ...);
extern long outside(long value, char tag, const int *row);
extern void quiet(void);

unsigned fib(unsigned n) {
    return n < 2 ? n : fib(n - 1) + fib(n - 2);
}

__attribute__((noinline)) static short helper(short value) {
    return (short)(value * value + 1);
}

int helped(short value) {
    return helper(value) + helper((short)(value + 1));
}

int show(const char *name, long value) {
    return printf("%s: %ld\n", name, value);
}

long passed_on(long value, char tag, const int *row) {
    quiet();
    return outside(value + 1, tag, row);
}

int even(unsigned n);

int odd(unsigned n) {
    return n == 0 ? 0 : even(n - 1);
}

int even(unsigned n) {
    return n == 0 ? 1 : odd(n - 1);
}

__attribute__((noreturn)) extern void stop(int code);

int checked(int value) {
    if (value < 0)
        stop(value);
    return value;
}

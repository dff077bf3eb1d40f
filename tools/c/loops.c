/* Loops of many shapes. */
unsigned collatz(unsigned long value) {
    unsigned steps = 0;
    while (value != 1) {
        value = value & 1 ? 3 * value + 1 : value / 2;
        steps++;
    }
    return steps;
}

int digits(unsigned value) {
    int count = 0;
    do {
        count++;
        value /= 10;
    } while (value != 0);
    return count;
}

int find(const int *row, int count, int wanted) {
    for (int i = count; i-- > 0;)
        if (row[i] == wanted)
            return i;
    return -1;
}

int skip_and_stop(const signed char *row, int count) {
    int total = 0;
    for (int i = 0; i < count; i++) {
        if (row[i] < 0)
            continue;
        if (row[i] == 100)
            break;
        total += row[i];
    }
    return total;
}

void wait_for_ever(void) {
    for (;;) {
    }
}

int jumps(int value) {
again:
    if (value > 1000)
        goto out;
    value = value * 3 + 1;
    if (value & 4)
        goto again;
    value -= 7;
    if (value > 0)
        goto again;
out:
    return value;
}

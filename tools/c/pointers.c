/* Pointers that walk, that are compared, and that lead to pointers. */
unsigned long length(const char *text) {
    const char *end = text;
    while (*end)
        end++;
    return (unsigned long)(end - text);
}

int *first_zero(int *from, int *to) {
    for (; from != to; from++)
        if (*from == 0)
            return from;
    return 0;
}

void swap(void **a, void **b) {
    void *kept = *a;
    *a = *b;
    *b = kept;
}

struct node {
    struct node *next;
    int value;
};

int sum_of_list(const struct node *node) {
    int total = 0;
    for (; node; node = node->next)
        total += node->value;
    return total;
}

struct node *turned(struct node *node) {
    struct node *back = 0;
    while (node) {
        struct node *next = node->next;
        node->next = back;
        back = node;
        node = next;
    }
    return back;
}

unsigned long low_bits(const void *place) {
    return (unsigned long)place & 15;
}

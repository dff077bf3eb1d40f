/* Structs, behind pointers. */
struct point {
    int x, y;
};

struct box {
    char tag;
    struct point corner[2];
    short depth;
    long mass;
};

struct __attribute__((packed)) head {
    char kind;
    int size;
    short flags;
};

union cell {
    long whole;
    int halves[2];
    char bytes[8];
};

struct list {
    unsigned count;
    int items[];
};

int area(const struct box *box) {
    return (box->corner[1].x - box->corner[0].x) * (box->corner[1].y - box->corner[0].y);
}

void move(struct point *points, int count, int by) {
    for (int i = 0; i < count; i++) {
        points[i].x += by;
        points[i].y -= by;
    }
}

int size_of_head(const struct head *head) {
    return head->size + head->flags;
}

long halves(union cell *cell, int low) {
    cell->halves[0] = low;
    return cell->whole;
}

int sum_of_items(const struct list *list) {
    int total = 0;
    for (unsigned i = 0; i < list->count; i++)
        total += list->items[i];
    return total;
}

long mass_of_all(const struct box *boxes, unsigned char count) {
    long mass = 0;
    for (unsigned char i = 0; i < count; i++)
        mass += boxes[i].mass * boxes[i].depth;
    return mass;
}

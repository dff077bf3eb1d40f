/* A struct that is passed and returned as a whole. */
struct pair {
    long first, second;
    int third;
};

struct pair turned(struct pair pair) {
    struct pair back = {pair.second, pair.first, -pair.third};
    return back;
}

/* Room in the function's own frame. */
extern void fill(int *row, int count);

int filled(int which) {
    int row[16];
    fill(row, 16);
    return row[which & 15];
}

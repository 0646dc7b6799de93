/* Search with places that are taken and given back. */
int putchar(int c);
static int columns[8], found;
static int is_free(int row, int column) {
    for (int r = 0; r < row; r++) {
        int d = columns[r] - column;
        if (d == 0 || d == row - r || d == r - row) return 0;
    }
    return 1;
}
static void place(int row) {
    if (row == 6) {
        found++;
        for (int r = 0; r < 6; r++) putchar('1' + columns[r]);
        putchar('\n');
        return;
    }
    for (int c = 0; c < 6; c++) if (is_free(row, c)) { columns[row] = c; place(row + 1); }
}
int main(void) { place(0); return found; }

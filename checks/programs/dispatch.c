/* Calls through a table of functions. */
int putchar(int c);
static int add(int a, int b) { return a + b; }
static int subtract(int a, int b) { return a - b; }
static int multiply(int a, int b) { return a * b; }
static int (*const table[])(int, int) = {add, subtract, multiply};
static int fold(int (*by)(int, int), const int *items, int count, int start) {
    for (int i = 0; i < count; i++) start = by(start, items[i]);
    return start;
}
int main(void) {
    int items[] = {1, 2, 3, 4, 5};
    int total = 0;
    for (int k = 0; k < 3; k++) {
        int one = fold(table[k], items, 5, k == 2 ? 1 : 100);
        putchar('a' + (one & 15));
        total += one;
    }
    return table[0] == add && table[1] != add ? total & 127 : 255;
}

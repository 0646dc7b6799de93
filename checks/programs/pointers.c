/* Pointers to pointers, pointers that are compared, and pointers past the end. */
int putchar(int c);
static int items[5] = {3, 1, 4, 1, 5};
static int *places[5];
int main(void) {
    int **last = places;
    for (int *p = items; p != items + 5; p++) *last++ = p;
    while (last > places) { last--; **last += 1; putchar('0' + **last); }
    int *low = &items[1], *high = &items[3];
    return (low < high) + 2 * (low == &items[1]) + 4 * (places[2] == high - 1) + 8 * (low != 0);
}

/* A heap in an array: numbers go in in any order and come out in theirs. */
int putchar(int c);
static int heap[100], count;
static void exchange(int *a, int *b) { int kept = *a; *a = *b; *b = kept; }
static void add(int n) {
    heap[count] = n;
    for (int i = count++; i > 0 && heap[(i - 1) / 2] > heap[i]; i = (i - 1) / 2) exchange(&heap[(i - 1) / 2], &heap[i]);
}
static int least(void) {
    int first = heap[0];
    heap[0] = heap[--count];
    for (int i = 0;;) {
        int child = 2 * i + 1;
        if (child >= count) break;
        if (child + 1 < count && heap[child + 1] < heap[child]) child++;
        if (heap[i] <= heap[child]) break;
        exchange(&heap[i], &heap[child]);
        i = child;
    }
    return first;
}
int main(void) {
    unsigned seed = 7;
    for (int i = 0; i < 60; i++) { seed = seed * 69069u + 1u; add((int)(seed >> 24)); }
    int before = -1, good = 1;
    while (count) { int n = least(); good &= before <= n; before = n; putchar('a' + n % 26); }
    return good;
}

/* As many parameters as there may be, and a call in a call. */
static int sum(int a, int b, int c, int d, int e, int f, int g, int h, int i, int j, int k, int l, int m, int n, int o, int p) {
    return a + 2 * b + 3 * c + 4 * d + 5 * e + 6 * f + 7 * g + 8 * h - i - j - k - l - m - n - o - p;
}
int main(void) {
    return sum(1, 2, 3, 4, 5, 6, 7, 8, sum(1, 1, 1, 1, 1, 1, 1, 1, 4, 4, 4, 4, 4, 4, 4, 4), 10, 11, 12, 13, 14, 15, 16) & 255;
}

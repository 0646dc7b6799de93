/* Quotients and remainders of all signs and widths. */
int putchar(int c);
static void show(long long n) {
    if (n < 0) { putchar('-'); n = -n; }
    if (n >= 10) show(n / 10);
    putchar((int)('0' + n % 10));
}
int main(void) {
    int as[] = {7, -7, 100, -100}, bs[] = {2, -2, 9, -9};
    for (int i = 0; i < 4; i++)
        for (int j = 0; j < 4; j++) {
            show(as[i] / bs[j]); putchar(' ');
            show(as[i] % bs[j]); putchar(' ');
            show((short)as[i] / (short)bs[j]); putchar(' ');
            show((unsigned char)as[i] % (unsigned char)bs[j]); putchar('\n');
        }
    return (int)(0x8000000000000000ull / 3u % 251u);
}

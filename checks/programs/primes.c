/* Numbers in decimal, as many as fit on a line. */
int putchar(int c);
static void show(int n) { if (n >= 10) show(n / 10); putchar('0' + n % 10); }
int main(void) {
    int count = 0;
    for (int n = 2; n < 200; n++) {
        int prime = 1;
        for (int d = 2; d * d <= n && prime; d++) prime = n % d != 0;
        if (prime) { show(n); putchar(++count % 10 ? ' ' : '\n'); }
    }
    return count;
}

/* Decimal numbers by recursion: the first Fibonacci numbers. */
int putchar(int c);

static void print(unsigned n) {
    if (n >= 10) {
        print(n / 10);
    }
    putchar('0' + (int)(n % 10));
}

static unsigned fibonacci(unsigned n) {
    return n < 2 ? n : fibonacci(n - 1) + fibonacci(n - 2);
}

int main(void) {
    for (unsigned n = 0; n < 12; n++) {
        print(fibonacci(n));
        putchar('\n');
    }
    return 12;
}

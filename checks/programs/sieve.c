/* The primes below a hundred, as stars. */
int putchar(int c);

int main(void) {
    static _Bool crossed[100];
    int count = 0;
    for (int n = 2; n < 100; n++) {
        if (!crossed[n]) {
            count++;
            putchar('*');
            for (int m = n * n; m < 100; m += n) {
                crossed[m] = 1;
            }
        } else {
            putchar('.');
        }
    }
    return count;
}

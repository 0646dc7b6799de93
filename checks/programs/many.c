/* A function of eight parameters, of every width. */
int putchar(int c);

static long long mix(char a, short b, int c, long long d, unsigned char e, unsigned short f, unsigned g, char *h) {
    return a + 2 * b + 3 * c + 4 * d + 5 * e + 6 * f + 7 * (long long)g + *h;
}

int main(void) {
    char last = 8;
    long long all = mix(-1, -2, -3, -4, 250, 65000, 4000000000u, &last);
    for (int i = 60; i >= 0; i -= 4) {
        int digit = (int)((all >> i) & 15);
        putchar(digit < 10 ? '0' + digit : 'a' + digit - 10);
    }
    return (int)(all % 100);
}

/* Switches with gaps, extreme cases, and cases that fall through. */
int putchar(int c);
static int of_int(int n) {
    switch (n) {
    case -2147483647 - 1: return 1;
    case -1: return 2;
    case 0: case 5: return 3;
    case 2147483647: return 4;
    case 7: n++;
    case 8: return n;
    default: return 9;
    }
}
static int of_wide(unsigned long long n) {
    switch (n) {
    case 0: return 1;
    case 0x8000000000000000ull: return 2;
    case 0xffffffffffffffffull: return 3;
    }
    return 4;
}
static int of_byte(signed char c) { switch (c) { case -128: return 1; case 127: return 2; default: return 3; } }
int main(void) {
    int ns[] = {-2147483647 - 1, -1, 0, 5, 2147483647, 7, 8, 6};
    for (int i = 0; i < 8; i++) putchar('0' + of_int(ns[i]));
    unsigned long long ws[] = {0, 0x8000000000000000ull, 0xffffffffffffffffull, 1};
    for (int i = 0; i < 4; i++) putchar('0' + of_wide(ws[i]));
    return of_byte(-128) + 4 * of_byte(127) + 16 * of_byte(0);
}

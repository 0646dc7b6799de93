/* Shifts by amounts that are computed, within the width. */
int putchar(int c);
static unsigned left(unsigned n, unsigned by) { return n << (by & 31) | n >> ((32 - (by & 31)) & 31); }
int main(void) {
    unsigned n = 0x9e3779b9u;
    for (unsigned i = 0; i < 40; i++) { n = left(n, i) + i; putchar('a' + (int)(n >> 28)); }
    int s = -1000;
    return (s >> 3 & 127) + (int)(n & 1);
}

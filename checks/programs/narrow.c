/* What is lost and kept where numbers change their widths. */
int putchar(int c);
int main(void) {
    unsigned long long n = 0xfedcba9876543210ull;
    signed char a = (signed char)n; unsigned char b = (unsigned char)(n >> 8);
    short c = (short)(n >> 40); unsigned short d = (unsigned short)(n >> 48);
    long long sum = a + b + c + d;
    int e = -1; unsigned f = (unsigned)e; long long g = e, h = f;
    _Bool yes = n, no = !n;
    for (int i = 0; i < 64; i += 8) putchar('A' + (int)(((unsigned long long)(sum + g + h) >> i) & 15));
    return yes * 2 + no + (a < 0) * 4 + (c < 0) * 8 + (f > 5u) * 16;
}

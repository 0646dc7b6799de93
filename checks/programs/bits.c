/* Widths, signs and shifts. */
int putchar(int c);

static unsigned crc(const unsigned char *text, int length) {
    unsigned sum = 0xffffffffu;
    for (int i = 0; i < length; i++) {
        sum ^= text[i];
        for (int bit = 0; bit < 8; bit++) {
            sum = (sum >> 1) ^ (0xedb88320u & (0u - (sum & 1u)));
        }
    }
    return ~sum;
}

int main(void) {
    static const unsigned char text[] = "123456789";
    unsigned sum = crc(text, 9);
    for (int i = 28; i >= 0; i -= 4) {
        putchar("0123456789abcdef"[(sum >> i) & 15]);
    }
    signed char small = (signed char)sum;
    long long wide = small;
    return (int)((wide >> 3) & 31);
}

/* Insertion into a sorted array of bytes that the input gives. */
int putchar(int c);
int getchar(void);

static unsigned char line[64];

int main(void) {
    int length = 0;
    int c = getchar();
    while (c >= 0 && length < 64) {
        int at = length;
        while (at > 0 && line[at - 1] > (unsigned char)c) {
            line[at] = line[at - 1];
            at--;
        }
        line[at] = (unsigned char)c;
        length++;
        c = getchar();
    }
    for (int i = 0; i < length; i++) {
        putchar(line[i]);
    }
    return length;
}

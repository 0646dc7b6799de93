/* A count of the words of the input, by their lengths. */
int putchar(int c);
int getchar(void);
static int counts[20];
int main(void) {
    int length = 0, c;
    do {
        c = getchar();
        int inside = (c >= 'a' && c <= 'z') || (c >= 'A' && c <= 'Z');
        if (inside) length++;
        if (!inside && length) { counts[length < 19 ? length : 19]++; length = 0; }
    } while (c != -1);
    for (int i = 1; i < 20; i++) putchar('0' + counts[i] % 10);
    return counts[3];
}

/* The input backwards. */
int putchar(int c);
int getchar(void);
static void rest(void) {
    int c = getchar();
    if (c == -1) return;
    rest();
    putchar(c);
}
int main(void) { rest(); return getchar() & 255; }

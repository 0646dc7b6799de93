/* The end in the middle of calls. */
int putchar(int c);
void exit(int status);
static void down(int n) {
    putchar('0' + n);
    if (n == 0) exit(41);
    down(n - 1);
    putchar('!');
}
int main(void) { down(9); return 1; }

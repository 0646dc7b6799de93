/* Functions through pointers, chosen by a switch. */
int putchar(int c);
void exit(int status);

static int twice(int n) { return 2 * n; }
static int square(int n) { return n * n; }
static int (*table[2])(int) = {twice, square};

static int choose(int which) {
    switch (which) {
    case 0:
        return 'a';
    case 1:
        return 'b';
    case 5:
    case 6:
        return 'c';
    default:
        return '?';
    }
}

int main(void) {
    int n = 3;
    for (int i = 0; i < 8; i++) {
        n = table[i & 1](n) % 1000;
        putchar(choose(i));
    }
    putchar('\n');
    exit(n & 63);
}

/* Two letters and a line feed. */
int putchar(int c);

int main(void) {
    putchar('H');
    putchar('i');
    putchar('\n');
    return 0;
}

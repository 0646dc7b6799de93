/* The input in upper case, with its lines counted. */
int putchar(int c);
int getchar(void);
int main(void) {
    int lines = 0;
    for (int c = getchar(); c != -1; c = getchar()) {
        if (c == '\n') lines++;
        putchar(c >= 'a' && c <= 'z' ? c - 'a' + 'A' : c);
    }
    return lines;
}

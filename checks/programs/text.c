/* Constant texts, compared and measured. */
int putchar(int c);
static const char *const words[] = {"stone", "river", "cloud", "ash", "river"};
static int length(const char *s) { int n = 0; while (*s++) n++; return n; }
static int order(const char *a, const char *b) {
    while (*a && *a == *b) { a++; b++; }
    return (unsigned char)*a - (unsigned char)*b;
}
int main(void) {
    int best = 0, total = 0;
    for (int i = 0; i < 5; i++) { total += length(words[i]); if (order(words[i], words[best]) < 0) best = i; }
    for (const char *c = words[best]; *c; c++) putchar(*c);
    return total + (order(words[1], words[4]) == 0) * 100;
}

/* Loops in loops, left by break and goto. */
int putchar(int c);
int main(void) {
    int found = 0;
    for (int a = 1; a < 30; a++) {
        for (int b = a; b < 30; b++) {
            for (int c = b;; c++) {
                if (c * c > a * a + b * b) break;
                if (c * c == a * a + b * b) {
                    found++;
                    putchar('a' + a % 26);
                    if (found == 10) goto enough;
                }
            }
        }
    }
enough:
    return found;
}

/* Deep recursion with two parameters. */
static int ackermann(int m, int n) {
    if (m == 0) return n + 1;
    if (n == 0) return ackermann(m - 1, 1);
    return ackermann(m - 1, ackermann(m, n - 1));
}
int main(void) { return ackermann(2, 5) + ackermann(1, 100); }

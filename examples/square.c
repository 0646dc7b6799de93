int square(int n) { return n * n; }
int main(void) { return square(40 + 2) - 1; }

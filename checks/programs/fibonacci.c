/* A recursion with two calls each. */
static unsigned fibonacci(unsigned n) { return n < 2 ? n : fibonacci(n - 1) + fibonacci(n - 2); }
int main(void) { return (int)(fibonacci(16) % 256); }

/* A number as its bytes, and back. */
int putchar(int c);
union both { unsigned whole; unsigned char parts[4]; };
int main(void) {
    union both b;
    b.whole = 0x64636261u;
    for (int i = 0; i < 4; i++) putchar(b.parts[i]);
    b.parts[3] = 1;
    return (int)(b.whole >> 24) + b.parts[0];
}

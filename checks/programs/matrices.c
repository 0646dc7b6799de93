/* Arrays of arrays, multiplied. */
int putchar(int c);
static long long a[4][4], b[4][4], c[4][4];
int main(void) {
    for (int i = 0; i < 4; i++) for (int j = 0; j < 4; j++) { a[i][j] = i * 3 - j + 1; b[i][j] = (i ^ j) + 1; }
    for (int round = 0; round < 3; round++) {
        for (int i = 0; i < 4; i++) for (int j = 0; j < 4; j++) {
            c[i][j] = 0;
            for (int k = 0; k < 4; k++) c[i][j] += a[i][k] * b[k][j];
        }
        for (int i = 0; i < 4; i++) for (int j = 0; j < 4; j++) a[i][j] = c[i][j];
    }
    int sum = 0;
    for (int i = 0; i < 4; i++) for (int j = 0; j < 4; j++) { putchar('a' + (int)(c[i][j] & 15)); sum ^= (int)c[i][j]; }
    return sum & 255;
}

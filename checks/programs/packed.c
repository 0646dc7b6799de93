/* Structs without gaps. */
int putchar(int c);
struct __attribute__((packed)) tight { char a; int b; short c; long long d; };
struct loose { char a; int b; short c; long long d; };
static struct tight tights[3] = {{1, 2, 3, 4}, {5, 6, 7, 8}, {9, 10, 11, 12}};
static struct loose looses[3];
int main(void) {
    for (int i = 0; i < 3; i++) {
        looses[i].a = tights[i].a; looses[i].b = tights[i].b;
        looses[i].c = tights[i].c; looses[i].d = tights[i].d;
    }
    long long sum = 0;
    for (int i = 0; i < 3; i++) sum += looses[i].a * 1000 + looses[i].b * 100 + looses[i].c * 10 + looses[i].d;
    const unsigned char *raw = (const unsigned char *)tights;
    for (int i = 0; i < 45; i++) putchar('A' + raw[i]);
    return (int)(sum % 256);
}

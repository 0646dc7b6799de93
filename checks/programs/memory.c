/* Copies of structs and arrays, whole. */
int putchar(int c);
struct part { char name[6]; short number; long long wide; };
struct whole { struct part parts[3]; char end; };
static struct whole given = {{{"first", 1, -1}, {"next", 2, 1ll << 40}, {"last", 3, 7}}, 'e'};
static int shown(const struct whole *w) {
    int sum = 0;
    for (int i = 0; i < 3; i++) {
        for (const char *c = w->parts[i].name; *c; c++) putchar(*c);
        sum += w->parts[i].number + (int)(w->parts[i].wide >> 38);
    }
    return sum;
}
int main(void) {
    struct whole mine = given;
    mine.parts[1] = mine.parts[2];
    struct whole zeros = {0};
    return shown(&mine) * 8 + shown(&given) + zeros.end + given.end;
}

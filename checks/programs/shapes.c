/* Structs in an array, padding between fields, and a pointer that walks them. */
int putchar(int c);

struct point {
    char name;
    short weight;
    long long place[2];
};

static struct point points[3] = {{'a', 3, {1, 2}}, {'b', -4, {5, 6}}, {'c', 7, {-8, 9}}};

static long long sum(const struct point *p, int count) {
    long long total = 0;
    for (const struct point *end = p + count; p < end; p++) {
        total += p->place[0] * p->weight + p->place[1];
        putchar(p->name);
    }
    return total;
}

int main(void) {
    points[1].weight = 4;
    return (int)(sum(points, 3) & 127);
}

/* A list of nodes linked by pointers, turned round in place. */
int putchar(int c);
struct node { int value; struct node *next; };
static struct node nodes[10];
static struct node *turned(struct node *first) {
    struct node *done = 0;
    while (first) {
        struct node *next = first->next;
        first->next = done;
        done = first;
        first = next;
    }
    return done;
}
int main(void) {
    struct node *first = 0;
    for (int i = 0; i < 10; i++) {
        nodes[i].value = i;
        nodes[i].next = first;
        first = &nodes[i];
    }
    for (struct node *n = turned(first); n; n = n->next) putchar('0' + n->value);
    return 3;
}

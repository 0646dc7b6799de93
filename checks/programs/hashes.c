/* A table that is probed, over multiplied hashes. */
int putchar(int c);
static unsigned keys[64], counts[64];
static unsigned place(unsigned key) {
    unsigned at = key * 2654435761u >> 26;
    while (counts[at] && keys[at] != key) at = (at + 1) & 63;
    return at;
}
int main(void) {
    unsigned seed = 12345, distinct = 0;
    for (int i = 0; i < 400; i++) {
        seed = seed * 1103515245u + 12345u;
        unsigned key = seed >> 16 & 31, at = place(key);
        distinct += counts[at] == 0;
        keys[at] = key;
        counts[at]++;
    }
    for (int i = 0; i < 32; i++) putchar('0' + (int)(counts[place((unsigned)i)] & 7));
    return (int)distinct;
}

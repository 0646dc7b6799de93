/* Long loops over wide numbers. */
int main(void) {
    int most = 0;
    for (unsigned long long start = 1; start < 300; start++) {
        int steps = 0;
        for (unsigned long long n = start; n != 1; steps++) n = n % 2 ? 3 * n + 1 : n / 2;
        if (steps > most) most = steps;
    }
    return most;
}

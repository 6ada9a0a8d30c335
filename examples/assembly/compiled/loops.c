int collatz(unsigned n) {
    int steps = 0;
    while (n != 1) {
        n = n & 1 ? 3 * n + 1 : n / 2;
        steps++;
    }
    return steps;
}

int nested(int n) {
    int total = 0;
    for (int i = 0; i < n; i++) {
        if (i % 3 == 0)
            continue;
        for (int j = i; j > 0; j /= 2) {
            if (j == 5)
                goto next;
            total += i ^ j;
        }
    next:
        do
            total--;
        while (total > 10000);
    }
    return total;
}

int main(void) { return collatz(27) + nested(50); }

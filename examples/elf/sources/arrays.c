/* Data, zeros, constants, and functions of each binding. */
extern char __bss_start[], _end[];

static const unsigned squares[] = {0, 1, 4, 9, 16, 25, 36, 49};
unsigned seeds[5] = {3, 1, 4, 1, 5};
unsigned totals[300];
static unsigned calls;

static unsigned square(unsigned n) { return n < 8 ? squares[n] : n * n; }

__attribute__((weak)) unsigned weight(unsigned n) { return n + 1; }

__attribute__((visibility("hidden"), noinline)) unsigned sum(const unsigned *from, unsigned count) {
    unsigned all = 0;
    for (unsigned i = 0; i < count; i++) {
        all += from[i] * weight(i);
        calls++;
    }
    return all;
}

int main(void) {
    for (unsigned i = 0; i < 300; i++) {
        totals[i] = square(i % 11) + seeds[i % 5];
    }
    return (int)(sum(totals, 300) + calls + (unsigned)(_end - __bss_start)) & 0xff;
}

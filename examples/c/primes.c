/* Counts the primes below 1,000 by a sieve. The status is their number, or -1 where one of some
   known primes isn't among them. */
#define END 1000

static const unsigned known[] = {2, 3, 499, 997};
static unsigned char is_composite[END];
static unsigned greatest = 1;

__attribute__((noinline)) static unsigned count_primes(unsigned end) {
    unsigned count = 0;
    for (unsigned n = 2; n < end; n++) {
        if (is_composite[n]) continue;
        count++;
        greatest = n;
        for (unsigned m = n * n; m < end; m += n) is_composite[m] = 1;
    }
    return count;
}

int main(void) {
    unsigned count = count_primes(END);
    for (unsigned i = 0; i < sizeof known / sizeof known[0]; i++) {
        if (known[i] > greatest || is_composite[known[i]]) return -1;
    }
    return (int)count;
}

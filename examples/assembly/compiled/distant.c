/* A function of more than 20 KB, whose branches go further than a branch reaches. */
volatile unsigned port;

#define ONE(n) port = a * n; a ^= port >> 3; if (a < b + n) b -= port; else c += a;
#define TEN(n) ONE(n) ONE(n + 1) ONE(n + 2) ONE(n + 3) ONE(n + 4) ONE(n + 5) ONE(n + 6) ONE(n + 7)
#define ALL(n) TEN(n) TEN(n + 11) if (c == n) goto first; TEN(n + 20) if (b > c) goto last; TEN(n + 37)
#define FAR(n) if ((int)a < n) { ALL(n) ALL(n + 100) ALL(n + 200) } while (b-- != c) { ALL(n) }

unsigned work(unsigned a, unsigned b)
{
    unsigned c = 1;
first:
    FAR(1)
    if (a >= b) {
        FAR(1001)
    }
    FAR(2003)
last:
    return a + b + c;
}

int main(void) { return (int)work(3, 4); }

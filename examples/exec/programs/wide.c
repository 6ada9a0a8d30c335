// Numbers of 64 bits and of floating point, which this machine has no instructions for.
#include <inttypes.h>
#include <math.h>
#include <stdio.h>

static uint64_t power(uint64_t base, uint64_t exponent, uint64_t modulus)
{
    uint64_t result = 1;
    for (; exponent > 0; exponent /= 2) {
        if (exponent % 2 == 1) {
            result = result * base % modulus;
        }
        base = base * base % modulus;
    }
    return result;
}

int main(void)
{
    printf("%" PRIu64 "\n", power(3, 1000003, 4294967291u));
    printf("%" PRId64 " %" PRId64 "\n", INT64_C(-7) / 2, INT64_C(-9223372036854775807) % 1000);
    printf("%" PRIx64 " %" PRIx64 "\n", UINT64_C(0x123456789abcdef0) >> 13, UINT64_C(1) << 40);
    printf("%.10f %.10f %.6e\n", sqrt(2.0), pow(2.5, 3.5), exp(-20.0));
    double sum = 0;
    for (int i = 1; i <= 1000; i++) {
        sum += 1.0 / i;
    }
    printf("%.12f %g %g\n", sum, 1e300 * 1e10, floor(-2.5));
    float third = 1.0f / 3;
    printf("%.9f %d %u\n", third, (int)-3.99, (unsigned)3e9);
    return 0;
}

// Prints and reads floating-point numbers and numbers of 64 bits.
#include <limits.h>
#include <stdio.h>

int main(void)
{
    double real = 0;
    long long whole = 0;
    printf("%f %.3f %e %g %10.2f|\n", 1.5, 2.0 / 3, 6.02214076e23, 0.1, -1234.567);
    printf("%lld %llu %llx\n", LLONG_MIN, ULLONG_MAX, 0x123456789abcdefLL);
    int count = sscanf("2.718281828 -9000000000", "%lf %lld", &real, &whole);
    printf("%d %.9f %lld\n", count, real, whole);
    return 0;
}

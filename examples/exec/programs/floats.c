// Floating-point numbers in each form of printf, and back by strtod.
#include <float.h>
#include <math.h>
#include <stdio.h>
#include <stdlib.h>

static double roots[2];

static int solve(double a, double b, double c)
{
    double under = b * b - 4 * a * c;
    if (under < 0) {
        return 0;
    }
    roots[0] = (-b - sqrt(under)) / (2 * a);
    roots[1] = (-b + sqrt(under)) / (2 * a);
    return under == 0 ? 1 : 2;
}

int main(void)
{
    static const double values[] = {0.0, -0.0, 1.0, -1.5, 0.1, 123456.789, 1e-7, 6.02214076e23, DBL_MAX};
    for (size_t i = 0; i < sizeof values / sizeof *values; i++) {
        printf("%f|%10.3f|%-12.2e|%+g|%08.2f\n", values[i] > 1e20 ? 0.0 : values[i],
               fmod(values[i], 1000), values[i], values[i], fmod(values[i], 100));
    }
    for (int b = 3; b > 0; b--) {
        int count = solve(1, -b, 1.25 * b - 1.25);
        printf("%d: %.3f %.3f\n", count, roots[0], roots[1]);
    }
    printf("%f %f %F\n", INFINITY, -INFINITY, NAN);
    char *end;
    double read = strtod("  -12.75e2rest", &end);
    printf("%.2f %s %.1f\n", read, end, atof("3.5"));
    printf("%.15g %.15g\n", sin(1.0), atan2(1.0, -1.0));
    printf("%.6f %.6f %.6f\n", exp(1.0), log(10.0), cbrt(27.0));
    printf("%.1f %.1f %.1f %.1f\n", floor(-0.5), ceil(0.2), round(2.5), trunc(-2.9));
    int power;
    double part = frexp(40.0, &power);
    printf("%g %d %g\n", part, power, ldexp(0.75, 4));
    float sum = 0;
    for (int i = 0; i < 100; i++) {
        sum += 0.1f;
    }
    printf("%.4f %d\n", (double)sum, sum == 10.0f);
    return 0;
}

#include <stdarg.h>
static int total(int n, ...) {
    va_list list;
    int sum = 0;
    va_start(list, n);
    while (n-- > 0)
        sum += va_arg(list, int);
    va_end(list);
    return sum;
}

int main(void) {
    return total(10, 1, 2, 3, 4, 5, 6, 7, 8, 9, 10) + total(0) + total(2, -5, 70000);
}

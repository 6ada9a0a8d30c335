// Returns from main with a buffer that one more byte would fill.
#include <stdio.h>

int main(void)
{
    for (int i = 1; i < 3 * BUFSIZ; i++) {
        putchar('0' + i % 10);
    }
    return 0;
}

// Writes to a constant, which is read-only.
#include <stdio.h>

static const char text[] = "a constant";

int main(void)
{
    volatile char *at = (volatile char *)text;
    printf("%s\n", text);
    at[0] = 'A';
    printf("%s\n", text);
    return 0;
}

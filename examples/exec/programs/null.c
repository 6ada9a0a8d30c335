// Copies a string to no address, where nothing is mapped.
#include <stdio.h>

static char *volatile nowhere;

__attribute__((noipa)) static void copy(char *to, const char *from)
{
    while ((*to++ = *from++) != '\0') {
    }
}

int main(void)
{
    puts("before the copy");
    copy(nowhere, "nothing is mapped at address 0");
    puts("after it");
    return 0;
}

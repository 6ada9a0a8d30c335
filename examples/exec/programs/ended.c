// Ends by exit in a function, with functions that are called at the end.
#include <stdio.h>
#include <stdlib.h>

static void first(void) { puts("registered first, called last"); }
static void second(void) { puts("registered second, called first"); }

int main(void)
{
    atexit(first);
    atexit(second);
    fprintf(stderr, "an error\n");
    printf("without a newline, ");
    exit(300);
}

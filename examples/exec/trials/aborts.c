// Asks for a byte in a line that it does not end, and aborts.
#include <stdio.h>
#include <stdlib.h>

int main(void)
{
    printf("about to ask\nwhich byte? ");
    int byte = getchar();
    fprintf(stderr, "got %d\n", byte);
    abort();
}

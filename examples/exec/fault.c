// Prints a line, and stores to an address behind the memory.
#include <stdio.h>

int main(void)
{
    printf("going to store\n");
    *(volatile int *)0x40000000 = 1;
    printf("stored\n");
    return 0;
}

// Prints a line, and ends with status 3.
#include <stdio.h>

int main(void)
{
    printf("Hello, %s! %d %#x\n", "RISC-V", -42, 0xbeef);
    return 3;
}

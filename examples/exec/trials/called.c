// Makes the calls with the numbers from the first argument to the second.
#include <stdlib.h>

int main(int count, char **arguments)
{
    if (count != 3) {
        return 1;
    }
    for (long number = atol(arguments[1]); number <= atol(arguments[2]); number++) {
        register long a0 __asm__("a0") = 0;
        register long a7 __asm__("a7") = number;
        __asm__ volatile("ecall" : "+r"(a0) : "r"(a7) : "memory");
    }
    return 0;
}

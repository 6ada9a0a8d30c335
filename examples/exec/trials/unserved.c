// Makes calls that there are not, the first of them twice, and one that there is between them.
#include <stdio.h>

#define GETPID 172

static long call(long number)
{
    register long a0 __asm__("a0") = 0;
    register long a7 __asm__("a7") = number;
    __asm__ volatile("ecall" : "+r"(a0) : "r"(a7) : "memory");
    return a0;
}

int main(void)
{
    static const long numbers[] = {1000, GETPID, 2000, 1000};
    for (int index = 0; index < 4; index++) {
        if (numbers[index] == GETPID) {
            printf("%d\n", call(GETPID) > 0);
        } else {
            printf("%ld: %ld\n", numbers[index], call(numbers[index]));
        }
    }
    return 5;
}

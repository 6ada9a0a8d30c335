// Calls itself without an end, until there is no stack.
#include <stdio.h>

static volatile int depth;

static int deeper(int n)
{
    volatile char room[1000];
    room[0] = n;
    depth++;
    return deeper(n + 1) + room[0];
}

int main(void)
{
    puts("down");
    return deeper(0);
}

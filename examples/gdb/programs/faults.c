#include "start.h"

volatile int which;
int *nowhere;

static void store(int *place) {
    *place = 1;
}

static void illegal(void) {
    __asm__ volatile(".word 0");
}

int main(int count, char **words) {
    print("before\n");
    if (which == 1)
        store(nowhere);
    if (which == 2)
        ((void (*)(void))((char *)illegal + 2))();
    if (which == 3)
        illegal();
    if (which == 4)
        __asm__ volatile("ebreak");
    return 0;
}

#include "start.h"

char bytes[12];
unsigned count;

static void put(void *place, unsigned value) {
    *(unsigned *)place = value;
}

static unsigned get(const void *place) {
    return *(const unsigned *)place;
}

static void add(unsigned *place, unsigned more) {
    __asm__ volatile("amoadd.w zero, %1, %0" : "+A"(*place) : "r"(more) : "memory");
}

static void next(unsigned *place) {
    unsigned value, failed;
    __asm__ volatile("1: lr.w %0, %2\n addi %0, %0, 1\n sc.w %1, %0, %2\n bnez %1, 1b"
                     : "=&r"(value), "=&r"(failed), "+A"(*place)
                     :
                     : "memory");
}

int main(int count_of_words, char **words) {
    put(bytes + 1, 0x11223344);
    add(&count, 5);
    put(bytes + 6, get(bytes + 1) + 1);
    next(&count);
    print("done\n");
    put((void *)-2, 1);
    return 0;
}

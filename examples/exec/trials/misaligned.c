// Loads and stores of each size at addresses that are no multiples of it. With one argument, load or
// store, such a one whose last byte is not mapped ends the program.
#include <stdint.h>
#include <stdio.h>
#include <string.h>

// What a load puts into a register.
#define LOADED(instruction, at)                                                                 \
    ({                                                                                          \
        unsigned value;                                                                         \
        __asm__ volatile(instruction " %0, 0(%1)" : "=r"(value) : "r"(at) : "memory");          \
        value;                                                                                  \
    })

// What a store of a register does.
#define STORE(instruction, at, value)                                                           \
    __asm__ volatile(instruction " %0, 0(%1)" : : "r"(value), "r"(at) : "memory")

static uint8_t bytes[4096 * 2] __attribute__((aligned(4096)));

static void show(const char *name, const uint8_t *at)
{
    printf("%s", name);
    for (int i = -1; i < 6; i++)
        printf(" %02x", at[i]);
    printf("\n");
}

// At each place of a word, and where two pages meet.
static void each_place(uint8_t *start)
{
    for (int place = 0; place < 4; place++) {
        uint8_t *at = start + place;
        for (int i = -1; i < 8; i++)
            at[i] = 0x79 + 3 * i;
        printf("%d lh %08x", place, LOADED("lh", at));
        printf(" lhu %08x", LOADED("lhu", at));
        printf(" lw %08x", LOADED("lw", at));
        printf(" lh %08x", LOADED("lh", at + 2));
        // a load to x0 is one too
        __asm__ volatile("lw x0, 0(%0)" : : "r"(at) : "memory");
        printf(" %d\n", place);
        STORE("sh", at, 0xa1b2c3d4);
        show("sh", at);
        STORE("sw", at, 0xe5f60718);
        show("sw", at);
        // into the register that has the address
        uintptr_t both = (uintptr_t)at;
        __asm__ volatile("lw %0, 0(%0)" : "+r"(both) : : "memory");
        printf("%08lx\n", (unsigned long)both);
    }
}

int main(int count, char **words)
{
    each_place(bytes + 4);
    each_place(bytes + 4096 - 2);
    if (count != 2)
        return 0;
    // the last three bytes of the page where the arguments are, behind which none is mapped
    uint8_t *last = (uint8_t *)((uintptr_t)words[1] | 4095) - 2;
    printf("%02x\n", last[2]);
    fflush(stdout);
    if (strcmp(words[1], "load") == 0)
        return LOADED("lw", last) != 0;
    STORE("sw", last, 0x01020304);
    return 1;
}

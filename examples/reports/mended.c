// Loads and stores of each size at each place of a word, and the instructions of extension A. The
// registers are the same wherever it runs.
#include <stdint.h>

static uint8_t bytes[16] __attribute__((aligned(16)));
static unsigned word;

// What a load puts into a register.
#define LOADED(instruction, at)                                                                 \
    ({                                                                                          \
        unsigned value;                                                                         \
        __asm__ volatile(instruction " %0, 0(%1)" : "=r"(value) : "r"(at) : "memory");          \
        value;                                                                                  \
    })

// What a store of a register does.
#define STORE(instruction, at, value)                                                           \
    __asm__ volatile(instruction " %0, 0(%1)" : : "r"(value), "r"(at) : "memory")

// What an instruction of extension A with an operand puts into a register.
#define SWAPPED(instruction, value)                                                             \
    ({                                                                                          \
        unsigned old;                                                                           \
        __asm__ volatile(instruction " %0, %2, (%1)"                                            \
                         : "=&r"(old)                                                           \
                         : "r"(&word), "r"(value)                                               \
                         : "memory");                                                           \
        old;                                                                                    \
    })

static unsigned each_place(void)
{
    unsigned sum = 0;
    for (int place = 0; place < 8; place++) {
        uint8_t *at = bytes + place;
        for (int i = 0; i < 8; i++)
            at[i] = 0xc9 + 7 * i + place;
        sum += LOADED("lb", at) + LOADED("lbu", at) + LOADED("lh", at) + LOADED("lhu", at);
        sum ^= LOADED("lw", at);
        STORE("sw", at, sum);
        STORE("sh", at + 1, sum + 1);
        STORE("sb", at + 2, sum + 2);
        uintptr_t both = (uintptr_t)at;
        __asm__ volatile("lw %0, 0(%0)" : "+r"(both) : : "memory");
        sum += both;
        // a load to x0 is one too
        __asm__ volatile("lh x0, 1(%0)" : : "r"(at) : "memory");
    }
    return sum;
}

static unsigned each_swap(unsigned value)
{
    unsigned sum = SWAPPED("amoswap.w", value);
    sum += SWAPPED("amoadd.w.aq", 0x7fffffff) + SWAPPED("amoxor.w.rl", 0x5a5a5a5a);
    sum += SWAPPED("amoand.w.aqrl", 0xfff0ff0f) + SWAPPED("amoor.w", 0x80001000);
    sum += SWAPPED("amomin.w", 5) + SWAPPED("amomax.w", -7);
    sum += SWAPPED("amominu.w", -3) + SWAPPED("amomaxu.w", 0xfffffff0);
    unsigned old;
    __asm__ volatile("lr.w %0, (%1)" : "=r"(old) : "r"(&word) : "memory");
    sum += old + SWAPPED("sc.w", old + 1);
    // there is no reservation
    sum += SWAPPED("sc.w", old + 2);
    // the register of the address, and that of the operand
    unsigned *both = &word;
    __asm__ volatile("amoadd.w %0, %0, (%0)" : "+r"(both) : : "memory");
    return sum + (uintptr_t)both;
}

int main(void)
{
    unsigned sum = each_place();
    for (int i = 0; i < 4; i++)
        sum ^= each_swap(0x40000001u * i);
    return sum & 0x7f;
}

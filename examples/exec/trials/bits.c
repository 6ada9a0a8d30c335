/* The instructions of Zba to Zbkb: of each a sum of what it answers for pairs of values, and of
 * what gcc makes of C by them. */
#include <stdint.h>
#include <stdio.h>

static const uint32_t values[] = {0, 1, 2, 31, 32, 0x7f, 0x80, 0xff, 0x8000, 0xffff, 0x10000,
    0x12345678, 0x00800100, 0x7fffffff, 0x80000000, 0x80000001, 0xfffffffe, 0xffffffff};
enum { COUNT = sizeof values / sizeof *values };

/* the sum of an expression of a and b over all pairs of values, under a name */
#define SUM(name, expression) do { \
    uint32_t sum = 0; \
    for (int i = 0; i < COUNT; i++) \
        for (int j = 0; j < COUNT; j++) { \
            uint32_t a = values[i], b = values[j]; \
            sum = sum * 31 + (expression); \
        } \
    printf("%-6s %08x\n", name, (unsigned)sum); \
} while (0)
#define OF_TWO(name) SUM(name, ({ \
    uint32_t x; __asm__ volatile(name " %0, %1, %2" : "=r"(x) : "r"(a), "r"(b)); x; }))
#define OF_ONE(name) SUM(name, ({ \
    uint32_t x; __asm__ volatile(name " %0, %1" : "=r"(x) : "r"(a)); x + b; }))
#define BY(name, amount) ({ \
    uint32_t x; __asm__ volatile(name " %0, %1, " amount : "=r"(x) : "r"(a)); x; })
#define BY_AMOUNT(name) \
    SUM(name, (BY(name, "0") * 3 + BY(name, "1")) * 3 + (BY(name, "13") * 3 + BY(name, "31")) * 5 + b)

int main(void) {
    OF_TWO("sh1add"); OF_TWO("sh2add"); OF_TWO("sh3add");
    OF_TWO("andn"); OF_TWO("orn"); OF_TWO("xnor");
    OF_ONE("clz"); OF_ONE("ctz"); OF_ONE("cpop");
    OF_TWO("max"); OF_TWO("maxu"); OF_TWO("min"); OF_TWO("minu");
    OF_ONE("sext.b"); OF_ONE("sext.h"); OF_ONE("zext.h");
    OF_TWO("rol"); OF_TWO("ror"); BY_AMOUNT("rori");
    OF_ONE("orc.b"); OF_ONE("rev8");
    OF_TWO("bclr"); BY_AMOUNT("bclri"); OF_TWO("bext"); BY_AMOUNT("bexti");
    OF_TWO("binv"); BY_AMOUNT("binvi"); OF_TWO("bset"); BY_AMOUNT("bseti");
    OF_TWO("clmul"); OF_TWO("clmulh"); OF_TWO("clmulr");
    OF_TWO("pack"); OF_TWO("packh"); OF_ONE("brev8"); OF_ONE("zip"); OF_ONE("unzip");
    SUM("turn", a << (b & 31) | a >> (-b & 31));
    SUM("bits", __builtin_popcount(a) + (a ? __builtin_clz(a) * __builtin_ctz(a) : 99) + b);
    SUM("signed", (int32_t)(int8_t)a + (int32_t)(int16_t)b + (uint16_t)a);
    SUM("order", ((int32_t)a < (int32_t)b ? a : b) + (a < b ? b : a));
    SUM("one", (a | 1u << (b & 31)) ^ (a >> (b & 31) & 1) ^ (a & ~(1u << (b & 31))));
    SUM("place", values[a % COUNT] + ((const uint16_t *)values)[b % COUNT]);
    SUM("swap", __builtin_bswap32(a) + (a & ~b));
    return 0;
}

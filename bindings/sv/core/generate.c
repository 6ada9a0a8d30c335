/* A random program of RV32IM for the core, at 0x80000000: a loop of 1,900 instructions and more, with
 * a handler at the start that skips what trapped. x31 has the address of data, x30 counts the
 * rounds, and x29 is the handler's.
 *
 * usage: generate SEED > IMAGE */
#include <stdio.h>
#include <stdlib.h>

#include "encode.h"

#define BASE 0x80000000u
#define DATA 0x80008000u
#define DEVICE 0x10000000u
#define ROUNDS 40
#define HANDLER 1 /* its first word */
#define START 16  /* the word behind it */

enum { COUNTER = 30, DATA_AT = 31, TEMPORARY = 29 };
enum { MSTATUS = 0x300, MIE = 0x304, MTVEC, MSCRATCH = 0x340, MEPC, MCAUSE, MTVAL };

static uint32_t seed, words[4096];
static unsigned count;
static unsigned furthest; /* the last word that a jump or a branch goes to, up to now */

/* Numbers that look random (xorshift). */
static uint32_t below(uint32_t bound) {
    seed ^= seed << 13;
    seed ^= seed >> 17;
    seed ^= seed << 5;
    return (seed >> 3) % bound;
}

/* A value, in half of the cases an edge. */
static uint32_t value(void) {
    static const uint32_t edges[] = {0,          1,          2,          0x7fffffff,
                                     0x80000000, 0xffffffff, 0xffff8000, 31};
    return below(2) ? edges[below(8)] : below(1u << 29) * 8 + below(8);
}

/* A register to write. */
static unsigned any_rd(void) {
    return below(28);
}

static void put(uint32_t word) {
    words[count++] = word;
}

static void load_value(unsigned rd, uint32_t number) {
    put(u_type(0x37, rd, number + 0x800));
    put(addi(rd, rd, (int32_t)(number << 20) >> 20));
}

static uint32_t csr(uint32_t funct3, unsigned rd, unsigned rs1, uint32_t number) {
    return number << 20 | rs1 << 15 | funct3 << 12 | rd << 7 | 0x73;
}

/* An offset of data, which is misaligned in one of 12 cases. */
static int32_t offset(uint32_t size_bits) {
    uint32_t at = below(512);
    return (int32_t)(below(12) ? at & ~((1u << size_bits) - 1) : at);
}

static void put_system(unsigned rs1) {
    static const uint32_t numbers[] = {MSCRATCH, MEPC, MCAUSE, MTVAL, MSCRATCH};
    switch (below(8)) {
    case 0: put(0x00000073); break;                                    /* ecall */
    case 1: put(0x00100073); break;                                    /* ebreak */
    case 2: put(value() & ~3u); break;                                 /* no word of 32 bits */
    case 3: put(0x0ff0000f); break;                                    /* fence */
    case 4: put(csr(2, any_rd(), 0, below(2) ? 0xb00 : 0xb02)); break; /* a counter */
    default: put(csr(1 + below(3) + (below(2) ? 4 : 0), any_rd(), rs1, numbers[below(5)])); break;
    }
}

/* How many bytes a jump or a branch goes forward. */
static int32_t forward(void) {
    unsigned by = 2 + below(4);
    if (furthest < count + by) furthest = count + by;
    return 4 * (int32_t)by;
}

/* A jump forward: jal, or auipc and jalr, whose target may have bit 0 set. Nothing jumps between
 * these two, so that no program goes back. */
static void put_jump(void) {
    unsigned link = 1 + below(27);
    if (below(3) || furthest > count) {
        put(jal(any_rd(), forward()));
    } else {
        put(u_type(0x17, link, 0));
        put(jalr(any_rd(), link, 8 + (int32_t)below(2)));
    }
}

/* Two values, and a multiplication or division of both. */
static void put_edges(uint32_t funct3) {
    unsigned a = 1 + below(27), b = 1 + below(27);
    load_value(a, value());
    load_value(b, value());
    put(r_type(1, funct3, any_rd(), a, b));
}

/* Each multiplication and division of each two of these edges. */
static void put_all_edges(void) {
    static const uint32_t edges[] = {0, 1, 0x80000000, 0xffffffff};
    uint32_t pair, funct3;
    for (pair = 0; pair < 16; pair++) {
        load_value(1, edges[pair / 4]);
        load_value(2, edges[pair % 4]);
        for (funct3 = 0; funct3 < 8; funct3++) put(r_type(1, funct3, 3, 1, 2));
    }
}

static void put_any(void) {
    static const uint32_t loads[] = {0, 1, 2, 4, 5}, branches[] = {0, 1, 4, 5, 6, 7};
    uint32_t funct3 = below(8), size = loads[below(5)];
    unsigned a = below(29), b = below(29);
    int32_t imm = (int32_t)below(4096) - 2048;
    switch (below(17)) {
    case 0:
    case 1:
    case 2: put(r_type(1, funct3, any_rd(), a, b)); break;
    case 3:
    case 4:
        put(r_type((funct3 == 0 || funct3 == 5) && imm < 0 ? 0x20 : 0, funct3, any_rd(), a, b));
        break;
    case 5:
    case 6:
        if (funct3 == 1) imm &= 31;
        if (funct3 == 5) imm &= imm < 0 ? 0x41f : 0x1f;
        put(i_type(0x13, funct3, any_rd(), a, imm));
        break;
    case 7: put(u_type(funct3 < 4 ? 0x37 : 0x17, any_rd(), value())); break;
    case 8:
    case 9: put(load(size, any_rd(), DATA_AT, offset(size & 3))); break;
    case 10:
    case 11: put(s_type(size & 3, DATA_AT, b, offset(size & 3))); break;
    case 12:
    case 13: /* in one of 20 cases to an address that is no multiple of 4 */
        put(b_type(branches[below(6)], a, b, forward() + (below(20) ? 0 : 2)));
        break;
    case 14: put_jump(); break;
    case 15: put_system(a); break;
    default: put_edges(funct3); break;
    }
}

/* An interrupt returns, an exception goes on behind its instruction, and a fetch fault at the end of
 * the loop, whose address is put in at the words that it returns. */
static unsigned put_handler(void) {
    unsigned patch;
    put(csr(1, TEMPORARY, TEMPORARY, MSCRATCH));
    put(csr(2, TEMPORARY, 0, MCAUSE));
    put(b_type(4, TEMPORARY, 0, 4 * 6)); /* bltz: an interrupt */
    put(addi(TEMPORARY, TEMPORARY, -1));
    put(b_type(0, TEMPORARY, 0, 4 * 6)); /* beqz: a fetch fault */
    put(csr(2, TEMPORARY, 0, MEPC));
    put(addi(TEMPORARY, TEMPORARY, 4));
    put(csr(1, 0, TEMPORARY, MEPC));
    put(csr(1, TEMPORARY, TEMPORARY, MSCRATCH));
    put(0x30200073); /* mret */
    patch = count;
    count += 2;
    put(csr(1, 0, TEMPORARY, MEPC));
    put(jal(0, -4 * 5));
    return patch;
}

int main(int argc, char **argv) {
    unsigned i, patch, top, bottom;
    seed = (uint32_t)(argc > 1 ? atoi(argv[1]) : 1) * 2654435761u | 1;
    for (i = 0; i < 20; i++) below(2);
    put(jal(0, 4 * START));
    patch = put_handler();
    while (count < START) put(addi(0, 0, 0));
    load_value(TEMPORARY, BASE + 4 * HANDLER);
    put(csr(1, 0, TEMPORARY, MTVEC));
    load_value(TEMPORARY, 0x80);
    put(csr(1, 0, TEMPORARY, MIE));
    put(csr(6, 0, 8, MSTATUS));
    put_all_edges();
    for (i = 1; i < 28; i++) load_value(i, value());
    load_value(DATA_AT, DATA);
    load_value(COUNTER, ROUNDS);
    top = count;
    while (count < top + 1900) put_any();
    for (i = 0; i < 8; i++) put(addi(0, 0, 0));
    bottom = count;
    count = patch;
    load_value(TEMPORARY, BASE + 4 * bottom);
    count = bottom;
    put(addi(COUNTER, COUNTER, -1));
    put(b_type(0, COUNTER, 0, 8));
    put(jal(0, -4 * (int32_t)(count - top)));
    load_value(TEMPORARY, DEVICE); /* a few accesses of the device, and the end */
    for (i = 0; i < 8; i++) put(load(i & 1 ? 5 : 0, 1 + i, TEMPORARY, i & 1 ? 6 : (int32_t)i));
    put(s_type(0, TEMPORARY, 1, 0));
    put(s_type(2, TEMPORARY, 0, 12));
    put(jal(0, 0));
    fwrite(words, 4, count, stdout);
    return fflush(stdout) != 0;
}

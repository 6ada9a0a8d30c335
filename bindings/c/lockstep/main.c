/* Checks a design against the kit, step by step, on generated programs: once as it is, and once
 * with each fault that can be planted in it. Prints the first record that differs. */
#include <stdio.h>
#include <string.h>

#include "../encode.h"
#include "design.h"
#include "rrs.h"

#define BASE 0x80000000u
#define CODE 192 /* words of code, and data behind them */
#define WORDS 256
#define RANDOM_PROGRAMS 400
#define TARGETS 60
#define PROGRAMS (RANDOM_PROGRAMS + 1 + TARGETS) /* and one of divisions, and each target */
#define STEPS 1000

/* Numbers that look random, the same in each run (xorshift). */
static uint32_t seed;

static uint32_t random_below(uint32_t bound) {
    seed ^= seed << 13;
    seed ^= seed >> 17;
    seed ^= seed << 5;
    return seed % bound;
}

#define EDGES 8
static const uint32_t edges[EDGES] = {0,          1,          2,          0x7fffffff,
                                      0x80000000, 0xffffffff, 0xffff8000, 31};

/* A value with edges among them. */
static uint32_t random_value(void) {
    uint32_t which = random_below(16);
    return which < 8 ? edges[which] : random_below(0xffffffff);
}

/* A register to write: any but x1, which has the address of the data, and x2, which a jump uses. */
static unsigned random_rd(void) {
    unsigned rd = random_below(30);
    return rd == 0 ? 0 : rd + 2;
}

/* One generated instruction, but jalr. */
static uint32_t random_word(void) {
    static const uint32_t loads[] = {0, 1, 2, 4, 5}, branches[] = {0, 1, 4, 5, 6, 7};
    uint32_t funct3 = random_below(8);
    unsigned rs1 = random_below(32), rs2 = random_below(32);
    int32_t imm = (int32_t)random_below(4096) - 2048, offset = (int32_t)random_below(64) * 4;
    switch (random_below(10)) {
    case 0:
    case 1: return r_type(1, funct3, random_rd(), rs1, rs2);
    case 2:
        return r_type((funct3 == 0 || funct3 == 5) && imm < 0 ? 0x20 : 0, funct3, random_rd(), rs1,
                      rs2);
    case 3:
        if (funct3 == 1) imm &= 31;
        if (funct3 == 5) imm &= 0x41f & ~(imm < 0 ? 0 : 0x400);
        return i_type(0x13, funct3, random_rd(), rs1, imm);
    case 4: return u_type(funct3 < 4 ? 0x37 : 0x17, random_rd(), random_value());
    case 5: return load(loads[random_below(5)], random_rd(), 1, offset);
    case 6:
    case 7: return s_type(random_below(3), 1, rs2, offset);
    case 8: return b_type(branches[random_below(6)], rs1, rs2, 4 + 4 * (int32_t)random_below(3));
    default: return jal(random_rd(), 4 + 4 * (int32_t)random_below(3));
    }
}

/* A program, and data behind it. Now and then x2 gets the pc, and jalr goes on from there, to an
 * odd target whose bit 0 the specification clears. */
static void make_program(uint32_t *words) {
    unsigned i = 0;
    while (i + 5 < CODE) {
        if (random_below(12) == 0) {
            words[i++] = u_type(0x17, 2, 0);
            words[i++] = jalr(random_rd(), 2, 8 + (int32_t)random_below(2));
        } else {
            words[i++] = random_word();
        }
    }
    while (i < CODE) words[i++] = 0x00100073; /* ebreak */
    while (i < WORDS) words[i++] = random_value();
}

/* A program that divides each edge by each: x3 and those after it have the edges. */
static void make_divisions(uint32_t *words, uint32_t *x) {
    unsigned i, a, b;
    for (i = 0; i < EDGES; i++) x[3 + i] = edges[i];
    for (i = a = 0; a < EDGES; a++) {
        for (b = 0; b < EDGES; b++) {
            words[i++] = r_type(1, 4, 11, 3 + a, 3 + b); /* div x11 */
            words[i++] = r_type(1, 6, 12, 3 + a, 3 + b); /* rem x12 */
        }
    }
    words[i] = 0x00100073; /* ebreak */
}

/* A jump or a branch, by each bit of its offset, forward and back: of the first 40 each is a jump. */
static uint32_t target_word(unsigned number) {
    unsigned bit = number < 40 ? number / 2 : (number - 40) / 2;
    int32_t offset = (int32_t)1 << (bit % (number < 40 ? 19 : 10) + 2);
    if (number % 2 != 0) offset = -offset;
    return number < 40 ? jal(3, number < 38 ? offset : 4) : b_type(0, 0, 0, offset);
}

/* Prints the fields of two records that differ. */
static void print_difference(const rrs_retired *wanted, const rrs_retired *got) {
    static const char *const names[] = {
        "insn",      "fetched",   "trap",      "pc_rdata", "pc_wdata", "rs1_addr",
        "rs1_rdata", "rs2_addr",  "rs2_rdata", "rd_addr",  "rd_wdata", "mem_addr",
        "mem_rmask", "mem_wmask", "mem_rdata", "mem_wdata"};
    uint32_t a[16], b[16];
    int i;
    memcpy(a, &wanted->insn, sizeof a);
    memcpy(b, &got->insn, sizeof b);
    for (i = 0; i < 16; i++)
        if (a[i] != b[i])
            printf("    %s: 0x%08x, and the design has 0x%08x\n", names[i], a[i], b[i]);
}

/* Runs one program on both, until they differ or the kit faults. Returns whether they differ. */
static int differs(struct design *design, unsigned program, uint64_t *records) {
    static uint32_t words[WORDS], copy[WORDS];
    rrs_hart hart;
    rrs_retired wanted, got;
    rrs_fault fault;
    unsigned i, step;
    make_program(words);
    hart.x[0] = 0;
    for (i = 1; i < 32; i++) hart.x[i] = random_value();
    hart.x[1] = BASE + 4 * CODE;
    if (program == RANDOM_PROGRAMS) make_divisions(words, hart.x);
    if (program > RANDOM_PROGRAMS) words[0] = target_word(program - RANDOM_PROGRAMS - 1);
    memcpy(copy, words, sizeof words);
    hart.pc = BASE;
    hart.last = 0;
    memcpy(design->x, hart.x, sizeof hart.x);
    design->pc = BASE;
    design->base = BASE;
    design->size = sizeof copy;
    design->bytes = (uint8_t *)copy;
    for (step = 0; step < STEPS; step++) {
        fault = rrs_step_rvfi(&hart, words, WORDS, BASE, step, &wanted);
        design_step(design, step, &got);
        ++*records;
        if (memcmp(&wanted, &got, sizeof wanted) != 0) {
            char text[RRS_TEXT_SIZE];
            rrs_disassemble(wanted.insn, wanted.pc_rdata, text, sizeof text);
            printf("  program %u, step %u, at 0x%08x: %s\n", program, step, wanted.pc_rdata, text);
            printf("    x%u = 0x%08x, x%u = 0x%08x\n", wanted.rs1_addr, wanted.rs1_rdata,
                   wanted.rs2_addr, wanted.rs2_rdata);
            print_difference(&wanted, &got);
            return 1;
        }
        if (fault.kind != RRS_OK) break;
    }
    if (memcmp(words, copy, sizeof words) != 0) {
        printf("  program %u: memory differs at the end\n", program);
        return 1;
    }
    return 0;
}

static int check(const char *name, enum planted planted) {
    struct design design;
    uint64_t records = 0;
    unsigned program;
    seed = 0x2545f491;
    memset(&design, 0, sizeof design);
    design.planted = planted;
    printf("%s\n", name);
    for (program = 0; program < PROGRAMS; program++) {
        if (differs(&design, program, &records)) {
            printf("  found after %u records\n", (unsigned)records);
            return 1;
        }
    }
    printf("  %u programs, %u records, all equal\n", program, (unsigned)records);
    return 0;
}

int main(void) {
    int wrong = check("no fault", PLANTED_NONE);
    int found = check("sra and srai shift logically", PLANTED_LOGICAL_SHIFT) +
                check("mulhsu takes both as signed", PLANTED_MULHSU_SIGNED) +
                check("the mask of sh is off by a byte", PLANTED_STORE_MASK) +
                check("jalr leaves bit 0", PLANTED_JALR_ODD) +
                check("rem of the least number by -1 is that number", PLANTED_REM_LEAST) +
                check("a store to the last word is lost", PLANTED_LOST_STORE);
    printf("%d of 6 planted faults found\n", found);
    return wrong || found != 6;
}

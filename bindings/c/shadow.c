/* Rebuilds a machine from the records of its steps alone. After 5,000,000 steps it has the registers,
 * the pc and the memory of the machine that made them: a sum over these of each is printed. */
#include <stdio.h>
#include <string.h>

#include "encode.h"
#include "rrs.h"

#define BASE 0x80000000u
#define WORDS 1024
#ifndef STEPS
#define STEPS 5000000u
#endif

/* The registers of the program. */
enum { LINK = 1, NUMBER = 5, DATA = 6, PLACE = 7, SUM = 8, END = 9, A = 10, B, C, D, E, F, G };

/* A program without an end: it goes through 512 words of data again and again, and mixes them in a
 * function by multiplications, divisions, shifts, and accesses of each size. */
static void make_program(uint32_t *words) {
    unsigned i = 0;
    words[i++] = u_type(0x37, DATA, BASE + 4096);
    words[i++] = addi(DATA, DATA, -2048);
    words[i++] = addi(END, DATA, 2047);
    words[i++] = addi(PLACE, DATA, 0);        /* again: from the first word on */
    words[i++] = jal(LINK, 12);               /* next: mix */
    words[i++] = b_type(6, PLACE, END, -4);   /* bltu place, end, next */
    words[i++] = jal(0, -12);                 /* j again */
    words[i++] = load(2, A, PLACE, 0);        /* mix: lw a, (place) */
    words[i++] = u_type(0x37, B, 0x41c65000); /* number = number * 0x41c64e6d + 1023 */
    words[i++] = addi(B, B, -403);
    words[i++] = r_type(1, 0, NUMBER, NUMBER, B);
    words[i++] = addi(NUMBER, NUMBER, 1023);
    words[i++] = r_type(0, 0, A, A, NUMBER);  /* add a, a, number */
    words[i++] = s_type(2, PLACE, A, 0);      /* sw a, (place) */
    words[i++] = load(1, C, PLACE, 2);        /* lh c, 2(place) */
    words[i++] = r_type(1, 4, D, A, C);       /* div d, a, c */
    words[i++] = r_type(1, 7, E, A, C);       /* remu e, a, c */
    words[i++] = s_type(0, PLACE, D, 1);      /* sb d, 1(place) */
    words[i++] = s_type(1, PLACE, E, 2);      /* sh e, 2(place) */
    words[i++] = load(0, F, PLACE, 1);        /* lb f, 1(place) */
    words[i++] = r_type(0x20, 5, F, A, F);    /* sra f, a, f */
    words[i++] = r_type(0, 0, SUM, SUM, F);   /* add sum, sum, f */
    words[i++] = r_type(1, 2, G, SUM, A);     /* mulhsu g, sum, a */
    words[i++] = r_type(0, 4, SUM, SUM, G);   /* xor sum, sum, g */
    words[i++] = addi(PLACE, PLACE, 4);
    words[i++] = jalr(0, LINK, 0);            /* ret */
    while (i < WORDS) words[i++] = 0;
}

struct shadow {
    uint32_t x[32];
    uint32_t pc;
    uint8_t bytes[4 * WORDS];
};

/* Does what a record says. Returns whether the record agrees with the shadow before it. */
static int follow(struct shadow *shadow, const rrs_retired *record) {
    uint32_t place = record->mem_addr - BASE; /* where a mask is not 0 */
    uint32_t insn = 0;
    unsigned i;
    int agrees;
    memcpy(&insn, shadow->bytes + (shadow->pc - BASE), 4);
    agrees = record->pc_rdata == shadow->pc && record->insn == insn && !record->trap &&
             record->rs1_rdata == shadow->x[record->rs1_addr] &&
             record->rs2_rdata == shadow->x[record->rs2_addr];
    for (i = 0; i < 4; i++) {
        if (record->mem_rmask >> i & 1)
            agrees = agrees && shadow->bytes[place + i] == (uint8_t)(record->mem_rdata >> 8 * i);
        if (record->mem_wmask >> i & 1)
            shadow->bytes[place + i] = (uint8_t)(record->mem_wdata >> 8 * i);
    }
    if (record->rd_addr != 0) shadow->x[record->rd_addr] = record->rd_wdata;
    shadow->pc = record->pc_wdata;
    return agrees;
}

/* A sum over registers, pc and memory (FNV-1a). */
static uint32_t sum_over(const uint32_t *x, uint32_t pc, const void *memory) {
    const uint8_t *bytes = (const uint8_t *)memory;
    uint32_t sum = 2166136261u;
    unsigned i;
    for (i = 0; i < 32; i++) sum = (sum ^ x[i]) * 16777619u;
    sum = (sum ^ pc) * 16777619u;
    for (i = 0; i < 4 * WORDS; i++) sum = (sum ^ bytes[i]) * 16777619u;
    return sum;
}

int main(void) {
    static uint32_t words[WORDS];
    static struct shadow shadow;
    rrs_hart hart;
    rrs_retired record;
    uint32_t step, made, rebuilt, disagreements = 0;
    make_program(words);
    memset(&hart, 0, sizeof hart);
    hart.pc = BASE;
    memcpy(shadow.x, hart.x, sizeof hart.x);
    shadow.pc = hart.pc;
    memcpy(shadow.bytes, words, sizeof words);
    for (step = 0; step < STEPS; step++) {
        rrs_fault fault = rrs_step_rvfi(&hart, words, WORDS, BASE, step, &record);
        if (fault.kind != RRS_OK) {
            printf("fault kind %u at 0x%08x\n", fault.kind, fault.address);
            return 1;
        }
        if (!follow(&shadow, &record) || record.order != step) disagreements++;
    }
    made = sum_over(hart.x, hart.pc, words);
    rebuilt = sum_over(shadow.x, shadow.pc, shadow.bytes);
    printf("%u steps, %u disagreements, x8 = 0x%08x\n", step, disagreements, hart.x[SUM]);
    printf("the machine has the sum 0x%08x, and that of the records 0x%08x\n", made, rebuilt);
    return disagreements != 0 || made != rebuilt;
}

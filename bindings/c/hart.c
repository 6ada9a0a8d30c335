/* Steps and runs of a hart with a profile: atomic instructions, with the reservation kept from one
 * call to the next, misaligned loads and stores, instructions of 16 bits, and what a hart without
 * them makes of these; and an executable that has such instructions, for a hart and on a board.
 * Prints what comes of each. */
#include <stdio.h>
#include <string.h>

#include "rrs.h"

#define BASE 0x1000u
#define COUNT 16u
#define DATA (BASE + 0x30) /* the address of words[12] */

static rrs_hart hart;
static uint32_t words[COUNT];
static rrs_reservation reservation;
static rrs_retired retired;

/* Begins anew, with x1 the address of the data, x2 3, and up to four words of a program. */
static void begin(uint32_t first, uint32_t second, uint32_t third, uint32_t fourth) {
    memset(&hart, 0, sizeof hart);
    memset(words, 0, sizeof words);
    memset(&reservation, 0, sizeof reservation);
    hart.pc = BASE;
    hart.x[1] = DATA;
    hart.x[2] = 3;
    words[0] = first;
    words[1] = second;
    words[2] = third;
    words[3] = fourth;
}

static rrs_fault step(uint32_t profile) {
    return rrs_step_hart(&hart, words, COUNT, BASE, profile, &reservation);
}

static rrs_end run(uint32_t profile, uint64_t limit) {
    return rrs_run_hart(&hart, words, COUNT, BASE, profile, &reservation, limit);
}

static rrs_fault step_rvfi(uint32_t profile, uint64_t order) {
    return rrs_step_hart_rvfi(&hart, words, COUNT, BASE, profile, &reservation, order, &retired);
}

static void show_fault(const char *what, rrs_fault fault) {
    char name[RRS_NAME_SIZE] = "";
    rrs_fault_name(fault.kind, name, sizeof name);
    printf("%s: %s, 0x%08x, word 0x%08x, pc 0x%08x\n", what, fault.kind == RRS_OK ? "ok" : name,
           fault.address, fault.word, hart.pc);
}

static void show_record(const char *what) {
    printf("%s: insn 0x%08x, pc 0x%08x 0x%08x, x%u, x%u, x%u 0x%08x\n", what, retired.insn,
           retired.pc_rdata, retired.pc_wdata, retired.rs1_addr, retired.rs2_addr, retired.rd_addr,
           retired.rd_wdata);
    printf("  mem 0x%08x, read %u 0x%08x, written %u 0x%08x\n", retired.mem_addr,
           retired.mem_rmask, retired.mem_rdata, retired.mem_wmask, retired.mem_wdata);
}

static void atomics(void) {
    rrs_end end;
    rrs_retired core;
    /* amoadd.w x4, x2, (x1); addi x3, x3, -1; bne x3, x0, -8; ebreak */
    begin(0x0020a22f, 0xfff18193, 0xfe019ce3, 0x00100073);
    hart.x[3] = 10;
    end = run(RRS_HART_A, 100);
    printf("amoadd.w: %u steps, the word is %u, x4 %u\n", (unsigned)end.steps, words[12],
           hart.x[4]);
    show_fault("its end", end.fault);
    hart.pc = BASE;
    show_fault("a record", step_rvfi(RRS_HART_A, 7));
    show_record("amoadd.w");
    core = retired;
    printf("the same differs at %u", rrs_compare(&retired, &core, 1).field);
    core.mem_wdata ^= 1;
    printf(", and one that stores another word at %u\n", rrs_compare(&retired, &core, 1).field);
    hart.pc = BASE;
    show_fault("without extension A", step(RRS_HART_ZIFENCEI | RRS_HART_MISALIGNED | RRS_HART_C));
    end = run(RRS_HART_A, 0);
    printf("limit 0: %u steps, kind %u, pc 0x%08x\n", (unsigned)end.steps, end.fault.kind, hart.pc);
}

static void show_pair(const char *what, rrs_fault fault) {
    printf("%s: kind %u, x6 %u, the word is %u, reserved %u 0x%08x\n", what, fault.kind, hart.x[6],
           words[12], reservation.reserved, reservation.address);
}

static void reservations(void) {
    /* lr.w x5, (x1); sc.w x6, x2, (x1), twice */
    begin(0x1000a2af, 0x1820a32f, 0x1820a32f, 0);
    words[12] = 40;
    hart.x[6] = 9;
    show_pair("lr.w", step(RRS_HART_A));
    show_pair("sc.w", step(RRS_HART_A));
    show_pair("again", step(RRS_HART_A));
    hart.pc = BASE;
    hart.x[2] = 5;
    step(RRS_HART_A);
    reservation.reserved = 2; /* any number but 1 is none */
    show_pair("lost", step(RRS_HART_A));
    reservation.reserved = 1; /* at an address that is no multiple of 4 it is taken away too */
    reservation.address = hart.x[1] = DATA + 1;
    show_pair("misaligned", step(RRS_HART_A | RRS_HART_MISALIGNED));
}

static void misaligned(void) {
    /* lw x8, 1(x1); sw x2, 6(x1) */
    begin(0x0010a403, 0x0020a323, 0, 0);
    words[12] = 0x44332211;
    words[13] = 0x88776655;
    words[14] = 0xccbbaa99;
    show_fault("lw", step(0));
    show_fault("lw", step_rvfi(RRS_HART_MISALIGNED, 0));
    show_record("lw");
    show_fault("sw", step_rvfi(RRS_HART_MISALIGNED, 1));
    show_record("sw");
    printf("the words are 0x%08x 0x%08x\n", words[13], words[14]);
    hart.pc = BASE + 4;
    hart.x[1] = BASE + 4 * COUNT - 8; /* two of its bytes lie past the words */
    show_fault("sw past the words", step(RRS_HART_MISALIGNED));
    printf("the last word is 0x%08x\n", words[15]);
}

static void compressed(void) {
    rrs_end end;
    /* c.addi x10, 5; c.jalr x11; c.ebreak; c.nop; c.lwsp x12, 4(x2); c.jr x1 */
    begin(0x95820515, 0x00019002, 0x80824612, 0);
    words[13] = 0x12345678;
    hart.x[2] = DATA;
    hart.x[11] = BASE + 8;
    show_fault("c.addi", step_rvfi(RRS_HART_C, 0));
    show_record("c.addi");
    show_fault("c.jalr", step_rvfi(RRS_HART_C, 1));
    show_record("c.jalr");
    show_fault("c.lwsp", step_rvfi(RRS_HART_C, 2));
    show_record("c.lwsp");
    end = run(RRS_HART_C, 10);
    printf("c.jr: %u steps, x1 0x%08x, x10 %u\n", (unsigned)end.steps, hart.x[1], hart.x[10]);
    show_fault("c.ebreak", end.fault);
    hart.pc = BASE + 12;
    show_fault("no instruction", step(RRS_HART_C));
    hart.pc = BASE + 1;
    show_fault("an odd pc", step(RRS_HART_C));
    hart.pc = BASE + 2;
    show_fault("a half-word", step(RRS_HART_A));
}

static void fences(void) {
    begin(0x0000100f, 0, 0, 0); /* fence.i */
    show_fault("no fence.i", step(~(uint32_t)RRS_HART_ZIFENCEI));
    show_fault("fence.i", step(RRS_HART_ZIFENCEI));
}

static void bits(void) {
    /* sh2add x5, x1, x2; max x6, x1, x2; bseti x7, x1, 31; clmul x8, x1, x2 */
    begin(0x2020c2b3, 0x0a20e333, 0x29f09393, 0x0a209433);
    show_fault("no Zba", step(~(uint32_t)RRS_HART_ZBA));
    show_fault("sh2add", step_rvfi(RRS_HART_ZBA, 0));
    show_record("sh2add");
    show_fault("no Zbb", step(~(uint32_t)RRS_HART_ZBB));
    show_fault("max", step(RRS_HART_ZBB));
    show_fault("no Zbs", step(~(uint32_t)RRS_HART_ZBS));
    show_fault("bseti", step_rvfi(RRS_HART_ZBS, 1));
    show_record("bseti");
    printf("x5 0x%08x, x6 0x%08x, x7 0x%08x\n", hart.x[5], hart.x[6], hart.x[7]);
    show_fault("no Zbc", step(~(uint32_t)RRS_HART_ZBC));
    show_fault("clmul", step_rvfi(RRS_HART_ZBC, 2));
    show_record("clmul");
    /* packh x8, x1, x2; andn x9, x1, x2, which Zbkb has too; czero.eqz x10, x1, x2 */
    begin(0x0820f433, 0x4020f4b3, 0x0e20d533, 0);
    show_fault("no Zbkb", step(~(uint32_t)RRS_HART_ZBKB));
    show_fault("packh", step(RRS_HART_ZBKB));
    show_fault("andn", step(RRS_HART_ZBKB));
    show_fault("no Zicond", step(~(uint32_t)RRS_HART_ZICOND));
    show_fault("czero.eqz", step(RRS_HART_ZICOND));
    printf("x8 0x%08x, x9 0x%08x, x10 0x%08x\n", hart.x[8], hart.x[9], hart.x[10]);
}

/* What gcc with -march=rv32imac and its linker make of this, but for the sections:
 *         c.nop
 * _start: c.li a0, 5
 *         c.j on
 *         c.ebreak
 * on:     c.addi a0, 1
 *         c.ebreak */
static const uint8_t file[] = {
    0x7f, 0x45, 0x4c, 0x46, 0x01, 0x01, 0x01, 0x00, 0x00, 0x00, 0x00, 0x00,
    0x00, 0x00, 0x00, 0x00, 0x02, 0x00, 0xf3, 0x00, 0x01, 0x00, 0x00, 0x00,
    0x02, 0x00, 0x00, 0x80, 0x34, 0x00, 0x00, 0x00, 0x00, 0x00, 0x00, 0x00,
    0x01, 0x00, 0x00, 0x00, 0x34, 0x00, 0x20, 0x00, 0x01, 0x00, 0x28, 0x00,
    0x00, 0x00, 0x00, 0x00, 0x01, 0x00, 0x00, 0x00, 0x54, 0x00, 0x00, 0x00,
    0x00, 0x00, 0x00, 0x80, 0x00, 0x00, 0x00, 0x80, 0x0c, 0x00, 0x00, 0x00,
    0x0c, 0x00, 0x00, 0x00, 0x07, 0x00, 0x00, 0x00, 0x02, 0x00, 0x00, 0x00,
    0x01, 0x00, 0x15, 0x45, 0x11, 0xa0, 0x02, 0x90, 0x05, 0x05, 0x02, 0x90,
};

#define LINKED 0x80000000u

static void show_loaded(const char *what, rrs_loaded loaded) {
    printf("%s: refusal %u, 0x%08x, the first word is 0x%08x\n", what, loaded.refusal,
           loaded.address, words[0]);
}

static void executables(void) {
    rrs_elf elf = rrs_elf_parse_hart(file, sizeof file, RRS_HART_C);
    rrs_segment segment = rrs_elf_segment(file, sizeof file, 0);
    rrs_end end;
    begin(0, 0, 0, 0);
    printf("a file: refusal %u, entry 0x%08x, segments %u\n", elf.refusal, elf.entry, elf.segments);
    printf("its segment: 0x%08x, bytes %u\n", segment.address, segment.memory_size);
    printf("without extension C: refusal %u, %u\n", rrs_elf_parse(file, sizeof file).refusal,
           rrs_elf_parse_hart(file, sizeof file, ~(uint32_t)RRS_HART_C).refusal);
    show_loaded("its load", rrs_elf_load(file, sizeof file, words, COUNT, LINKED));
    show_loaded("for a hart without C", rrs_elf_load_hart(file, sizeof file, words, COUNT, LINKED,
                                                          ~(uint32_t)RRS_HART_C));
    show_loaded("past the words",
                rrs_elf_load_hart(file, sizeof file, words, 2, LINKED, RRS_HART_C));
    show_loaded("for a hart with C",
                rrs_elf_load_hart(file, sizeof file, words, COUNT, LINKED, RRS_HART_C));
    hart.pc = elf.entry;
    end = rrs_run_hart(&hart, words, COUNT, LINKED, RRS_HART_C, &reservation, 100);
    printf("its run: %u steps, a0 %u\n", (unsigned)end.steps, hart.x[10]);
    show_fault("its end", end.fault);
}

/* The texts of what a hart with extension C executes of four bytes, and of what one without it does;
 * and the words that the half-words stand for. The last is the first half of a word. */
static void texts(void) {
    static const uint32_t found[] = {0x05054515u, 0xffff3fc9u, 0x00000000u, 0x00a50533u};
    size_t at;
    for (at = 0; at < sizeof found / sizeof *found; at++) {
        char with[RRS_TEXT_SIZE] = "none";
        char without[RRS_TEXT_SIZE] = "none";
        size_t length = rrs_disassemble_hart(found[at], BASE, RRS_HART_C, with, sizeof with);
        rrs_disassemble_hart(found[at], BASE, ~(uint32_t)RRS_HART_C, without, sizeof without);
        printf("0x%08x: %s, %u bytes; without C %s; stands for 0x%08x\n", found[at], with,
               (unsigned)length, without, rrs_expand(found[at]));
    }
}

static void boards(void) {
    static rrs_board board;
    rrs_board_end end;
    begin(0, 0, 0, 0);
    rrs_board_reset(&board, ~(uint32_t)RRS_MACHINE_C, 0);
    show_loaded("on a board without C", rrs_board_load(&board, file, sizeof file, words, COUNT));
    printf("its pc is 0x%08x\n", board.hart.pc);
    rrs_board_reset(&board, RRS_MACHINE_C, 0);
    show_loaded("on a board with C", rrs_board_load(&board, file, sizeof file, words, COUNT));
    printf("its pc is 0x%08x", board.hart.pc);
    end = rrs_board_run(&board, words, COUNT, 3);
    printf(", after %u steps 0x%08x, a0 %u\n", (unsigned)end.steps, board.hart.pc,
           board.hart.x[10]);
}

int main(void) {
    atomics();
    reservations();
    misaligned();
    compressed();
    fences();
    bits();
    executables();
    boards();
    texts();
    return 0;
}

// 3,000 generated programs of 40 instructions: arithmetic, loads, stores, branches, extension A, CSRs,
// mret, ecall and words that are no instruction, begun in machine or in user mode, half of them with an
// interrupt that waits. With compressed code half of the instructions have 16 bits, and the others stand
// at any even address, as what an mret or a jump by a register leads to does. Of each hundred a checksum
// is printed: of what every trap found, and of the registers and the memory after each program; and then
// how many traps of each cause there were.
#include "board.h"

#define PROGRAMS 3000
#define WORDS 40
#define BITS 0x201888 // of mstatus: MIE, MPIE, MPP and TW

#ifdef __riscv_compressed
#define IS_COMPRESSED 1
#else
#define IS_COMPRESSED 0
#endif

static uint16_t code[2 * WORDS + 9] __attribute__((aligned(4)));
static uint32_t memory[16], registers[16];
static uint32_t state = 1, checksum, traps, from, end, causes[16];
// Where the next instruction is stored, and where each stands; and over how many a branch leads.
static uint16_t *at, *starts[WORDS + 4];
static uint8_t skipped[WORDS];

static uint32_t next(void) {
    state = state * 1664525 + 1013904223;
    return state >> 8;
}

static void mix(uint32_t value) { checksum = (checksum ^ value) * 16777619 + (checksum >> 13); }

// Executes the code with the registers x8 to x17, x6 as the address of the memory and x7 as that of its
// second word, and puts the registers back where they were. From 16(sp) to 60(sp) are words of the code.
void run(uint32_t *registers, uint32_t code, uint32_t *memory);
__asm__(".globl run\nrun:\naddi sp, sp, -64\n"
        "sw ra, 0(sp)\nsw s0, 4(sp)\nsw s1, 8(sp)\nsw a0, 12(sp)\n"
        "sw x0, 16(sp)\nsw x0, 20(sp)\nsw x0, 24(sp)\nsw x0, 28(sp)\nsw x0, 32(sp)\nsw x0, 36(sp)\n"
        "sw x0, 40(sp)\nsw x0, 44(sp)\nsw x0, 48(sp)\nsw x0, 52(sp)\nsw x0, 56(sp)\nsw x0, 60(sp)\n"
        "mv x6, a2\naddi x7, a2, 4\ncsrw mepc, a1\nmv x5, a0\n"
        "lw x8, 0(x5)\nlw x9, 4(x5)\nlw x10, 8(x5)\nlw x11, 12(x5)\nlw x12, 16(x5)\n"
        "lw x13, 20(x5)\nlw x14, 24(x5)\nlw x15, 28(x5)\nlw x16, 32(x5)\nlw x17, 36(x5)\n"
        "mret\n"
        ".globl after\nafter:\nlw x5, 12(sp)\n"
        "sw x8, 0(x5)\nsw x9, 4(x5)\nsw x10, 8(x5)\nsw x11, 12(x5)\nsw x12, 16(x5)\n"
        "sw x13, 20(x5)\nsw x14, 24(x5)\nsw x15, 28(x5)\nsw x16, 32(x5)\nsw x17, 36(x5)\n"
        "lw ra, 0(sp)\nlw s0, 4(sp)\nlw s1, 8(sp)\naddi sp, sp, 64\nret\n");
extern char after[];

// An interrupt is taken once, the last ecall of a program ends it, and all else is passed. The handler
// takes the reservation away, since a trap may.
uint32_t trap(uint32_t cause, uint32_t epc, uint32_t value) {
    uint32_t dummy, status = csr_read(mstatus);
    __asm__ volatile("sc.w %0, x0, (%1)" : "=r"(dummy) : "r"(&state) : "memory");
    causes[cause >> 31 ? 0 : cause]++;
    mix(cause);
    mix(epc - from);
    mix(cause == 3 ? 0 : value);
    mix(status & BITS);
    if (cause == 3)
        csr_write(mtval, 0);
    if (cause >> 31) {
        csr_write(mie, 0);
        return epc;
    }
    if (epc >= end || ++traps > 200) {
        csr_set(mstatus, 0x1800);
        return (uint32_t)after;
    }
    if (traps % 4 == 0)
        csr_write(mstatus, status ^ 0x1800);
    return epc + (IS_COMPRESSED && *(uint16_t *)epc % 4 != 3 ? 2 : 4);
}

static uint32_t i_type(uint32_t imm, uint32_t rs1, uint32_t funct3, uint32_t rd, uint32_t opcode) {
    return imm << 20 | rs1 << 15 | funct3 << 12 | rd << 7 | opcode;
}

static uint32_t r_type(uint32_t funct7, uint32_t rs2, uint32_t rs1, uint32_t funct3, uint32_t rd,
                       uint32_t opcode) {
    return i_type(funct7 << 5 | rs2, rs1, funct3, rd, opcode);
}

// x15 is the address of the memory where code is compressed.
static uint32_t some(void) { return 8 + next() % (8 - IS_COMPRESSED); }

static uint32_t arithmetic(void) {
    static const uint8_t funct7[] = {0, 0, 1};
    uint32_t funct3 = next() % 8, kind = next() % 5;
    if (kind < 3)
        return r_type(funct7[kind], some(), some(), funct3, some(), 0x33);
    if (kind == 3 || funct3 == 1 || funct3 == 5)
        return r_type(0x20, some(), some(), funct3 == 5 ? 5 : 0, some(), 0x33);
    return i_type(next() & 0xfff, some(), funct3, some(), 0x13);
}

static uint32_t access(void) {
    uint32_t size = next() % 3, offset = next() % 16 * 4, unsign = size < 2 ? next() % 2 * 4 : 0;
    if (next() % 2)
        return i_type(offset, 6, size | unsign, some(), 0x03);
    return r_type(offset >> 5, some(), 6, size, offset & 31, 0x23);
}

static uint32_t atomic(uint32_t funct5, uint32_t rs2) {
    return r_type(funct5 << 2 | next() % 4, rs2, 6 + next() % 2, 2, next() % 8 ? some() : 0, 0x2f);
}

static uint32_t any_amo(void) {
    static const uint8_t funct5[] = {1, 0, 4, 12, 8, 16, 20, 24, 28};
    return atomic(funct5[next() % 9], some());
}

static void emit(uint32_t word) {
    *at++ = word;
    if (!IS_COMPRESSED || word % 4 == 3)
        *at++ = word >> 16;
}

// A word is reserved, here or elsewhere, and stored. QEMU fails an sc.w where the word was changed
// meanwhile, as it may, so no access stands between.
static void reserve(void) {
    static const uint32_t between[] = {0x00000013, 0x00000073, 0x0000100f};
    emit(atomic(2, next() % 8 ? 0 : 1));
    emit(next() % 2 ? arithmetic() : between[next() % 3]);
    emit(atomic(3, some()));
    emit(next() % 4 ? arithmetic() : atomic(3, some()));
}

// Of mstatus, mie and mcounteren those bits alone are written that both harts have (x16, x17).
static uint32_t on_csr(void) {
    static const uint16_t numbers[] = {0x300, 0x300, 0x300, 0x304, 0x306, 0x340, 0x341, 0x342, 0x343,
                                       0x30a, 0x31a, 0xf14, 0xc00, 0xc01, 0xc02, 0xb00};
    static const uint8_t funct3[] = {1, 2, 3, 5, 6, 7};
    uint32_t number = numbers[next() % 16], form = funct3[next() % 6];
    uint32_t source = number == 0x340 || number == 0x343 ? some() : 16 + next() % 2;
    if (number == 0x341 || number == 0x30a || number == 0x31a || number == 0xf14 || number >= 0xb00)
        form = 2, source = 0;
    else if (form > 4 || number == 0x306)
        form |= 4, source = number == 0x300 || number == 0x304 ? next() % 2 * 8 : next() % 8;
    return i_type(number, source, form, number >= 0xb00 && number < 0xf00 ? 0 : some(), 0x73);
}

static uint32_t other(void) {
    static const uint32_t words[] = {0x00000073, 0x00100073, 0x00000000, 0xffffffff, 0x0017372f,
                                     0x1017272f, 0x8ff01073, 0x0000100f, 0x0ff0000f, 0x00000013};
    return words[next() % 10];
}

// A branch over one or two instructions.
static uint32_t branch(void) {
    static const uint8_t funct3[] = {0, 1, 4, 5, 6, 7};
    return r_type(0, some(), some(), funct3[next() % 6], 8 + next() % 2 * 4, 0x63);
}

// An mret to what follows, or a jump there where code is compressed: c.jr, c.jalr and two jalr.
static void go_back(void) {
    static const uint32_t jumps[] = {0x8282, 0x9282, 0x00028067, 0x000280e7};
    uint32_t kind = IS_COMPRESSED ? next() % 8 : 4;
    emit(0x00000297); // auipc x5, 0
    if (kind < 4) {
        emit(i_type(kind < 2 ? 10 : 12, 5, 0, 5, 0x13));
        emit(jumps[kind]);
    } else {
        emit(i_type(16, 5, 0, 5, 0x13));
        emit(i_type(0x341, 5, 1, 0, 0x73));
        emit(0x30200073);
    }
}

// c.addi, c.li, c.lui, c.srli, c.srai, c.andi, c.sub, c.xor, c.or, c.and, c.slli, c.mv, c.add and
// c.addi4spn.
static uint32_t short_arithmetic(void) {
    static const uint16_t on_five[] = {0x0001, 0x4001, 0x6001, 0x0002},
                          on_three[] = {0x8001, 0x8401, 0x8801, 0x8c01, 0x8c21, 0x8c41, 0x8c61};
    uint32_t kind = next() % 14, imm = (1 + next() % 31) << 2, rd = some(), rs2 = some();
    if (kind < 4)
        return on_five[kind] | imm | (kind < 3 ? next() % 2 << 12 : 0) | rd << 7;
    if (kind < 11)
        return on_three[kind - 4] | (rd - 8) << 7
            | (kind < 6 ? imm : kind == 6 ? imm | next() % 2 << 12 : (rs2 - 8) << 2);
    if (kind < 13)
        return (kind == 11 ? 0x8002 : 0x9002) | rd << 7 | rs2 << 2;
    return (1 + next() % 255) << 5 | (rd - 8) << 2;
}

// c.lw and c.sw of the memory, c.lwsp and c.swsp of words from 16(sp) on.
static uint32_t short_access(void) {
    uint32_t register_ = some(), offset = next() % 16 * 4;
    if (next() % 2)
        return (next() % 2 ? 0x4380 : 0xc380) | (register_ - 8) << 2 | (offset & 0x38) << 7
            | (offset & 4) << 4;
    offset = 16 + next() % 12 * 4;
    return next() % 2 ? 0x4002 | register_ << 7 | (offset & 0x1c) << 2 | (offset & 0x20) << 7
                      : 0xc002 | register_ << 2 | offset << 7;
}

// c.ebreak, and half-words that are no instruction: those that are reserved, and floating point.
static uint32_t short_other(void) {
    static const uint16_t halves[] = {0x9002, 0x0000, 0x0008, 0x8000, 0x6501, 0x6101, 0x9401, 0x9c01,
                                      0x9c21, 0x9c41, 0x1502, 0x4002, 0x8002, 0x2380, 0x6380, 0xa380,
                                      0xe380, 0x2502, 0x6502, 0xa02a, 0xe02a};
    return halves[next() % 21];
}

// c.beqz, c.bnez, c.j or c.jal over one or two instructions.
static uint32_t short_branch(int i) {
    skipped[i] = 1 + next() % 2;
    return next() % 2 ? 0xc001 | next() % 2 << 13 | (some() - 8) << 7 : next() % 2 ? 0xa001 : 0x2001;
}

static uint32_t single(int i, uint32_t kind) {
    if (IS_COMPRESSED && next() % 2)
        return kind == 12 ? short_branch(i) : kind > 12 ? short_other()
            : kind < 4 || kind > 6 ? short_arithmetic() : short_access();
    if (kind == 12) {
        uint32_t word = branch();
        skipped[i] = (word >> 9 & 7) - 1;
        return word & ~0xf80;
    }
    return kind < 4 ? arithmetic() : kind < 7 ? access() : kind < 9 ? any_amo() : kind < 12 ? on_csr()
        : other();
}

// Gives a branch the offset of where it leads, which is 12 at most.
static void lead(uint16_t *branch, uint32_t offset) {
    if (*branch % 4 == 3)
        *branch |= offset << 7;
    else if (*branch >= 0xc000)
        *branch |= (offset & 6) << 2 | (offset & 8) << 7;
    else
        *branch |= offset << 2;
}

// No branch leads between the instructions of go_back or of reserve.
static void make(void) {
    int last_branch = -3;
    at = code + (IS_COMPRESSED ? next() % 2 : 0);
    from = (uint32_t)at;
    for (int i = 0; i < WORDS; i++) {
        uint32_t kind = next() % 16;
        int is_room = last_branch + 3 <= i && i + 4 <= WORDS;
        skipped[i] = 0;
        uint32_t instruction = single(i, kind);
        starts[i] = at;
        if (kind == 12)
            last_branch = i;
        if (kind >= 14 && is_room) {
            if (kind == 14)
                go_back();
            else
                reserve();
            for (int j = 0; j < 3; j++)
                skipped[++i] = 0;
        } else {
            emit(instruction);
        }
    }
    end = (uint32_t)at;
    for (int i = WORDS; i < WORDS + 4; i++) {
        starts[i] = at;
        emit(0x00000073);
    }
    for (int i = 0; i < WORDS; i++)
        if (skipped[i])
            lead(starts[i], 2 * (starts[i + 1 + skipped[i]] - starts[i]));
    for (int i = 0; i < 8; i++)
        registers[i] = next() % 4 ? next() << 12 ^ next() : (int32_t)(next() % 3) - 1;
    if (IS_COMPRESSED)
        registers[7] = (uint32_t)memory;
    static const uint32_t bits[] = {0x1800, 0x1888, 0x200000, 0x201880, 8, 0x80, 0, 0x88};
    registers[8] = bits[next() % 8];
    registers[9] = bits[next() % 8];
    for (int i = 0; i < 16; i++)
        memory[i] = next() << 12 ^ next();
}

int main(void) {
    MTIMECMP[0] = MTIMECMP[1] = ~0u;
    for (int i = 1; i <= PROGRAMS; i++) {
        make();
        traps = 0;
        csr_write(mcounteren, i % 8);
        csr_write(mscratch, 0);
        csr_write(mstatus, i % 2 ? 0 : 0x1800);
        MSIP = i / 2 % 2;
        csr_write(mie, i / 4 % 2 * 8);
        __asm__ volatile(".word 0x100f" ::: "memory"); // fence.i
        run(registers, from, memory);
        for (int j = 0; j < 10; j++)
            mix(registers[j]);
        for (int j = 0; j < 16; j++)
            mix(memory[j]);
        if (i % 100 == 0) {
            put_number(i);
            put(": ");
            put_word(checksum);
            put("\n");
        }
    }
    for (int i = 0; i < 16; i++) {
        put_number(causes[i]);
        put(i < 15 ? " " : "\n");
    }
    return 0;
}

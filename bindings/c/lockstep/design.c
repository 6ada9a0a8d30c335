#include "design.h"

#include <string.h>

/* The low `width` bits of a value, as a signed number. */
static int32_t extended(uint32_t value, unsigned width) {
    uint32_t sign = (uint32_t)1 << (width - 1);
    return (int32_t)((value ^ sign) - sign);
}

static uint32_t shifted_right(const struct design *design, uint32_t value, uint32_t amount) {
    uint32_t sign = value >> 31 && design->planted != PLANTED_LOGICAL_SHIFT ? 0xffffffff : 0;
    return amount == 0 ? value : value >> amount | sign << (32 - amount);
}

static uint32_t high_product(uint64_t a, uint64_t b) {
    return (uint32_t)(a * b >> 32);
}

/* A number of 32 bits as 64, signed and unsigned. */
static uint64_t wide_signed(uint32_t value) {
    return (uint64_t)(int64_t)(int32_t)value;
}

static uint32_t multiplied(const struct design *design, uint32_t funct3, uint32_t a, uint32_t b) {
    switch (funct3) {
    case 0: return a * b;
    case 1: return high_product(wide_signed(a), wide_signed(b));
    case 2:
        return high_product(wide_signed(a),
                            design->planted == PLANTED_MULHSU_SIGNED ? wide_signed(b) : b);
    case 3: return high_product(a, b);
    case 4:
        if (b == 0) return 0xffffffff;
        if (a == 0x80000000 && b == 0xffffffff) return a;
        return (uint32_t)((int32_t)a / (int32_t)b);
    case 5: return b == 0 ? 0xffffffff : a / b;
    case 6:
        if (b == 0) return a;
        if (a == 0x80000000 && b == 0xffffffff)
            return design->planted == PLANTED_REM_LEAST ? a : 0;
        return (uint32_t)((int32_t)a % (int32_t)b);
    default: return b == 0 ? a : a % b;
    }
}

static uint32_t computed(const struct design *design, uint32_t funct3, int other, uint32_t a,
                         uint32_t b) {
    switch (funct3) {
    case 0: return other ? a - b : a + b;
    case 1: return a << (b & 31);
    case 2: return (int32_t)a < (int32_t)b;
    case 3: return a < b;
    case 4: return a ^ b;
    case 5: return other ? shifted_right(design, a, b & 31) : a >> (b & 31);
    case 6: return a | b;
    default: return a & b;
    }
}

static int is_taken(uint32_t funct3, uint32_t a, uint32_t b) {
    switch (funct3) {
    case 0: return a == b;
    case 1: return a != b;
    case 4: return (int32_t)a < (int32_t)b;
    case 5: return (int32_t)a >= (int32_t)b;
    case 6: return a < b;
    default: return a >= b;
    }
}

/* Where `width` bytes at an address lie, or NULL where they are not all there, or not aligned. */
static uint8_t *place(struct design *design, uint32_t address, uint32_t width) {
    uint32_t offset = address - design->base;
    if (address % width != 0 || offset >= design->size || design->size - offset < width)
        return NULL;
    return design->bytes + offset;
}

static uint32_t little_endian(const uint8_t *bytes, uint32_t width) {
    uint32_t value = 0;
    while (width-- > 0) value = value << 8 | bytes[width];
    return value;
}

static void write_register(struct design *design, rrs_retired *retired, unsigned rd,
                           uint32_t value) {
    if (rd == 0) return;
    design->x[rd] = value;
    retired->rd_addr = rd;
    retired->rd_wdata = value;
}

/* Executes a load. Returns 0 where it faults. */
static int loaded(struct design *design, rrs_retired *retired, uint32_t word) {
    uint32_t funct3 = word >> 12 & 7, width = (uint32_t)1 << (funct3 & 3);
    uint32_t address = design->x[word >> 15 & 31] + (uint32_t)extended(word >> 20, 12);
    const uint8_t *bytes = place(design, address, width);
    uint32_t value;
    if (bytes == NULL) return 0;
    value = little_endian(bytes, width);
    retired->mem_addr = address;
    retired->mem_rmask = ((uint32_t)1 << width) - 1;
    retired->mem_rdata = value;
    if (funct3 < 2) value = (uint32_t)extended(value, 8 * width);
    write_register(design, retired, word >> 7 & 31, value);
    return 1;
}

/* Executes a store. Returns 0 where it faults. */
static int stored(struct design *design, rrs_retired *retired, uint32_t word) {
    uint32_t width = (uint32_t)1 << (word >> 12 & 3);
    uint32_t offset = (word >> 25) << 5 | (word >> 7 & 31);
    uint32_t address = design->x[word >> 15 & 31] + (uint32_t)extended(offset, 12);
    uint32_t value = design->x[word >> 20 & 31], i;
    uint8_t *bytes = place(design, address, width);
    if (bytes == NULL) return 0;
    if (design->planted != PLANTED_LOST_STORE || bytes < design->bytes + design->size - 4)
        for (i = 0; i < width; i++) bytes[i] = (uint8_t)(value >> 8 * i);
    retired->mem_addr = address;
    retired->mem_wmask = ((uint32_t)1 << width) - 1;
    if (width == 2 && design->planted == PLANTED_STORE_MASK) retired->mem_wmask = 7;
    retired->mem_wdata = width == 4 ? value : value & (((uint32_t)1 << 8 * width) - 1);
    return 1;
}

/* Executes a word. Returns 0 where it faults. */
static int executed(struct design *design, rrs_retired *retired, uint32_t word, uint32_t *next) {
    uint32_t rd = word >> 7 & 31, funct3 = word >> 12 & 7, funct7 = word >> 25;
    uint32_t a = design->x[word >> 15 & 31], b = design->x[word >> 20 & 31], target;
    int32_t imm = extended(word >> 20, 12);
    switch (word & 0x7f) {
    case 0x37: write_register(design, retired, rd, word & 0xfffff000); return 1;
    case 0x17: write_register(design, retired, rd, design->pc + (word & 0xfffff000)); return 1;
    case 0x6f:
        target = (word >> 31) << 20 | (word >> 12 & 0xff) << 12 | (word >> 20 & 1) << 11 |
                 (word >> 21 & 0x3ff) << 1;
        write_register(design, retired, rd, design->pc + 4);
        *next = design->pc + (uint32_t)extended(target, 21);
        return 1;
    case 0x67:
        write_register(design, retired, rd, design->pc + 4);
        *next = a + (uint32_t)imm;
        if (design->planted != PLANTED_JALR_ODD) *next &= ~(uint32_t)1;
        return 1;
    case 0x63:
        target = (word >> 31) << 12 | (word >> 7 & 1) << 11 | (word >> 25 & 0x3f) << 5 |
                 (word >> 8 & 15) << 1;
        if (is_taken(funct3, a, b)) *next = design->pc + (uint32_t)extended(target, 13);
        return 1;
    case 0x03: return loaded(design, retired, word);
    case 0x23: return stored(design, retired, word);
    case 0x13:
        write_register(design, retired, rd,
                       computed(design, funct3, funct3 == 5 && funct7 == 0x20, a, (uint32_t)imm));
        return 1;
    case 0x33:
        write_register(design, retired, rd,
                       funct7 == 1 ? multiplied(design, funct3, a, b)
                                   : computed(design, funct3, funct7 == 0x20, a, b));
        return 1;
    default: return 0;
    }
}

/* The source registers of a word, by its format. */
static void tell_sources(const struct design *design, rrs_retired *retired, uint32_t word) {
    uint32_t opcode = word & 0x7f;
    if (opcode != 0x37 && opcode != 0x17 && opcode != 0x6f) retired->rs1_addr = word >> 15 & 31;
    if (opcode == 0x33 || opcode == 0x23 || opcode == 0x63) retired->rs2_addr = word >> 20 & 31;
    retired->rs1_rdata = design->x[retired->rs1_addr];
    retired->rs2_rdata = design->x[retired->rs2_addr];
}

void design_step(struct design *design, uint64_t order, rrs_retired *retired) {
    const uint8_t *bytes = place(design, design->pc, 4);
    uint32_t next = design->pc + 4;
    memset(retired, 0, sizeof *retired);
    retired->order = order;
    retired->pc_rdata = design->pc;
    if (bytes == NULL) {
        retired->trap = 1;
    } else {
        retired->insn = little_endian(bytes, 4);
        retired->fetched = 1;
        tell_sources(design, retired, retired->insn);
        if (executed(design, retired, retired->insn, &next)) design->pc = next;
        else retired->trap = 1;
    }
    retired->pc_wdata = design->pc;
}

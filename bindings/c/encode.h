/* Words of instructions, for programs that the examples make. */
#ifndef ENCODE_H
#define ENCODE_H

#include <stdint.h>

static inline uint32_t r_type(uint32_t funct7, uint32_t funct3, unsigned rd, unsigned rs1,
                              unsigned rs2) {
    return funct7 << 25 | rs2 << 20 | rs1 << 15 | funct3 << 12 | rd << 7 | 0x33;
}

static inline uint32_t i_type(uint32_t opcode, uint32_t funct3, unsigned rd, unsigned rs1,
                              int32_t imm) {
    return (uint32_t)imm << 20 | rs1 << 15 | funct3 << 12 | rd << 7 | opcode;
}

static inline uint32_t s_type(uint32_t funct3, unsigned rs1, unsigned rs2, int32_t imm) {
    uint32_t bits = (uint32_t)imm;
    return (bits >> 5 & 0x7f) << 25 | rs2 << 20 | rs1 << 15 | funct3 << 12 | (bits & 31) << 7 |
           0x23;
}

static inline uint32_t b_type(uint32_t funct3, unsigned rs1, unsigned rs2, int32_t imm) {
    uint32_t bits = (uint32_t)imm;
    return (bits >> 12 & 1) << 31 | (bits >> 5 & 0x3f) << 25 | rs2 << 20 | rs1 << 15 |
           funct3 << 12 | (bits >> 1 & 15) << 8 | (bits >> 11 & 1) << 7 | 0x63;
}

static inline uint32_t u_type(uint32_t opcode, unsigned rd, uint32_t imm) {
    return (imm & 0xfffff000) | rd << 7 | opcode;
}

static inline uint32_t jal(unsigned rd, int32_t imm) {
    uint32_t bits = (uint32_t)imm;
    return (bits >> 20 & 1) << 31 | (bits >> 1 & 0x3ff) << 21 | (bits >> 11 & 1) << 20 |
           (bits >> 12 & 0xff) << 12 | rd << 7 | 0x6f;
}

static inline uint32_t addi(unsigned rd, unsigned rs1, int32_t imm) {
    return i_type(0x13, 0, rd, rs1, imm);
}

static inline uint32_t load(uint32_t funct3, unsigned rd, unsigned rs1, int32_t imm) {
    return i_type(0x03, funct3, rd, rs1, imm);
}

static inline uint32_t jalr(unsigned rd, unsigned rs1, int32_t imm) {
    return i_type(0x67, 0, rd, rs1, imm);
}

#endif

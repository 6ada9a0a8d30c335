"use strict";

// Instructions as words, by the formats of the RISC-V unprivileged specification, chapter 2.

const r = (funct7, funct3, rd, rs1, rs2, opcode = 0x33) =>
  (funct7 << 25 | rs2 << 20 | rs1 << 15 | funct3 << 12 | rd << 7 | opcode) >>> 0;
const i = (opcode, funct3, rd, rs1, imm) =>
  ((imm & 0xfff) << 20 | rs1 << 15 | funct3 << 12 | rd << 7 | opcode) >>> 0;
const s = (funct3, rs2, rs1, imm) =>
  r(imm >> 5 & 0x7f, funct3, imm & 31, rs1, rs2, 0x23);
const b = (funct3, rs1, rs2, imm) =>
  r(imm >> 12 << 6 & 0x40 | imm >> 5 & 0x3f, funct3, imm & 30 | imm >> 11 & 1, rs1, rs2, 0x63);
const u = (opcode, rd, imm) => (imm & 0xfffff000 | rd << 7 | opcode) >>> 0;
const j = (rd, imm) => u(0x6f, rd,
  (imm >> 20 & 1) << 31 | (imm >> 1 & 0x3ff) << 21 | (imm >> 11 & 1) << 20 | imm & 0xff000);

const lui = (rd, imm) => u(0x37, rd, imm);
const auipc = (rd, imm) => u(0x17, rd, imm);
const jalr = (rd, rs1, imm) => i(0x67, 0, rd, rs1, imm);
const addi = (rd, rs1, imm) => i(0x13, 0, rd, rs1, imm);
const add = (rd, rs1, rs2) => r(0, 0, rd, rs1, rs2);
const load = (funct3) => (rd, imm, rs1) => i(0x03, funct3, rd, rs1, imm);
const store = (funct3) => (rs2, imm, rs1) => s(funct3, rs2, rs1, imm);
const [lb, lh, lw, lbu, lhu] = [0, 1, 2, 4, 5].map(load);
const [sb, sh, sw] = [0, 1, 2].map(store);
const ecall = 0x00000073;
const ebreak = 0x00100073;

/** The two words that put a value into a register. */
function li(rd, value) {
  const low = value << 20 >> 20;
  return [lui(rd, value - low), addi(rd, rd, low)];
}

/* A word of each of the 48 instructions, with its name and its group. Registers: x5 is the target,
 * x6 and x7 are the sources; x8 is an address. Branches and jumps go to the next word. */
const ROWS = [
  ["lui", lui(5, 0x1000), "arithmetic"], ["auipc", auipc(5, 0x1000), "arithmetic"],
  ["jal", j(5, 4), "jump"], ["jalr", jalr(5, 9, 0), "jump"],
  ...["beq", "bne", "", "", "blt", "bge", "bltu", "bgeu"].map(
    (name, funct3) => [name, b(funct3, 6, 7, 4), "branch"]),
  ["lb", lb(5, 1, 8), "load"], ["lh", lh(5, 2, 8), "load"], ["lw", lw(5, 0, 8), "load"],
  ["lbu", lbu(5, 3, 8), "load"], ["lhu", lhu(5, 2, 8), "load"],
  ["sb", sb(6, 5, 8), "store"], ["sh", sh(6, 6, 8), "store"], ["sw", sw(6, 4, 8), "store"],
  ["addi", addi(5, 6, -1), "arithmetic"],
  ...["slti", "sltiu", "xori"].map((name, at) => [name, i(0x13, at + 2, 5, 6, 9), "arithmetic"]),
  ["ori", i(0x13, 6, 5, 6, 9), "arithmetic"], ["andi", i(0x13, 7, 5, 6, 9), "arithmetic"],
  ["slli", i(0x13, 1, 5, 6, 3), "arithmetic"], ["srli", i(0x13, 5, 5, 6, 3), "arithmetic"],
  ["srai", i(0x13, 5, 5, 6, 0x403), "arithmetic"],
  ...["add", "sll", "slt", "sltu", "xor", "srl", "or", "and"].map(
    (name, funct3) => [name, r(0, funct3, 5, 6, 7), "arithmetic"]),
  ["sub", r(0x20, 0, 5, 6, 7), "arithmetic"], ["sra", r(0x20, 5, 5, 6, 7), "arithmetic"],
  ["fence", 0x0ff0000f, "system"], ["ecall", ecall, "system"], ["ebreak", ebreak, "system"],
  ...["mul", "mulh", "mulhsu", "mulhu", "div", "divu", "rem", "remu"].map(
    (name, funct3) => [name, r(1, funct3, 5, 6, 7), "multiply"]),
].filter(([name]) => name);

module.exports = {
  add, addi, auipc, b, ebreak, ecall, jal: j, jalr, lb, lbu, lh, lhu, li, lui, lw, sb, sh, sw, ROWS,
};

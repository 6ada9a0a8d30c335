"""The definitions of a hart with extension A, fence.i, misaligned accesses, compressed code and Zba
to Zbkb beside qemu-riscv32, whose version 7.2 has no Zicond: random steps, each with its registers,
pc and accesses, and the memory that they leave."""

import random
import re
import struct

from . import user
from .user import CODE, DATA, EDGES, END, LOW, b_type, i_type, j_type, load_constant, r_type

STACK = 2                       # a third base, which no instruction leaves changed
BASES = (DATA, LOW, STACK)
AMOS = [0x01, 0x00, 0x04, 0x0C, 0x08, 0x10, 0x14, 0x18, 0x1C]
PROFILE = 1 + 2 + 4 + 8 + 32 + 64 + 128 + 256 + 512     # all that a profile has but Zicond
NOP = 0x0001                    # c.nop
# funct7 and funct3 of Zba to Zbkb: of two registers, of a register and an amount, and of a
# register alone, with what stands in the place of rs2
TWO = [(0x10, 2), (0x10, 4), (0x10, 6), (0x20, 7), (0x20, 6), (0x20, 4), (0x05, 4), (0x05, 5),
       (0x05, 6), (0x05, 7), (0x30, 1), (0x30, 5), (0x24, 1), (0x24, 5), (0x34, 1), (0x14, 1),
       (0x05, 1), (0x05, 2), (0x05, 3), (0x04, 4), (0x04, 7)]
AMOUNT = [(0x30, 5), (0x24, 1), (0x24, 5), (0x34, 1), (0x14, 1)]
ONE = [(0x30, 1, 0), (0x30, 1, 1), (0x30, 1, 2), (0x30, 1, 4), (0x30, 1, 5), (0x14, 5, 7),
       (0x34, 5, 24), (0x34, 5, 7), (0x04, 1, 15), (0x04, 5, 15)]


def halves(*words):
    """The half-words of words."""
    return [half for word in words for half in (word & 0xFFFF, word >> 16)]


def scattered(value, bits, place):
    """These bits of a value, the last one at a place, and each other one above it."""
    return sum((value >> bit & 1) << place + at for at, bit in enumerate(reversed(bits)))


def ci(funct3, rd, imm, quadrant):
    return funct3 << 13 | (imm >> 5 & 1) << 12 | rd << 7 | (imm & 31) << 2 | quadrant


def c_jump(funct3, offset):
    return funct3 << 13 | scattered(offset, [11, 4, 9, 8, 10, 6, 7, 3, 2, 1, 5], 2) | 1


def c_branch(funct3, register, offset):
    return (funct3 << 13 | scattered(offset, [8, 4, 3], 10) | register - 8 << 7
            | scattered(offset, [7, 6, 2, 1, 5], 2) | 1)


def c_load_or_store(funct3, register, chance):
    """By the base in x8."""
    imm = chance.randrange(0, 128, 4)
    return (funct3 << 13 | scattered(imm, [5, 4, 3], 10) | DATA - 8 << 7 | scattered(imm, [2, 6], 5)
            | register - 8 << 2)


def compressed(chance):
    """One compressed instruction that goes on to the next, or two."""
    rd = chance.choice([r for r in range(32) if r not in BASES])
    short, other = chance.randrange(10, 16), chance.randrange(8, 16)
    rs2, imm = chance.randrange(1, 32), chance.randrange(64)
    kind = chance.randrange(15)
    if kind == 0:
        imm = chance.randrange(4, 1024, 4)
        return [scattered(imm, [5, 4, 9, 8, 7, 6, 2, 3], 5) | short - 8 << 2]
    if kind == 1:
        return [c_load_or_store(2, short, chance)]
    if kind == 2:
        return [c_load_or_store(6, other, chance)]
    if kind == 3:
        return [ci(0, rd, imm, 1)]
    if kind == 4:
        return [ci(2, rd, imm, 1)]
    if kind == 5:
        return [ci(3, rd, imm or 1, 1)]
    if kind == 6:       # c.addi16sp, and back
        imm = chance.randrange(16, 512, 16)
        return [0x6101 | scattered(x, [9], 12) | scattered(x, [4, 6, 8, 7, 5], 2)
                for x in (imm, -imm)]
    if kind < 9:
        return [0x8001 | chance.randrange(2) << 10 | short - 8 << 7 | (imm & 31) << 2]
    if kind == 9:
        return [0x8801 | (imm >> 5) << 12 | short - 8 << 7 | (imm & 31) << 2]
    if kind == 10:
        return [0x8C01 | short - 8 << 7 | chance.randrange(4) << 5 | other - 8 << 2]
    if kind == 11:
        return [ci(0, rd, imm & 31, 2)]
    if kind == 12:
        return [0x8002 | chance.randrange(2) << 12 | rd << 7 | rs2 << 2]
    imm = chance.randrange(0, 256, 4)
    if kind == 13:
        return [0x4002 | scattered(imm, [5], 12) | (rd or 5) << 7
                | scattered(imm, [4, 3, 2, 7, 6], 2)]
    return [0xC002 | scattered(imm, [5, 4, 3, 2, 7, 6], 7) | rs2 << 2]


def jump(chance):
    """A jump or a branch over c.nops, of 16 or of 32 bits; or a few that go back."""
    rd = chance.choice([r for r in range(32) if r not in BASES])
    link = rd or 5
    count = 40 if chance.random() < 0.1 else chance.randrange(4)
    kind, over, skip = chance.randrange(10), 2 * count, [NOP] * count
    if kind == 0:       # on to the last, which goes back to the second
        there, back = chance.choice([1, 5]), chance.choice([c_jump(5, -2), c_branch(7, DATA, -2)])
        return [c_jump(there, 4), c_jump(chance.choice([1, 5]), 4), back]
    if kind < 3:
        return [c_jump(chance.choice([1, 5]), 2 + over), *skip]
    if kind < 5:
        return [c_branch(chance.choice([6, 7]), chance.randrange(8, 16), 2 + over), *skip]
    if kind == 5:       # auipc; c.addi; and c.jr or c.jalr, with the lowest bit 0
        over = min(over, 6)
        return [*halves(link << 7 | 0x17), ci(0, link, 8 + over, 1),
                0x8002 | chance.randrange(2) << 12 | link << 7, *[NOP] * (over // 2)]
    if kind == 6:
        target = 8 + over + chance.randrange(2)
        return halves(link << 7 | 0x17, i_type(target, link, 0, rd, 0x67)) + skip
    if kind == 7:
        return halves(j_type(4 + over, rd)) + skip
    registers = chance.randrange(32), chance.randrange(32)
    return halves(b_type(4 + over, *registers, chance.choice([0, 1, 4, 5, 6, 7]))) + skip


def atomic(chance):
    """An AMO, a sc.w that fails, or a lr.w and a sc.w at that address or another. No store is
    between the two: QEMU's sc.w compares the word."""
    rd = [chance.choice([r for r in range(32) if r not in BASES]) for _ in range(2)]
    base, other = chance.choice([DATA, STACK]), chance.choice([DATA, STACK])
    rs2, order = chance.randrange(32), [chance.randrange(4) for _ in range(2)]
    conditional = r_type(0x03 << 2 | order[0], rs2, other, 2, rd[0], 0x2F)
    kind = chance.randrange(4)
    if kind == 0:
        return halves(conditional)
    if kind == 1:
        return halves(r_type(0x02 << 2 | order[1], 0, base, 2, rd[1], 0x2F), conditional)
    return halves(r_type(chance.choice(AMOS) << 2 | order[0], rs2, base, 2, rd[0], 0x2F))


def bits(chance):
    """An instruction of Zba to Zbkb."""
    rd = chance.choice([r for r in range(32) if r not in BASES])
    rs1, rs2 = chance.randrange(32), chance.randrange(32)
    fields = chance.choice([(0x04, 4, 0), *ONE, *AMOUNT, *TWO])      # the first is zext.h
    funct7, funct3, rs2 = fields if len(fields) == 3 else (*fields, rs2)
    is_on_immediate = fields in ONE or fields in AMOUNT and chance.random() < 0.5
    return halves(r_type(funct7, rs2, rs1, funct3, rd, 0x13 if is_on_immediate else 0x33))


def word(chance):
    """An instruction of the table that goes on to the next, also a misaligned load or store."""
    while True:
        made, *more = user.random_instruction(chance)
        opcode, is_store = made & 0x7F, made & 0x7F == 0x23
        if more or opcode in (0x63, 0x67, 0x6F) or not is_store and made >> 7 & 31 == STACK:
            continue
        if opcode in (0x03, 0x23) and made >> 25 != 0x3F:       # not up to the end of the memory
            made ^= chance.choice([0, 0, 1, 2, 3]) << (7 if is_store else 20)
        return halves(made)


def random_program(seed, count):
    """Memory from address 0 on: low data, a program of about so many instructions, and data."""
    chance = random.Random(f"hart {seed}")
    code = []
    for register in range(1, 32):
        value = {DATA: 0x2800, LOW: 0xFFFFFE00, STACK: 0x2400}.get(
            register, chance.choice(EDGES) if chance.random() < 0.6 else chance.getrandbits(32))
        code += halves(*load_constant(register, value))
    kinds = [compressed] * 5 + [word] * 4 + [bits] * 3 + [jump] * 2 + [atomic]
    for _ in range(count):
        code += chance.choice(kinds)(chance) if chance.random() < 0.98 else halves(0x100F)
    # write(1, 0, END); exit(0)
    for register, value in (10, 1), (11, 0), (12, END), (17, 64):
        code += halves(*load_constant(register, value))
    code += halves(0x73, i_type(93, 0, 0, 17), i_type(0, 0, 0, 10), 0x73)
    assert CODE + 2 * len(code) <= 0x2000
    memory = bytearray(chance.getrandbits(8) for _ in range(END))
    memory[CODE:CODE + 2 * len(code)] = struct.pack(f"<{len(code)}H", *code)
    return bytes(memory)


def made_of(access):
    """An access of QEMU, as the accesses of the definitions: one that is misaligned is made by
    bytes, and a store then tries each byte before: it reads it, and writes it as it is."""
    kind, address, size = access[0], int(access[1:11], 16), int(access[12:])
    if address % size == 0:
        return [access]
    each = [f"0x{address + i:08x}/1" for i in range(size)]
    reads, writes = ["r" + x for x in each], ["w" + x for x in each]
    if kind == "r":
        return reads
    return [x for pair in zip(reads, writes) for x in pair] + writes


def fetch_of(memory, pc):
    """The reads of the fetch: a half-word, and the second one where there is one."""
    low = int.from_bytes(memory[pc:pc + 2], "little")
    return low, [f"r0x{a:08x}/2" for a in ([pc, pc + 2] if low % 4 == 3 else [pc])]


def difference(steps, lines, memory, left):
    """The first step in which the definitions differ from QEMU, or None. The accesses of extension
    A are not compared."""
    registers = list(steps[0][1])
    for number, ((pc, wanted, accesses), line) in enumerate(zip(steps, lines)):
        m = re.fullmatch(r"0x(\w+) (Ok|EnvironmentCall 0x\w+) (-|x(\d+))=0x(\w+) (\S+)", line)
        if not m or int(m[1], 16) != pc or wanted != registers:
            return f"step {number}: {line}: registers or pc"
        low, fetch = fetch_of(memory, pc)
        made = [a.split("=")[0] for a in m[6].split(",")]
        theirs = [x for a in accesses for x in made_of(a)]
        if made[:len(fetch)] != fetch or low % 128 != 0x2F and made[len(fetch):] != theirs:
            return f"step {number}: {line}: accesses, and QEMU makes {accesses}"
        if (m[2] == "Ok") != (low != 0x73):
            return f"step {number}: {line}: the answer"
        if low == 0x73:
            end = (f"end pc=0x{pc:08x} last=- regs={user.registers_words(wanted)} "
                   f"mem={user.memory_words(left)}")
            return None if lines[number + 1:] == [end] else f"the end: {lines[number + 1][:300]}"
        if m[4]:
            registers[int(m[4])] = int(m[5], 16)
    return f"{len(lines) - 1} steps, and QEMU makes {len(steps)}"


def compare(answers, room, plugin, seed, count):
    """Compares a random program, step by step: how many steps, and the first difference."""
    memory = random_program(seed, count)
    steps, left = user.qemu_log(room, plugin, CODE, [(0, memory)])
    pc, registers, _ = steps[0]
    asked = user.question(f"hart {PROFILE}", 2 * len(steps), pc, registers, [(0, memory)])
    return len(steps), difference(steps, user.ask(answers, [asked]), memory, left)

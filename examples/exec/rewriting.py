#!/usr/bin/env python3
"""Runs random programs that store into their own code, by rrs exec, by rrs trace and by qemu-riscv32 with
-singlestep, where each instruction is fetched anew, as it is here. What a program writes, its status and
the pc of each step have to be the same; and rrs exec must end where rrs trace does, also at a limit.

usage: rewriting.py RRS FIRST COUNT

The programs are those of COUNT seeds from FIRST on. A loop goes through two pieces of code, which are
8192 bytes apart. In each round bytes, half-words and words are stored over its instructions of 16 and of
32 bits: over whole ones, over a half or a byte of one, two of 16 bits over one of 32, and one of 32 over
two of 16; and now and then any bits. Some are of Zba to Zbkb. Every fourth program has no
compressed code, and runs by --march rv32ima_zifencei, where these are illegal. One that comes to the limit is not run by qemu-riscv32. Each seed whose runs
differ has a line; the last line counts the programs, those that agree, and of these those that end by a
signal. What jumps or stores anywhere by chance may differ: here more of the memory is mapped. The status
is 0."""
import random
import re
import struct
import subprocess
import sys
import tempfile
from concurrent.futures import ThreadPoolExecutor
from pathlib import Path

START, DATA, ROWS, END = 0x10000, 0x14000, 0x14100, 0x15000
# Code changes these registers alone. x2 is the address of the data, x9 and x7 are those of the pieces, x6
# is that of the values that this round stores, and x4 counts rounds.
FREE = (8, 10, 11, 12, 13, 14, 15, 1, 5, 16, 17, 18, 19, 20, 21)
SMALL = FREE[:7]
CPU = "rv32,f=off,d=off,c={0},zba={0},zbb={0},zbs={0},zbc={0},zbkb={0}"
LIMIT = 10000
# The instructions of Zba to Zbkb: opcode, funct7, funct3, and rs2 or None where it is any.
BITS = (*((0x33, funct7, funct3, None) for funct7, row in (
            (0x10, (2, 4, 6)), (0x20, (4, 6, 7)), (5, (1, 2, 3, 4, 5, 6, 7)), (4, (4, 7)),
            (0x30, (1, 5)), (0x24, (1, 5)), (0x34, (1,)), (0x14, (1,))) for funct3 in row),
        (0x13, 0x30, 5, None), *((0x13, funct7, 1, None) for funct7 in (0x24, 0x34, 0x14)),
        (0x13, 0x24, 5, None), (0x33, 4, 4, 0), (0x13, 0x14, 5, 7), (0x13, 0x34, 5, 24),
        (0x13, 0x34, 5, 7), (0x13, 4, 1, 15), (0x13, 4, 5, 15),
        *((0x13, 0x30, 1, rs2) for rs2 in (0, 1, 2, 4, 5)))
LOG_BYTES = 1 << 20


def r_type(funct7, rs2, rs1, funct3, rd, opcode):
    return funct7 << 25 | rs2 << 20 | rs1 << 15 | funct3 << 12 | rd << 7 | opcode


def i_type(imm, rs1, funct3, rd, opcode):
    return (imm & 0xfff) << 20 | rs1 << 15 | funct3 << 12 | rd << 7 | opcode


def s_type(imm, rs2, rs1, funct3):
    return r_type(imm >> 5 & 0x7f, rs2, rs1, funct3, imm & 31, 0x23)


def branch(offset, rs2, rs1, funct3):
    return r_type(offset >> 6 & 0x40 | offset >> 5 & 0x3f, rs2, rs1, funct3,
                  offset & 0x1e | offset >> 11 & 1, 0x63)


def jump(offset, rd):
    return ((offset >> 20 & 1) << 31 | (offset >> 1 & 0x3ff) << 21 | (offset >> 11 & 1) << 20
            | (offset >> 12 & 0xff) << 12 | rd << 7 | 0x6f)


def scattered(offset, *places):
    """Bits of an offset, each at its place: pairs of both."""
    return sum((offset >> bit & 1) << place for bit, place in places)


def short_branch(offset, rs1, row):
    return row | (rs1 - 8) << 7 | scattered(
        offset, (8, 12), (4, 11), (3, 10), (7, 6), (6, 5), (2, 4), (1, 3), (5, 2))


def short_jump(offset, row):
    return row | scattered(offset, (11, 12), (4, 11), (9, 10), (8, 9), (10, 8), (6, 7), (7, 6), (3, 5),
                           (2, 4), (1, 3), (5, 2))


def constant(rd, value):
    high = value + 0x800 & 0xfffff000
    return high | rd << 7 | 0x37, i_type(value - high, rd, 0, rd, 0x13)


def words(*code):
    return struct.pack(f"<{len(code)}I", *code)


class Program:
    """The program of a seed."""

    def __init__(self, seed):
        self.random = random.Random(seed)
        self.some, self.below = self.random.choice, self.random.randrange
        self.is_compressed = seed % 4 != 3
        self.rounds = self.below(2, 12)
        self.rows = []  # of each store the values of all rounds
        self.memory = bytearray(END - START)
        self.write()

    def short(self):
        """An instruction of 16 bits behind which the next one follows."""
        kind, rd, rs, imm = self.below(13), self.some(FREE), self.some(FREE), self.below(1, 32) << 2
        small, other, sign = self.some(SMALL) - 8 << 7, self.some(SMALL) - 8 << 2, self.below(2) << 12
        if kind < 3:  # c.addi, c.li and c.lui, also as hints
            return (0x0001, 0x4001, 0x6001)[kind] | imm | sign | self.some((rd, rd, rd, 0)) << 7
        if kind < 5:  # c.srli, c.srai and c.andi
            return self.some((0x8001 | imm, 0x8401 | imm, 0x8801 | imm | sign)) | small
        if kind < 7:  # c.sub, c.xor, c.or and c.and
            return 0x8c01 | small | self.below(4) << 5 | other
        if kind < 10:  # c.slli, c.mv and c.add
            return self.some((0x0002 | imm, 0x8002 | rs << 2, 0x9002 | rs << 2)) | rd << 7
        if kind == 10:  # c.lwsp and c.swsp, of the first 32 bytes
            return self.some((0x4002 | rd << 7 | imm & 0x70, 0xc002 | rs << 2 | self.below(8) << 9))
        if kind == 11:  # c.lw of the first piece
            return 0x4080 | other | self.below(8) << 10 | self.below(2) << 6
        return self.below(1, 256) << 5 | other  # c.addi4spn

    def low_half(self):
        """The lower half of a row of 32 bits that has any bits as its upper half."""
        rd = self.some(FREE) << 7
        if self.below(4) == 0:  # lui and auipc
            return self.some((0x37, 0x17)) | rd | self.below(16) << 12
        return 0x13 | rd | self.some((0, 2, 3, 4, 6, 7)) << 12 | self.below(2) << 15

    def long(self):
        """An instruction of 32 bits behind which the next one follows."""
        kind, offset, funct3 = self.below(12 if self.is_compressed else 8), self.below(60), self.below(8)
        rd, one, other = (self.some(FREE) for _ in range(3))
        if kind < 3:
            return r_type(self.some((0, 1, 0x20 if funct3 in (0, 5) else 0)), other, one, funct3, rd, 0x33)
        if kind == 3:
            funct7, funct3 = self.some(((0, 1), (0, 5), (0x20, 5)))
            return r_type(funct7, self.below(32), one, funct3, rd, 0x13)
        if kind == 4:  # of the data and of the pieces
            return i_type(offset, self.some((2, 9, 7)), self.some((0, 1, 2, 4, 5)), rd, 3)
        if kind == 5:
            return s_type(offset, one, 2, self.below(3))
        if kind == 6:
            return r_type(self.some((0, 1, 4, 8, 12, 16, 20, 24, 28)) << 2, one, 2, 2, rd, 0x2f)
        if kind > 7 or self.below(1000) == 0:
            opcode, funct7, funct3, rs2 = self.some(BITS)
            any_rs2 = other if opcode == 0x33 else self.below(32)
            return r_type(funct7, any_rs2 if rs2 is None else rs2, one, funct3, rd, opcode)
        return self.some((0x100f, 0xff0000f, self.low_half() | self.below(0x10000) << 16))

    def unit(self, kind):
        """The bytes of a unit: `S` has 16 bits, `B` 16 of which each byte may be another's, `L` 32, `H`
        32 of which the upper half is any, and `D` either 32 whose upper half is an instruction too, or
        two of 16."""
        if kind == "B":  # c.addi and c.li
            return bytes((self.below(64) << 2 | 1, self.some((0, 0x10, 0x40, 0x50)) | self.below(5, 11)))
        if kind == "S":
            return struct.pack("<H", self.short())
        if kind == "L":
            return words(self.long())
        if kind == "H":
            return struct.pack("<HH", self.low_half(), self.below(0x10000))
        return struct.pack("<HH", self.some((self.low_half(), self.short())), self.short())

    def part(self, kind):
        """Where a store over a unit begins in it, and of how many bytes it is."""
        if kind in "SB":
            return self.some(((0, 2), (0, 1), (1, 1))) if kind == "B" else (0, 2)
        return (0, 4) if kind == "L" else self.some(((0, 4), (0, 2), (2, 2)))

    def value(self, kind, begin, size):
        """What is stored over a part of a unit."""
        whole = self.unit(kind) if self.below(300) else self.random.randbytes(4)
        above = self.random.randbytes(4 - size)
        return int.from_bytes(whole[begin:begin + size] + above, "little")

    def store(self, at, base, register, units):
        """Stores a value of this round over a unit, often over the one behind it."""
        behind = [unit for unit in units if unit[0] == at + 8]
        target, kind = self.some(behind if behind and self.below(2) else units)
        begin, size = self.part(kind)
        offset, source = target + begin - base, self.some(SMALL)
        code = words(i_type(4 * len(self.rows), 6, 2, source, 3))
        self.rows.append([self.value(kind, begin, size) for _ in range(self.rounds)])
        if self.is_compressed and size == 4 and register == 9 and offset % 4 == 0 and offset < 128:
            store = 0xc080 | source - 8 << 2 | offset << 7 & 0x1c00 | scattered(offset, (2, 6), (6, 5))
            return code + struct.pack("<HH", store, 0x0001)  # c.sw and c.nop
        return code + words(s_type(offset, source, register, size // 2))

    def transfer(self, at, size, to):
        """A branch or a jump."""
        if size == 2:
            return struct.pack("<H", self.some((
                short_branch(to - at, self.some(SMALL), self.some((0xc001, 0xe001))),
                short_jump(to - at, self.some((0x2001, 0xa001))))))
        funct3 = self.some((0, 1, 4, 5, 6, 7))
        return words(self.some((branch(to - at, self.some(FREE), self.some(FREE), funct3),
                                jump(to - at, self.some((0, 1, 5))))))

    def piece(self, base, register, follows):
        """A piece of code, and a jump to what follows."""
        kinds = "SSSBBLLHHDDD" if self.is_compressed else "LLH"
        plan = [self.some(kinds) for _ in range(self.below(8, 24))]
        for what in ["store"] * self.below(3, 9) + ["transfer"] * self.below(1, 5):
            plan.insert(self.below(len(plan) + 1), what)
        places, at = [], base
        for what in plan:
            size = {"S": 2, "B": 2, "store": 8}.get(what, 4)
            if what == "transfer" and self.is_compressed:
                size = self.some((2, 4))
            places.append((at, what, size))
            at += size
        units = [(where, what) for where, what, _ in places if len(what) == 1]
        code = b""
        for index, (where, what, size) in enumerate(places):
            if what == "store":
                code += self.store(where, base, register, units)
            elif what == "transfer":
                later = [place[0] for place in places[index + 1:index + 6]]
                code += self.transfer(where, size, self.some([*later, at]))
            else:
                code += self.unit(what)
        self.place(base, code + words(jump(follows - at, 0)))

    def place(self, address, code):
        self.memory[address - START:address - START + len(code)] = code

    def write(self):
        """Writes the memory: the begin, the pieces, the end of a round, the data and the values."""
        step = 2 if self.is_compressed else 4
        near = START + self.below(0x800, 0x1000, step)
        far = near + 0x2000 + self.some((0, 0, 0, -step, step, self.below(0, 64, step)))
        end = 0x12800
        self.piece(near, 9, far)
        self.piece(far, 7, end)
        stride = 4 * len(self.rows)
        begin = [word for register, value in ((2, DATA), (9, near), (7, far), (6, ROWS), (4, self.rounds),
                                              *((free, self.below(1 << 32)) for free in FREE))
                 for word in constant(register, value)]
        self.place(START, words(*begin, jump(near - START - 4 * len(begin), 0)))
        saves = [s_type(64 + 4 * index, free, 2, 2) for index, free in enumerate(FREE)]
        calls = lambda number, first, length: [
            *constant(11, first), *constant(12, length), i_type(1, 0, 0, 10, 0x13),
            i_type(number, 0, 0, 17, 0x13), 0x73]
        loads = [i_type(64 + 4 * index, 2, 2, free, 3) for index, free in enumerate(FREE)]
        code = [*saves, *calls(64, DATA, 128), *loads, i_type(stride, 6, 0, 6, 0x13),
                i_type(-1, 4, 0, 4, 0x13), branch(8, 0, 4, 0)]
        code.append(jump(near - end - 4 * len(code), 0))
        code += calls(64, near, 0x1200)
        code += [i_type(3, 0, 0, 10, 0x13), i_type(93, 0, 0, 17, 0x13), 0x73]
        self.place(end, words(*code))
        self.place(DATA, self.random.randbytes(64))
        self.place(ROWS, words(*(row[at] for at in range(self.rounds) for row in self.rows)))

    def elf(self):
        """An executable of one segment, which may be read, written and executed."""
        head = struct.pack("<4s12xHHIIIIIHHHHHH", b"\x7fELF", 2, 243, 1, START, 52, 0,
                           int(self.is_compressed), 52, 32, 1, 0, 0, 0)
        head = head[:4] + b"\1\1\1" + head[7:]
        segment = struct.pack("<8I", 1, 0x1000, START, START, len(self.memory), len(self.memory), 7, 0x1000)
        return (head + segment).ljust(0x1000, b"\0") + self.memory


def run(*command):
    """What a command prints, its status as the shell has it, and what is on standard error. No file that
    it writes becomes large."""
    limited = ["prlimit", f"--fsize={LOG_BYTES}", *map(str, command)]
    done = subprocess.run(limited, stdin=subprocess.DEVNULL, capture_output=True, timeout=60, check=False)
    status = done.returncode if done.returncode >= 0 else 128 - done.returncode
    return done.stdout, status, done.stderr.decode()


def numbers(pattern, text):
    return [int(number, 16) for number in re.findall(pattern, text, re.M)]


def differs(rrs, program, room):
    """How the runs of a program differ, or nothing, and its status."""
    file, steps, log = room / "program", room / "steps", room / "log"
    file.write_bytes(program.elf())
    file.chmod(0o700)
    march = [] if program.is_compressed else ["--march", "rv32ima_zifencei"]
    fast = run(rrs, "exec", "--limit", LIMIT, *march, file)
    slow = run(rrs, "trace", "--limit", LIMIT, *march, "--output", steps, file)
    if fast != (*slow[:2], slow[2].replace("rrs trace:", "rrs exec:")):
        return f"by rrs trace: {fast[1:]}, {slow[1:]}", 0
    if fast[1] == 124:
        return "", 0
    cpu = CPU.format("on" if program.is_compressed else "off")
    other = run("qemu-riscv32", "-singlestep", "-cpu", cpu, "-d", "exec,nochain", "-D", log, file)
    if fast[:2] != other[:2]:
        return f"by qemu-riscv32: {fast[1:]}, {other[1:]}", 0
    pcs = numbers(r"^core +0: 3 0x([0-9a-f]+)", steps.read_text())
    # qemu-riscv32 has no line for what it can't fetch
    last = [] if "FetchError" in fast[2] else numbers(r": at pc 0x([0-9a-f]+)", fast[2])
    if pcs + last != numbers(r"^Trace .*/([0-9a-f]+)/.*/", log.read_text()):
        return "in the pcs by qemu-riscv32", 0
    limit = program.below(len(pcs))
    said = run(rrs, "exec", "--limit", limit, *march, file)[2]
    wanted = f"rrs exec: at pc 0x{pcs[limit]:08x}, after {limit} steps\nrrs exec: limit\n"
    return "" if said == wanted else f"at a limit: {said}, and not {wanted}", fast[1]


def tried(rrs, seed):
    with tempfile.TemporaryDirectory() as room:
        return seed, *differs(rrs, Program(seed), Path(room))


def main():
    rrs, first, count = sys.argv[1], int(sys.argv[2]), int(sys.argv[3])
    with ThreadPoolExecutor(4) as threads:
        ends = list(threads.map(lambda seed: tried(rrs, seed), range(first, first + count)))
    for seed, how, _ in ends:
        if how:
            print(f"seed {seed} differs {how}")
    agree = [status for _, how, status in ends if not how]
    print(f"{count} programs: {len(agree)} agree, {sum(status > 128 for status in agree)} end by a signal")


if __name__ == "__main__":
    main()

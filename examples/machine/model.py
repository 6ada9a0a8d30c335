#!/usr/bin/env python3
"""A model of a hart with machine mode, written from the RISC-V specifications and not from the code.

It makes the programs that the tests `generated_programs` and `generated_programs_with_user_mode` of
crates/tests_machine_mode make, from the same numbers, and runs them. What it prints are the tables
CHECKSUMS and USER_CHECKSUMS of those tests, with which tests/test_machine.py compares them.

usage: model.py

RV32IM here is what the programs use of it: loads, stores, addi, add, jumps and branches.
"""

GROUPS, PROGRAMS, STEPS, WORDS = 20, 500, 24, 64
MASK = 0xFFFFFFFF

NUMBERS = [0x300, 0x301, 0x304, 0x305, 0x310, 0x320, 0x340, 0x341, 0x342, 0x343, 0x344, 0xB00,
           0xB02, 0xB80, 0xB82, 0xB03, 0x323, 0xB9F, 0xC00, 0xC01, 0xC02, 0xC81, 0xF14, 0x180]

USER_NUMBERS = [0x300, 0x300, 0x300, 0x301, 0x304, 0x305, 0x306, 0x306, 0x30A, 0x31A, 0x320, 0x340,
                0x341, 0x342, 0x343, 0x344, 0xB00, 0xB02, 0xC00, 0xC01, 0xC02, 0xC80, 0xC82, 0xF14]


class Numbers:
    """Pseudo-random numbers of 24 bits: a linear congruence modulo 2^32."""

    def __init__(self, seed):
        self.state = seed

    def next(self):
        self.state = (self.state * 1664525 + 1013904223) & MASK
        return self.state >> 8


def sign(value, bits):
    return value - (1 << bits) if value >> (bits - 1) & 1 else value


def i_type(imm, rs1, funct3, rd, opcode):
    return (imm & 0xFFF) << 20 | rs1 << 15 | funct3 << 12 | rd << 7 | opcode


def s_type(imm, rs2, rs1, funct3):
    return (imm >> 5 & 0x7F) << 25 | rs2 << 20 | rs1 << 15 | funct3 << 12 | (imm & 31) << 7 | 0x23


def b_type(imm, rs2, rs1, funct3):
    return ((imm >> 12 & 1) << 31 | (imm >> 5 & 0x3F) << 25 | rs2 << 20 | rs1 << 15
            | funct3 << 12 | (imm >> 1 & 15) << 8 | (imm >> 11 & 1) << 7 | 0x63)


def j_type(imm, rd):
    return ((imm >> 20 & 1) << 31 | (imm >> 1 & 0x3FF) << 21 | (imm >> 11 & 1) << 20
            | (imm >> 12 & 0xFF) << 12 | rd << 7 | 0x6F)


# bits 31 to 27 of the instructions of extension A
FUNCT5 = [2, 3, 2, 3, 2, 3, 1, 0, 4, 12, 8, 16, 20, 24, 28]


def atomic_word(a, b, rd):
    funct5 = FUNCT5[a // 8 % 15]
    rs2 = 0 if funct5 == 2 and b // 128 % 8 else b % 8
    return (funct5 << 27 | (b // 8 % 4) << 25 | rs2 << 20 | [0, 0, 6, 7][b // 32 % 4] << 15
            | 2 << 12 | rd << 7 | 0x2F)


def make_word(numbers, csrs):
    """An instruction, of sixteen kinds."""
    kind, a, b, c = (numbers.next() for _ in range(4))
    kind, rd, rs1, imm = kind % 16, a % 8, b % 8, c
    if kind in (3, 4) and csrs is USER_NUMBERS:
        return atomic_word(a, b, rd)
    if kind < 5:
        return i_type(csrs[c % 24], rs1, [1, 2, 3, 5, 6, 7][a // 8 % 6], rd, 0x73)
    if kind == 5:
        return i_type(imm % 4096, rs1, 0, rd, 0x13)
    if kind == 6:
        return (c % 8) << 20 | rs1 << 15 | rd << 7 | 0x33
    if kind == 7:
        return i_type(imm % 288, 0, [0, 1, 2, 4, 5][b % 5], rd, 0x03)
    if kind == 8:
        return s_type(imm % 288, rd, 0, b % 3)
    if kind == 9:
        return j_type(imm % 64 * 2, rd)
    if kind == 10:
        return b_type(imm % 32 * 2, rd, rs1, b // 8 % 2)
    if kind == 11:
        return i_type(imm % 256, rs1, 0, rd, 0x67)
    if kind == 12:
        return 0x00000073 if c % 2 == 0 else 0x00100073
    if kind == 13:
        return 0x30200073
    if kind == 14:
        return 0x10500073 if c % 2 == 0 else 0x0000100F
    return (c << 8 | a % 256) & MASK


class Trap(Exception):
    def __init__(self, cause, value):
        super().__init__()
        self.cause, self.value = cause, value


class Hart:
    """A hart with its CSRs, over words at address 0. `user` says whether it has user mode and A."""

    # number -> (field, bits that are written)
    HELD = {0x300: ("mstatus", 0x88), 0x304: ("mie", 0x888), 0x305: ("mtvec", MASK & ~2),
            0x320: ("mcountinhibit", 5), 0x340: ("mscratch", MASK), 0x341: ("mepc", MASK & ~3),
            0x342: ("mcause", MASK), 0x343: ("mtval", MASK)}
    FIXED = {0x300: 0x1800}
    ALWAYS = {0x301: 0x40001100, 0x310: 0, 0xF11: 0, 0xF12: 0, 0xF13: 0, 0xF14: 0, 0xF15: 0}
    # with user mode
    USER_HELD = {0x300: ("mstatus", 0x221888), 0x306: ("mcounteren", 7)}
    USER_ALWAYS = {0x301: 0x40101101, 0x30A: 0, 0x31A: 0}

    def __init__(self, numbers, user):
        self.bytes, self.user, self.mode = bytearray(), user, 3
        self.held = {**self.HELD, **self.USER_HELD} if user else self.HELD
        self.fixed = {} if user else self.FIXED
        self.always = {**self.ALWAYS, **self.USER_ALWAYS} if user else self.ALWAYS
        for _ in range(WORDS):
            word = make_word(numbers, USER_NUMBERS if user else NUMBERS)
            self.bytes += word.to_bytes(4, "little")
        self.x = [0] * 32
        for register in range(1, 8):
            high, low = numbers.next(), numbers.next()
            self.x[register] = (high << 8 ^ low) & MASK
        self.pc = 0
        self.csr = {"mstatus": numbers.next() & 0x88, "mie": numbers.next() & 0x888,
                    "mtvec": numbers.next() % 32 * 4 + numbers.next() % 2, "mscratch": 0,
                    "mepc": numbers.next() % 32 * 4, "mcause": 0, "mtval": 0, "mcountinhibit": 0,
                    "mcounteren": 0}
        self.cycle, self.instret = numbers.next() << 20, numbers.next() << 20
        if user:
            told = numbers.next()
            self.mode = 0 if told % 2 == 0 else 3
            self.csr["mcounteren"] = told >> 1 & 7
            self.csr["mstatus"] |= (told >> 4 & 1) * 0x1800 | told & 0x220000
            self.x[6] = numbers.next() % 80 * 4
            self.x[7] = numbers.next() % 256
        self.mip = self.time = 0
        self.reserved = MASK

    def read_csr(self, number):
        if self.mode == 0 and (number >> 8 & 3 or not self.csr["mcounteren"] >> (number & 31) & 1):
            raise LookupError
        if number in self.held:
            field, mask = self.held[number]
            return self.csr[field] & mask | self.fixed.get(number, 0)
        if number in self.always:
            return self.always[number]
        if 0x323 <= number <= 0x33F or 3 <= number - 0xB00 < 32 or 3 <= number - 0xB80 < 32:
            return 0
        counters = {0: self.cycle, 1: self.time, 2: self.instret}
        which, half = number & 0x1F, number & 0x80
        if number == 0x344:
            return self.mip
        if number & ~0x9F in (0xB00, 0xC00) and which in counters:
            if number & 0xF00 == 0xC00 or which != 1:
                return counters[which] >> (32 if half else 0) & MASK
        raise LookupError

    def write_csr(self, number, value):
        """Writes a CSR, and tells which counter it was, if it was one."""
        if number in self.held:
            field, mask = self.held[number]
            if field == "mstatus" and value >> 11 & 3 in (1, 2):
                value = value & ~0x1800 | self.csr[field] & 0x1800
            self.csr[field] = value & mask
        elif number in (0xB00, 0xB80):
            self.cycle = (self.cycle & MASK | value << 32 if number & 0x80
                          else self.cycle >> 32 << 32 | value)
            return "cycle"
        elif number in (0xB02, 0xB82):
            self.instret = (self.instret & MASK | value << 32 if number & 0x80
                            else self.instret >> 32 << 32 | value)
            return "instret"
        return None

    def trap(self, cause, value, interrupt):
        mstatus, mtvec = self.csr["mstatus"], self.csr["mtvec"]
        kept = mstatus & 0x220000 | self.mode << 11 if self.user else 0
        self.csr.update(mstatus=(mstatus >> 3 & 1) << 7 | kept, mepc=self.pc & ~3 & MASK,
                        mcause=cause | interrupt << 31, mtval=value)
        self.mode = 3
        base = mtvec & ~3
        self.pc = (base + 4 * cause if interrupt and mtvec & 1 else base) & MASK

    def load(self, address, size, cause):
        if address % size:
            raise Trap(cause - 1, address)
        if address + size > len(self.bytes):
            raise Trap(cause, address)
        return int.from_bytes(self.bytes[address:address + size], "little")

    def store(self, address, size, value):
        if address % size:
            raise Trap(6, address)
        if address + size > len(self.bytes):
            raise Trap(7, address)
        self.bytes[address:address + size] = (value & (1 << 8 * size) - 1).to_bytes(size, "little")

    def go(self, target, rd=0):
        if target % 4:
            raise Trap(0, target)
        link = (self.pc + 4) & MASK
        if rd:
            self.x[rd] = link
        return target

    def zicsr(self, word, rs1, funct3, rd):
        """An instruction on a CSR. What it answers is the counter that it wrote."""
        number, operand = word >> 20, rs1 if funct3 >= 4 else self.x[rs1]
        writes = funct3 % 4 == 1 or rs1 != 0
        try:
            old = self.read_csr(number)
        except LookupError:
            raise Trap(2, word) from None
        if writes and number >> 10 == 3:
            raise Trap(2, word)
        new = {1: operand, 2: old | operand, 3: old & ~operand & MASK}[funct3 % 4]
        if rd:
            self.x[rd] = old
        return (number, new) if writes else None

    def atomic(self, word):
        """An instruction of extension A: what rd gets."""
        funct5, address, operand = word >> 27, self.x[word >> 15 & 31], self.x[word >> 20 & 31]
        held, kind = self.reserved == address, 4 if funct5 == 2 else 6
        if funct5 == 3:
            self.reserved = MASK
        if address % 4:
            raise Trap(kind, address)
        if funct5 == 3:
            if held:
                self.store(address, 4, operand)
            return int(not held)
        old = self.load(address, 4, kind + 1)
        if funct5 == 2:
            self.reserved = address
            return old
        a, b = sign(old, 32), sign(operand, 32)
        self.store(address, 4, {
            0: old + operand, 1: operand, 4: old ^ operand, 8: old | operand, 12: old & operand,
            16: min(a, b), 20: max(a, b), 24: min(old, operand), 28: max(old, operand)}[funct5])
        return old

    def execute(self, word):
        """Executes a word: the next pc, and the write of a CSR, if there is one."""
        opcode, rd, funct3 = word & 0x7F, word >> 7 & 31, word >> 12 & 7
        rs1, rs2, funct7 = word >> 15 & 31, word >> 20 & 31, word >> 25
        x, imm, after = self.x, sign(word >> 20, 12), (self.pc + 4) & MASK
        result = None
        if opcode == 0x13 or opcode == 0x33:
            result = alu(word, x[rs1], x[rs2] if opcode == 0x33 else imm & MASK)
        elif opcode == 0x37 or opcode == 0x17:
            result = (word & 0xFFFFF000) + (self.pc if opcode == 0x17 else 0)
        elif opcode == 0x03 and funct3 in (0, 1, 2, 4, 5):
            size = 1 << funct3 % 4
            result = self.load((x[rs1] + imm) & MASK, size, 5)
            if funct3 < 2:
                result = sign(result, 8 * size)
        elif opcode == 0x23 and funct3 < 3:
            self.store((x[rs1] + sign(funct7 << 5 | rd, 12)) & MASK, 1 << funct3, x[rs2])
        elif opcode == 0x6F:
            offset = sign((word >> 31) << 20 | (word >> 12 & 0xFF) << 12 | (word >> 20 & 1) << 11
                          | (word >> 21 & 0x3FF) << 1, 21)
            return self.go((self.pc + offset) & MASK, rd), None
        elif opcode == 0x67 and funct3 == 0:
            return self.go((x[rs1] + imm) & MASK & ~1, rd), None
        elif opcode == 0x63 and funct3 not in (2, 3):
            offset = sign((word >> 31) << 12 | (word >> 7 & 1) << 11 | (word >> 25 & 0x3F) << 5
                          | (word >> 8 & 15) << 1, 13)
            a, b = (x[rs1], x[rs2]) if funct3 >= 6 else (sign(x[rs1], 32), sign(x[rs2], 32))
            if (a == b if funct3 < 2 else a < b) != bool(funct3 & 1):
                return self.go((self.pc + offset) & MASK), None
        elif opcode == 0x0F and funct3 < 2:
            pass
        elif self.user and opcode == 0x2F and funct3 == 2 and (
                rs2 == 0 if funct7 >> 2 == 2 else funct7 >> 2 in FUNCT5):
            result = self.atomic(word)
        elif word == 0x00000073:
            raise Trap(11 if self.mode == 3 else 8, 0)
        elif word == 0x00100073:
            raise Trap(3, self.pc)
        elif word == 0x30200073 and self.mode == 3:
            mstatus = self.csr["mstatus"]
            if self.user:
                self.mode = mstatus >> 11 & 3
            kept = mstatus & 0x220000 if self.mode == 3 else mstatus & 0x200000
            self.csr["mstatus"] = 0x80 | (mstatus >> 7 & 1) << 3 | (kept if self.user else 0)
            return self.csr["mepc"] & ~3, None
        elif opcode == 0x73 and funct3 % 4:
            return after, self.zicsr(word, rs1, funct3, rd)
        elif word != 0x10500073 or self.mode == 0 and self.csr["mstatus"] & 0x200000:
            raise Trap(2, word)
        if result is not None and rd:
            x[rd] = result & MASK
        return after, None

    def step(self):
        inhibit = self.csr["mcountinhibit"]
        ready = self.mip & self.csr["mie"]
        if (self.csr["mstatus"] & 8 or self.mode == 0) and ready:
            self.trap(next(code for code in (11, 3, 7) if ready >> code & 1), 0, 1)
            return self.count(inhibit, False, None)
        try:
            if self.pc % 4:
                raise Trap(0, self.pc)
            word = self.load(self.pc, 4, 1)
            after, write = self.execute(word)
        except Trap as trap:
            self.trap(trap.cause, trap.value, 0)
            return self.count(inhibit, False, None)
        self.pc = after
        written = self.write_csr(*write) if write else None
        return self.count(inhibit, True, written)

    def count(self, inhibit, retired, written):
        if not inhibit & 1 and written != "cycle":
            self.cycle = (self.cycle + 1) % 2**64
        if retired and not inhibit & 4 and written != "instret":
            self.instret = (self.instret + 1) % 2**64

    def values(self):
        """All that a program left."""
        csr = self.csr
        yield from self.x[1:]
        yield from (self.pc, csr["mstatus"], csr["mie"], csr["mtvec"], csr["mscratch"], csr["mepc"])
        yield from (csr["mcause"], csr["mtval"], csr["mcountinhibit"])
        for counter in (self.cycle, self.instret):
            yield from (counter & MASK, counter >> 32)
        if self.user:
            yield from (self.mode, csr["mcounteren"], self.reserved)
        for at in range(0, len(self.bytes), 4):
            yield int.from_bytes(self.bytes[at:at + 4], "little")


def quotient(a, b):
    q = abs(a) // abs(b)
    return q if (a < 0) == (b < 0) else -q


def multiplied(funct3, a, b):
    """The M extension."""
    sa, sb = sign(a, 32), sign(b, 32)
    if funct3 < 4:
        return [sa * sb, sa * sb >> 32, sa * b >> 32, a * b >> 32][funct3]
    if b == 0:
        return MASK if funct3 < 6 else a
    if funct3 % 2:
        return a // b if funct3 == 5 else a % b
    return quotient(sa, sb) if funct3 == 4 else sa - quotient(sa, sb) * sb


def alu(word, a, b):
    """An operation on two values, with what is illegal of it."""
    funct3, funct7, has_registers = word >> 12 & 7, word >> 25, word & 0x20
    shifts = funct3 in (1, 5)
    if has_registers and funct7 == 1:
        return multiplied(funct3, a, b)
    allowed = {0: (0, 0x20), 5: (0, 0x20)}.get(funct3, (0,)) if has_registers else (
        {1: (0,), 5: (0, 0x20)}.get(funct3, range(128)))
    if funct7 not in allowed:
        raise Trap(2, word)
    other = funct7 == 0x20 and (shifts or has_registers)
    sa, sb, amount = sign(a, 32), sign(b, 32), b & 31
    return [a - b if other else a + b, a << amount, int(sa < sb), int(a < b), a ^ b,
            sa >> amount if other else a >> amount, a | b, a & b][funct3]


def mixed(checksum, value):
    return (checksum ^ value) * 16777619 & MASK


def run_program(numbers, checksum, user):
    hart = Hart(numbers, user)
    for time in range(STEPS):
        told = numbers.next()
        hart.mip = (told & 1) << 11 | (told >> 1 & 1) << 3 | (told >> 2 & 1) << 7
        if told >> 3 & 3:
            hart.mip = 0
        hart.time = told << 16 | time
        hart.step()
    for value in hart.values():
        checksum = mixed(checksum, value)
    return checksum


def checksum_of(group, user, programs=PROGRAMS):
    """The checksum of a group of programs."""
    numbers, checksum = Numbers(group + 1), 2166136261
    for _ in range(programs):
        checksum = run_program(numbers, checksum, user)
    return checksum


def main():
    """Prints the tables."""
    for user in (False, True):
        for group in range(GROUPS):
            value = checksum_of(group, user)
            print(f"    0x{value >> 16:04x}_{value & 0xFFFF:04x},")
        print()


if __name__ == "__main__":
    main()

#!/usr/bin/env python3
"""The questions that every face is asked, beside the stored ones of rrs-replay: `make` stores them.

Each kind has a function below. The numbers are the same in each run. README.md has the forms.
"""
import random

EDGES = [0, 1, 2, 3, 31, 0x7F, 0x80, 0xFF, 0x7FFF, 0x8000, 0xFFFF8000, 0x7FFFFFFF, 0x80000000,
         0x80000001, 0xFFFFFFFE, 0xFFFFFFFF]
BASES = [0, 0, 0x80000000, 0x10000, 0x7FFFFFF0, 0xFFFFFF00]
LIMITS = [2**32, 2**32 + 7, 2**63, 2**64 - 1]
ORDERS = [0, 1, 2**31, 2**32 - 1, 2**32, 2**32 + 1, 0x123456789ABCDEF0, 2**64 - 1]

I, S, B, U, J = (0xFFF << 20 | 31 << 15 | 31 << 7, 0x7F << 25 | 31 << 20 | 31 << 15 | 31 << 7,
                 0x7F << 25 | 31 << 20 | 31 << 15 | 31 << 7, 0xFFFFF << 12 | 31 << 7,
                 0xFFFFF << 12 | 31 << 7)
R = 31 << 20 | 31 << 15 | 31 << 7


def rows():
    """The bits of each row that are fixed, and those that are free."""
    for funct3 in range(8):
        yield funct3 << 12 | 0x33, R
        yield 1 << 25 | funct3 << 12 | 0x33, R
        if funct3 not in (1, 5):
            yield funct3 << 12 | 0x13, I
    yield from ((bits, R) for bits in (0x40000033, 0x40005033, 0x00001013, 0x00005013, 0x40005013))
    yield from ((funct3 << 12 | 0x63, B) for funct3 in (0, 1, 4, 5, 6, 7))
    yield from ((funct3 << 12 | 0x03, I) for funct3 in (0, 1, 2, 4, 5))
    yield from ((funct3 << 12 | 0x23, S) for funct3 in (0, 1, 2))
    yield from ((0x37, U), (0x17, U), (0x6F, J), (0x67, I), (0x0F, I), (0x73, 0), (0x00100073, 0))


ROWS = list(rows())
assert len(ROWS) == 48
LOADS_AND_STORES = [row for row in ROWS if row[0] & 0x5F == 3]
PLAIN = [row for row in ROWS if row[0] & 0x7F in (0x13, 0x33, 0x37, 0x17, 0x0F)]


# The numbers of CSRs that there are, of some that there are not, and those beside a range.
CSR_NUMBERS = [0x300, 0x301, 0x304, 0x305, 0x310, 0x320, 0x340, 0x341, 0x342, 0x343, 0x344, 0xB00,
               0xB02, 0xB80, 0xB82, 0xC00, 0xC01, 0xC02, 0xC80, 0xC81, 0xC82, 0xF11, 0xF12, 0xF13,
               0xF14, 0xF15, 0x323, 0x33F, 0xB03, 0xB1F, 0xB83, 0xB9F, 0, 1, 0x100, 0x302, 0x303,
               0x306, 0x321, 0x322, 0x345, 0x723, 0x7A0, 0xB01, 0xB20, 0xB81, 0xBA0, 0xC03, 0xC9F,
               0xF10, 0xF16, 0xFFF]
MRET, WFI = 0x30200073, 0x10500073


def hexed(value):
    return f"0x{value % 2**32:08x}"


class Questions:
    def __init__(self, seed):
        self.random = random.Random(seed)

    def value(self):
        if self.random.random() < 0.5:
            return self.random.choice(EDGES)
        return self.random.getrandbits(32)

    def word(self, rows):
        """A word of one of these rows."""
        fixed, free = self.random.choice(rows)
        return fixed | self.random.getrandbits(32) & free

    def access(self, rd=None):
        """A load or a store by x1, near to where x1 points."""
        fixed, _ = self.random.choice(LOADS_AND_STORES)
        offset = self.random.choice([0, 0, 4, 8, -4, 1, 2, 3, 5, 6, -8, 12]) & 0xFFF
        other = self.random.randrange(32) if rd is None else rd
        if fixed & 0x20:
            return fixed | offset >> 5 << 25 | other << 20 | 1 << 15 | (offset & 31) << 7
        return fixed | offset << 20 | 1 << 15 | other << 7

    def forward(self):
        """A jump or a branch by 8 or 12 bytes."""
        by = self.random.choice([8, 12])
        if self.random.random() < 0.3:
            return by << 20 | self.random.choice([0, 5]) << 7 | 0x6F
        funct3 = self.random.choice([0, 1, 4, 5, 6, 7])
        registers = self.random.randrange(32) << 20 | self.random.randrange(32) << 15
        return by << 7 | registers | funct3 << 12 | 0x63

    def instruction(self):
        kind = self.random.randrange(10)
        if kind < 5:
            word = self.word(PLAIN)
            # x1 keeps the address of data
            return word if word >> 7 & 31 != 1 else word ^ 31 << 7
        if kind < 8:
            return self.access(self.random.randrange(2, 32))
        if kind < 9:
            return self.forward()
        return self.word(ROWS)

    def last(self):
        return self.random.choice(["-", "x1", "x31", f"x{self.random.randrange(1, 32)}"])

    def state(self, pc, place, words):
        """A hart, whose x1 has the address of some word or one beside them, and memory."""
        registers = [0] * 32
        for _ in range(32 if self.random.random() < 0.08 else 5):
            registers[self.random.randrange(32)] = self.value()
        registers[0] = self.random.choice([0, self.value()])
        registers[1] = place % 2**32
        listed = [f"x{n}={hexed(value)}" for n, value in enumerate(registers) if value]
        mem = ",".join(map(hexed, words)) or "-"
        return f"pc={hexed(pc)} last={self.last()} regs={','.join(listed) or '-'} mem={mem}"

    def program(self, make, count, end=()):
        """A question over memory: its place, the part of the words, and the state. `make` makes
        the words of the part."""
        base = self.random.choice(BASES)
        before, behind = self.random.choice([(0, 0), (0, 0), (1, 1), (3, 0), (0, 2)])
        part = [make() for _ in range(count)] + list(end)
        part += [self.value() for _ in range(self.random.randrange(4))]
        words = [self.value() for _ in range(before)] + part
        words += [self.value() for _ in range(behind)]
        place = base + 4 * self.random.randrange(count, len(part) + 1)
        place += self.random.choice([0, 0, 0, 0, 4 * (len(part) - count), 1, 2, -4 * len(part)])
        at = f"at={hexed(base)} part={before}:{len(part)}"
        return base, at, self.state(base, place, words)

    def fields(self):
        for fixed, free in ROWS:
            words = [fixed, fixed | free] + [fixed | self.random.getrandbits(32) & free
                                             for _ in range(4)]
            for word in sorted(set(words)):
                yield f"fields {hexed(word)}"
            # a bit that is fixed, the other way round
            yield f"fields {hexed(words[-1] ^ self.random.choice(self.bits_of(~free)))}"
        for word in (0, 0xFFFFFFFF, 0x0FF0000F, 0xFFF0000F, 0x00200073):
            yield f"fields {hexed(word)}"

    @staticmethod
    def bits_of(mask):
        return [1 << bit for bit in range(32) if mask >> bit & 1]

    def texts(self):
        """Those that are longest have 25 bytes: bltu and bgeu of two registers above x9."""
        for pc in (0, 0x100, 0x80000000, 0xFFFFFFFC, 0xFFFFFFFE):
            for word in (0x00B56463, 0xFEB57EE3, 0x01FFF463, 0x00B50463, 0xFFFFF06F, 0x0000000F):
                yield f"text {hexed(pc)} {hexed(word)}"
                yield f"decode {hexed(word)}"
        for word in (0, 0xFFFFFFFF, 0x00200073):
            yield f"text 0x00000000 {hexed(word)}"

    def requests(self):
        for _ in range(160):
            word = self.random.choice([self.access, self.access, self.access,
                                       lambda: self.word(ROWS)])()
            pc = self.random.choice([0, 0x80000000, 0xFFFFFFFC] * 4 + [2, 0x80000001])
            state = self.state(pc, self.random.choice([0x1000, 0xFFFFFFFC, self.value()]), [])
            yield f"request {hexed(word)} {state}"
            yield f"complete {hexed(word)} {hexed(self.value())} {state}"
            yield f"complete {hexed(word)} - {state}"
            order = self.random.choice(ORDERS)
            yield f"retire {order} {hexed(word)} {hexed(self.value())} {state}"
            yield f"retire {order} {hexed(word)} - {state}"

    def steps(self):
        for row in ROWS * 2:
            base, at, state = self.program(lambda: self.word([row]), 1)
            yield f"step {at} {state}"
        for _ in range(60):
            base, at, state = self.program(self.access, 1)
            yield f"step {at} {state}"
        yield f"step at=0x00000000 part=0:0 {self.state(0, 0, [])}"

    def records(self):
        for number, row in enumerate(ROWS * 4):
            base, at, state = self.program(lambda: self.word([row]), 1)
            yield f"rvfi {ORDERS[number % len(ORDERS)]} {at} {state}"
        for _ in range(120):
            base, at, state = self.program(self.access, 1)
            yield f"rvfi {self.random.getrandbits(64)} {at} {state}"
        for pc in (0, 0x80000002, 0xFFFFFFFC, 0x80000008):
            state = self.state(pc, 0, [0x13, 0x13])
            yield f"rvfi {2**40 + pc} at=0x80000000 part=0:2 {state}"
            yield f"rvfi32 {2**40 + pc} at=0x80000000 part=0:2 {state}"

    def jumps(self):
        """Jumps and branches, to addresses that are misaligned and to others."""
        for number, row in enumerate(ROWS):
            base, at, state = self.program(lambda: self.word([row]), 1)
            yield f"rvfi32 {ORDERS[number % len(ORDERS)]} {at} {state}"
        rows = [row for row in ROWS if row[0] & 0x7F in (0x63, 0x67, 0x6F)]
        for number in range(160):
            base, at, state = self.program(lambda: self.word([rows[number % len(rows)]]), 1)
            yield f"rvfi32 {number} {at} {state}"

    def runs(self):
        """Programs whose jumps go forward alone, so that they end; and loops, up to a limit."""
        ends = [0x00100073, 0x00000073, 0, 0xFFFFFFFF]
        for number in range(140):
            end = [self.random.choice(ends)]
            base, at, state = self.program(self.instruction_forward, 8, end)
            limit = self.random.choice([0, 1, 2, 3, 4, 5, 6, 7, 8, 9] + LIMITS * 3)
            yield f"run {limit} {at} {state}"
            yield f"until {limit} {self.stops(base)} {at} {state}"
        for limit in (1, 9, 1999, 2000, 2001, 4096, 65536, 70000):
            for loop in self.loops():
                yield f"run {limit} {loop}"
                yield f"until {limit} {self.stops(0x80000000)} {loop}"
                yield f"until {limit} 0x80000ffc {loop}"

    def instruction_forward(self):
        """An instruction after which the pc is greater."""
        while True:
            word = self.instruction()
            if word & 0x7F not in (0x63, 0x67, 0x6F) or word & 0x7F != 0x67 and self.is_forward(word):
                return word

    @staticmethod
    def is_forward(word):
        if word & 0x7F == 0x63:
            return word >> 31 == 0 and word & 0x7E000F00 != 0
        return word >> 31 == 0 and word & 0x7FFFF000 >= 1 << 22 and not word & 0xFF000

    def stops(self, base):
        count = self.random.choice([0, 1, 1, 2, 3, 5])
        near = [hexed(base + 4 * self.random.randrange(11)) for _ in range(count)]
        if count > 2:
            near[0] = self.random.choice(["0xffffffff", "0x00000002", "0x12345678"])
        return ",".join(near) or "-"

    def loops(self):
        """A count of rounds in x5, and a loop that changes the word before it."""
        at = "at=0x80000000 part=0:4"
        for words in ([0x00128293, 0x005303B3, 0xFF9FF06F, 0],
                      [0x00128293, 0x0050A023, 0x00129313, 0xFF5FF06F]):
            yield f"{at} {self.state(0x80000000, 0x80000000 + 4 * words.count(0) * 3, words)}"

    def ends_of_addresses(self):
        """Words that end with the addresses, and words that would lie past them."""
        for base, count in ((0xFFFFFFFC, 1), (0xFFFFFFFC, 3), (0xFFFFFFF8, 4), (0xFFFFFFF0, 4)):
            room = min(count, (2**32 - base) // 4)
            for word in (0x00108093, 0x0000A103, 0x0020A023, 0x0000006F, 0xFFDFF06F):
                words = [word] * count
                for place in (base, base + 4 * room - 4, 0, base - 4):
                    state = self.state(base + 4 * room - 4, place, words)
                    yield f"step at={hexed(base)} part=0:{count} {state}"
                    yield f"run 3 at={hexed(base)} part=0:{count} {state}"
                    yield f"until 3 0x00000000 at={hexed(base)} part=0:{count} {state}"
                    yield f"rvfi {2**64 - 1} at={hexed(base)} part=0:{count} {state}"


    # ---- machine mode, and steps that are taken back

    def csrs(self, mstatus=None, mie=None):
        """The fields of rrs_csrs: any word is a state of each register."""
        words = [self.value() for _ in range(8)]
        words[0] = self.random.choice([0, 8, 0x80, 0x88, self.value()])
        words[1] = self.random.choice([0, 0x888, self.value()])
        words[:2] = [words[0] if mstatus is None else mstatus, words[1] if mie is None else mie]
        words[2] = self.random.choice([0x80000100, 0x80000101, 0xFFFFFFFD, self.value()])
        words[7] = self.random.choice([0, 0, 1, 4, 5, self.value()])
        counters = [self.random.choice([0, 2**32 - 1, 2**64 - 1, self.random.getrandbits(64)])
                    for _ in range(2)]
        trapped = self.random.choice([0, 0, 1, 1, 2, 2**32 - 1])
        return ",".join(map(str, [*words, *counters, trapped]))

    def time(self):
        return self.random.choice([0, 2**32 - 1, 2**32, 2**64 - 1, self.random.getrandbits(64)])

    def on_csr(self, number, funct3):
        return number << 20 | self.random.choice([0, 0, 1, 31, self.random.randrange(32)]) << 15 \
            | funct3 << 12 | self.random.choice([0, 1, 31, self.random.randrange(32)]) << 7 | 0x73

    def machine(self, make, mip=0, **csrs):
        base, at, state = self.program(make, 1)
        order = self.random.choice(ORDERS)
        return f"machine {order} {hexed(mip)} {self.time()} {self.csrs(**csrs)} {at} {state}"

    def machine_steps(self):
        for number in CSR_NUMBERS:
            for funct3 in (1, 2, 3, 5, 6, 7):
                mip = self.random.choice([0, 0x888, self.value()])
                yield self.machine(lambda: self.on_csr(number, funct3), mip, mstatus=0)
        for word in [MRET, WFI, 0x100F, 0xFFFF9F8F, 0, 0x00200073, 0x30200173, 0x73, 0x100073]:
            for mip in (0, 8, 0x80, 0x800):
                yield self.machine(lambda: word, mip, mstatus=self.random.choice([0, 0x80]))
        for number, row in enumerate(ROWS):
            yield self.machine(lambda: self.word([row]), 0)
        for _ in range(60):
            yield self.machine(self.access, self.random.choice([0, 0, 0xFFFFF777]))
        jumps = [row for row in ROWS if row[0] & 0x7F in (0x63, 0x67, 0x6F)]
        for number in range(40):
            yield self.machine(lambda: self.word([jumps[number % len(jumps)]]))
        for mip in (0, 8, 0x80, 0x88, 0x800, 0x808, 0x880, 0x888, 0xFFFFF777, 0xFFFFFFFF):
            for mie in (0x888, 0x800, 0x80, 8, 0, 0xFFFFF777):
                mstatus = self.random.choice([8, 8, 0x88, 0])
                yield self.machine(lambda: 0x13, mip, mstatus=mstatus, mie=mie)
        for pc in (0x80000000, 0x80000002, 0x80000004, 0x80000008, 0xFFFFFFFC):
            state = self.state(pc, 0, [0x13, 0x13])
            yield f"machine {pc} 0x00000000 7 {self.csrs()} at=0x80000000 part=0:2 {state}"

    def csrs_by_number(self):
        for number in CSR_NUMBERS + [0x1300, 0x80000300, 0xFFFFFFFF]:
            mip = self.random.choice([0, 0x888, self.value()])
            yield f"csr {hexed(number)} {hexed(mip)} {self.time()} {self.csrs()}"
            for value in (0, 0xFFFFFFFF, self.value()):
                yield f"write {hexed(number)} {hexed(value)} {self.csrs()}"

    def changes(self):
        for row in ROWS * 2:
            base, at, state = self.program(lambda: self.word([row]), 1)
            yield f"noted {at} {state}"
        for _ in range(90):
            base, at, state = self.program(self.access, 1)
            yield f"noted {at} {state}"
        for _ in range(120):
            base, at, state = self.program(lambda: 0x13, 1)
            change = [self.value(), self.random.choice([0, 1, 31, 32, self.value()]),
                      self.random.choice([0, 1, 2, 31, 32, 256, 257, self.value()]), self.value(),
                      (base + self.random.choice([0, 0, 4, 4, 1, 2, 3, -4, 8, 64])) % 2**32,
                      self.random.choice([0, 1, 2, 4, 4, 3, self.value()]), self.value()]
            yield f"undo {','.join(map(str, change))} {at} {state}"


    # ---- runs over a cache that is kept

    def writes(self, count, places):
        """Words that are written from outside, most of them instructions, or none."""
        made = [f"{self.random.randrange(places)}:{hexed(self.instruction_forward())}"
                for _ in range(self.random.choice([0, count, count // 2]))]
        return ",".join(made) or "-"

    def cached(self):
        """Runs over one cache. Between them the words change, and other words are run."""
        for _ in range(110):
            end = [self.random.choice([0x00100073, 0x00000073, 0, 0xFFFFFFFF])]
            base, at, state = self.program(self.instruction_forward, 8, end)
            count = self.random.choice([1, 2, 3, 5])
            limits = ",".join(str(self.random.choice([0, 1, 2, 3, 4, 7, 2**64 - 1]))
                              for _ in range(count))
            yield f"cached {limits} {self.writes(count, 9)} {at} {state}"
            stops = self.stops(base)
            yield f"cached_until {limits} {stops} {self.writes(count, 9)} {at} {state}"
        yield f"cached 5,5 - at=0x00000000 part=0:0 {self.state(0, 0, [])}"
        pieces = ",".join(["100"] * 20)
        additions = [0x00128293, 0x00228293, 0x00A28293, 0xFFF28293]
        outside = ",".join(f"0:{hexed(additions[n % 4])}" for n in range(20))
        for loop in self.loops():
            for writes in ("-", outside):
                for limits in (pieces, "1,2,99,100,101,1999,2000,2001,4096", "50000"):
                    yield f"cached {limits} {writes} {loop}"
                    for stops in ("-", "0x80000000", "0x80000008,0x80001000", "0x80000ffc"):
                        yield f"cached_until {limits} {stops} {writes} {loop}"
        yield from self.cached_at_one_place()

    def cached_at_one_place(self):
        """Words that are 4 KiB apart have one place in a cache of 1,024 words."""
        words = [0x00128293, 0x7FD0006F] + [0] * 1022 + [0x00228293, 0xFFDFE06F]
        for writes in ("-", "0:0x00a28293", "1024:0x00a28293"):
            state = self.state(0x80000000, 0x80000000, words)
            yield f"cached 9,10,100,100 {writes} at=0x80000000 part=0:1026 {state}"

    @staticmethod
    def changing():
        """Loops that store into themselves: the base, the words, the values that x6 has in turn, and
        what x9 points to. Two of them lie over the end of a cache of 1,024 words, and the last two
        go between words that have one place there."""
        add, add_100, exchange, back = 0x00128293, 0x06428293, 0x00734333, 0xFF5FF06F
        in_turn = (add_100, add)
        base, at_end = 0x80000000, 0x80000FF8
        yield base, [add, 0x0064A023, exchange, back], in_turn, 0  # sw x6, 0(x9)
        yield base, [add, 0x00649123, exchange, back], (0x0642, 0x0012), 0  # sh x6, 2(x9)
        yield base, [add, 0x006480A3, exchange, back], (0xC2, 0x82), 0  # sb x6, 1(x9): xori
        yield base, [0x0064A023, add, exchange, back], in_turn, 4  # the next word
        yield base, [0x00649123, add, exchange, back], (0x0642, 0x0012), 4
        yield base, [0x006481A3, add, exchange, back], (0x06, 0x00), 4  # sb x6, 3(x9)
        yield base, [add, 0x0064A023, exchange, back], in_turn, 4  # the store itself
        yield base, [add, exchange, 0x0064A023, back], in_turn, 0  # the word that is jumped to next
        yield at_end, [add, 0x0064A023, exchange, back], in_turn, 0
        yield at_end + 4, [0x0064A023, add, exchange, back], in_turn, 4
        away, beyond = 0x7F50006F, [0] * 1020 + [0x01028293, 0xFFDFE06F]
        yield base, [add, 0x0064A023, exchange, away, *beyond], in_turn, 0
        yield base, [add, 0x0064A023, exchange, away, *beyond], in_turn, 4096

    def cached_changing(self):
        for base, words, (first, second), place in self.changing():
            registers = (f"x6={hexed(first)},x7={hexed(first ^ second)},"
                         f"x9={hexed(base + place)}")
            state = (f"at={hexed(base)} part=0:{len(words)} pc={hexed(base)} last=- "
                     f"regs={registers} mem={','.join(map(hexed, words))}")
            limits = "1,2,3,4,5,6,7,100,1000"
            yield f"cached {limits} - {state}"
            yield f"cached_until {limits} {hexed(base + 8)} - {state}"
            yield f"run 4001 {state}"


def main():
    questions = Questions(20261124)
    for kind in (questions.fields, questions.texts, questions.requests, questions.steps,
                 questions.records, questions.jumps, questions.runs, questions.ends_of_addresses,
                 questions.machine_steps, questions.csrs_by_number, questions.changes,
                 questions.cached, questions.cached_changing):
        for line in kind():
            print(line)


if __name__ == "__main__":
    main()

"""Generated programs, the same in each run: straight code with branches and jumps onward, counted
loops, loads and stores to data behind the code, and an end of each kind."""

CODE = 160
WORDS = 224
DATA = 4 * CODE
MASK = 0xFFFFFFFF
EDGES = [0, 1, 2, 0x7FFFFFFF, 0x80000000, MASK, 0xFFFF8000, 31]

# what stands before a loop or an end, so that no branch goes into the midst of it
NO_OPERATIONS = [0x00000013] * 2

# x1 has the address of the data, x2 is for jumps, and x3 counts the rounds of a loop
FREE = [0, *range(4, 32)]


class Numbers:
    """Numbers that look random (xorshift)."""

    def __init__(self, seed):
        self.state = (seed * 0x9E3779B9 + 0x2545F491) & MASK

    def below(self, bound):
        state = self.state
        state ^= state << 13 & MASK
        state ^= state >> 17
        state ^= state << 5 & MASK
        self.state = state
        return state % bound

    def pick(self, choices):
        return choices[self.below(len(choices))]

    def value(self):
        return self.pick(EDGES) if self.below(2) else self.below(MASK)


def r_type(funct7, funct3, rd, rs1, rs2):
    return funct7 << 25 | rs2 << 20 | rs1 << 15 | funct3 << 12 | rd << 7 | 0x33


def i_type(opcode, funct3, rd, rs1, imm):
    return (imm & 0xFFF) << 20 | rs1 << 15 | funct3 << 12 | rd << 7 | opcode


def s_type(funct3, rs1, rs2, imm):
    return (imm >> 5 & 0x7F) << 25 | rs2 << 20 | rs1 << 15 | funct3 << 12 | (imm & 31) << 7 | 0x23


def b_type(funct3, rs1, rs2, imm):
    high = (imm >> 12 & 1) << 31 | (imm >> 5 & 0x3F) << 25
    low = (imm >> 1 & 15) << 8 | (imm >> 11 & 1) << 7
    return high | rs2 << 20 | rs1 << 15 | funct3 << 12 | low | 0x63


def j_type(rd, imm):
    high = (imm >> 20 & 1) << 31 | (imm >> 1 & 0x3FF) << 21
    return high | (imm >> 11 & 1) << 20 | (imm >> 12 & 0xFF) << 12 | rd << 7 | 0x6F


def u_type(opcode, rd, value):
    return value & 0xFFFFF000 | rd << 7 | opcode


def constant(rd, value):
    """The two words that put a value into a register."""
    low = (value & 0xFFF) - (0x1000 if value & 0x800 else 0)
    return [u_type(0x37, rd, value - low), i_type(0x13, 0, rd, rd, low)]


def plain(numbers):
    """One word that goes to the next, or a few words on."""
    rd, funct3 = numbers.pick(FREE), numbers.below(8)
    rs1, rs2 = numbers.below(32), numbers.below(32)
    imm = numbers.below(4096) - 2048
    offset = 4 * numbers.below(WORDS - CODE)
    shape = numbers.below(10)
    if shape < 2:
        return r_type(1, funct3, rd, rs1, rs2)
    if shape == 2:
        return r_type(0x20 if funct3 in (0, 5) and imm < 0 else 0, funct3, rd, rs1, rs2)
    if shape == 3:
        if funct3 in (1, 5):
            imm = imm & 31 | (0x400 if funct3 == 5 and imm < 0 else 0)
        return i_type(0x13, funct3, rd, rs1, imm)
    if shape == 4:
        return u_type(numbers.pick([0x37, 0x17]), rd, numbers.value())
    if shape == 5:
        return i_type(0x03, numbers.pick([0, 1, 2, 4, 5]), rd, 1, offset)
    if shape < 8:
        return s_type(numbers.below(3), 1, rs2, offset)
    if shape == 8:
        funct3 = numbers.pick([0, 1, 4, 5, 6, 7])
        return b_type(funct3, rs1, rs2, 4 + 4 * numbers.below(3))
    return j_type(rd, 4 + 4 * numbers.below(3))


def loop(numbers):
    """A loop of some rounds over words that only go to the next."""
    body = []
    while len(body) < 6:
        word = plain(numbers)
        if word & 0x7F not in (0x63, 0x6F):
            body.append(word)
    body.append(i_type(0x13, 0, 3, 3, -1))
    back = b_type(1, 3, 0, -4 * len(body))
    return [*NO_OPERATIONS, i_type(0x13, 0, 3, 0, 1 + numbers.below(200)), *body, back]


def end(numbers):
    """The words of an end, one of nine kinds."""
    nowhere = constant(2, 0x20000000 + 4 * numbers.below(4096))
    exit_with = constant(10, numbers.value()) + constant(17, 93)
    return numbers.pick([
        [0x00100073],
        [numbers.pick([0, MASK, 0x0000007F])],
        [*exit_with, 0x00000073],
        [*constant(17, 500 + numbers.below(500)), 0x00000073],
        [*nowhere, i_type(0x67, 0, 1, 2, 0)],
        [*nowhere, i_type(0x03, 2, 5, 2, 0)],
        [*nowhere, s_type(2, 2, 5, 0)],
        [i_type(0x03, 2, 5, 1, 2)],
        [i_type(0x67, 0, 1, 0, 0x102)],
    ])


def make(number):
    """The bytes of a program."""
    numbers = Numbers(number + 1)
    words = constant(1, DATA)
    for _ in range(6):
        words += constant(numbers.pick(FREE[1:]), numbers.value())
    last = end(numbers)
    while len(words) < CODE - len(last) - 16:
        words += loop(numbers) if numbers.below(12) == 0 else [plain(numbers)]
    words += NO_OPERATIONS + last
    words += [0x00100073] * (CODE - len(words))
    words += [numbers.value() for _ in range(WORDS - CODE)]
    return b"".join(word.to_bytes(4, "little") for word in words)

#!/usr/bin/env python3
"""Lines of assembly for the comparison with GNU as.

usage: lines.py SEED COUNT            a source of so many statements, all of them right
       lines.py SEED COUNT changed    lines of such a source, cut short or with a byte changed
       lines.py SEED COUNT each       of so many lines each beginning, and each with one byte
                                      changed, at each place
       lines.py SEED COUNT .. layers  the same of instructions that are no row of the kit alone
       lines.py --short SEED COUNT    a source of so many statements, most of them compressed
       lines.py --short-refused       compressed instructions that are none, one a line
       lines.py --branches SEED COUNT FOLDER   so many sources of branches to labels that are
                                      about as far as a branch reaches
       lines.py --behind FOLDER       of each directive a source, one of which has a text behind it
                                      that it does not take
       lines.py --refused SOURCE ERRORS   the lines of a source that GNU as refuses, by the errors
                                      that it printed, but for those that docs/GNU-AS.md names;
                                      the status is 1 where there is one
"""
import random
import re
import sys

ABI = ("zero ra sp gp tp t0 t1 t2 s0 s1 a0 a1 a2 a3 a4 a5 a6 a7 "
       "s2 s3 s4 s5 s6 s7 s8 s9 s10 s11 t3 t4 t5 t6").split()
THREE = ("add sub sll slt sltu xor srl sra or and mul mulh mulhu mulhsu div divu rem "
         "remu").split()
IMMEDIATE = "addi slti sltiu xori ori andi".split()
SHIFTS = "slli srli srai".split()
LOADS = "lb lbu lh lhu lw".split()
STORES = "sb sh sw".split()
BRANCHES = "beq bne blt bltu bge bgeu".split()
SWAPPED = "bgt ble bgtu bleu".split()
AGAINST_ZERO = "beqz bnez blez bgez bltz bgtz".split()
OF_ONE = "mv not neg seqz snez sltz sgtz".split()
CSR_ROWS = "csrrw csrrs csrrc".split()
CSR_IMMEDIATE = "csrrwi csrrsi csrrci".split()
CSR_WRITES = "csrw csrs csrc".split()
ATOMIC = "sc.w amoswap.w amoadd.w amoxor.w amoand.w amoor.w amomin.w amomax.w amominu.w amomaxu.w".split()
BITS_OF_THREE = ("sh1add sh2add sh3add andn orn xnor max maxu min minu rol ror bclr bext binv "
                 "bset clmul clmulh clmulr packh").split()
BITS_OF_TWO = "clz ctz cpop sext.b sext.h zext.h orc.b rev8 brev8 zip unzip".split()
# those that GNU as 2.40 does not have
CONDITIONAL = "czero.eqz czero.nez".split()
BIT_SHIFTS = "rori bclri bexti binvi bseti".split()
ORDERS = ["", "", ".aq", ".rl", ".aqrl"]
COUNTERS = "rdcycle rdtime rdinstret rdcycleh rdtimeh rdinstreth".split()
CSRS = ("mstatus misa mie mtvec mstatush mcountinhibit mscratch mepc mcause mtval mip mcycle "
        "minstret mcycleh minstreth cycle time instret cycleh timeh instreth mvendorid marchid "
        "mimpid mhartid mconfigptr").split()
CSRS += [f"mhpm{kind}" for n in range(3, 32)
         for kind in (f"event{n}", f"counter{n}", f"counter{n}h")]
EIGHT = range(8, 16)
# compressed instructions with a wrong register, number or target, or that have no such name
SHORT_REFUSED = """
c.addi4spn a0, sp, 0|c.addi4spn a0, sp, 1024|c.addi4spn a0, sp, 2|c.addi4spn a0, sp, -4
c.addi4spn t0, sp, 4|c.addi4spn a0, a1, 4|c.addi4spn a0, 4|c.addi4spn a0, sp
c.lw t0, 4(a1)|c.lw a0, 4(t0)|c.lw a0, 128(a1)|c.lw a0, 2(a1)|c.lw a0, -4(a1)|c.lw a0, a1
c.lw a0, %lo(4)(a1)|c.lw a0, 4|c.lw a0, 4(a1|c.lw a0, 4(4)|c.sw x7, (x8)|c.sw x8, (x16)
c.sw a0, 128(a1)|c.sw a0, 3(a1)|c.sw a0, 4(a1), a2|c.nop 0|c.nop a0|c.addi a0, 32
c.addi a0, -33|c.addi a0, a1|c.addi a0, a0, 1|c.addi a0|c.addi a0, %lo(4)|c.addi a0, 0xffffffff
c.li a0, 32|c.li a0, -33|c.li a0, a1|c.li a0, later|c.li|c.addi16sp sp, 0|c.addi16sp sp, 512
c.addi16sp sp, -528|c.addi16sp sp, 8|c.addi16sp a0, 16|c.addi16sp 16|c.lui sp, 1|c.lui a0, 0
c.lui a0, 32|c.lui a0, 0xfffdf|c.lui a0, 0x100000|c.lui a0, -1|c.lui a0, %hi(4096)|c.srli t0, 1
c.srli a0, 0|c.srli a0, 32|c.srai a6, 1|c.srai a0, 0|c.srai a0, 32|c.slli a0, 0|c.slli a0, 32
c.slli a0, a0, 1|c.andi t0, 1|c.andi a0, 32|c.andi a0, -33|c.sub a0, t0|c.sub t0, a0
c.sub a0, a0, a1|c.xor a0, zero|c.xor a0, 1|c.or a0, x16|c.or x7, a0|c.and a0, sp|c.and a0
c.j a0, later|c.jal ra, later|c.beqz t0, . + 4|c.beqz a0, a1, . + 4|c.beqz a0|c.bnez sp, . + 4
c.lwsp zero, 4(sp)|c.lwsp a0, 4(a1)|c.lwsp a0, 256(sp)|c.lwsp a0, 2(sp)|c.lwsp a0, -4(sp)
c.lwsp a0, sp|c.swsp a0, 4(a1)|c.swsp a0, 256(sp)|c.swsp a0, 1(sp)|c.jr zero|c.jr (a0)|c.jr 0(a0)
c.jr|c.jalr zero|c.jalr ra, a0|c.mv a0, zero|c.mv a0, 1|c.mv a0|c.add a0, zero|c.add a0, a0, a1
c.add a0, 1|c.ebreak a0|c.none a0|c.addi4 a0, 1|c.flw a0, (a1)|c.fld a0, (a1)|c.ld a0, (a1)
""".replace("\n", "|").strip("|").split("|")
INFIX = "!! ! ^ | & + - * == != <> < > <= >= && ||".split()
# directives, and what each takes; `*` stands where the text goes
DIRECTIVES = [
    ".text*", ".data*", ".bss*", ".section .rodata*", '.section .x, "aw"*',
    '.section .x, "aw", @progbits*', ".word 1*", ".half 1*", ".byte 1*", ".dword 1*", '.ascii "a"*',
    '.asciz "a"*', '.string "a"*', ".fill 1, 1, 1*", ".align 2*", ".p2align 2, 0*", ".balign 4, 0, 4*",
    ".space 4, 1*", ".zero 4*", ".skip 4*", ".org 8*", ".equ a, 1*", ".set a, 1*", "a = 1*",
    ".comm a, 4, 4*", ".lcomm a, 4*",
    ".macro m a = 1, b:req junk:vararg*\n.endm", ".macro m\n.endm\n.purgem m*", ".rept 2*\n.endr",
    ".if 1*\n.endif", ".if 0\n.elseif 1*\n.endif", ".if 0\n.else*\n.endif", ".if 1\n.else*\n.endif",
    ".if 0\n.if 1\n.else*\n.endif\n.endif", ".if 1\n.endif*", ".if 1\n.endc*", ".if 1\n.elsec*\n.endc",
    ".ifdef a*\n.endif", ".ifndef a*\n.endif", '.ifeqs "a", "b"*\n.endif', '.ifnes "a", "b"*\n.endif',
    ".ifeq 0*\n.endif", ".iflt 0*\n.endif"]
EDGES = [0, 1, 2047, 2048, 2049, 4095, 4096, 0x7ffff7ff, 0x7ffff800, 0x7fffffff, 0x80000000,
         0xfffff7ff, 0xfffff800, 0xffffffff]

BRANCH = re.compile(rb"\s*([12]\s*:)?\s*(nop\s*;)?\s*b[a-z]+\s")
ADDRESS = re.compile(rb"\s*([12]\s*:)?\s*(nop\s*;)?\s*la\s")
OF_ZERO = re.compile(rb"\bli\s+(x0|zero)\b")
STATEMENT = re.compile(rb"\s*(?:\w+\s*:\s*|nop\s*;\s*)*([.a-z][.a-z0-9]*)\s+(.*)")
SYMBOL = re.compile(rb"(?<![\w.$%])(?:\.(?![\w.$])|[A-Za-z_][\w.$]*)")
NEGATED = re.compile(rb"-\s*[.A-Za-z_]")
NUMBERS = {name.encode() for name in [f"x{n}" for n in range(32)] + ABI + ["fp", "constant"] + CSRS}
TAKES_NUMBER = {name.encode() for name in IMMEDIATE + SHIFTS + BIT_SHIFTS + LOADS + STORES
                + ["lui", "auipc", "jalr", "li", "csrr"] + CSR_ROWS + CSR_IMMEDIATE
                + CSR_WRITES + [name + "i" for name in CSR_WRITES]}
TWO_PLACES = re.compile(rb"(?<![\w.$])\.(?![\w.$]).*(?<![\w.$])\.(?![\w.$])")
OPERATOR = re.compile(rb"[*/<>|&^!~=]|%(?!lo|hi|pcrel)")
MINUS_PLACE = re.compile(rb"[-~!]\s*\.(?![\w.$])")
PLACE_OPERATED = re.compile(rb"(?<![\w.$])\.(?![\w.$])\s*[*/<>|&^!~=%]")


class Source:
    def __init__(self, seed, is_apart=False, is_of_layers=False):
        self.random = random.Random(seed)
        # whether each statement is an instruction that is no row of the kit
        self.is_of_layers = is_of_layers
        # whether a line means the same wherever it stands
        self.is_apart = is_apart
        self.lines = []
        self.labels = 0
        self.since = 1000

    def register(self):
        number = self.random.randrange(32)
        return self.random.choice([f"x{number}", ABI[number], "fp" if number == 8 else ABI[number]])

    def written(self):
        """A register other than x0, of which GNU as makes an `addi` more at some values."""
        number = self.random.randrange(1, 32)
        return self.random.choice([f"x{number}", ABI[number]])

    def number(self, least, most):
        value = self.random.choice([least, most, 0, self.random.randint(least, most)])
        value = min(max(value, least), most)
        if value >= 0 and self.random.random() < 0.4:
            return hex(value)
        return str(value)

    def immediate(self):
        kind = self.random.randrange(8)
        if kind == 0:
            return f"%lo({self.word()})"
        if kind == 1:
            return f"%lo(constant + {self.random.randrange(100)})"
        return self.number(-2048, 2047)

    def word(self):
        value = self.random.choice([self.random.getrandbits(32), self.random.choice(EDGES)])
        return self.random.choice([str(value), hex(value)])

    def operated(self):
        """A value of small numbers, with operators next to one another."""
        text = str(self.random.randrange(16))
        for _ in range(self.random.randrange(1, 6)):
            signs = [self.random.choice("-~!") for _ in range(self.random.choice([0, 0, 1, 1, 2]))]
            text += self.random.choice(INFIX) + "".join(signs) + str(self.random.randrange(16))
        return text

    def separator(self):
        return self.random.choice([",", ", ", " , ", ",\t"])

    def join(self, *operands):
        return self.separator().join(operands)

    def near(self):
        """A target in the reach of a branch: one of the latest labels, one to come, or by `.`."""
        kind = self.random.randrange(2 if self.is_apart else 5)
        if kind == 0:
            return f". + {4 * self.random.randrange(500)}"
        if kind == 1:
            return f". - {4 * self.random.randrange(500)}"
        if kind == 2:
            return self.random.choice(["1b", "2b", "1f", "2f"])
        if kind == 3:
            return f"near{self.labels}"
        return f"near{self.labels - 1} + {4 * self.random.randrange(3)}"

    def statement(self):
        r, join = self.register, self.join
        kind = self.random.randrange(21 if self.is_apart else 23)
        pick = self.random.choice
        if kind < 4:
            return f"{pick(THREE)} {join(r(), r(), r())}"
        if kind < 6:
            return f"{pick(IMMEDIATE)} {join(r(), r(), self.immediate())}"
        if kind == 6:
            return f"{pick(SHIFTS)} {join(r(), r(), self.number(0, 31))}"
        if kind == 7:
            return f"{pick(LOADS)} {join(r(), f'{self.immediate()}({r()})')}"
        if kind == 8:
            return f"{pick(STORES)} {join(r(), f'{self.immediate()}({r()})')}"
        if kind == 9:
            return f"{pick(LOADS + STORES)} {join(r(), f'({r()})')}"
        if kind == 10:
            upper = pick([self.number(0, 0xfffff), f"%hi({self.word()})"])
            return f"{pick(['lui', 'auipc'])} {join(r(), upper)}"
        if kind == 11:
            return f"{pick(BRANCHES)} {join(r(), r(), self.near())}"
        if kind == 12:
            return f"{pick(SWAPPED)} {join(r(), r(), self.near())}"
        if kind == 13:
            return f"{pick(AGAINST_ZERO)} {join(r(), self.near())}"
        if kind == 14:
            return pick([f"jal {join(r(), self.near())}", f"jal {self.near()}", f"j {self.near()}"])
        if kind == 15:
            return pick([f"jalr {join(r(), f'{self.immediate()}({r()})')}", f"jalr {r()}",
                         f"jalr {join(r(), r(), self.immediate())}", f"jr {r()}",
                         f"jalr {join(r(), r())}"])
        if kind == 16:
            value = pick([self.word(), self.number(-2**31, 2**31 - 1), "constant"])
            return f"li {join(self.written(), value)}"
        if kind == 17:
            return f"{pick(OF_ONE)} {join(r(), r())}"
        if kind == 18:
            sets = [s for n in range(1, 16) for s in ["".join(c for i, c in enumerate("iorw")
                                                             if n >> (3 - i) & 1)]]
            return pick(["nop", "ret", "fence", "ecall", "ebreak",
                         f"fence {join(pick(sets), pick(sets))}"])
        if kind == 19:
            place = pick(["first", "last", "first + 8", "last - 4"])
            return pick([f"la {join(r(), place)}", f"call {place}", f"tail {place}"])
        if kind == 20:
            return self.layer()
        if kind == 21:
            return pick([
                f".word {join(self.word(), 'last - first', '-1', 'constant')}",
                f".half {join(self.number(-32768, 65535), self.number(0, 65535))}",
                f".byte {join(self.number(-128, 255), self.number(0, 255), hex(7), '0b11')}",
                '.ascii "a;#b", "\\n\\t\\\\\\""',
                '.string "abc"', '.asciz "abcdefg"',
                f".space {4 * self.random.randrange(5)}", f".zero {4 * self.random.randrange(5)}",
                f".space {4 * self.random.randrange(5)}, {self.number(0, 255)}",
                ".balign 4", ".p2align 2", ".align 3", ".balign 16",
                ".text", ".globl first", f".word {self.word()} - 4 + 2"])
        return pick([f".word constant - {self.random.randrange(9)}",
                     f".equ constant, {self.number(-2048, 2047)}",
                     f".set constant, {self.number(0, 5000)} + 3",
                     f".word {join(self.operated(), self.operated())}",
                     f".word near{self.labels}, last"])

    def among(self, numbers):
        """One of the registers with these numbers."""
        number = self.random.choice(numbers)
        return self.random.choice([f"x{number}", ABI[number]])

    def times(self, step, least, most):
        """A multiple of a step, and not 0 where neither end is."""
        number = step * int(self.number(least // step, most // step), 0)
        return str(number or (least if least * most < 0 and step > 2 else 0))

    def target(self):
        """The last label above, or the next."""
        return f"near{self.labels - self.random.choice([0, 1])}"

    def short(self):
        """A compressed instruction."""
        r, join, pick, times = self.register, self.join, self.random.choice, self.times
        eight, other = self.among(EIGHT), self.among(EIGHT)
        stack, not_zero = self.among([2]), self.among(range(1, 32))
        near = pick([self.target(), f". + {times(2, -256, 254)}"])
        far = pick([self.target(), f". + {times(2, -2048, 2046)}"])
        return pick([
            f"c.addi4spn {join(eight, stack, times(4, 4, 1020))}",
            f"{pick(['c.lw', 'c.sw'])} {join(eight, f'{times(4, 0, 124)}({other})')}",
            f"{pick(['c.lw', 'c.sw'])} {join(eight, f'({other})')}",
            f"c.lwsp {join(not_zero, f'{times(4, 0, 252)}({stack})')}",
            f"c.swsp {join(r(), f'{times(4, 0, 252)}({stack})')}",
            f"{pick(['c.addi', 'c.li'])} {join(r(), self.number(-32, 31))}",
            f"c.andi {join(eight, self.number(-32, 31))}",
            f"c.addi16sp {join(stack, times(16, -512, 496))}",
            f"c.lui {join(self.among([0, 1, *range(3, 32)]), self.number(1, 31))}",
            f"c.lui {join(self.among([0, 1, *range(3, 32)]), self.number(0xfffe0, 0xfffff))}",
            f"{pick(['c.srli', 'c.srai'])} {join(eight, self.number(1, 31))}",
            f"c.slli {join(r(), self.number(1, 31))}",
            f"{pick(['c.sub', 'c.xor', 'c.or', 'c.and'])} {join(eight, other)}",
            f"{pick(['c.mv', 'c.add'])} {join(r(), not_zero)}",
            f"{pick(['c.jr', 'c.jalr'])} {not_zero}", f"{pick(['c.j', 'c.jal'])} {far}",
            f"{pick(['c.beqz', 'c.bnez'])} {join(eight, near)}", pick(["c.nop", "c.ebreak"])])

    def beside_short(self):
        """Another statement, with a target that may lie at an even address."""
        r, join, pick = self.register, self.join, self.random.choice
        return pick([f"{pick(THREE)} {join(r(), r(), r())}",
                     f"{pick(IMMEDIATE)} {join(r(), r(), self.number(-2048, 2047))}",
                     f"{pick(BRANCHES)} {join(r(), r(), self.target())}",
                     f"{pick(AGAINST_ZERO)} {join(r(), self.target())}",
                     f"{pick(['j', 'jal', 'call', 'tail'])} {self.target()}",
                     f"la {join(r(), self.target())}", f"lw {join(self.written(), self.target())}",
                     f".half {self.number(0, 65535)}", self.layer()])

    def make_short(self, count):
        """Statements of which GNU as makes compressed instructions only where they are."""
        lines = [".option norvc", ".equ constant, 12", "near0:"]
        self.labels = 1
        for number in range(count):
            kind = self.random.random()
            if kind < 0.7:
                lines.append(f".option rvc; {self.short()}; .option norvc")
            elif kind < 0.73:
                alignment = self.random.choice([".align 2", ".balign 8", ".p2align 4"])
                lines.append(f".option rvc; {alignment}; .option norvc")
            else:
                lines.append(self.beside_short())
            if number % 16 == 0:
                lines.append(f"near{self.labels}:")
                self.labels += 1
        return [*lines, f"near{self.labels}: nop"]

    def layer(self):
        """An instruction that is no row of the kit."""
        return self.random.choice([self.system, self.system, self.atomic, self.bits])()

    def bits(self):
        """An instruction of Zba to Zbkb. As pack has no x0, it has a1."""
        r, join, pick = self.register, self.join, self.random.choice
        return pick([f"{pick(BITS_OF_THREE)} {join(r(), r(), r())}", f"{pick(BITS_OF_TWO)} {join(r(), r())}",
                     f"{pick(BIT_SHIFTS)} {join(r(), r(), self.number(0, 31))}",
                     f"pack {join(r(), r(), 'a1')}"])

    def atomic(self):
        """An instruction of extension A."""
        r, join, pick = self.register, self.join, self.random.choice
        address = pick(["", "", "0", "-0", "(3 - 3)", "constant - constant"]) + f"({r()})"
        return pick([f"lr.w{pick(ORDERS)} {join(r(), address)}",
                     *[f"{name}{pick(ORDERS)} {join(r(), r(), address)}" for name in ATOMIC]])

    def system(self):
        """An instruction on a CSR, or one that is alone."""
        r, join, pick = self.register, self.join, self.random.choice
        csr, number = pick([pick(CSRS), self.number(0, 4095)]), self.number(0, 31)
        return pick([f"{pick(CSR_ROWS)} {join(r(), csr, pick([r(), number]))}",
                     f"{pick(CSR_IMMEDIATE)} {join(r(), csr, number)}",
                     f"{pick(CSR_WRITES)} {join(csr, pick([r(), number]))}",
                     f"{pick(CSR_WRITES)}i {join(csr, number)}", f"csrr {join(r(), csr)}",
                     f"{pick(COUNTERS)} {r()}", pick(["mret", "wfi", "fence.i"])])

    def make(self, count):
        self.lines = [".equ constant, 12", "first:", "near0: nop", "1:", "2:", "near1:"]
        self.labels = 2
        while len(self.lines) < count:
            text = self.layer() if self.is_of_layers else self.statement()
            self.since += 1
            comment = self.random.choice(["", "", "", "  # note", " # ; , ("])
            opening = self.random.choice(["", "", "    ", "\t"])
            line = opening + text + comment
            if self.is_apart:
                pass
            elif self.since > 40:
                self.since = 0
                line = f"near{self.labels}: {line}"
                self.labels += 1
            elif self.random.random() < 0.05:
                line = f"{self.random.choice('12')}: {line}"
            elif self.random.random() < 0.05:
                line = f"nop; {line}"
            self.lines.append(line)
        self.lines += [f"near{self.labels}: nop", "1: nop", "2: nop", "last: ret"]
        return self.lines


SETS = re.compile(rb"\s*([A-Za-z_.$][\w.$]*)\s*=(?!=)")
ALPHABET = [bytes([b]) for b in range(256) if b != 10]


def means_the_same(line):
    """Whether GNU as makes the same of a line, if it takes it: of a branch to an absolute address
    it makes two instructions, of `la` of a constant what `li` is, and of `li` of x0 two where the
    value has low bits that are 0. A `-.`, a `. | 4` and a `. + .` are other
    addresses there."""
    statement = line.split(b"#")[0]
    if any(form.search(statement) for form in (OF_ZERO, MINUS_PLACE, PLACE_OPERATED, TWO_PLACES)):
        return False
    if BRANCH.match(line) and b"." not in statement:
        return False
    return not (ADDRESS.match(line) and b"first" not in statement and b"last" not in statement)


def set_once(lines):
    """The lines but for those that give a symbol a value again: docs/GNU-AS.md says what GNU as
    does with such a symbol."""
    names = set()
    for line in lines:
        found = SETS.match(line)
        if not found or found[1] not in names:
            yield line
        if found:
            names.add(found[1])


def changed(source, count):
    lines = source.make(max(count // 10, 100))[6:-4]
    pick = source.random
    for _ in range(count):
        line = pick.choice(lines).encode()
        at = pick.randrange(len(line) + 1)
        kind = pick.randrange(5)
        if kind == 4:
            yield line + pick.choice([b" junk", b" 1", b", 1", b' "a"', b" )", b" a0"])
        elif kind == 0:
            yield line[:at]
        elif kind == 1:
            yield line[:at] + line[at + 1:]
        elif kind == 2:
            yield line[:at] + pick.choice(ALPHABET) + line[at + 1:]
        else:
            yield line[:at] + pick.choice(ALPHABET[0x1f:0x7e]) + line[at:]


def each(source, count):
    for text in source.make(count + 10)[6:-4]:
        line = text.encode()
        for at in range(len(line)):
            yield line[:at]
            yield line[:at] + source.random.choice(ALPHABET) + line[at + 1:]


def is_named(statement):
    """Whether docs/GNU-AS.md says that GNU as refuses a statement: an address that is negated or
    added to another or has another operator than a sign, an address or %lo where it takes a number
    alone, a load or a store by a constant, `//`, or a text behind a directive that is read over."""
    found = STATEMENT.match(statement)
    if b"//" in statement or not found:
        return bool(found)
    name, operands = found.groups()
    if name == b".globl":
        return True
    addresses = [symbol for symbol in SYMBOL.findall(operands) if symbol not in NUMBERS]
    if addresses and OPERATOR.search(operands):
        return True
    if name in (b"la", b"call", b"tail"):
        return bool(NEGATED.search(operands)) or len(addresses) > 1
    if name.decode() in SHIFTS + BIT_SHIFTS and b"%" in operands:
        return True
    if name.decode() in LOADS + STORES and b"(" not in operands and b"constant" in operands:
        return True
    if name in TAKES_NUMBER:
        return bool(addresses)
    return name in (b".word", b".half", b".byte") and bool(NEGATED.search(operands))


def refused(source, errors):
    """Prints the lines that GNU as refuses, but for those that docs/GNU-AS.md names. Returns
    whether there is one."""
    with open(source, "rb") as file:
        lines = file.read().split(b"\n")
    with open(errors, "rb") as file:
        told = [error.split(b":", 2) for error in file]
    found = False
    for _, number, what in told:
        line = lines[int(number) - 1]
        if not is_named(line.split(b"#")[0]):
            found = True
            print(number.decode(), repr(line)[1:], what.decode(errors="replace").strip())
    return found


def behind(folder):
    """Writes a source of each directive, and the same with a text behind it."""
    for number, directive in enumerate(DIRECTIVES):
        for name, text in [("right", ""), ("behind", " junk")]:
            with open(f"{folder}/{name}{number}.s", "w") as file:
                file.write(directive.replace("*", text) + "\n")


def branches(seed, count, folder):
    """Writes sources of branches and gaps. Every third has alignments, and every fourth
    compressed instructions."""
    chance = random.Random(seed)
    for number in range(count):
        lines = []
        labels = chance.randint(20, 200)
        gaps = [".space %d" % size for size in (4, 8, 40, 200, 400, 800, 1000, 2000, 4000)]
        others = ["nop"] * 3 + [".balign 8", ".balign 32"] * (number % 3 == 0)
        others += [".option rvc; c.nop; .option norvc"] * (number % 4 == 1)
        for label in range(labels):
            lines.append(f"l{label}:")
            kind = chance.random()
            if kind < 0.55:
                name = chance.choice(BRANCHES + SWAPPED)
                lines.append(f"    {name} a0, a1, l{chance.randrange(labels)}")
            else:
                lines.append("    " + chance.choice(gaps if kind < 0.85 else others))
        with open(f"{folder}/branches{number}.s", "w") as file:
            file.write("\n".join(lines) + "\n")


def main():
    if sys.argv[1] == "--branches":
        return branches(int(sys.argv[2]), int(sys.argv[3]), sys.argv[4])
    if sys.argv[1] == "--behind":
        return behind(sys.argv[2])
    if sys.argv[1] == "--short":
        print("\n".join(Source(int(sys.argv[2])).make_short(int(sys.argv[3]))))
        return None
    if sys.argv[1] == "--short-refused":
        print("\n".join(SHORT_REFUSED))
        return None
    if sys.argv[1] == "--refused":
        sys.exit(refused(*sys.argv[2:]))
    kinds = {"changed": changed, "each": each}
    kind = next((kinds[word] for word in sys.argv[3:] if word in kinds), None)
    source = Source(int(sys.argv[1]), kind is not None, "layers" in sys.argv[3:])
    count = int(sys.argv[2])
    if kind is None:
        print("\n".join(source.make(count)))
        return
    lines = set_once(filter(means_the_same, kind(source, count)))
    whole = [b".equ constant, 12", b"first: nop", *lines, b"last: ret", b""]
    sys.stdout.buffer.write(b"\n".join(whole))


main()

"""The definitions beside qemu-riscv32: random steps, each with its registers, pc and accesses, and
compiled programs, with what they leave."""

import random
import re
import subprocess
import struct
from pathlib import Path

MASK = 0xFFFFFFFF
EDGES = [0, 1, 2, 31, 32, 0x7F, 0x80, 0xFF, 0x7FFF, 0x8000, 0xFFFF, 0x7FFFFFFF, 0x80000000,
         0x80000001, 0xFFFFFF80, 0xFFFF8000, 0xFFFFFFFE, MASK]
DATA, LOW = 8, 9                    # two registers with bases, which no instruction writes
CODE, END = 0x1000, 0x3000          # where the code is, and the end of the memory


def elf(entry, segments):
    """An executable of segments, (base, data), which are readable, writable and executable."""
    made = b"\x7fELF\1\1\1" + bytes(9) + struct.pack(
        "<HHIIIIIHHHHHH", 2, 243, 1, entry, 52, 0, 0, 52, 32, len(segments), 40, 0, 0)
    at = 0x1000
    for base, data in segments:
        made += struct.pack("<IIIIIIII", 1, at, base, base, len(data), len(data), 7, 0x1000)
        at += -(-len(data) // 0x1000) * 0x1000
    for _, data in segments:
        made = made.ljust(-(-len(made) // 0x1000) * 0x1000, b"\0") + data
    return made


def r_type(funct7, rs2, rs1, funct3, rd, opcode=0x33):
    return funct7 << 25 | rs2 << 20 | rs1 << 15 | funct3 << 12 | rd << 7 | opcode


def i_type(imm, rs1, funct3, rd, opcode=0x13):
    return (imm & 0xFFF) << 20 | rs1 << 15 | funct3 << 12 | rd << 7 | opcode


def s_type(imm, rs2, rs1, funct3):
    return (imm >> 5 & 0x7F) << 25 | rs2 << 20 | rs1 << 15 | funct3 << 12 | (imm & 31) << 7 | 0x23


def b_type(imm, rs2, rs1, funct3):
    return ((imm >> 12 & 1) << 31 | (imm >> 5 & 0x3F) << 25 | rs2 << 20 | rs1 << 15
            | funct3 << 12 | (imm >> 1 & 15) << 8 | (imm >> 11 & 1) << 7 | 0x63)


def j_type(imm, rd):
    return ((imm >> 20 & 1) << 31 | (imm >> 1 & 0x3FF) << 21 | (imm >> 11 & 1) << 20
            | (imm >> 12 & 0xFF) << 12 | rd << 7 | 0x6F)


def load_constant(register, value):
    """lui and addi."""
    low = (value & 0xFFF ^ 0x800) - 0x800
    return [(value - low & 0xFFFFF000) | register << 7 | 0x37, i_type(low, register, 0, register)]


def place(chance):
    """A base register and an offset, by which all sizes of an access are aligned and mapped."""
    if chance.random() < 0.7:
        return DATA, chance.randrange(-512, 512) * 4
    if chance.random() < 0.7:
        return LOW, chance.randrange(0x200, 0x800, 4)       # past the last address, from 0 on
    return 0, chance.randrange(0, 0x800, 4)


def random_instruction(chance):
    """One instruction, or two, that go on to the next but for jumps over up to three."""
    rd = chance.choice([r for r in range(32) if r not in (DATA, LOW)])
    rs1, rs2 = chance.randrange(32), chance.randrange(32)
    kind, skip = chance.randrange(20), 4 * chance.randrange(1, 5)
    imm = chance.choice([chance.randrange(-2048, 2048), -2048, 2047, -1, 0, 1])
    if kind < 4:
        return [r_type(1, rs2, rs1, chance.randrange(8), rd)]
    if kind < 7:
        funct3 = chance.randrange(8)
        other = funct3 in (0, 5) and chance.random() < 0.5
        return [r_type(0x20 * other, rs2, rs1, funct3, rd)]
    if kind < 10:
        funct3 = chance.randrange(8)
        if funct3 in (1, 5):
            other = funct3 == 5 and chance.random() < 0.5
            return [r_type(0x20 * other, chance.randrange(32), rs1, funct3, rd, 0x13)]
        return [i_type(imm, rs1, funct3, rd)]
    if kind == 10:
        return [chance.getrandbits(20) << 12 | rd << 7 | chance.choice([0x37, 0x17])]
    if kind < 14:
        funct3 = chance.choice([0, 1, 2, 4, 5])
        base, offset = place(chance)
        return [i_type(offset + chance.randrange(0, 4, 1 << funct3 % 4), base, funct3, rd, 0x03)]
    if kind < 16:
        funct3 = chance.randrange(3)
        base, offset = place(chance)
        return [s_type(offset + chance.randrange(0, 4, 1 << funct3), rs2, base, funct3)]
    if kind < 18:
        return [b_type(skip, rs2 if chance.random() < 0.8 else rs1, rs1,
                       chance.choice([0, 1, 4, 5, 6, 7]))]
    if kind == 18:
        return [j_type(skip, rd)]
    if chance.random() < 0.3:
        return [0x0FF0000F]
    base = chance.choice([r for r in range(1, 32) if r not in (DATA, LOW)])
    # no jump over up to three comes between the two
    return [0x13] * 3 + [base << 7 | 0x17, i_type(8 + chance.randrange(2), base, 0, rd, 0x67)]


def random_program(seed, steps):
    """Memory from address 0 on: low data, a program of about so many steps, and data."""
    chance = random.Random(seed)
    words = []
    for register in range(1, 32):
        value = {DATA: 0x2800, LOW: 0xFFFFFE00}.get(
            register, chance.choice(EDGES) if chance.random() < 0.6 else chance.getrandbits(32))
        words += load_constant(register, value)
    while len(words) < steps:
        words += random_instruction(chance)
    words += [0x13] * 4 + [i_type(93, 0, 0, 17), i_type(0, 0, 0, 10), 0x73]
    memory = bytearray(chance.getrandbits(8) for _ in range(END))
    memory[CODE:CODE + 4 * len(words)] = struct.pack(f"<{len(words)}I", *words)
    return bytes(memory)


def memory_words(memory):
    return ",".join(f"0x{w:08x}" for w in struct.unpack(f"<{len(memory) // 4}I", memory))


def registers_words(registers):
    return ",".join(f"x{i}=0x{v:08x}" for i, v in enumerate(registers) if i and v) or "-"


def question(kind, limit, pc, registers, segments):
    """A question about a state. The registers stand after the first base."""
    parts = [f"base=0x{base:08x} mem={memory_words(data)}" for base, data in segments]
    parts[0] = parts[0].replace(" mem", f" regs={registers_words(registers)} mem")
    return f"{kind} {limit} pc=0x{pc:08x} {' '.join(parts)}"


def ask(answers, questions):
    """The lines that the program of the definitions answers."""
    done = subprocess.run([answers], input="\n".join(questions) + "\n", text=True,
                          capture_output=True, check=True)
    return done.stdout.splitlines()


def qemu_log(room, plugin, entry, segments):
    """What QEMU executes of a program, the registers before each step and its accesses, and what
    the program writes."""
    path, log = Path(room, "program"), Path(room, "log")
    path.write_bytes(elf(entry, segments))
    path.chmod(0o755)
    done = subprocess.run(["qemu-riscv32", "-cpu", "rv32,zbkb=true", "-singlestep", "-plugin", plugin,
                           "-d", "cpu,plugin,nochain", "-D", log, path],
                          check=False, stdout=subprocess.PIPE)
    if done.returncode:
        raise RuntimeError(f"qemu-riscv32: status {done.returncode}")
    return steps_of(log.read_text()), done.stdout


def steps_of(log):
    """The pc, the registers and the accesses of each step of a log."""
    steps = []
    for part in log.split(" pc       ")[1:]:
        registers = [int(v, 16) for v in re.findall(r"x\d+/\S+ +([0-9a-f]{8})", part)]
        steps.append((int(part[:8], 16), registers, re.findall(r"^access (\S+)", part, re.M)))
    return steps


def word_at(segments, address):
    """The word at an address, as it is at first."""
    return next(int.from_bytes(data[address - base:address - base + 4], "little")
                for base, data in segments if base <= address < base + len(data))


def difference(steps, lines, segments):
    """The first step in which the definitions differ from QEMU, or None."""
    registers = list(steps[0][1])
    for number, ((pc, wanted, accesses), line) in enumerate(zip(steps, lines)):
        m = re.fullmatch(r"0x(\w+) (Ok|EnvironmentCall 0x\w+) (-|x(\d+))=0x(\w+) (\S+)", line)
        if not m or int(m[1], 16) != pc or wanted != registers:
            return f"step {number}: {line}: registers or pc"
        word = word_at(segments, pc)
        made = m[6].split(",")
        fetch, others = made[0], [a.split("=")[0] for a in made[1:]]
        if fetch != f"r0x{pc:08x}/4=0x{word:08x}" or others != accesses:
            return f"step {number}: {line}: accesses, and QEMU makes {accesses}"
        if (m[2] == "Ok") != (word != 0x73):
            return f"step {number}: {line}: the answer"
        if m[4]:
            registers[int(m[4])] = int(m[5], 16)
    end = f"end pc=0x{steps[-1][0]:08x} last=- regs={registers_words(steps[-1][1])}"
    if len(lines) != len(steps) + 1 or lines[-1] != end:
        return f"{len(lines) - 1} steps, and QEMU makes {len(steps)}, or the end: {lines[-1]}"
    return None


def compare_trace(answers, room, plugin, kind, entry, segments):
    """Compares a program, step by step: how many steps, and the first difference."""
    steps, _ = qemu_log(room, plugin, entry, segments)
    pc, registers, _ = steps[0]
    lines = ask(answers, [question(kind, 2 * len(steps), pc, registers, segments)])
    return len(steps), difference(steps, lines, segments)


def compare_steps(answers, room, plugin, seed, count):
    return compare_trace(answers, room, plugin, "trace", CODE, [(0, random_program(seed, count))])


# ---- jumps to far places

NEAR = 0x00200000
FAR = [NEAR, NEAR + 0xFE000, 0xA0000000]    # jal goes from the first to the second, and back
SIZE, SLOT, JUMPS = 0x2000, 0x80, 40


def far_jump(chance, here, there):
    """The words of a jump from one address to another: jal or a branch that is taken, if it goes as
    far, or else jalr."""
    distance, register = there - here, chance.choice(range(1, 32))
    if -4096 <= distance < 4096 and chance.random() < 0.6:
        return [b_type(distance, register, register, chance.choice([0, 5, 7]))]
    if -2 ** 20 <= distance < 2 ** 20 and chance.random() < 0.7:
        return [j_type(distance, chance.randrange(32))]
    relative = chance.random() < 0.5
    value = (distance if relative else there) & MASK
    low = (value & 0xFFF ^ 0x800) - 0x800
    upper = (value - low) & 0xFFFFF000 | register << 7 | (0x17 if relative else 0x37)
    odd = low < 2047 and chance.random() < 0.5      # the target is made even
    return [upper, i_type(low + odd, register, 0, chance.randrange(32), 0x67)]


def far_program(seed):
    """Where it begins, and three segments, between which it jumps from slot to slot."""
    chance = random.Random(f"far {seed}")
    parts = {base: bytearray(chance.getrandbits(8) for _ in range(SIZE)) for base in FAR}
    slots = chance.sample([base + at for base in FAR for at in range(0, SIZE, SLOT)], JUMPS)
    slots = [slot + 4 * chance.randrange(SLOT // 4 - 4) for slot in slots]
    for here, there in zip(slots, slots[1:] + [None]):
        base = max(b for b in FAR if b <= here)
        words = far_jump(chance, here, there) if there else [
            i_type(93, 0, 0, 17), i_type(0, 0, 0, 10), 0x73]
        parts[base][here - base:here - base + 4 * len(words)] = struct.pack(f"<{len(words)}I",
                                                                            *words)
    return slots[0], [(base, bytes(data)) for base, data in parts.items()]


def compare_far(answers, room, plugin, seed):
    return compare_trace(answers, room, plugin, "far", *far_program(seed))


# ---- compiled programs

LINK = """ENTRY(_start)
PHDRS { all PT_LOAD FLAGS(7); }
SECTIONS {
  . = 0x10000;
  all : { dump_start = .; *(.rounds) *(.text*) *(.rodata* .srodata*) *(.data* .sdata*)
    *(.bss* .sbss* COMMON) . = ALIGN(16); . += 2048; stack_end = .; LONG(0) dump_end = .; } : all
  /DISCARD/ : { *(.comment) *(.note*) *(.riscv*) *(.eh_frame*) }
}
"""
START = """.globl _start, rounds
.section .rounds, "aw"
rounds: .word 1
.text
_start:
    la sp, stack_end
    call main
    la t0, registers
""" + "".join(f"    sw x{i}, {4 * i}(t0)\n" for i in range(1, 32)) + """
    la a1, dump_start
    la a2, dump_end
    sub a2, a2, a1
    li a0, 1
    li a7, 64
    ecall
    li a0, 0
    li a7, 93
    ecall
.bss
.align 4
registers: .space 128
"""


def random_c(chance, repeated=False):
    """A program in C over arrays of bytes, half-words and words. If it is repeated, a loop is made as
    often as `rounds` says, the first word of the memory."""
    def value(depth):
        kind = chance.randrange(9 if depth else 4)
        name = chance.choice("abcdi")
        if kind == 0:
            return str(chance.choice(EDGES)) + "u"
        if kind == 1:
            return name
        if kind == 2:
            array, last = chance.choice([("w", 15), ("h", 31), ("s", 63), ("u", 63)])
            return f"{array}[{name} & {last}]"
        if kind == 3:
            return f"(int){name}"
        left, right = value(depth - 1), value(depth - 1)
        if kind == 4:
            return f"({left} {chance.choice(['<<', '>>'])} ({right} & 31))"
        if kind == 5:
            return f"({left} {chance.choice(['<', '>=', '==', '!='])} {right} ? {left} : {right})"
        if kind == 6:
            operator = chance.choice(["/", "%", ">>", "<"])
            return f"((int)({left}) {operator} (int)(({right} & 30) + 1))"
        if kind == 7:
            return f"(unsigned)((long long)(int)({left}) * (int)({right}) >> 32)"
        if kind == 8 and chance.random() < 0.3:
            return f"({left} {chance.choice('/%')} ({right} | 1))"
        return f"({left} {chance.choice('+-*&|^')} {right})"

    def statement(depth):
        kind = chance.randrange(6 if depth else 3)
        if kind == 0:
            return f"{chance.choice('abcd')} = {value(2)};"
        if kind < 3:
            array, last = chance.choice([("w", 15), ("h", 31), ("s", 63), ("u", 63)])
            return f"{array}[{chance.choice('abcdi')} & {last}] = {value(2)};"
        body = " ".join(statement(depth - 1) for _ in range(chance.randrange(1, 4)))
        if kind == 3:
            return f"if ({value(1)}) {{ {body} }} else {{ {statement(0)} }}"
        if kind == 4:
            return f"{chance.choice('ab')} = f{chance.randrange(2)}({value(1)}, {value(1)});"
        name = "ij"[depth - 1]
        return f"for ({name} = 0; {name} < {chance.randrange(2, 9)}; {name}++) {{ {body} }}"

    functions = "".join(
        f"static __attribute__((noinline)) unsigned f{k}(unsigned a, unsigned b) {{\n"
        "  unsigned c = a ^ b, d = a + b, i = 3;\n  "
        + "\n  ".join(statement(0) for _ in range(3)) + "\n  return a + b + c + d;\n}\n"
        for k in range(2))
    body = "\n  ".join(statement(2) for _ in range(chance.randrange(6, 14)))
    if repeated:
        again = "\n    ".join(statement(1) for _ in range(chance.randrange(1, 5)))
        body += f"\n  for (r = 0; r < rounds; r++) {{\n    w[r & 15] += r;\n    {again}\n  }}"
    return ("extern unsigned rounds; unsigned w[16]; short h[32]; signed char s[64]; "
            f"unsigned char u[64];\n{functions}"
            "int main(void) {\n"
            f"  unsigned a = {chance.getrandbits(32)}u, b = {chance.choice(EDGES)}u, c = 7, d = 9,"
            f" i = 0, j = 0, r;\n  {body}\n  return a + b + c + d;\n}}\n")


def compiled(room, seed, repeated=False):
    """A program, compiled: its file, its entry, where its memory is there and in the address space,
    and the memory."""
    chance = random.Random(seed)
    for name, text in ("c.c", random_c(chance, repeated)), ("start.S", START), ("link.ld", LINK):
        Path(room, name).write_text(text)
    path = Path(room, "compiled")
    subprocess.run(["riscv64-unknown-elf-gcc", "-march=rv32im", "-mabi=ilp32", "-w", "-nostdlib",
                    "-ffreestanding", f"-O{chance.choice('012s')}", "-Wl,--no-warn-rwx-segments",
                    "-T", "link.ld", "start.S", "c.c", "-lgcc", "-o", path],
                   cwd=room, check=True)
    data = path.read_bytes()
    entry, headers = struct.unpack_from("<II", data, 24)
    offset, base, _, size = struct.unpack_from("<IIII", data, headers + 4)
    return path, entry, offset, base, data[offset:offset + size]


def run_of(answers, entry, base, memory, limit):
    """What the definitions make of a program: how many steps, the answer of the last one, or
    `limit` where there would be more, and the memory, as words."""
    line, = ask(answers, [question("run", limit, entry, [0] * 32, [(base, memory)])])
    m = re.match(r"steps=(\d+) (\S+) .* mem=(\S+)$", line)
    return (int(m[1]), m[2], m[3]) if m else (0, line[:150], "")


def difference_of(path, run):
    """How a run of the definitions differs from that of QEMU, or None. One that reached the limit
    is not compared."""
    steps, answer, words = run
    if answer == "limit":
        return None
    wanted = subprocess.run(["qemu-riscv32", path], capture_output=True, check=True,
                            timeout=60).stdout
    if answer == "EnvironmentCall" and words == memory_words(wanted):
        return None
    return f"{steps} steps, {answer}, {words[:150]}"


def compare_program(answers, room, seed, limit):
    """Compares what a compiled program leaves: how many steps it makes, and the difference."""
    path, entry, _, base, memory = compiled(room, seed)
    run = run_of(answers, entry, base, memory, limit)
    return run[0], difference_of(path, run)


def compare_near(answers, room, seed, limit):
    """Compares likewise a compiled program whose loop is made as often as the limit allows, with the
    number of its steps."""
    path, entry, offset, base, memory = compiled(room, f"near {seed}", True)

    def steps_with(rounds):
        """The steps that QEMU makes up to the first ecall, before which and the second are two."""
        with open(path, "r+b") as file:
            file.seek(offset)
            file.write(rounds.to_bytes(4, "little"))
        log = Path(room, "log")
        subprocess.run(["qemu-riscv32", "-singlestep", "-d", "exec,nochain", "-D", log, path],
                       stdout=subprocess.DEVNULL, check=True, timeout=60)
        return log.read_bytes().count(b"Trace ") - 4

    rounds = most_rounds(steps_with, limit)
    steps = steps_with(rounds)
    run = run_of(answers, entry, base, rounds.to_bytes(4, "little") + memory[4:], limit)
    wrong = None if run[0] == min(steps, limit) else f"{run[0]} steps, and QEMU makes {steps}"
    return run[0], wrong or difference_of(path, run)


def most_rounds(steps_with, limit):
    """The greatest number of rounds with which a program makes fewer steps than the limit."""
    rounds, steps, over, per_round = 0, steps_with(0), MASK, 1000
    while steps < limit and rounds + 1 < over:
        tried = min(rounds + max(1, int((limit - steps) / per_round)), over - 1)
        more = steps_with(tried)
        if more < limit:
            per_round = max(1, (more - steps) / (tried - rounds))
            rounds, steps = tried, more
        else:
            over, per_round = tried, 2 * per_round
    return rounds

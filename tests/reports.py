"""How what `rrs dis`, `rrs trace` and `rrs cover` write is compared with what others write. Each
comparison gives what differs, and its tests are those of test_reports.py.

`rrs dis` beside `objdump -d` of GNU binutils:

Programs of examples/exec are built by its `cc`, some without symbols. Of each the disassembly is
compared line by line: the sections, the symbols, the addresses, the words, the mnemonics, the
operands, and where jumps go. Texts that the kit writes in another way are compared by what they
say: whole values of lui and auipc, and numbers in another base. Where several symbols have an
address objdump may name another of them, so names are compared by the address that nm gives. Where
no symbol goes before an address, objdump names the section, and rrs dis names nothing.

How many lines a program has is compared too. One of the programs has compressed code. And of all
49,152 half-words that begin no word, each beside objdump's, the text says the same, or is `.half`
where RV32C without floating point has no such instruction: 0x6101, c.addi16sp by 0, which objdump
writes, is reserved.

`rrs trace` and `rrs cover` beside `qemu-riscv32`, which tells the pc of each instruction that it
executes, and can tell all registers too. Of each program
  - the log has a line for each instruction, with its pc, its word, and the register and the access
    that the word has, in Spike's form;
  - the lines of some steps, as the options of `rrs trace` name them, are those of the whole log;
  - of programs with a stack of their own, whose registers are the same under both, each line is
    that which qemu's registers make;
  - the counts beside the disassembly are how often each pc was executed;
  - the summary has of each function that shares no instruction with another, as nm tells them, how
    many of its instructions were executed, how many it has, how often it was entered, and how many
    steps were made in it;
  - `callgrind_annotate` reads the profile without a warning, and finds these steps, and as many in
    all.
Among them are loads and stores at misaligned addresses, and the instructions of extension A. One
has compressed code, of which the log is not compared. `lcov` tells how often each line of a source
was executed, and how often each function was entered, and `genhtml` finds these.

`rrs trace --board` and `rrs cover --board` beside `qemu-system-riscv32`, which tells the pc, the
privilege mode, the registers and the CSRs before each instruction that it executes, and each
exception and interrupt. Of firmware of examples/board
  - the first lines of the log, as far as QEMU's CSRs are those of the board, are those which these
    make: up to an ebreak, whose mtval is 0 in QEMU; of atomics.c up to the first trap, which takes
    a reservation away there;
  - the other lines are so but for the values, up to a misaligned access, which succeeds in QEMU;
  - of uart.c and user.c the counts, the summary and the profile are as above.
What a1 and a2 are at the start in QEMU is taken as 0.

Of a program whose `main` faults, what is written is the same where `main` has another name, but for
that name, in which an escape and a line feed are shown as readelf shows them. And 100,000
functions, each within all before it, are counted within ten seconds. """

import bisect
import os
import re
import struct
import subprocess
from collections import Counter
from pathlib import Path

from support import EXAMPLES, ROOT, run
from support import PROGRAM as RRS

CC = EXAMPLES / "exec/cc"
OBJDUMP = "riscv64-unknown-elf-objdump"
NM = "riscv64-unknown-elf-nm"
GCC = "riscv64-unknown-elf-gcc"
# programs of examples/exec, with the options of the compiler
PROGRAMS = {
    "hello": ["-O2"],
    "count": ["-O0", "-g"],
    "programs/sorted": ["-O1"],
    "programs/wide": ["-O3", "-lm"],
    "programs/lists": ["-O2", "-s"],
    "programs/trees": ["-O2", "-march=rv32imac"],
}
# how many lines are compared of each, as Debian's compiler makes them
LINES = {"hello": 3847, "count": 3939, "programs/sorted": 4370, "programs/wide": 5348,
         "programs/lists": 3929, "programs/trees": 6828}
# programs of examples/exec that are run, and how many steps they make
RUN = {"hello": 2841, "programs/jumps": 5191, "programs/trees": 5756, "trials/misaligned": 153967,
       "trials/atomics": 91948, "programs/sorted": 211585}
# the options of those that have some
OPTIONS = {"trials/atomics": ["-march=rv32ima"], "programs/sorted": ["-march=rv32imac"]}
# programs with a stack of their own, and how many steps they make
OWN = {"examples/c/primes.c": 11551, "examples/reports/mended.c": 715}
# firmware of examples/board: before which line the values of its log are compared, before which one
# the lines without them are, and how many lines these are
FIRMWARE = {"uart": (None, None, 1002, 1002), "user": ("trap_breakpoint", None, 1580, 17015),
            "traps": ("trap_breakpoint", "trap_load_address_misaligned", 553, 2880),
            "atomics": ("exception", "exception", 59378, 59378)}
START = """
.globl _start
_start:
    la sp, stack_end
    call main
    li a7, 93
    ecall
.bss
.balign 16
    .space 4096
stack_end:
"""
LINE = re.compile(r"\s*([0-9a-f]+):\t([0-9a-f]+)\s+\t(\S+)(?:\s+(.*))?$")


def unchanged(text):
    """A text as it stands."""
    return text


def number(word):
    """A number of an operand, modulo 2^32 if it has 32 bits."""
    value = int(word, 0)
    return value % 2**32 if -(2**31) <= value < 2**32 else value


def symbols_of(path):
    """The address of each symbol."""
    lines = subprocess.run([NM, path], capture_output=True, check=True).stdout.decode().splitlines()
    return {line.split()[2]: int(line.split()[0], 16) for line in lines if len(line.split()) == 3}


def place_of(name, symbols):
    """The address that a name means, with a distance or without; none for that of a section."""
    start, distance = re.match(r"(.*?)(?:\+0x([0-9a-f]+))?$", name).groups()
    if start.startswith(".") and start not in symbols:
        return None
    return symbols[start] + int(distance or "0", 16) if start in symbols else name


def operands(name, text, address, is_ours, symbols):
    """The operands of an instruction in one form for both tools."""
    text = re.sub(r"\s*#.*$", "", text or "").replace(", ", ",").strip()
    place = re.search(r"\s*<(.*)>$", text)
    where = place[1] if place else None
    text = re.sub(r"\s*<.*>$", "", text)
    parts = [part for part in re.split(r"[,()]", text) if part]
    if name.startswith("fence"):
        return []
    if name in ("lui", "auipc"):
        value = number(parts[1])
        if not is_ours:
            value = ((value << 12) + (address if name == "auipc" else 0)) % 2**32
        return [parts[0], value]
    if name == "c.lui":
        return [parts[0], number(parts[1]) if is_ours else (int(parts[1], 0) << 12) % 2**32]
    if name in ("jal", "c.j", "c.jal", "c.beqz", "c.bnez") or name.startswith("b"):
        return [*parts[:-1], int(parts[-1], 16), where and place_of(where, symbols)]
    return [part if part.startswith("x") else number(part) for part in parts]


def half_of(name, text, half):
    """The name of a half-word and its operands in objdump's text, as RV32C without floating point
    has it: shifts by 0 are those of 64 bits to objdump, and what is no instruction is `.half`."""
    text = (text or "").strip()
    if name in ("c.slli64", "c.srli64", "c.srai64"):
        return name[:-2], text + ",0"
    amount = re.match(r"c\.s[lr][la]i x\d+,(\w+)$", f"{name} {text}")
    is_none = name in (".2byte", "c.unimp") or name.startswith("c.f") or half == 0x6101
    if is_none or (amount and int(amount[1], 0) > 31):
        return ".half", f"0x{half:04x}"
    return name, text


def listed(text, is_ours, symbols):
    """The lines of a disassembly: titles, symbols, and instructions."""
    lines = []
    for line in text.splitlines():
        found = LINE.match(line)
        if found and len(found[2]) in (4, 8):
            address, word, name, rest = int(found[1], 16), int(found[2], 16), found[3], found[4]
            if len(found[2]) == 4 and not is_ours:
                name, rest = half_of(name, rest, word)
            own = operands(name, rest, address, is_ours, symbols)
            lines.append((address, len(found[2]), word, name, *own))
        elif re.match(r"[0-9a-f]{8} <.*>:$", line):
            place = place_of(line[10:-2], symbols)
            if place is not None:
                lines.append((line[:8], place))
        elif line.startswith("Disassembly"):
            lines.append(line)
        elif line and "file format" not in line:
            lines.append(f"another line: {line}")
    return lines


def compare_file(path, change=unchanged):
    """What differs of an executable between the two, and how many lines there are."""
    status, text, said = run(RRS, "dis", path)
    if status:
        return [f"status {status}: {said}"], 0
    symbols = symbols_of(path)
    text = change(text)
    own = listed(text, True, symbols)
    wanted = listed(run(OBJDUMP, "-d", "-z", "-M", "no-aliases,numeric", path)[1], False, symbols)
    title = f"\n{path}:     file format elf32-littleriscv\n\n"
    differs = [] if text.startswith(title) else [text[:80]]
    for mine, theirs in zip(own + [None] * len(wanted), wanted + [None] * len(own)):
        if mine != theirs:
            differs.append(f"{mine}, and not {theirs}")
    return differs[:5], len(own)


# how many half-words begin no word
HALVES = 49152


def build_halves(room):
    """Builds an executable of the half-words that begin no word, and of nothing else."""
    source = room / "halves.S"
    halves = "".join(f".half {half}\n" for half in range(2**16) if half % 4 != 3)
    source.write_text(f".option rvc\n.globl _start\n_start:\n{halves}")
    subprocess.run([GCC, "-march=rv32imac", "-mabi=ilp32", "-nostdlib", "-s", "-Ttext=0x10000",
                    source, "-o", room / "halves"], check=True)


def compare_halves(path, change=unchanged):
    """What differs of the half-words that begin no word."""
    differs, count = compare_file(path, change)
    return differs if count == HALVES + 1 else [f"{count} lines", *differs]


class Program:
    """An executable: its words, and its functions as nm tells them."""

    def __init__(self, path, *options):
        self.path, self.options = str(path), options
        file = path.read_bytes()
        offset, count = struct.unpack_from("<I", file, 28)[0], struct.unpack_from("<H", file, 44)[0]
        self.words = {}
        for index in range(count):
            kind, start, address, _, size, _, flags, _ = struct.unpack_from(
                "<8I", file, offset + 32 * index)
            if kind == 1 and flags & 1:
                for place in range(0, size - 1, 2):
                    word = file[start + place:start + min(place + 4, size)]
                    self.words[address + place] = int.from_bytes(word, "little")
        self.is_compressed = file[36] & 1 == 1
        self.functions = self.functions_of(run(NM, "-S", self.path)[1])
        self.starts = sorted(self.functions)

    @staticmethod
    def functions_of(text):
        """The start of each function with a size, with its end and its names, if no other function
        has some of its instructions."""
        ranges = {}
        for line in text.splitlines():
            found = re.match(r"([0-9a-f]{8}) ([0-9a-f]{8}) [tTwW] (.*)$", line)
            if found:
                start, size = int(found[1], 16), int(found[2], 16)
                ranges.setdefault((start, start + size), set()).add(found[3])
        return {start: (end, names) for (start, end), names in ranges.items()
                if not any(start < other[1] and other[0] < end and other != (start, end)
                           for other in ranges)}

    def instructions(self, start, end):
        """How many instructions are from an address on to before another."""
        count = 0
        while start < end:
            start += 4 if self.words[start] & 3 == 3 else 2
            count += 1
        return count

    def function_at(self, pc):
        """The start of the function that a pc is in, or nothing."""
        place = bisect.bisect_right(self.starts, pc) - 1
        if place < 0 or pc >= self.functions[self.starts[place]][0]:
            return None
        return self.starts[place]


def is_call(word):
    """Whether a word, or its lower half that is compressed, is a jump that writes x1 or x5."""
    if word & 3 != 3:
        return word & 0xe003 == 0x2001 or (word & 0xf07f == 0x9002 and word & 0xf80 != 0)
    return word & 127 in (0x6f, 0x67) and word >> 7 & 31 in (1, 5)


def signed(value, bits):
    """A number of so many bits, in two's complement."""
    return value - (1 << bits) if value >> (bits - 1) else value


# what an AMO stores, by bits 31 to 27 of its word
AMOS = {0: int.__add__, 1: lambda old, new: new, 4: int.__xor__, 8: int.__or__, 12: int.__and__,
        16: lambda old, new: min(old, new, key=lambda value: signed(value, 32)),
        20: lambda old, new: max(old, new, key=lambda value: signed(value, 32)), 24: min, 28: max}


def line_of(pc, word, before, after):
    """The line of Spike's commit log for a word, by the registers before and after it."""
    opcode, rd, width = word & 127, word >> 7 & 31, word >> 12 & 3
    line = f"core   0: 3 0x{pc:08x} (0x{word:08x})"
    if rd and opcode not in (0x23, 0x63, 0x0f, 0x73):
        line += f" x{rd:<2} 0x{after[rd]:08x}"
    base = before[word >> 15 & 31]
    if opcode == 0x2f:
        kind, operand = word >> 27, before[word >> 20 & 31]
        stored = operand if kind in (2, 3) else AMOS[kind](after[rd], operand) % 2**32
        line += f" mem 0x{base:08x}" if kind != 3 else ""
        line += f" mem 0x{base:08x} 0x{stored:08x}" if kind not in (2, 3) or (
            kind == 3 and after[rd] == 0) else ""
    if opcode == 0x03:
        line += f" mem 0x{(base + signed(word >> 20, 12)) % 2**32:08x}"
    if opcode == 0x23:
        offset = signed(word >> 25 << 5 | rd, 12)
        digits = 2 << width
        value = before[word >> 20 & 31] % 16**digits
        line += f" mem 0x{(base + offset) % 2**32:08x} 0x{value:0{digits}x}"
    return line


def executed(room, program):
    """The pc of each instruction that qemu-riscv32 executes."""
    log = room / "pcs"
    subprocess.run(["qemu-riscv32", "-singlestep", "-d", "nochain,exec", "-D", log, program.path],
                   stdin=subprocess.DEVNULL, stdout=subprocess.DEVNULL,
                   stderr=subprocess.DEVNULL, check=False)
    return [int(line.split("/")[1], 16) for line in log.read_text().splitlines()]


def states(room, program):
    """The pc and the registers before each instruction that qemu-riscv32 executes."""
    log = room / "states"
    subprocess.run(["qemu-riscv32", "-singlestep", "-d", "nochain,cpu", "-D", log, program.path],
                   stdin=subprocess.DEVNULL, stdout=subprocess.DEVNULL, check=False)
    told = log.read_text().split(" pc       ")[1:]
    return [(int(text[:8], 16),
             [int(value, 16) for value in re.findall(r"/\w+ +([0-9a-f]{8})", text)])
            for text in told]


def reported(room, program, *words):
    """What `rrs trace` or `rrs cover` writes into its file, and what goes wrong."""
    file = room / "report"
    _, _, said = run(RRS, words[0], *program.options, *words[1:], "--output", file, program.path)
    if said:
        return "", [f"{words}: {said}"]
    return file.read_text("latin-1"), []


def differing(what, own, wanted):
    """The first places at which two lists differ."""
    differs = [f"{what}: {len(own)}, and not {len(wanted)}"] if len(own) != len(wanted) else []
    for mine, theirs in zip(own, wanted):
        if mine != theirs:
            differs.append(f"{what}: {mine}, and not {theirs}")
    return differs[:3]


# a line of the log without its values
SHAPE = re.compile(r"core   0: 3 0x[0-9a-f]{8} \(0x[0-9a-f]{8}\)(?: x\d\d? {1,2}0x[0-9a-f]{8})?"
                   r"(?: mem 0x[0-9a-f]{8})?"
                   r"(?: mem 0x[0-9a-f]{8} 0x(?:[0-9a-f]{2}|[0-9a-f]{4}|[0-9a-f]{8}))?$")


def bare(line):
    """A line of the log without the values, which the stack's place changes, and with their
    sizes."""
    head, rest = line[:35], line[35:]
    dots = re.sub(r"0x([0-9a-f]+)", lambda value: "." * len(value[1]), rest)
    return head + dots if SHAPE.match(line) else line


def compare_log(room, program, pcs, change=unchanged):
    """What differs of the log between rrs and qemu."""
    text, differs = reported(room, program, "trace")
    own = change(text).split("\n")
    zeros = [0] * 32
    wanted = [line_of(pc, program.words[pc], zeros, zeros) for pc in pcs] + [""]
    return differs + differing("log", [bare(line) for line in own], [bare(line) for line in wanted])


def places_of(lines):
    """The pc of each line of a log: that of its step, or of the exception that it tells."""
    pc = None
    for line in lines:
        found = re.search(r"epc 0x([0-9a-f]+)|: (?:[03] )?0x([0-9a-f]+) \(", line)
        pc = int(found[1] or found[2], 16) if found else pc
        yield pc


def compare_windows(room, program, pcs, change=unchanged):
    """What differs of the lines of some steps from those lines of the whole log."""
    text, differs = reported(room, program, "trace")
    lines = text.splitlines()
    main = next(start for start, (_, names) in program.functions.items() if "main" in names)
    end = program.functions[main][0]
    entered, last = pcs.index(main), pcs[len(pcs) * 3 // 4]
    left = next(at for at in range(entered, len(pcs)) if pcs[at] == last) + 1
    for words, wanted in (
            (["--from", "main", "--to", str(last)], lines[entered:left]),
            (["--to", "main"], lines[:entered + 1]),
            (["--only", "main"],
             [line for line, pc in zip(lines, places_of(lines)) if main <= pc < end]),
            (["--steps", f"{entered}-{entered + 9}"], lines[entered - 1:entered + 9]),
            (["--steps", f"1-{entered + 3}", "--only", "main"], lines[entered:entered + 3])):
        text, said = reported(room, program, "trace", *words)
        own = change(text).split("\n")
        differs += said + differing(" ".join(words), own, [*wanted, ""])
    return differs[:3]


def compare_states(room, program, change=unchanged):
    """What differs of the whole log, where the registers are the same under both."""
    told = states(room, program)
    text, differs = reported(room, program, "trace")
    wanted = [line_of(pc, program.words[pc], before, after)
              for (pc, before), (_, after) in zip(told, told[1:] + told[-1:])]
    # what is on the stack at the start is not the same
    return differs + differing("log", change(text).split("\n"), wanted + [""]), len(told)


def compare_counts(room, program, pcs, change=unchanged):
    """What differs of the counts beside the disassembly."""
    text, differs = reported(room, program, "cover", "--annotate")
    counts = Counter(pcs)
    own = {int(found[2], 16): int(found[1])
           for found in re.finditer(r"^ *(\d+)  +([0-9a-f]+):\t", change(text), re.M)}
    differs += differing("count", sorted(own.items()), [(pc, counts[pc]) for pc in sorted(own)])
    if sum(own.values()) != len(pcs):
        differs.append(f"counts of {sum(own.values())}, and not {len(pcs)}")
    return differs


def functions_in(program, pcs):
    """Of each function how many instructions were executed, how many it has, how often it was
    entered, and how many steps were made in it."""
    steps, seen, entries = Counter(), {}, Counter()
    last = None
    for pc in pcs:
        start = program.function_at(pc)
        steps[start] += 1
        seen.setdefault(start, set()).add(pc)
        is_called = last is None or is_call(program.words[last])
        if pc == start and (is_called or program.function_at(last) != start):
            entries[start] += 1
        last = pc
    return {start: (len(seen.get(start, ())), program.instructions(start, end), entries[start],
                    steps[start])
            for start, (end, _) in program.functions.items()}


def compare_summary(room, program, pcs, change=unchanged):
    """What differs of the summary by function."""
    text, differs = reported(room, program, "cover")
    lines = [re.findall(r"^ *(\d+) +(\d+) +(\d+) +(\d+)  (.*)$", line) or [(line,) * 5]
             for line in change(text).splitlines()[1:]]
    lines = [line for (line,) in lines]
    wanted = functions_in(program, pcs)
    by_name = {name: wanted[start] for start, (_, names) in program.functions.items()
               for name in names}
    total = lines.pop() if lines else ()
    if total[3:] != (str(len(pcs)), "(all)"):
        differs.append(f"the last line is {total}, and there were {len(pcs)} steps")
    ran = [int(line[3]) > 0 for line in lines if line[4] in by_name]
    if ran != sorted(ran, reverse=True):
        differs.append("functions that never ran are before others")
    differs += [f"another line: {line[0]}" for line in lines if line[0] == line[4]]
    own = [(tuple(map(int, line[:4])), line[4]) for line in lines if line[4] in by_name]
    differs += [f"{name}: {numbers}, and not {by_name[name]}" for numbers, name in own
                if numbers != by_name[name]][:3]
    if len(own) != len(program.functions):
        differs.append(f"{len(own)} functions, and not {len(program.functions)}")
    return differs


def compare_profile(room, program, pcs, change=unchanged):
    """What `callgrind_annotate` finds in the profile."""
    file = room / "profile"
    said = reported(room, program, "cover", "--callgrind", file)[1]
    if said:
        return said
    file.write_text(change(file.read_text()))
    status, text, said = run("callgrind_annotate", "--threshold=100", "--show-percs=no", file)
    if status or said:
        return [f"callgrind_annotate: {said}"]
    number = r"^ *([\d,]+) "
    total = re.search(number + " *PROGRAM TOTALS", text, re.M)
    differs = []
    if not total or int(total[1].replace(",", "")) != len(pcs):
        differs.append(f"callgrind_annotate finds {total and total[1]}, and not {len(pcs)}")
    own = {found[2].strip(): int(found[1].replace(",", ""))
           for found in re.finditer(number + r" *\S+?:(.*?)(?: \[.*)?$", text, re.M)}
    steps = Counter(program.function_at(pc) for pc in pcs)
    wanted = {next((name for name in names if name in own), min(names)): steps[start]
              for start, (_, names) in program.functions.items() if steps[start]}
    every = {name for _, names in program.functions.values() for name in names}
    own = {name: count for name, count in own.items() if name in every}
    return differs + differing("function", sorted(own.items()), sorted(wanted.items()))


# what is compared of a run, and of one with compressed code
COMPARED = (compare_log, compare_windows, compare_counts, compare_summary, compare_profile)
COMPRESSED = (compare_counts, compare_summary, compare_profile)


def build(room):
    """Builds all programs that are compared."""
    for name, options in PROGRAMS.items():
        compile_with(room / Path(name).name, f"exec/{name}.c", *options)
    for name in RUN:
        compile_with(room / f"run-{Path(name).name}", f"exec/{name}.c", "-O2",
                     *OPTIONS.get(name, []))
    (room / "start.S").write_text(START)
    for source in OWN:
        subprocess.run([GCC, "-march=rv32ima", "-mabi=ilp32", "-O1", "-ffreestanding", "-nostdlib",
                        "-Wl,--no-warn-rwx-segments", room / "start.S", ROOT / source, "-lgcc",
                        "-o", room / Path(source).stem], check=True)
    subprocess.run([EXAMPLES / "board/build", room], check=True)
    build_halves(room)


def compile_with(path, source, *options):
    """Compiles a source of examples as people do."""
    subprocess.run([CC, EXAMPLES / source, "-o", path, *options], check=True)


# what QEMU logs: an instruction with its pc, the lowest bits of its flags, which are the mode, and
# what the registers and the CSRs were before it; or an exception
LOGGED = re.compile(r"Trace .*?\[[0-9a-f]+/([0-9a-f]+)/[0-9a-f]*([0-9a-f])/.*\n((?: .*\n)*)"
                    r"|riscv_cpu_do_interrupt: .*async:(\d), cause:(\w+), epc:0x(\w+), tval:0x(\w+)"
                    r"|cpu_io_recompile: rewound .* to (\w+)")
# Spike's names of exceptions, by their codes
TRAPS = ("instruction_address_misaligned instruction_access_fault illegal_instruction breakpoint "
         "load_address_misaligned load_access_fault store_address_misaligned store_access_fault "
         "user_ecall supervisor_ecall virtual_supervisor_ecall machine_ecall").split()
CSRS = {0x300: "mstatus", 0x304: "mie", 0x305: "mtvec", 0x306: "mcounteren", 0x340: "mscratch",
        0x341: "mepc", 0x342: "mcause", 0x343: "mtval"}
# what a1 and a2 are at the start in QEMU, and are here
START_VALUES = {0x87e00000: 0, 0x1028: 0}


def board_steps(room, program):
    """What qemu-system-riscv32 does of firmware: of each instruction its pc, its mode, and the
    registers and the CSRs before it; and of each trap its pc, its code, its value and whether it is
    an interrupt. Its time goes by its instructions (-icount), so that a timer's interrupt comes
    where it always does, however long the log takes. An instruction that reaches a device is then
    logged twice."""
    log = room / "steps"
    subprocess.run(["qemu-system-riscv32", "-M", "virt", "-bios", "none", "-display", "none",
                    "-monitor", "none", "-serial", "stdio", "-singlestep", "-icount",
                    "shift=0,sleep=off", "-cpu", "rv32,c=off,f=off,d=off,h=off,s=off,pmp=off",
                    "-d", "nochain,exec,int,cpu", "-D", log, "-kernel", program.path],
                   stdin=subprocess.DEVNULL, stdout=subprocess.DEVNULL, check=False, timeout=60)
    steps = []
    for pc, mode, told, is_interrupt, code, epc, value, again in LOGGED.findall(log.read_text()):
        if again:
            if steps and steps[-1][:2] == ("step", int(again, 16)):
                steps.pop()
        elif epc:
            if is_interrupt == "0" and steps and steps[-1][:2] == ("step", int(epc, 16)):
                steps.pop()  # it raised the exception, and did not retire
            steps.append(("trap", int(epc, 16), int(code, 16), int(value, 16), is_interrupt == "1"))
        elif int(pc, 16) in program.words:
            csrs = {csr: int(number, 16)
                    for csr, number in re.findall(r"^ (\w+) +(\w{8})$", told, re.M)}
            registers = [int(number, 16) for number in re.findall(r"x\d+/\w+ +(\w{8})", told)]
            registers = [START_VALUES.get(number, number) for number in registers]
            steps.append(("step", int(pc, 16), int(mode, 16) % 4, registers, csrs))
    return steps


def board_line(step, word, after):
    """The line of Spike's commit log for an instruction, by the step that comes after it."""
    _, pc, mode, before, _ = step
    _, _, _, registers, csrs = after
    line = line_of(pc, word, before, registers).replace("core   0: 3", f"core   0: {mode}")
    rd, rs1, function = word >> 7 & 31, word >> 15 & 31, word >> 12 & 7
    if word & 127 == 0x73 and function:
        name = CSRS.get(word >> 20)
        line += f" x{rd:<2} 0x{registers[rd]:08x}" if rd else ""
        if name and (function % 4 == 1 or rs1):
            line += f" c{word >> 20}_{name} 0x{csrs.get(name, 0):08x}"
    return line


def board_lines(program, steps):
    """The lines of Spike's commit log, by what QEMU did."""
    lines = []
    for place, step in enumerate(steps):
        if step[0] == "step":
            after = next((other for other in steps[place + 1:place + 3] if other[0] == "step"),
                         step)
            lines.append(board_line(step, program.words[step[1]], after))
            continue
        _, pc, code, value, is_interrupt = step
        name = f"interrupt #{code}" if is_interrupt else f"trap_{TRAPS[code]}"
        lines.append(f"core   0: exception {name}, epc 0x{pc:08x}")
        if not is_interrupt and not TRAPS[code].endswith("ecall"):
            lines.append(f"core   0:           tval 0x{pc if code == 3 else value:08x}")
    return lines


def without_values(line):
    """A line of a board's log without the values that registers, CSRs and memory have."""
    head, mark, rest = line.partition(")")
    return head + mark + re.sub("0x([0-9a-f]+)", lambda value: "." * len(value[1]), rest)


def compare_board(room, path, change=unchanged, counts=None):
    """What differs of the log of firmware, and of what is counted of it where all of its run is
    compared."""
    name, program = path.stem, Program(path, "--board")
    steps = board_steps(room, program)
    text, differs = reported(room, program, "trace")
    own, wanted = change(text).splitlines(), board_lines(program, steps)
    ends = [next((place for place, line in enumerate(own) if end and end in line), len(own))
            for end in FIRMWARE[name][:2]]
    if tuple(ends) != (counts or FIRMWARE[name][2:]):
        differs.append(f"the lines are {ends}, and there must be {FIRMWARE[name][2:]}")
    differs += differing("line", own[:ends[0]], wanted[:ends[0]])
    shapes = wanted if ends[1] == len(own) else wanted[:ends[1]]
    differs += differing("line without values", [without_values(line) for line in own[:ends[1]]],
                         [without_values(line) for line in shapes])
    if FIRMWARE[name][1] is None:
        pcs = [step[1] for step in steps if step[0] == "step" or step[2:] == (8, 0, False)
               or step[2:] == (11, 0, False)]
        for compared in COMPARED[1:]:
            differs += compared(room, program, pcs, unchanged)
    return differs


# a source, how often each of its lines is executed, and each of its functions entered
COUNTED = """static int half(int n)
{
    return n / 2;
}
int never(void) { return 1; }
int main(void)
{
    int sum = 0;
    for (int i = 0; i < 10; i++) { sum += half(i); } sum -= 20;
    if (sum != 0)
        sum = 7;
    return sum;
}
"""
COUNTS = {2: 10, 3: 10, 4: 10, 5: 0, 7: 1, 8: 1, 9: 11, 10: 1, 11: 0, 12: 1, 13: 1}
ENTERED = {"half": (2, 10), "never": (5, 0), "main": (7, 1)}
# what genhtml finds of it
FOUND = ["  lines......: 81.8% (9 of 11 lines)", "  functions..: 66.7% (2 of 3 functions)"]


def of_lcov(*words):
    """How the script `lcov` ends."""
    return run(EXAMPLES / "reports/lcov", *words, env={**os.environ, "RRS": str(RRS)})


def compare_lcov(room, change=unchanged, options=()):
    """What differs of the counts of lines and functions."""
    source, path, file = room / "lines.c", room / "lines", room / "lines.info"
    source.write_text(COUNTED)
    subprocess.run([CC, "-g", source, "-o", path, *options], check=True)
    refused = [of_lcov(*words)[0]
               for words in [(room / "none" / "file", path), (file, "--limit", "10", path)]]
    said = of_lcov(file, "--limit=100000", path)
    wanted = [f"TN:\nSF:{source}", *(f"FN:{line},{name}" for name, (line, _) in ENTERED.items()),
              *(f"FNDA:{count},{name}" for name, (_, count) in ENTERED.items()),
              f"FNF:{len(ENTERED)}", f"FNH:{sum(bool(count) for _, count in ENTERED.values())}",
              *(f"DA:{line},{count}" for line, count in COUNTS.items()),
              f"LF:{len(COUNTS)}", f"LH:{sum(map(bool, COUNTS.values()))}", "end_of_record", ""]
    file.write_text(change(file.read_text()))
    status, text, errors = run("genhtml", file, "-o", room / "pages")
    found = text.splitlines()[-len(FOUND):]
    is_right = (said, refused) == ((0, "", ""), [125, 125])
    return ([] if is_right else [f"lcov: {said} {refused}"]) + differing(
        "line", file.read_text().split("\n"), "\n".join(wanted).split("\n")) + (
        [] if (status, errors) == (0, "") else [f"genhtml: {errors}"]) + differing(
        "sum", found, FOUND)


# a program that faults in `main`
FAULTY = "int main(void) { __asm__ volatile (\"ebreak\"); return 0; }\n"
# a name of as many bytes as `main`, and how it is shown
RAW, SHOWN = b"m\x1b\nn", "m^[^Jn"


def all_reports(room, path):
    """What is written of a program, in each form."""
    report, profile = room / "report", room / "profile"
    texts = [run(RRS, "dis", path)[1], run(RRS, "exec", path)[2],
             run(RRS, "trace", "--output", report, path)[2],
             run(RRS, "cover", "--output", report, "--callgrind", profile, path)[2]]
    texts += [report.read_text(), profile.read_text()]
    run(RRS, "cover", "--annotate", "--output", report, path)
    return [*texts, report.read_text()]


def compare_names(room, change=unchanged):
    """What differs where a name has control characters."""
    source, path = room / "faulty.c", room / "faulty"
    source.write_text(FAULTY)
    subprocess.run([CC, source, "-o", path], check=True)
    file, texts = path.read_bytes(), []
    for name in (b"qqqq", RAW):
        path.write_bytes(file.replace(b"\0main\0", b"\0" + name + b"\0"))
        texts.append(all_reports(room, path))
    plain = [text.replace("qqqq", SHOWN) for text in texts[0]]
    wrong = [f"the name is not in {text[:40]!r}" for text in plain if SHOWN not in text]
    return wrong + differing("report with names", [change(text) for text in texts[1]], plain)


def nested(count):
    """An executable of as many instructions as functions, of which each goes on to the end."""
    code = struct.pack("<III", 0x05D00893, 0x00000513, 0x00000073) + struct.pack("<I", 0x13) * count
    names = b"".join(b"\0f%d" % n for n in range(count)) + b"\0"
    places = [0] + [place + 1 for place, byte in enumerate(names[:-1]) if byte == 0]
    symbols = bytes(16) + b"".join(
        struct.pack("<IIIBBH", places[n + 1], 0x10000 + 4 * n, len(code) - 4 * n, 0x12, 0, 1)
        for n in range(count))
    titles = b"\0.text\0"
    parts, offset, headers = [code, symbols, names, titles], 84, [struct.pack("<10I", *[0] * 10)]
    for part, fields in zip(parts, ((1, 1, 6, 0x10000), (0, 2, 0, 0), (0, 3, 0, 0), (0, 3, 0, 0))):
        headers.append(struct.pack("<10I", *fields, offset, len(part), 3, 0, 4, 16))
        offset += len(part)
    start = struct.pack("<HHIIIIIHHHHHH", 2, 243, 1, 0x10000, 52, offset, 0, 52, 32, 1, 40, 5, 4)
    segment = struct.pack("<8I", 1, 84, 0x10000, 0x10000, len(code), len(code), 5, 4)
    return b"\x7fELF\1\1\1" + bytes(9) + start + segment + b"".join(parts + headers)


def compare_nested(room, seconds=10):
    """What differs of the counts of functions within functions, which take so many seconds at
    most."""
    path, report = room / "nested", room / "report"
    path.write_bytes(nested(100_000))
    try:
        subprocess.run([RRS, "cover", "--output", report, "--callgrind", room / "profile", path],
                       check=True, timeout=seconds)
    except subprocess.SubprocessError as error:
        return [str(error)]
    return differing("line", report.read_text().splitlines()[-1:],
                     [f"{3:8} {100_003:8} {3:12} {3:12}  (all)"])

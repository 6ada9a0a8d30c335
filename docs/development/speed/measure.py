#!/usr/bin/env python3
"""Counts what a step takes, and compares the counts with those that are stored.

usage: measure.py [--check | --save | --seconds [--rounds N] | --draw | --self-test]
           [--peer NAME=BINARY] .. [--only WORD]

Counts are machine instructions a step, by valgrind: the difference of two runs, of which one makes
more steps. What is counted are the programs of this repository over those in programs/, which gcc
made, and over loops made here, as `rt` builds them and as plain Rust; and interpreters in C, which gcc
and clang build. Seconds are the least user and system time of the rounds, which take turns, of programs
to their end; what takes more than two seconds is run once.

With no option the tables are counted and printed. With --check our own rows are counted, and
compared with those in numbers.tsv: one that is more than 5 % above fails, by name. The stored ones
are of one toolchain and one rustc: where there is another, this is said, and where one is above then,
numbers.tsv gets the new ones. Then it is seen whether the tables in docs/SPEED.md are those of
numbers.tsv. With --save the counts, and with --seconds the seconds, are stored, and the tables written.
--draw draws the charts by gnuplot. With --self-test the watch is tried: over the crates as plain Rust, which build without a
proof, a call that is not inlined and a cache that is cleared at each run have to be found.

A peer is called as BINARY FILE LIMIT, prints "steps" with their number, and stands in the table of
seconds as a column more. QEMU's qemu-riscv32 and Unicorn stand there where they are installed.

The status is 0 where all is so, 1 where something is not, and 2 where something is missing, or
where the counts are of another toolchain, and one is above.
"""
import argparse
import concurrent.futures
import glob
import os
import re
import resource
import shutil
import struct
import subprocess
import sys
import tempfile

HERE = os.path.dirname(os.path.abspath(__file__))
ROOT = os.path.normpath(os.path.join(HERE, "..", "..", ".."))
NUMBERS = os.path.join(HERE, "numbers.tsv")
PAGE = os.path.join(ROOT, "docs", "SPEED.md")
PROGRAMS = sorted(glob.glob(os.path.join(HERE, "programs", "*.bin")))
ALL = 900_000_000
# Where the code of a program stands that is apart from its data: behind its memory of 64 KiB.
CODE = 65536
WITHIN = 1.05
LONG = 2
PEERS = [
    ("C, decoding", "gcc", "interpreter.c", ["-std=c99"]),
    ("C, a table", "gcc", "interpreter.c", ["-std=c99", "-DKEEPS"]),
    ("C, a table, clang", "clang", "interpreter.c", ["-std=c99", "-DKEEPS"]),
    ("ccache.c", "gcc", "ccache.c", ["-std=gnu99", "-w"]),
    ("fast.c", "gcc", "fast.c", ["-std=gnu99", "-w"]),
]
# The two runs of fast.c, which makes its last 16,400 steps by another loop: as many of those in both.
TAILED = (240_000, 480_000)
RRS = os.path.join(ROOT, "crates", "rrs", "out", "rrs")
SPEED = os.path.join(ROOT, "crates", "tests_speed", "out", "tests_speed")
PLAIN = os.path.join(ROOT, "built", "rust", "target", "release")


# ---- programs made here

def addi(rd, rs1, immediate):
    return (immediate & 0xfff) << 20 | rs1 << 15 | rd << 7 | 0x13


def jal(offset):
    return ((offset & 0x100000) << 11 | (offset & 0x7fe) << 20 | (offset & 0x800) << 9
            | offset & 0xff000 | 0x6f)


def auipc(rd, offset):
    """The two words of a jump to an address that lies so far from the first."""
    high = (offset + 0x800) & ~0xfff
    return [high & 0xfffff000 | rd << 7 | 0x17, ((offset - high) & 0xfff) << 20 | rd << 15 | 0x67]


def loop_of(count):
    """A loop of so many different words: additions to x6 to x31, and a jump."""
    words = [addi(6 + n % 26, 6 + n % 26, 1 + n // 26 & 0x7ff) for n in range(count - 2)]
    return [*words, *auipc(5, -4 * (count - 2))]


def changing():
    """A loop that stores one of two additions over its own first word, in turn."""
    first, second = addi(5, 5, 1), addi(5, 5, 100)
    return [first, 0x0200_2303, 0x0000_2383, 0x0060_2023, 0x0270_2023, jal(-20), 0, 0, second]


def executable(code, base=0, size=65536, flags=0):
    """An executable of one segment, whose pages may be read, written and executed."""
    head = b"\x7fELF\1\1\1" + bytes(9) + struct.pack(
        "<HHIIIIIHHHHHH", 2, 243, 1, base, 52, 0, flags, 52, 32, 1, 40, 0, 0)
    segment = struct.pack("<IIIIIIII", 1, 4096, base, base, len(code), max(size, len(code)), 7, 4096)
    return (head + segment).ljust(4096, b"\0") + code


def apart(code):
    """An executable whose code and whose data stand on pages of their own, as people link theirs: a
    peer that translates code would make that anew at each store to its page. The programs go to their
    code by distances and to their data by addresses, so that the code runs elsewhere."""
    head = b"\x7fELF\1\1\1" + bytes(9) + struct.pack(
        "<HHIIIIIHHHHHH", 2, 243, 1, CODE, 52, 0, 0, 52, 32, 2, 40, 0, 0)
    segments = [(1, 4096, 0, 0, len(code), CODE, 6, 4096),
                (1, 4096, CODE, CODE, len(code), len(code), 5, 4096)]
    head += b"".join(struct.pack("<IIIIIIII", *segment) for segment in segments)
    return head.ljust(4096, b"\0") + code


def mixed_loop():
    """A loop of additions, loads, stores, a branch and a product, which runs at any address."""
    return [
        0x0000_1417,  # auipc x8, 1
        0x0004_2283,  # lw x5, 0(x8)
        addi(5, 5, 1),
        0x0054_2023,  # sw x5, 0(x8)
        0x0053_0333,  # add x6, x6, x5
        0x0063_c3b3,  # xor x7, x7, x6
        0x0033_d493,  # srli x9, x7, 3
        0x0004_9463,  # bne x9, x0, 8
        addi(10, 10, 1),
        0x0273_05b3,  # mul x11, x6, x7
        0x0014_4603,  # lbu x12, 1(x8)
        0x00c4_02a3,  # sb x12, 5(x8)
        jal(-44),
    ]


def short_loop():
    """A loop of compressed code, whose loads and stores are at sp, with two instructions of 32 bits."""
    halves = [
        0x4502,  # c.lwsp x10, 0(x2)
        0x0505,  # c.addi x10, 1
        0xc02a,  # c.swsp x10, 0(x2)
        0x85aa,  # c.mv x11, x10
        0x962e,  # c.add x12, x11
        0x060e,  # c.slli x12, 3
        0x8d2d,  # c.xor x10, x11
        0x8693, 0x5556,  # addi x13, x13, 1365
        0x893d,  # c.andi x10, 15
        0xc111,  # c.beqz x10, 4
        0x8d89,  # c.sub x11, x10
        0xb733, 0x00c5,  # sltu x14, x11, x12
        0xb7d5,  # c.j -28
    ]
    return struct.pack(f"<{len(halves)}H", *halves)


def layers_loop(word):
    """A loop of five with this word, for which x8 is the address of data."""
    return [
        0x0000_1417,  # auipc x8, 1
        addi(5, 5, 1),
        word,
        0x0063_83b3,  # add x7, x7, x6
        0x0074_c4b3,  # xor x9, x9, x7
        jal(-16),
    ]


def timed(loop):
    """Firmware that runs a loop, and sets the alarm again at each interrupt of its timer."""
    return [
        0x0000_0297,  # auipc x5, 0
        addi(5, 5, 48),
        0x3052_9073,  # csrrw x0, mtvec, x5
        addi(5, 0, 0x80),
        0x3042_9073,  # csrrw x0, mie, x5
        0x0200_4d37,  # lui x26, 0x2004
        0x0000_2f37,  # lui x30, 2
        addi(30, 30, 10_000 - 8192),
        0x000d_2223,  # sw x0, 4(x26)
        0x01ed_2023,  # sw x30, 0(x26)
        0x3004_6073,  # csrrsi x0, mstatus, 8
        jal(20),
        0x000d_2f83,  # lw x31, 0(x26)
        0x01ef_8fb3,  # add x31, x31, x30
        0x01fd_2023,  # sw x31, 0(x26)
        0x3020_0073,  # mret
        *loop,
    ]


def packets(limit, history=None):
    """What gdb would send for a continue of so many steps."""
    wanted = [f"limit {limit}"] + ([] if history is None else [f"history {history}"])
    texts = ["qRcmd," + word.encode().hex() for word in wanted] + ["c", "k"]
    return "".join(f"+${text}#{sum(text.encode()) % 256:02x}" for text in texts).encode()


# ---- counting

class Missing(Exception):
    """What is not there."""


def want(*packages):
    """Has programs there, each given with its package of Debian."""
    said = subprocess.run([os.path.join(ROOT, ".ci", "tools"), *packages], stdout=subprocess.PIPE,
                          text=True, check=False)
    if said.returncode:
        raise Missing(said.stdout.strip())


def counted(words, said=b""):
    """The machine instructions of a run, and what it printed."""
    valgrind = ["valgrind", "--tool=callgrind", "--callgrind-out-file=/dev/null"]
    ran = subprocess.run([*valgrind, *words], input=said, stdout=subprocess.PIPE,
                         stderr=subprocess.PIPE)
    errors = ran.stderr.decode(errors="replace")
    return int(re.findall(r"Collected : (\d+)", errors)[-1]), ran.stdout.decode(errors="replace")


class Count:
    """A cell of a table: what a step takes, by two runs that make this many steps."""

    def __init__(self, command, few=20_000, many=40_000, said=None, is_own=True):
        self.command, self.few, self.many = command, few, many
        self.said, self.is_own = said or (lambda steps: b""), is_own

    def number(self):
        (low, few), (high, many) = (self.run(steps) for steps in (self.few, self.many))
        if many <= few:
            raise SystemExit(f"measure.py: too short: {self.command(self.many)}")
        return f"{(high - low) / (many - few):.1f}"

    def run(self, steps):
        taken, text = counted(self.command(steps), self.said(steps))
        told = re.search(r"steps (\d+)", text)
        return taken, int(told.group(1)) if told else steps


def name_of(file):
    return os.path.basename(file).removesuffix(".bin")


def made(room, name, content):
    """Writes a file, and gives its path."""
    path = os.path.join(room, re.sub(r"[^\w.]+", "-", name))
    with open(path, "wb") as out:
        out.write(content)
    return path


def words_of(words):
    return struct.pack(f"<{len(words)}I", *words)


def built_peers(room):
    """The interpreters in C."""
    peers = {}
    want("gcc=gcc", "clang=clang")
    for name, compiler, source, flags in PEERS:
        peers[name] = os.path.join(room, re.sub(r"\W+", "-", name))
        subprocess.run([compiler, "-O3", *flags, "-o", peers[name], os.path.join(HERE, source)],
                       check=True)
    return peers


def by_program(command, **more):
    """A row with a cell for each program."""
    return {name_of(file): Count(command(file), **more) for file in PROGRAMS}


def interpreters(room, with_peers):
    """`rrs run --quiet` beside the interpreters in C."""
    files = {name_of(file): file for file in PROGRAMS}
    for count in (500, 12_000):
        name = f"a loop of {count:,} words"
        files[name] = made(room, f"loop{count}.bin", words_of(loop_of(count)))
    files["a word changed in each turn"] = made(room, "changing.bin", words_of(changing()))
    rows = {}
    for name, file in files.items():
        rows[name] = {"rrs run --quiet": Count(lambda n, f=file: [RRS, "run", "--quiet", f, str(n)])}
        for peer, binary in (built_peers(room) if with_peers else {}).items():
            steps = TAILED if peer == "fast.c" else ()
            rows[name][peer] = Count(lambda n, b=binary, f=file: [b, f, str(n)], *steps, is_own=False)
    return rows


def commands(room, _):
    """What people run."""
    return commands_of(room, RRS)


def plain(room, _):
    """The same as plain Rust, which `rust/build` makes."""
    return commands_of(room, os.path.join(PLAIN, "rrs"))


def commands_of(room, rrs):
    """What people run of a program `rrs`."""
    raw = made(room, "a mixed loop.bin", words_of(mixed_loop()))
    elf = {}
    for file in [*PROGRAMS, raw]:
        with open(file, "rb") as code:
            elf[file] = made(room, name_of(file), executable(code.read()))
    board = made(room, "board", executable(words_of(timed(mixed_loop())), 0x8000_0000))
    short = made(room, "short", executable(short_loop(), 0x1000, flags=1))
    # auipc x2, 1: where its data stands
    short_board = made(room, "short board",
                       executable(words_of(timed([0x0000_1117])) + short_loop(), 0x8000_0000, flags=1))

    def by_program(command, **more):
        columns = {name_of(file): Count(command(file), **more) for file in PROGRAMS}
        return {**columns, "a mixed loop": Count(command(raw), **more)}

    def run(word, *more):
        return lambda file: lambda n: [rrs, word, "--limit", str(n), *more, elf[file]]

    def gdb(file):
        return lambda n: [rrs, "gdb", elf[file]]

    nowhere = ("--output", "/dev/null")
    return {
        "`rrs run --quiet`": by_program(lambda file: lambda n: [rrs, "run", "--quiet", file, str(n)]),
        "`rrs run`": by_program(lambda file: lambda n: [rrs, "run", file, str(n)]),
        "`rrs exec`": by_program(run("exec")),
        "`rrs exec` of compressed code": {
            "a mixed loop": Count(lambda n: [rrs, "exec", "--limit", str(n), short])},
        "`rrs gdb`: `continue` without a history": by_program(gdb, said=lambda n: packets(n, 0)),
        "`rrs gdb`: `continue` with one": by_program(gdb, said=packets),
        "`rrs board`": {"a mixed loop": Count(lambda n: [rrs, "board", "--limit", str(n), board])},
        "`rrs board` of compressed code": {
            "a mixed loop": Count(lambda n: [rrs, "board", "--limit", str(n), short_board])},
        "`rrs cover`": by_program(run("cover", *nowhere)),
        "`rrs trace`": by_program(run("trace", *nowhere)),
    }


def ways(_, __):
    """The public calls in a loop, each in one call, and in calls of so many steps."""
    def way(word, piece=ALL):
        return by_program(lambda file: lambda n: [SPEED, word, file, str(n), str(piece)])

    return {
        "`step`": way("step"),
        "`step_retired`, all fields used": way("retired"),
        "`step_recorded`": way("recorded"),
        "`run_cached` in one call": way("cached"),
        "`run_cached` in calls of 100": way("cached", 100),
        "`run_cached` in calls of 10": way("cached", 10),
        "`run_until_cached` with 4 stops that are not met": way("until"),
        "`run_until_cached` with 64": way("until64"),
        "`run_until_cached` with 4, in calls of 100": way("until", 100),
        "`run_before` with `ALIGNED` and 4 stops": way("before"),
        "`run_aligned`": way("aligned"),
        "`DecodeCache::run` in one call": way("decoding"),
        "`run_cached` over a `MemorySpace`": way("space"),
    }


def sizes(room, _):
    """`rrs exec` over loops that are as large as this."""
    rows = {}
    for kib in (1, 62, 160, 250, 1024, 4096):
        words = kib * 256
        file = made(room, f"code{kib}", executable(words_of(loop_of(words)), size=words * 4 + 65536))
        turns = max(1, 20_000 // words)
        rows[f"{kib:,} KiB"] = {"`rrs exec`": Count(
            lambda n, f=file: [RRS, "exec", "--limit", str(n), f], 2 * turns * words,
            3 * turns * words)}
    return rows


# An instruction of each layer, and what it is.
LAYERS = {
    "`amoadd.w`": 0x0054_232f,                # amoadd.w x6, x5, (x8)
    "a misaligned `lw`": 0x0014_2303,         # lw x6, 1(x8)
    "a misaligned `sw`": 0x0054_20a3,         # sw x5, 1(x8)
    "`fence.i`": 0x0000_100f,
    "`sh1add`": 0x2082_a333,                  # sh1add x6, x5, x8
    "`clz`": 0x6002_9313,                     # clz x6, x5
    "`orc.b`": 0x2872_d313,                   # orc.b x6, x5
}


def layers(room, _):
    """`rrs exec` over loops of five, of which one is of a layer."""
    rows = {}
    for name, word in LAYERS.items():
        file = made(room, name.strip("`"), executable(words_of(layers_loop(word))))
        rows[name] = {"`rrs exec`": Count(lambda n, f=file: [RRS, "exec", "--limit", str(n), f])}
    return rows


# The calls of calls.c, and how many steps each makes.
CALLS = [("step", 1), ("run", ALL), ("run", 100), ("run_cached", ALL), ("run_cached", 100),
         ("run_until", ALL), ("run_until_cached", ALL), ("run_until_cached", 100)]


def c_calls(room, _):
    """The library for C, called in a loop."""
    library = os.path.join(ROOT, "crates", "rrs_c")
    binary = os.path.join(room, "calls")
    subprocess.run(["gcc", "-O2", "-std=c99", f"-I{library}/include", "-o", binary,
                    os.path.join(HERE, "calls.c"), f"{library}/out/librrs_c.a"], check=True)
    rows = {}
    for call, piece in CALLS:
        of = "in one call" if piece == ALL else f"in calls of {piece:,}"
        rows[f"`rrs_{call}` {of}"] = by_program(
            lambda file, c=call, p=piece: lambda n: [binary, file, str(n), c, str(p)])
    return rows


TABLES = {"interpreters": interpreters, "commands": commands, "plain": plain, "calls": ways,
          "layers": layers, "sizes": sizes, "C": c_calls}


def count_all(room, with_peers, only=""):
    """The counts of all tables, or of our own rows, by table, row and column."""
    cells = {}
    for table, rows_of in TABLES.items():
        for row, columns in rows_of(room, with_peers).items():
            for column, cell in columns.items():
                if only in f"{table} {row} {column}":
                    cells[table, row, column] = cell
    with concurrent.futures.ThreadPoolExecutor(os.cpu_count()) as pool:
        cells = {key: cell for key, cell in cells.items() if with_peers or cell.is_own}
        return dict(zip(cells, pool.map(Count.number, cells.values())))


# ---- what is stored

def version():
    """The toolchains: Rattle's, and the rustc of the plain crates."""
    if not shutil.which("rt"):
        raise Missing("rt")
    own, rust = (subprocess.run(words, capture_output=True, text=True, check=True).stdout
                 for words in (["rt", "version"], ["rustc", "--version"]))
    return f"{own.strip()}, rustc {rust.split()[1]}"


def stored():
    """The toolchain of the stored numbers, and these, by table, row and column."""
    with open(NUMBERS, encoding="utf-8") as kept:
        of, *lines = kept.read().splitlines()
    return of, {tuple(key): number for *key, number in (line.split("\t") for line in lines)}


def store(of, numbers):
    with open(NUMBERS, "w", encoding="utf-8") as out:
        out.write(of + "\n")
        out.writelines("\t".join([*key, number]) + "\n" for key, number in numbers.items())


def above(numbers, kept, within=WITHIN):
    """What to say of each count that is above the stored one, or that none is stored of."""
    said = []
    for key, number in numbers.items():
        name = ": ".join(key)
        if key not in kept:
            said.append(f"{name} takes {number}, and no count of it is stored")
        elif float(number) > float(kept[key]) * within:
            said.append(f"{name} takes {number} machine instructions a step, and was {kept[key]}")
    return said


# ---- the page

def table_text(numbers, table):
    """A table of the page."""
    cells = {key[1:]: number for key, number in numbers.items() if key[0] == table}
    rows = list(dict.fromkeys(row for row, _ in cells))
    columns = list(dict.fromkeys(column for _, column in cells))
    lines = ["| | " + " | ".join(columns) + " |", "|---" * (1 + len(columns)) + "|"]
    for row in rows:
        lines.append("| " + " | ".join([row, *(cells.get((row, c), "") for c in columns)]) + " |")
    return "\n".join(lines)


def page_with(text, numbers):
    """The page with its tables: each stands between a comment that names it and an empty line."""
    return re.sub(r"(<!-- counted: (\w+) -->\n)(?:\|.*\n)*",
                  lambda at: at[1] + table_text(numbers, at[2]) + "\n", text)


def write_page(numbers):
    with open(PAGE, encoding="utf-8") as page:
        text = page.read()
    with open(PAGE, "w", encoding="utf-8") as page:
        page.write(page_with(text, numbers))


# ---- seconds

UNICORN = f"""
import sys, unicorn
engine = unicorn.Uc(unicorn.UC_ARCH_RISCV, unicorn.UC_MODE_RISCV32)
engine.mem_map(0, 2 * {CODE})
code = open(sys.argv[1], "rb").read()
engine.mem_write(0, code)
engine.mem_write({CODE}, code)
try:
    engine.emu_start({CODE}, 2 * {CODE})
except unicorn.UcError:
    pass
"""


def spent(words):
    """The user and system time of a run, and the steps that it tells of."""
    before = resource.getrusage(resource.RUSAGE_CHILDREN)
    ran = subprocess.run(words, stdout=subprocess.PIPE, stderr=subprocess.DEVNULL)
    after = resource.getrusage(resource.RUSAGE_CHILDREN)
    told = re.search(rb"steps (\d+)", ran.stdout)
    seconds = after.ru_utime - before.ru_utime + after.ru_stime - before.ru_stime
    return seconds, told and int(told.group(1))


def seconds_of(room, rounds, others):
    """The seconds of each program to its end, by each peer."""
    peers = {"rrs run --quiet": [RRS, "run", "--quiet"]}
    peers |= {name: [binary] for name, binary in {**built_peers(room), **others}.items()}
    numbers = {}
    for file in PROGRAMS:
        runs = {name: [*words, file, str(ALL)] for name, words in peers.items()}
        with open(file, "rb") as code:
            elf = made(room, name_of(file), apart(code.read()))
        os.chmod(elf, 0o755)
        if has_unicorn():
            runs["Unicorn"] = ["/usr/bin/python3", "-c", UNICORN, file]
        if shutil.which("qemu-riscv32"):
            runs["qemu-riscv32"] = ["qemu-riscv32", elf]
        least, steps = {}, set()
        for _ in range(rounds):
            for name, words in runs.items():
                if least.get(name, 0) > LONG:
                    continue
                taken, told = spent(words)
                least[name] = min(least.get(name, taken), taken)
                steps |= {told} - {None}
        if len(steps) != 1:
            raise SystemExit(f"measure.py: not the same number of steps of {file}: {steps}")
        numbers |= {("seconds", name_of(file), name): f"{taken:.3f}" for name, taken in least.items()}
    return numbers


def has_unicorn():
    return subprocess.run(["/usr/bin/python3", "-c", "import unicorn"], capture_output=True,
                          check=False).returncode == 0


# ---- charts

def draw():
    """Draws a chart of the interpreters, and one of the seconds."""
    _, numbers = stored()
    for table, file, title in (("interpreters", "counts", "Machine instructions a step"),
                               ("seconds", "seconds", "Seconds")):
        cells = {key[1:]: number for key, number in numbers.items() if key[0] == table}
        rows = list(dict.fromkeys(row for row, _ in cells))
        columns = list(dict.fromkeys(column for _, column in cells))
        lines = ["\t".join(["program", *columns])]
        lines += ["\t".join([row, *(cells.get((row, c), "?") for c in columns)]) for row in rows]
        said = [
            "set terminal svg size 900,420 font 'sans,12' background 'white'",
            f"set output '{os.path.join(HERE, file)}.svg'",
            f"set title '{title}, less is better'",
            "set style data histogram", "set style histogram cluster gap 1",
            "set style fill solid 0.8 noborder", "set boxwidth 0.9", "set yrange [0:*]",
            "set datafile separator '\t'", "set datafile missing '?'", "set grid ytics",
            "set xtics rotate by -20 noenhanced",
            "set key outside bottom center horizontal noenhanced",
            "$numbers << END", *lines, "END",
            f"plot for [i=2:{len(columns) + 1}] $numbers using i:xtic(1) title columnheader(i)",
        ]
        subprocess.run(["gnuplot"], input="\n".join(said) + "\n", text=True, check=True)


# ---- the watch, and what tries it

def build():
    for what in (["program", "rrs"], ["program", "tests_speed"], ["library"]):
        status = subprocess.run([os.path.join(ROOT, ".ci", "built"), *what],
                                stdout=subprocess.DEVNULL).returncode
        if status == 2:
            raise Missing("rt")
        if status:
            raise SystemExit(f"measure.py: {' '.join(what)} does not build")
    want("cargo=cargo-web")
    subprocess.run([os.path.join(ROOT, "rust", "build")], check=True)


def check(room):
    """Counts our own rows, and compares them with the stored ones."""
    build()
    of, kept = stored()
    now = version()
    numbers = count_all(room, False)
    said = above(numbers, kept)
    if now != of:
        print(f"the stored counts are of {of}, and these of {now}")
    if now != of and said:
        store(now, {**kept, **numbers})
        write_page(stored()[1])
        print("\n".join([*said, "these are stored in their place"]))
        return 2
    with open(PAGE, encoding="utf-8") as page:
        text = page.read()
    if page_with(text, kept) != text:
        said.append("docs/SPEED.md has other tables than numbers.tsv: measure.py --save")
    for line in said:
        print(line)
    print(f"{len(numbers)} counts, {len(said)} of which are no more what they were")
    return 1 if said else 0


# What is planted in the crates as plain Rust, by crate and file: a text and another in its place.
PLANTED = {
    "a call that is not inlined": ("rrs_fast/src/packed.rs", r"#\[inline\(always\)\]\n(\s*pub\(crate\) fn process<)",
                                   r"#[inline(never)]\n\1"),
    "a cache that is cleared at each run": ("rrs_fast/src/cached.rs",
                                            r"(fn run_cached<(?:.|\n)*?\{\n)",
                                            r"\1    clear_known::<N>(&mut executor.mem.known);\n"),
}


def plain_counts(folder, room):
    """The counts of the public calls, as plain Rust."""
    subprocess.run(["cargo", "build", "--release", "--quiet", "--offline", "-p",
                    "rrs-kit-tests-speed"], cwd=folder, check=True)
    binary = os.path.join(folder, "target", "release", "tests-speed")
    file = PROGRAMS[1]
    cells = {(way, f"in calls of {piece}"): Count(
        lambda n, w=way, p=piece: [binary, w, file, str(n), str(p)])
        for way, piece in (("cached", 1000), ("until", ALL))}
    return {key: cell.number() for key, cell in cells.items()}


def self_test(room):
    """Plants what the watch has to find."""
    want("cargo=cargo-web")
    folder = os.path.join(room, "rust")
    subprocess.run([os.path.join(ROOT, "rust", "build"), "--write", folder], check=True)
    kept = plain_counts(folder, room)
    failed = 1 if above(plain_counts(folder, room), kept) else 0
    for what, (file, old, new) in PLANTED.items():
        path = os.path.join(folder, "crates", file)
        with open(path, encoding="utf-8") as source:
            text = source.read()
        changed, places = re.subn(old, new, text, count=1)
        with open(path, "w", encoding="utf-8") as source:
            source.write(changed)
        said = above(plain_counts(folder, room), kept) if places else []
        print(f"{what}: " + ("; ".join(said) or "not found"))
        failed = failed if said else 1
        with open(path, "w", encoding="utf-8") as source:
            source.write(text)
    return failed


def main():
    parser = argparse.ArgumentParser(usage=__doc__)
    for word in ("check", "save", "seconds", "draw", "self-test"):
        parser.add_argument(f"--{word}", action="store_true")
    parser.add_argument("--rounds", type=int, default=9)
    parser.add_argument("--only", default="")
    parser.add_argument("--peer", action="append", default=[])
    given = parser.parse_args()
    if given.draw:
        return draw()
    want("valgrind=valgrind", "gcc=gcc")
    with tempfile.TemporaryDirectory() as room:
        if given.self_test:
            return self_test(room)
        if given.check:
            return check(room)
        build()
        if given.seconds:
            numbers = seconds_of(room, given.rounds, dict(p.split("=", 1) for p in given.peer))
        else:
            numbers = count_all(room, True, given.only)
        if given.save or given.seconds:
            tables = set() if given.only else {key[0] for key in numbers}
            rest = {key: n for key, n in stored()[1].items() if key[0] not in tables}
            store(version(), {**rest, **numbers})
            write_page(stored()[1])
        for table in dict.fromkeys(key[0] for key in numbers):
            print(f"{table}:\n{table_text(numbers, table)}")
    return 0


if __name__ == "__main__":
    try:
        sys.exit(main())
    except Missing as what:
        print(f"measure.py: {what} is missing")
        sys.exit(2)

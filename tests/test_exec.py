"""Runs C programs by rrs exec, and compares what they print, what is on standard error and their
statuses with the files of examples/exec/wanted: the programs of that folder as they are stored in
crates/rrs/data, and those and the programs of `trials` as `build` makes them. Each is run once more
where the host reads and writes three bytes at a time, and under qemu-riscv32. The programs of
`programs`, and most of `trials`, are then built by `cc`, as people build theirs, and run with three
arguments by rrs exec and by qemu-riscv32. Those with compressed code go to their ends, back and on
again under rrs gdb too (examples/gdb/back.py), and random programs that store into their own code
run beside qemu-riscv32 (rewriting.py). test_exec_says.py has what rrs exec says."""

import os
import re
import shutil
import subprocess
import sys

import pytest

from executing import (DATA, HERE, TOOLS, WORDS, compare_process, compare_process_by_qemu,
                       compare_raw, compare_raw_by_qemu, compile_in, ends_unread, input_of, kept,
                       made, of_program, runs, says, tells, wanted)
from support import EXAMPLES, instead, run, same, text_of

pytestmark = [pytest.mark.qemu, pytest.mark.tools(*TOOLS)]

STORED = ("hello", "count", "fault")
TRIALS = ("unended", "order", "full", "aborts", "asserts", "streams", "clocks", "newlib", "numbers",
          "values", "heap", "lines", "unserved")
PROGRAMS = [path.stem for path in sorted(HERE.glob("programs/*.c"))]
ARCHITECTURE = "-march=rv32imac_zba_zbb_zbc_zbkb_zbs"


def source_of(name):
    """The source of a program."""
    places = (HERE / f"{folder}{name}{end}" for folder in ("programs/", "trials/", "")
              for end in (".c", ".cc"))
    return next(path for path in places if path.exists())


# each process, with the options of its compiler
PROCESSES = {
    **{name: () for name in (*PROGRAMS, "hello", "count", *TRIALS)
       # one makes other calls, one has more than the raw machine's memory, and one asks for files,
       # which are others for a process
       if name not in ("newlib", "heap", "streams")},
    # what no code names is kept
    "order": ("-ffunction-sections", "-Wl,--gc-sections"),
    "library": (), "bytes": ("-fno-builtin",), "misaligned": (),
    # atomic accesses, and C++, which clang compiles too
    "atomics": (), "objects": (),
    "atomics by clang": ("--clang",), "objects by clang": ("--clang",),
    "atomics of A": ("-march=rv32ima",), "layers": ("-march=rv32ima",), "bits": (ARCHITECTURE,),
}
COMPRESSED = (*PROGRAMS, "hello", "layers", "misaligned")
MARCHES = tuple(f"{base}_zba_zbb_zbc_zbkb_zbs" for base in ("rv32im", "rv32imc", "rv32imac"))


@pytest.fixture(autouse=True)
def qemu_has_zbkb(monkeypatch):
    """QEMU leaves it out unless it is asked for."""
    monkeypatch.setenv("QEMU_CPU", "rv32,zbkb=true")


@pytest.fixture(scope="module")
def raw(once):
    """The folder of the programs as `build` makes them, from another folder."""
    sources = [source_of(name) for name in (*STORED, *TRIALS, "forever")]
    return once("exec-raw", lambda room: made(HERE / "build", ".", *sources, cwd=room))


@pytest.fixture(scope="module")
def process(once):
    """Builds a process: process(NAME)."""
    def find(name):
        source = source_of(name.split()[0])
        file = f"{source.stem}.process"
        return once(f"process-{name.replace(' ', '-')}", lambda room: compile_in(
            room / file, source, "-O2", *PROCESSES[name])) / file
    return find


@pytest.fixture(scope="module")
def compressed(once):
    """Builds a process of compressed code: compressed(NAME)."""
    def find(name):
        return once(f"compressed-{name}", lambda room: compile_in(
            room / "program", source_of(name), "-O2", "-march=rv32imac")) / "program"
    return find


@pytest.fixture(scope="module")
def shortened(once):
    """A library that has reads and writes take three bytes at a time, and a program that shows
    it."""
    def build(room):
        made("cc", "-O2", "-shared", "-fPIC", "-o", room / "short.so", HERE / "trials/short.c")
        made("cc", "-x", "c", "-o", room / "reads", "-", input="""#include <stdio.h>
#include <unistd.h>
int main(void) { char b[9]; long r = read(0, b, 9);
return printf("%ld %ld\\n", r, (long)write(2, b, 9)) < 0; }
""")
    return once("shortened", build)


def shortens(shortened, tmp_path):
    """The environment of a run whose reads and writes are shortened, which makes a file then."""
    return {**os.environ, "LD_PRELOAD": str(shortened / "short.so"),
            "SHORTENED": str(tmp_path / "shortened")}


# ---- as they are stored, and as `build` makes them


@pytest.mark.parametrize("name", STORED)
def test_stored(rrs, name):
    compare_raw(rrs, name, DATA / f"{name}.bin")


@pytest.mark.parametrize("name", STORED)
def test_built_again(raw, name):
    assert (raw / f"{name}.bin").read_bytes() == (DATA / f"{name}.bin").read_bytes()


def test_reads_and_writes_are_shortened(shortened, tmp_path):
    done = run(shortened / "reads", input="0123456789\n", env=shortens(shortened, tmp_path))
    assert done.output == "3 3\n"


@pytest.mark.parametrize("name", STORED + TRIALS)
def test_raw(rrs, raw, name):
    compare_raw(rrs, name, raw / f"{name}.bin")


@pytest.mark.parametrize("name", STORED + TRIALS)
def test_three_bytes_at_a_time(rrs, raw, shortened, tmp_path, name):
    compare_raw(rrs, name, raw / f"{name}.bin", shortens(shortened, tmp_path))
    assert (tmp_path / "shortened").exists()


# the calls of newlib are others in the Linux of 32 bits
@pytest.mark.parametrize("name", [name for name in STORED + TRIALS if name != "newlib"])
def test_raw_by_qemu(raw, name):
    compare_raw_by_qemu("qemu-riscv32", name, raw / f"{name}.elf")


def test_unread(rrs, raw):
    ends_unread(rrs, "exec", "--raw", raw / "forever.bin", "--limit", "999999999")


def test_unread_by_qemu(raw):
    ends_unread("qemu-riscv32", raw / "forever.elf")


def does_not_fit(room, source):
    """Has a program not be linked that does not fit."""
    done = run(HERE / "build", room, source)
    assert done.status != 0 and "does not fit below its stack" in done.errors


def test_a_program_that_does_not_fit(tmp_path):
    does_not_fit(tmp_path, HERE / "trials/large.c")


def test_primes(tmp_path):
    """The program of examples/c, which test_rrs.py runs."""
    for name in ("Makefile", "link.ld", "primes.c", "start.S"):
        shutil.copy(EXAMPLES / "c" / name, tmp_path)
    made("make", "-s", "primes.bin", cwd=tmp_path)
    assert (tmp_path / "primes.bin").read_bytes() == (DATA / "primes.bin").read_bytes()


# the calls that are served
SERVED = {29, 57, 62, 63, 64, 66, 79, 80, 93, 94, 160, 169, 172, 174, 175, 176, 177, 214, 278, 291,
          403}


def names_of_calls():
    """The name of each call, as the header of Linux has it, by the names for 32 bits, with those
    that RV32 does without. Of a processor's own calls two are of RISC-V."""
    wants = [f"-D__ARCH_WANT_{name}" for name in (
        "RENAMEAT", "TIME32_SYSCALLS", "NEW_STAT", "SET_GET_RLIMIT", "SYS_CLONE3", "MEMFD_SECRET")]
    text = made("gcc", "-E", "-dM", "-U__x86_64__", *wants, "-include", "asm-generic/unistd.h",
                "-").output
    means = {name: value for name, value in re.findall(r"(?m)^#define (__NR\S*) (\S+)", text)
             if not re.search("syscalls$|arch_specific", name)}
    means |= {"__NR_riscv_hwprobe": "258", "__NR_riscv_flush_icache": "259"}
    names = {}
    for name in means:
        number = means[name]
        while number in means:
            number = means[number]
        if name.startswith("__NR_"):
            names[number] = name[5:]
    return names


NOT_SERVED = re.compile(
    r"(?m)^rrs exec: the system call (.*?) is not served(?:: rrs exec --files .*)?$")


def test_the_names_of_the_calls(rrs, tmp_path):
    """But for those that are served."""
    made(HERE / "cc", "-O2", HERE / "trials/called.c", "-o", tmp_path / "called")
    seen = ""
    for first in [*range(0, 93, 16), *range(95, 295, 16), *range(295, 471, 16)]:
        last = {80: 92, 287: 294}.get(first, first + 15)
        done = run(rrs, "exec", tmp_path / "called", first, last, stderr=subprocess.STDOUT)
        seen += NOT_SERVED.sub(r"\1", done.output)
    names = names_of_calls()
    lines = (f"{names[str(number)]} ({number})" if str(number) in names else f"{number}"
             for number in range(471) if number not in SERVED)
    same(seen, "".join(f"{line}\n" for line in lines))


# ---- as processes


@pytest.mark.parametrize("name", PROCESSES)
def test_process(rrs, process, name):
    compare_process(rrs, name.split()[0], process(name))


@pytest.mark.parametrize("name", PROCESSES)
def test_process_by_qemu(process, name):
    compare_process_by_qemu("qemu-riscv32", name.split()[0], process(name))


PLACES = (
    ("null", r"^rrs exec: at pc 0x[0-9a-f]*, copy \+ [0-9]*, after [0-9]* steps$"),
    ("null", "^rrs exec: StoreAccessFault addr=0x00000000$"),
    ("constant", r"^rrs exec: at pc 0x[0-9a-f]*, main \+ [0-9]*, after"),
    ("endless", r"^rrs exec: at pc 0x[0-9a-f]*, deeper \+ [0-9]*, after"),
    ("endless", "^rrs exec: the stack ran over: it has 8 MiB at most$"),
)


@pytest.mark.parametrize("name, expression", PLACES)
def test_the_place_of_a_fault(rrs, process, name, expression):
    tells(rrs, name, expression, process(name), *WORDS)


def test_the_place_of_a_limit(rrs, process):
    tells(rrs, "hello", r"^rrs exec: at pc 0x[0-9a-f]*, [a-z_0-9]* \+ [0-9]*, after 10 steps$",
          "--limit", "10", process("hello"))
    seen = kept(runs("hello", rrs, "exec", "--limit", "10", process("hello")))
    same("".join(seen.splitlines(True)[-2:]), "rrs exec: limit\n-- status 124\n")


@pytest.mark.parametrize("what", ["load", "store"])
def test_a_misaligned_access_that_leaves_a_page(rrs, process, what):
    own, other = (kept(runs("misaligned", *words, process("misaligned"), what))
                  for words in ((rrs, "exec"), ("qemu-riscv32",)))
    same(of_program(own), of_program(other))


def test_misaligned_accesses_as_faults(rrs, process):
    tells(rrs, "misaligned", "^rrs exec: AlignmentFault addr=0x[0-9a-f]*[13579bdf]$",
          "--strict-alignment", process("misaligned"))


def test_bits_on_a_hart_without(rrs, process):
    tells(rrs, "bare", "^rrs exec: IllegalInstruction pc=0x[0-9a-f]* word=0x[0-9a-f]*$",
          "--march=rv32imac", process("bits"))


def test_conditional_zeros(rrs, tmp_path):
    """QEMU 7.2 has no Zicond. The program adds 7 twice and four times, and 0 once and eight
    times."""
    (tmp_path / "zicond.s").write_text("""_start:
    li a1, 7
    li a2, 5
    czero.eqz a0, a1, zero
    czero.nez a3, a1, zero
    czero.eqz a4, a1, a2
    czero.nez a5, a1, a2
    slli a3, a3, 1
    slli a4, a4, 2
    slli a5, a5, 3
    add a0, a0, a3
    add a0, a0, a4
    add a0, a0, a5
    li a7, 93
    ecall
""")
    assert run(rrs, "as", "-o", tmp_path / "zicond", tmp_path / "zicond.s").status == 0
    assert run(rrs, "exec", tmp_path / "zicond").status == 42
    tells(rrs, "bare", "^rrs exec: IllegalInstruction pc=0x[0-9a-f]* word=0x0e05d533$",
          "--march=rv32imac_zba_zbb_zbc_zbkb_zbs", tmp_path / "zicond")


def test_a_line_that_cannot_be_written(rrs, process):
    """The program tells it by its status."""
    with open("/dev/full", "wb") as full:
        assert run(rrs, "exec", process("unended"), stdout=full).status == 8


def test_the_segments_of_an_executable(process):
    """What may be done with each part of it."""
    text = made("riscv64-unknown-elf-readelf", "-lW", process("hello")).output
    found = re.findall(r"(?m)^  ([A-Z]+) +(?:0x[0-9a-f]+ ){5}([R ][W ][E ]) ", text)
    assert found == [("LOAD", "R E"), ("LOAD", "R  "), ("LOAD", "RW "), ("TLS", "R  ")]


@pytest.mark.parametrize("of", ["own", "qemu"])
def test_an_environment(rrs, process, of):
    words = [rrs, "exec", "--env", "A=1", "--env", "RRS_TEST_NAME=unset",
             "--env", "RRS_TEST_NAME=set"]
    if of == "qemu":
        words = ["env", "RRS_TEST_NAME=set", "qemu-riscv32"]
    seen = kept(runs("options", *words, process("options"), *WORDS))
    same(seen, wanted("options").replace("\nnot in the environment\n", "\nset\n", 1))


def test_random_bytes(rrs, process):
    """The same each run, the first number of SplitMix64 from 0, or those of the host."""
    words = [[], [], ["--random", "host"], ["--random", "host"]]
    seen = [run(rrs, "exec", *more, process("random"), "bytes").output for more in words]
    assert seen[:2] == ["e220a8397b1dcdaf\n"] * 2
    assert len(set(seen)) == 3


def test_ticks_by_qemu(tmp_path):
    """A clock, which a process has there."""
    compile_in(tmp_path / "ticks", source_of("ticks"), "-O2")
    same(kept(run("qemu-riscv32", tmp_path / "ticks")),
         "as the time\n-- standard error\n-- status 0\n")


def test_a_clock_that_stands_still(rrs, tmp_path):
    (tmp_path / "fixed.c").write_text("""#include <stdio.h>
#include <sys/time.h>
#include <time.h>
int main(void) { struct timeval t;
gettimeofday(&t, NULL); return fprintf(stderr, "%ld %ld %ld", (long)t.tv_sec, (long)t.tv_usec,
(long)clock()) < 0; }
""")
    compile_in(tmp_path / "fixed", tmp_path / "fixed.c")
    says(rrs, "0 0 0", 0, "--clock", "fixed", tmp_path / "fixed")


# a megabyte by a function, at a place that is aligned and at another, in so many thousand steps
MOST = {"memcpy": (700, 2500), "memmove": (700, 2500), "memset": (400, 430), "memcmp": (1100, 3300),
        "strlen": (1400, 1400), "strcmp": (2200, 4400), "malloc": (160, 160)}


@pytest.mark.parametrize("place", [0, 1])
@pytest.mark.parametrize("name", MOST)
def test_the_steps_of_a_megabyte(rrs, process, name, place):
    says(rrs, "", 0, "--limit", f"{MOST[name][place]}000", process("bytes"), name, place)


def rewriting(rrs, first, count, signals):
    """Compares random programs that store into their own code with qemu-riscv32."""
    __tracebackhide__ = True
    done = run(sys.executable, HERE / "rewriting.py", rrs, first, count)
    same(done.output, f"{count} programs: {count} agree, {signals} end by a signal\n")


def test_programs_that_store_into_their_own_code(rrs):
    rewriting(rrs, 107, 120, 9)


# ---- compressed code


@pytest.mark.parametrize("name", COMPRESSED)
def test_compressed(rrs, compressed, name):
    compare_process(rrs, name, compressed(name))


def there_and_back(rrs, path, name):
    """Compares the ends of a program that goes to its end, back and on again, under rrs gdb."""
    __tracebackhide__ = True
    done = run(sys.executable, EXAMPLES / "gdb/back.py", rrs, path, input_of(name))
    same(done.output, "1 end alike\n")


@pytest.mark.parametrize("name", COMPRESSED)
def test_there_and_back(rrs, compressed, name):
    there_and_back(rrs, compressed(name), name)


def test_the_trace_of_compressed_code(rrs, compressed, tmp_path):
    """Each word at its address is in the disassembly of objdump."""
    path = compressed("hello")
    run(rrs, "trace", "--output", tmp_path / "trace", path)
    traced = set(re.findall(r"(?m)^core   0: 3 0x0*([0-9a-f]*) \(0x([0-9a-f]*)\)",
                            text_of(tmp_path / "trace")))
    text = made("riscv64-unknown-elf-objdump", "-d", path).output
    assert traced <= set(re.findall(r"(?m)^ *([0-9a-f]*):\t([0-9a-f]*) ", text))
    assert sum(len(word) == 4 for _, word in traced) > 100


def test_the_counts_of_compressed_code(rrs, compressed):
    lines = run(rrs, "trace", compressed("hello")).errors.splitlines()
    covered = run(rrs, "cover", compressed("hello")).errors
    assert re.findall(r"(?m)^ *\d+ +\d+ +\d+ +(\d+)  \(all\)$", covered) == [f"{len(lines)}"]


@pytest.mark.parametrize("subcommand", ["exec", "trace", "cover"])
def test_compressed_code_on_a_hart_without(rrs, compressed, subcommand):
    path = compressed("hello")
    done = run(rrs, subcommand, "--march=rv32ima", path)
    assert done == (125, "", f"rrs {subcommand}: {path}: e_flags: compressed code: "
                             "compile it with -march=rv32im -mabi=ilp32\n")


# ---- firmware by cc --board


@pytest.mark.parametrize("name", ["hello", "wide", "floats", "factorials"])
def test_firmware(rrs, tmp_path, name):
    """With divisions of 64 bits."""
    compile_in(tmp_path / "firmware", source_of(name), "--board", "-O2")
    seen = kept(runs(name, rrs, "board", tmp_path / "firmware"))
    same(of_program(seen), of_program(wanted(name)))


def test_firmware_with_a_trap(rrs, tmp_path):
    """One that it does not take."""
    (tmp_path / "astray.c").write_text("int main(void) { return *(volatile int *)0x40000000; }\n")
    compile_in(tmp_path / "astray", tmp_path / "astray.c", "--board")
    seen = kept(runs("astray", rrs, "board", tmp_path / "astray"))
    same(re.sub("mepc 0x8000[0-9a-f]*", "mepc .", seen),
         "trap: mcause 0x00000005, mepc ., mtval 0x40000000\n-- standard error\n-- status 1\n")


def test_bits_as_firmware(rrs, tmp_path):
    compile_in(tmp_path / "bits", source_of("bits"), "--board", "-O2", ARCHITECTURE)
    same(kept(runs("bits", rrs, "board", tmp_path / "bits")), wanted("bits"))


# ---- cc and build


@pytest.mark.parametrize("option", ["-DGCC", "--clang", "--board"])
@pytest.mark.parametrize("march", MARCHES)
def test_more_extensions(tmp_path, march, option):
    """Programs for more extensions than Debian has libraries for, and firmware, are linked as of 32
    bits; a process prints under qemu-riscv32 what it is to print."""
    made(HERE / "cc", option, "-O2", f"-march={march}", HERE / "trials/bits.c", "-o",
         tmp_path / "bits")
    assert re.search("Class: *ELF32", made("riscv64-unknown-elf-readelf", "-h",
                                           tmp_path / "bits").output)
    if option != "--board":
        same(kept(runs("bits", "qemu-riscv32", tmp_path / "bits")), wanted("bits"))


@pytest.mark.parametrize("word, expression", [("-c", " T main$"), ("-E", "^int main"),
                                              ("-S", "^main:$")])
def test_what_cc_does_not_link(tmp_path, word, expression):
    path = tmp_path / "hello"
    done = made(HERE / "cc", word, HERE / "hello.c", "-o", path)
    assert done == (0, "", "")
    text = made("riscv64-unknown-elf-nm", path).output if word == "-c" else text_of(path)
    assert len(re.findall(f"(?m){expression}", text)) == 1


@pytest.fixture
def blanks(tmp_path):
    """Folders whose paths have blanks, one of them with cc and build."""
    for name in ("a b/t m p", "a b/built", "c c"):
        (tmp_path / name).mkdir(parents=True)
    shutil.copytree(HERE / "include", tmp_path / "c c/include")
    for path in [HERE / "cc", HERE / "build", *HERE.glob("*.[cS]"), *HERE.glob("*.ld")]:
        shutil.copy(path, tmp_path / "c c")
    return tmp_path


def test_cc_where_paths_have_blanks(rrs, blanks):
    """What it makes of an object and a source, what of one that lacks a function, and what is left
    there and in the folder of temporary files."""
    room, cc = blanks / "a b", blanks / "c c/cc"
    how = {"cwd": room, "env": {**os.environ, "TMPDIR": str(room / "t m p")}}
    (room / "one.c").write_text("extern const char *text; int puts(const char *); "
                                "int main(void) { return puts(text) < 0; }\n")
    (room / "two words.c").write_text("const char *text = TEXT;\n")
    made(cc, "-c", '-DTEXT="a text"', "two words.c", "-o", "two words.o", **how)
    made(cc, "one.c", "two words.o", **how)
    assert run(rrs, "exec", "a.out", cwd=room) == (0, "a text\n", "")
    assert run(cc, "one.c", "-o", "none", **how).status == 1
    left = sorted(str(path.relative_to(room)) for path in room.rglob("*"))
    assert left == ["a.out", "built", "one.c", "t m p", "two words.c", "two words.o"]


def test_build_where_the_path_has_a_blank(blanks):
    """With no source it makes the programs of its folder."""
    built = blanks / "a b/built"
    made(blanks / "c c/build", built)
    assert sorted(path.name for path in built.iterdir()) == sorted(
        f"{name}.{end}" for name in STORED for end in ("bin", "elf"))
    assert (built / "count.bin").read_bytes() == (DATA / "count.bin").read_bytes()


# ---- what is wrong must be seen


class Subject:
    """The two programs that are compared, one of them wrong, and what they run."""

    def __init__(self, rrs, raw, process, compressed, room):
        self.rrs, self.qemu = rrs, "qemu-riscv32"
        self.raw, self.process, self.compressed, self.room = raw, process, compressed, room


# the comparisons that are tried on what is wrong
COMPARED = {
    "stored": lambda it: compare_raw(it.rrs, "hello", DATA / "hello.bin"),
    "says": lambda it: says(it.rrs, "rrs exec: at pc 0x00000018, after 10 steps\n"
                            "rrs exec: limit\n", 124, "--raw", DATA / "hello.bin", "--limit", "10"),
    "unread": lambda it: ends_unread(it.rrs, "exec", "--raw", it.raw / "forever.bin",
                                     "--limit", "999999999"),
    "unread by qemu": lambda it: ends_unread(it.qemu, it.raw / "forever.elf"),
    "raw by qemu": lambda it: compare_raw_by_qemu(it.qemu, "hello", it.raw / "hello.elf"),
    "process": lambda it: compare_process(it.rrs, "hello", it.process("hello")),
    "process by qemu": lambda it: compare_process_by_qemu(it.qemu, "hello", it.process("hello")),
    "null": lambda it: compare_process(it.rrs, "null", it.process("null")),
    "null by qemu": lambda it: compare_process_by_qemu(it.qemu, "null", it.process("null")),
    "place": lambda it: tells(it.rrs, *PLACES[0], it.process("null"), *WORDS),
    "compressed": lambda it: compare_process(it.rrs, "hello", it.compressed("hello")),
    "there and back": lambda it: there_and_back(it.rrs, it.compressed("hello"), "hello"),
    "rewriting": lambda it: rewriting(it.rrs, 2, 2, 1),
}
BY_QEMU = [name for name in COMPARED if name.endswith("by qemu")]
OWN = [name for name in COMPARED if not name.endswith("by qemu")]
MORE, STATUS = "echo more", "status=$((status + 1))"
# what a wrong tool does after and before what the other does, and which comparisons must see it
FAULTS = {
    "qemu prints more": ("qemu", MORE, ":", [*BY_QEMU[1:], "rewriting"]),
    "qemu ends otherwise": ("qemu", STATUS, ":", [*BY_QEMU, "rewriting"]),
    "rrs ends otherwise": ("rrs", STATUS, ":", [name for name in OWN if name != "place"]),
    "rrs says nothing": ("rrs", ":", "exec 2>/dev/null", ["says", "place", "rewriting"]),
    "rrs says something else": ("rrs", "echo another >&3", "exec 3>&2 2>/dev/null", OWN),
}


@pytest.mark.planted
@pytest.mark.parametrize("fault, name", [(fault, name) for fault, (*_, names) in FAULTS.items()
                                         for name in names])
def test_another_tool(rrs, raw, process, compressed, tmp_path, monkeypatch, fault, name):
    subject = Subject(rrs, raw, process, compressed, tmp_path)
    which, after, before, _ = FAULTS[fault]
    if which == "rrs":
        subject.rrs = instead(tmp_path / "rrs", rrs, after, before)
    else:
        subject.qemu = instead(tmp_path / "bin/qemu-riscv32", shutil.which("qemu-riscv32"), after,
                               before)
        monkeypatch.setenv("PATH", f"{tmp_path}/bin:{os.environ['PATH']}")
    with pytest.raises(AssertionError):
        COMPARED[name](subject)


@pytest.mark.planted
@pytest.mark.parametrize("text", [wanted("hello") + "more\n", " "], ids=["more", "lost"])
def test_another_text(rrs, text):
    """What is wanted has more, or is not there."""
    with pytest.raises(AssertionError, match="hello differs"):
        compare_raw(rrs, "hello", DATA / "hello.bin", wants=text)


@pytest.mark.planted
def test_another_status(rrs):
    with pytest.raises(AssertionError):
        says(rrs, "rrs exec: at pc 0x00000018, after 10 steps\nrrs exec: limit\n", 125, "--raw",
             DATA / "hello.bin", "--limit", "10")


@pytest.mark.planted
@pytest.mark.parametrize("name", ["hello.c", "none.c"])
def test_a_program_that_fits(tmp_path, name):
    """One that is linked, and one that is not for another reason."""
    with pytest.raises(AssertionError):
        does_not_fit(tmp_path, HERE / name)

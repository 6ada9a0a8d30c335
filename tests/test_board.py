"""Runs firmware by rrs board and by QEMU's board `virt`, and compares what it prints and its
status: first with the files of examples/board/wanted, and then the one with the other. What QEMU
does otherwise is masked, and named here:
- misaligned loads and stores succeed there, and are exceptions 4 and 6 here;
- mepc keeps its two lowest bits there, and they read 0 here;
- MPP holds 1 and 2 there, and keeps what it had here; mret to user mode leaves MPRV there;
- a misaligned sc.w without its reservation fails there, and is exception 6 here; an AMO raises
  exceptions 4 and 5 there, and 6 and 7 here; a trap takes the reservation away there.
These are in traps.c, user.c and atomics.c alone; what random.c executes leaves them out, and the
bits of mcounteren for counters that this hart has not. What is not compared: a1, which points to a
device tree there and is 0 here; mtimecmp at reset, 0 there and no alarm here; when input arrives,
which is at once there.

That a hart is dead ends a run here, and spins there for ever; a board that starts anew is tried
here alone too, since QEMU may lose input then.

When input is read is tried here alone: none is waited for in a countdown; at a wfi that no alarm
can end; after a thousand looks, from a pipe that is late, and at a terminal that is polled.

A look that does not wait is tried beside QEMU: 20 dots of a timer at a pipe that stays empty. So is
that firmware which sleeps leaves the processor alone. Both need the program of plain Rust, since
each look of the proved one waits (`rust/check --board`).

The texts of the instructions on CSRs, of mret, wfi and fence.i, which a test of
crates/tests_machine_mode has, are compared with those of objdump. What objdump does otherwise: it
writes a fence.i whose other fields are not 0 as .4byte, and has names for CSRs that this hart has
not."""

import os
import re
import resource
import select
import shutil
import subprocess
import threading
import time

import pytest

from support import EXAMPLES, ROOT, Done, at_terminal, instead, run, same, text_of

HERE = EXAMPLES / "board"
WORDS = ROOT / "crates/tests_machine_mode/src/words.rt"
QEMU = "qemu-system-riscv32"
OBJDUMP, GCC = "riscv64-unknown-elf-objdump", "riscv64-unknown-elf-gcc"
pytestmark = [pytest.mark.qemu, pytest.mark.tools(
    f"{GCC}=gcc-riscv64-unknown-elf", f"{OBJDUMP}=binutils-riscv64-unknown-elf",
    "/usr/lib/picolibc/riscv64-unknown-elf/picolibc.specs=picolibc-riscv64-unknown-elf",
    f"{QEMU}=qemu-system-misc", "dtc=device-tree-compiler")]

BESIDE_QEMU = ("traps", "user", "atomics", "random", "scheduler", "shell", "uart", "countdown",
               "copied")
COMPRESSED = ("traps", "user", "atomics", "random", "scheduler", "uart", "countdown")


def kept(done):
    """What is kept of a run, but not how many steps it made."""
    errors = re.sub(r"after [0-9]* steps", "after N steps", done.errors)
    return f"{done.output}{errors}-- status {done.status}\n"


def masked(text):
    """Leaves out the traps that are taken here alone, the lowest bits of mepc, MPRV behind an mret,
    MPP of 1 and 2, and five lines of atomics."""
    text = re.sub(r"(?m)^(trap 0000000[46] |MPP of 0000000[12]: |(lr\.w, a trap, sc\.w|"
                  r"lr\.w, a misaligned sc\.w|(sc|amoadd)\.w misaligned|amoand\.w unmapped): ).*\n",
                  "", text)
    text = re.sub(r"(?m)^(.*?mepc [0-9a-f]{7})[0-3] ", r"\g<1>0 ", text)
    return re.sub(r"(?m)^(MPRV: .* 000)20000$", r"\g<1>00000", text)


def wanted(name):
    """A text of the folder `wanted`."""
    return text_of(HERE / "wanted" / name)


class Board:
    """The programs that are compared, the firmware, and a folder to work in."""

    def __init__(self, rrs, built, room):
        self.rrs, self.built, self.room = rrs, built, room
        self.qemu, self.objdump = QEMU, OBJDUMP

    def run(self, *words, **how):
        """What is kept of a command that has a minute."""
        return kept(run(*words, timeout=60, **how))

    def waiting(self, name, limit=50000000, **how):
        """By looks that wait, so that no run comes to its limit before its input."""
        return self.run(self.rrs, "board", "--input", "wait", "--limit", limit, self.elf(name),
                        **how)

    def polled(self, name, limit=500000, **how):
        """By looks that are polled."""
        return self.run(self.rrs, "board", "--limit", limit, "--input", "polled", self.elf(name),
                        **how)

    def on_qemu(self, name, compressed="off", **how):
        """In QEMU, with compressed code or without."""
        hart = f"rv32,c={compressed},f=off,d=off,h=off,s=off,pmp=off"
        return self.run(self.qemu, "-M", "virt", "-bios", "none", "-display", "none", "-monitor",
                        "none", "-serial", "stdio", "-cpu", hart, "-kernel", self.elf(name), **how)

    def elf(self, name):
        """The path of firmware."""
        return self.built / f"{name}.elf"

    def assemble(self, source):
        """Firmware of a source, by rrs as. What a wrong rrs writes is written all the same."""
        path = self.room / "assembled"
        path.with_suffix(".s").write_text(source)
        run(self.rrs, "as", "-Ttext", "0x80000000", "-o", path, path.with_suffix(".s"))
        return path

    def late(self):
        """A pipe that stays empty, from which nothing is read before a byte is written to it."""
        path = self.room / "late"
        if not path.exists():
            os.mkfifo(path)
        return os.open(path, os.O_RDWR)


def build(room):
    """Builds the firmware, and that of two segments at one virtual address."""
    done = run(HERE / "build", room)
    assert done.status == 0, done.errors
    (room / "two.s").write_text(
        '.section .a,"ax"; .globl main; main: li t0, 0x100000; li t1, 0x5555; sw t1, (t0)\n'
        '.section .b,"ax"; nop\n')
    (room / "two.ld").write_text(
        "ENTRY(main) PHDRS { a PT_LOAD; b PT_LOAD; } SECTIONS { OVERLAY 0x80000000 : NOCROSSREFS "
        "AT(0x80000000) { .a { *(.a) } :a .b { *(.b) } :b } }\n")
    subprocess.run([GCC, "-march=rv32ima_zicsr", "-mabi=ilp32", "-nostdlib", "-c", "two.s",
                    "-o", "two.o"], cwd=room, check=True)
    subprocess.run(["riscv64-unknown-elf-ld", "-m", "elf32lriscv", "-n", "-T", "two.ld",
                    "-o", "two.elf", "two.o"], cwd=room, check=True)


@pytest.fixture
def board(rrs, once, tmp_path):
    return Board(rrs, once("board", build), tmp_path)


# ---- the comparisons, by their names

COMPARISONS = {}
# those that measure something, and those of the program of plain Rust
ALONE, PLAIN = set(), set()


def comparison(name, *sets):
    """Gives a comparison its name."""
    def add(function):
        COMPARISONS[name] = function
        for one in sets:
            one.add(name)
        return function
    return add


def input_of(name):
    """The input of firmware, if it has one."""
    path = HERE / f"{name}.input"
    return {"input": text_of(path)} if path.exists() else {}


def add_beside_qemu():
    """What firmware prints is known, and is what it prints in QEMU."""
    for name in BESIDE_QEMU:
        @comparison(name)
        def _(board, name=name):
            same(board.waiting(name, **input_of(name)), wanted(name))

        @comparison(f"{name}, beside QEMU")
        def _(board, name=name):
            same(masked(board.waiting(name, **input_of(name))),
                 masked(board.on_qemu(name, **input_of(name))))
    for name in COMPRESSED:
        @comparison(f"{name} with compressed code, beside QEMU")
        def _(board, name=name):
            same(masked(board.waiting(f"{name}-c", **input_of(name))),
                 masked(board.on_qemu(f"{name}-c", "on", **input_of(name))))


add_beside_qemu()


@comparison("a trace of overlays")
def _(board):
    """Two segments at one virtual address, by what reads names too."""
    seen = board.run(board.rrs, "trace", "--board", "--from", "main", board.elf("two"))
    same(seen.splitlines()[-1], "-- status 0")


@comparison("coverage of overlays")
def _(board):
    seen = board.run(board.rrs, "cover", "--board", board.elf("two"))
    same(seen.splitlines()[-1], "-- status 0")


@comparison("a wfi that nothing wakes")
def _(board):
    same(board.waiting("waits"), wanted("waits"))


@comparison("a hart that is dead: spins")
def _(board):
    same(board.waiting("spins"), wanted("spins"))


@comparison("a hart that is dead: astray")
def _(board):
    same(board.waiting("astray"), wanted("astray"))


@comparison("a hart that is dead, without a limit")
def _(board):
    same(board.run(board.rrs, "board", board.elf("spins")), wanted("spins"))


def dead_by(board, name):
    """A dead hart by what shows each step."""
    seen = board.run(board.rrs, name, "--board", "--limit", 1000000, board.elf("spins"))
    lines = wanted("spins").replace("rrs board", f"rrs {name}").splitlines(True)
    same("".join(seen.splitlines(True)[-4:]), "".join(lines[1:5]))


@comparison("a hart that is dead, by trace")
def _(board):
    dead_by(board, "trace")


@comparison("a hart that is dead, by cover")
def _(board):
    dead_by(board, "cover")


def restarts(board):
    """Firmware that starts anew for ever, up to a limit."""
    path = board.assemble("li t0, 0x100000; li t1, 0x7777; sw t1, (t0)\n")
    return run(board.rrs, "board", "--input", "wait", "--limit", 1000, path, timeout=60)


@comparison("a limit of all starts")
def _(board):
    same(kept(restarts(board)), wanted("limit").replace("80000030, _start + 48", "80000000"))


@comparison("the steps of all starts")
def _(board):
    assert restarts(board).errors.count("after 1000 steps") == 1


@comparison("a board that starts anew")
def _(board):
    same(board.waiting("again", input="ab."), wanted("again"))


@comparison("a countdown, and a pipe that stays empty")
def _(board):
    same(board.waiting("countdown", stdin=board.late()), wanted("countdown"))


def dots(board):
    """20 dots of a timer beside a pipe that stays empty."""
    return kept(run("timeout", 20, board.rrs, "board", board.elf("dots"), stdin=board.late()))


@comparison("dots beside a pipe that stays empty", PLAIN)
def _(board):
    same(dots(board), "." * 20 + "\n-- status 0\n")


@comparison("dots, beside QEMU", PLAIN)
def _(board):
    qemu = Board(board.rrs, board.built, board.room)
    qemu.qemu = board.qemu
    same(dots(board), qemu.on_qemu("dots", stdin=board.late()))


def sleeps(board, stdin):
    """Firmware that sleeps, with input that stays empty or is at its end: the processor is left
    alone for half of the time at least, which is half a second at least."""
    began, before = time.monotonic(), resource.getrusage(resource.RUSAGE_CHILDREN)
    done = run(board.rrs, "board", "--input", "polled", board.elf("idle"), stdin=stdin, timeout=50)
    passed, after = time.monotonic() - began, resource.getrusage(resource.RUSAGE_CHILDREN)
    used = after.ru_utime + after.ru_stime - before.ru_utime - before.ru_stime
    assert passed > 0.5 and used < passed / 2, f"{used:.2f} s of the processor in {passed:.2f} s"
    said = Done(done.status, f"{done.output}the processor was left alone\n", done.errors)
    same(kept(said), wanted("idle"))


@comparison("sleep beside a pipe that stays empty", PLAIN, ALONE)
def _(board):
    sleeps(board, board.late())


@comparison("sleep at the end of the input", PLAIN, ALONE)
def _(board):
    sleeps(board, subprocess.DEVNULL)


@comparison("a pipe that is late")
def _(board):
    late = board.late()
    threading.Timer(2, os.write, (late, (HERE / "shell.input").read_bytes())).start()
    same(board.waiting("shell", stdin=late), wanted("shell"))


@comparison("input at a wfi")
def _(board):
    same(board.waiting("asks", input="asked at a wfi\n"), wanted("asks"))


@comparison("a wfi at the end of the input")
def _(board):
    same(board.waiting("asks"), wanted("asks-none"))


@comparison("a wfi that is polled")
def _(board):
    same(board.polled("asks", 5000), wanted("asks-polled"))


@comparison("ticks that ask for no input")
def _(board):
    same(board.waiting("ticks", input="typed\n"), wanted("ticks"))


@comparison("ticks that are polled")
def _(board):
    same(board.polled("ticks", input="typed\n"), wanted("ticks-polled"))


# firmware at a terminal, which is then what it was
CONSOLE = """trap : INT; before=$(stty -g); "$@"; status=$?
[ "$(stty -g)" = "$before" ] || echo "the terminal is not set back"; exit "$status" """


def typed(board, keys):
    """What a terminal shows where keys are typed at the first prompt."""
    done = at_terminal("bash", "-c", CONSOLE, "bash", HERE / "console", "--limit", 500000000,
                       board.elf("shell"), keys=keys, env={**os.environ, "RRS": str(board.rrs)})
    return kept(done._replace(output=done.output.replace("\r", "")))


@comparison("a terminal")
def _(board):
    same(typed(board, "add 1 2\rexit 4\r"), wanted("terminal"))


@comparison("Control C at a terminal")
def _(board):
    same(typed(board, "\x03"), wanted("interrupted"))


@comparison("a limit")
def _(board):
    same(board.waiting("scheduler", 1000), wanted("limit"))


@comparison("a byte at once", ALONE)
def _(board):
    """What is printed is there before firmware ends that never does."""
    path = board.assemble("li t0, 0x10000000; li t1, 65; sb t1, (t0); spin: nop; j spin\n")
    with subprocess.Popen([board.rrs, "board", "--limit", "1000000000", path], bufsize=0,
                          stdin=subprocess.DEVNULL, stdout=subprocess.PIPE) as running:
        ready, _, _ = select.select([running.stdout], [], [], 2)
        seen = running.stdout.read(1) if ready else b"none"
        running.kill()
    assert seen == b"A"


@comparison("a gigabyte of zeros", ALONE)
def _(board):
    """Zeros are not stored: a gigabyte of them takes less than a second of the processor."""
    limit = {"preexec_fn": lambda: resource.setrlimit(resource.RLIMIT_CPU, (1, 1))}
    same(board.run(board.rrs, "board", "--memory", "1G", board.elf("zeros"), **limit),
         "-- status 0\n")


def texts_of_test():
    """The words and texts of the test."""
    return [(int(high + low, 16), text) for high, low, text in
            re.findall(r'(?m)^ *\(0x(.{4})_(.{4}), "(.*)"\),$', WORDS.read_text())]


@comparison("the words that have a text")
def _(board):
    assert len(texts_of_test()) == 56


@comparison("their texts")
def _(board):
    path = board.room / "words.bin"
    path.write_bytes(b"".join(word.to_bytes(4, "little") for word, _ in texts_of_test()))
    listing = run(board.objdump, "-D", "-b", "binary", "-m", "riscv:rv32",
                  "-M", "numeric,no-aliases", path).output
    found = re.findall(r"(?m)^ *[0-9a-f]+:\t([0-9a-f]{8}) +\t(.*)$", listing)
    lines = [(int(word, 16), text.replace("\t", " ", 1).replace(",", ", ")) for word, text in found]
    assert texts_of_test() == lines


@comparison("an input that can't be read")
def _(board):
    folder = os.open("/", os.O_RDONLY)
    same(board.waiting("shell", stdin=folder), wanted("unreadable"))


def tree_of(board, *words):
    """The device tree that is handed over to a program, which prints its bytes as digits."""
    digits = run(board.rrs, "board", *words, timeout=60).output
    assert re.fullmatch(r"[0-9a-f\s]+", digits), digits[:200]
    return bytes.fromhex(digits)


@comparison("the board's own device tree")
def _(board):
    tree = tree_of(board, "--raw", "--memory", "32M", "--append", "console=ttyS0 quiet",
                   board.built / "tree.bin")
    same(run("dtc", "-q", "-I", "dtb", "-O", "dts", input=tree).output, wanted("tree"))


@comparison("a device tree of a file")
def _(board):
    path = board.room / "tree.dtb"
    assert run("dtc", "-q", "-I", "dts", "-O", "dtb", "-o", path, HERE / "wanted/tree").status == 0
    assert tree_of(board, "--dtb", path, board.elf("tree")) == path.read_bytes()


def cases(names):
    """Comparisons with their markers."""
    for name in names:
        marks = [getattr(pytest.mark, mark) for mark, names in (("alone", ALONE), ("plain", PLAIN))
                 if name in names]
        yield pytest.param(name, marks=marks)


@pytest.mark.parametrize("name", cases(COMPARISONS))
def test_board(board, name):
    COMPARISONS[name](board)


# ---- what is wrong must be seen

# what looks at no more than the first byte, the errors or the last lines of what rrs prints
FEW = {"a trace of overlays", "coverage of overlays", "a hart that is dead, by trace",
       "a hart that is dead, by cover", "the steps of all starts", "a byte at once"}
NO_RRS = {"the words that have a text", "their texts"}
NO_STATUS = {"the steps of all starts", "a byte at once", "the board's own device tree",
             "a device tree of a file"}
# where Control C ends what would print more
ENDED = {"Control C at a terminal"}
OF_QEMU = [name for name in COMPARISONS if name.endswith("beside QEMU")]


def seen_by(left_out):
    """The comparisons that have to see a fault, all but some."""
    return [name for name in COMPARISONS if name not in left_out]


PRINTED, STATUS = seen_by(FEW | NO_RRS | ENDED), seen_by(NO_STATUS | NO_RRS | ENDED)


def fails(board, name):
    """Has a comparison fail."""
    __tracebackhide__ = True
    with pytest.raises(AssertionError):
        COMPARISONS[name](board)


@pytest.mark.planted
@pytest.mark.parametrize("name", cases(PRINTED))
def test_rrs_prints_more(board, tmp_path, name):
    board.rrs = instead(tmp_path / "bin/rrs", board.rrs, "echo more")
    fails(board, name)


@pytest.mark.planted
@pytest.mark.parametrize("name", cases(STATUS))
def test_rrs_ends_otherwise(board, tmp_path, name):
    board.rrs = instead(tmp_path / "bin/rrs", board.rrs, "status=$((status + 1))")
    fails(board, name)


@pytest.mark.planted
@pytest.mark.parametrize("line", ["echo more", 'echo "trap 00000005 at 0 value 0 mstatus 0"'],
                         ids=["more", "a trap"])
@pytest.mark.parametrize("name", cases(OF_QEMU))
def test_qemu_prints_more(board, tmp_path, name, line):
    """Another line, or one that is like those that are masked."""
    board.qemu = instead(tmp_path / "bin/qemu", shutil.which(QEMU), line)
    fails(board, name)


IN_TRAPS = ["traps, beside QEMU", "traps with compressed code, beside QEMU"]
# QEMU, of whose lines sed makes others
CHANGED = r"""#!/bin/sh
{ %s "$@"; echo $? >&3; } 3>"$0.status" | sed -u "%s"
exit "$(cat "$0.status")"
"""


@pytest.mark.planted
@pytest.mark.parametrize("expression, names", [
    (r"s/\(mepc .......\)[0-3] /\14 /", IN_TRAPS), (r"s/^\(softs .*\)8$/\10/", IN_TRAPS),
], ids=["mepc", "mstatus"])
def test_another_bit(board, tmp_path, expression, names):
    """Other bits in QEMU beside those that are masked are seen by some, and no others."""
    file = tmp_path / "qemu"
    file.write_text(CHANGED % (shutil.which(QEMU), expression))
    file.chmod(0o755)
    board.qemu = file
    seen = []
    for name in OF_QEMU:
        if name not in PLAIN:
            try:
                COMPARISONS[name](board)
            except AssertionError:
                seen.append(name)
    assert seen == names


@pytest.mark.planted
def test_another_text(board, tmp_path):
    board.objdump = instead(tmp_path / "objdump", shutil.which(OBJDUMP),
                            r'printf "   0:\t10500073          \twfi\n"')
    fails(board, "their texts")


@pytest.mark.planted
@pytest.mark.plain
@pytest.mark.alone
@pytest.mark.parametrize("name", sorted(PLAIN))
def test_a_look_that_waits(board, tmp_path, name):
    """A look that waits for input, and a sleep that does not wait."""
    file = tmp_path / "rrs"
    file.write_text('#!/bin/sh\nfor file; do :; done\ncase $file in\n'
                    '*/dots.elf) set -- board --input wait "$file" ;;\n'
                    f'*/idle.elf) set -- board "$file" ;;\nesac\nexec {board.rrs} "$@"\n')
    file.chmod(0o755)
    board.rrs = file
    fails(board, name)


def test_how_many():
    """How many comparisons there are, and how many of them see what is wrong."""
    assert len(COMPARISONS) - len(PLAIN) == 53 and len(PLAIN) == 4
    assert (len(PRINTED), len(STATUS), len(OF_QEMU)) == (44 + 4, 46 + 4, 16 + 1)

"""Compares what `rrs dis`, `rrs trace` and `rrs cover` write with what others write: objdump, QEMU,
callgrind_annotate and genhtml. How, reports.py says."""

import re
from pathlib import Path

import pytest

from reports import (COMPARED, COMPRESSED, FIRMWARE, LINES, OPTIONS, OWN, PROGRAMS, RUN, Program,
                     build, compare_board, compare_counts, compare_file, compare_halves,
                     compare_lcov, compare_log, compare_names, compare_nested, compare_profile,
                     compare_states, compare_summary, compare_windows, executed)

pytestmark = [pytest.mark.qemu, pytest.mark.tools(
    "riscv64-unknown-elf-gcc=gcc-riscv64-unknown-elf",
    "/usr/lib/picolibc/riscv64-unknown-elf/picolibc.specs=picolibc-riscv64-unknown-elf",
    "riscv64-unknown-elf-objdump=binutils-riscv64-unknown-elf",
    "qemu-riscv32=qemu-user", "qemu-system-riscv32=qemu-system-misc",
    "callgrind_annotate=valgrind", "genhtml=lcov")]


@pytest.fixture(scope="module")
def built(rrs, once):
    """The folder of the programs."""
    return once("reports", build)


@pytest.fixture
def run_of(built, once):
    """A program that is run, and the pc of each instruction that it executes: run_of(NAME)."""
    def find(name):
        short = Path(name).name
        program = Program(built / f"run-{short}")
        room = once(f"run-{short}", lambda room: (room / "list").write_text(
            "\n".join(map(str, executed(room, program)))))
        return program, list(map(int, (room / "list").read_text().split()))
    return find


@pytest.mark.parametrize("name", PROGRAMS)
def test_disassembly(built, name):
    differs, count = compare_file(built / Path(name).name)
    assert not differs
    assert count == LINES[name]


def test_half_words(built):
    assert not compare_halves(built / "halves")


def comparisons():
    """Each program that is run, with what is compared of it."""
    for name in RUN:
        is_short = "-march=rv32imac" in OPTIONS.get(name, [])
        for compared in COMPRESSED if is_short else COMPARED:
            yield pytest.param(name, compared, id=f"{name}-{compared.__name__[8:]}")


@pytest.mark.parametrize("name, compared", comparisons())
def test_run(run_of, tmp_path, name, compared):
    program, pcs = run_of(name)
    assert len(pcs) == RUN[name]
    assert compared in (COMPRESSED if program.is_compressed else COMPARED)
    assert not compared(tmp_path, program, pcs)


@pytest.mark.parametrize("source", OWN)
def test_states(built, tmp_path, source):
    """The whole log of a program with a stack of its own."""
    differs, steps = compare_states(tmp_path, Program(built / Path(source).stem))
    assert not differs
    assert steps == OWN[source]


@pytest.mark.parametrize("name", FIRMWARE)
def test_board_report(built, tmp_path, name):
    assert not compare_board(tmp_path, built / f"{name}.elf")


@pytest.mark.parametrize("options", [[], ["-march=rv32imac"]], ids=["plain", "compressed"])
def test_lcov(built, tmp_path, options):
    assert not compare_lcov(tmp_path, options=options)


def test_names(built, tmp_path):
    assert not compare_names(tmp_path)


@pytest.mark.alone
def test_nested_functions(rrs, tmp_path):
    """They are counted within ten seconds."""
    assert not compare_nested(tmp_path)


# ---- what is changed must be seen

# at the first place, at the last one, or at each of the two
FIRST, LAST, EACH = (False,), (True,), (False, True)
# what is changed of a disassembly, and of that of the half-words
CHANGES = (("\taddi x", "\tandi x"), (">:\n", "+>:\n"), ("Disassembly of section", "Disassembly"),
           (":\t0", ":\t1"), ("   1", "   2"), (", 0x", ", 0x1"), ("+0x", "+0x1"),
           ("\tlw x", "\tlh x"), ("file format", "format"), ("\n", "\nmore\n"))
HALF_CHANGES = (("c.lwsp", "c.lw"), ("(x2)", "(x8)"), ("c.jr x1", "c.jr x2"), (":\t6", ":\t7"),
                (".half 0x6101", "c.addi16sp x2, 0"), ("c.lui x8, 0x", "c.lui x8, 0x1"))
# what is changed of the reports of a run
RUN_CHANGES = (
    (compare_log, "core   0: 3", "core   0: 0", EACH), (compare_log, ") x", ") y", EACH),
    (compare_log, " mem ", " ", EACH), (compare_log, "\n", "\n\n", EACH),
    (compare_log, "0x0001", "0x0002", EACH), (compare_log, " x1", " x2", EACH),
    (compare_windows, "core   0: 3", "core   0: 0", EACH), (compare_windows, "\n", "\n\n", EACH),
    (compare_counts, "   1  ", "   2  ", EACH), (compare_counts, "   0  ", "   1  ", EACH),
    (compare_summary, " 1 ", " 2 ", LAST),
    (compare_summary, "27  __retarget", "28  __retarget", EACH),
    (compare_summary, "  main", "  mane", EACH), (compare_summary, "(all)", "all", EACH),
    (compare_summary, "  main", "  main\n", EACH),
    (compare_profile, " 1\n", " 2\n", LAST), (compare_profile, "\nfn=", "\ncfn=", FIRST),
    (compare_profile, "\n0x", "\n1 2 3\n0x", FIRST),
)
# what is changed of the log of a program with a stack of its own
OWN_CHANGES = ((" 0x000000", " 0x000001"), (" mem 0x0001", " mem 0x0002"), (" x15 ", " x14 "))
# what is changed of the log of user.c, whose first lines are compared with their values
BOARD_CHANGES = (
    ("core   0: 0 ", "core   0: 3 ", EACH), ("core   0: 3 ", "core   0: 0 ", EACH),
    (" c773_", " c774_", FIRST), (" c768_mstatus", " c768_mstatush", EACH),
    (" mem 0x8", " mem 0x9", FIRST), (" 0x0000", " 0x0001", FIRST),
    ("trap_user", "trap_machine", EACH), (", epc 0x8", ", epc 0x9", EACH),
    ("tval 0x", "tval 0x1", EACH), ("interrupt #3", "interrupt #7", EACH),
    ("exception", "exceptional", EACH), ("core   0: 3", "core   1: 3", EACH))
BOTH = pytest.mark.parametrize("is_last", EACH, ids=["first", "last"])


def replacing(old, new, is_last):
    """Has another word in the place of the first one of a text, or of the last one."""
    def change(text):
        before, word, behind = text.rpartition(old) if is_last else text.partition(old)
        return before + new + behind if word else text
    return change


def without_last(text, count=1):
    """A text without its last lines."""
    return text.rstrip().rsplit("\n", count)[0]


def each_end(changes):
    """Each change at each place that it names."""
    return [(*change[:-1], is_last) for change in changes for is_last in change[-1]]


@pytest.mark.planted
@BOTH
@pytest.mark.parametrize("old, new", CHANGES)
def test_another_disassembly(built, old, new, is_last):
    assert compare_file(built / "hello", replacing(old, new, is_last))[0]


@pytest.mark.planted
@pytest.mark.parametrize("count", [1, 2])
def test_a_disassembly_that_is_cut_off(built, count):
    assert compare_file(built / "hello", lambda text: without_last(text, count))[0]


@pytest.mark.planted
@BOTH
@pytest.mark.parametrize("old, new", HALF_CHANGES)
def test_other_half_words(built, old, new, is_last):
    assert compare_halves(built / "halves", replacing(old, new, is_last))


@pytest.mark.planted
@pytest.mark.parametrize("compared, old, new, is_last", each_end(RUN_CHANGES))
def test_another_report(run_of, tmp_path, compared, old, new, is_last):
    assert compared(tmp_path, *run_of("hello"), replacing(old, new, is_last))


@pytest.mark.planted
def test_a_log_that_is_cut_off(run_of, tmp_path):
    assert compare_log(tmp_path, *run_of("hello"), lambda text: without_last(text) + "\n")


@pytest.mark.planted
@BOTH
@pytest.mark.parametrize("old, new", OWN_CHANGES)
@pytest.mark.parametrize("source", OWN)
def test_other_states(built, tmp_path, source, old, new, is_last):
    program = Program(built / Path(source).stem)
    assert compare_states(tmp_path, program, replacing(old, new, is_last))[0]


@pytest.mark.planted
@pytest.mark.parametrize("old, new, is_last", each_end(BOARD_CHANGES))
def test_another_log_of_a_board(built, tmp_path, old, new, is_last):
    assert compare_board(tmp_path, built / "user.elf", replacing(old, new, is_last))


@pytest.mark.planted
def test_a_log_of_a_board_that_is_cut_off(built, tmp_path):
    assert compare_board(tmp_path, built / "user.elf", without_last)


@pytest.mark.planted
def test_another_count_of_a_board(built, tmp_path):
    assert compare_board(tmp_path, built / "user.elf", counts=(1580, 17014))


@pytest.mark.planted
@pytest.mark.parametrize("old, new", [("\nDA:9,11", "\nDA:9,10"), ("FNDA:10,half", "FNDA:11,half"),
                                      ("FN:5,never", "FN:6,never")])
def test_other_counts_of_lines(built, tmp_path, old, new):
    assert compare_lcov(tmp_path, lambda text: text.replace(old, new))


@pytest.mark.planted
def test_a_raw_line_feed(built, tmp_path):
    assert compare_names(tmp_path, lambda text: text.replace("^J", "\n"))


@pytest.mark.planted
def test_what_takes_longer(rrs, tmp_path):
    assert re.search("timed out", compare_nested(tmp_path, 0.001)[0])

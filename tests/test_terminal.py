"""Looks at what a long run of rrs shows on a terminal: how far it is, in a line each second.

The program is examples/exec/trials/living.c, built by cc. It is run by rrs exec, trace and cover
with pseudo-terminals in the place of some of its streams. Where standard error is one, lines are
shown, and each is erased before the program writes to a terminal and before the end: without them
what the program writes is as it was. Where it is none there are no lines."""

import os
import pty
import re
import subprocess
import tempfile
import tty

import pytest

from support import EXAMPLES, run

# a line is written with the cursor kept before it, and erased up to the end of its row
LINE = rb"\x1b7\x1b\[\?7l\[\d+\.\d million steps, \d+\.\d million a second\]\x1b\[K\x1b\[\?7h\x1b8"
SHOWN = re.compile(rb"(?:" + LINE + rb")+\x1b\[K")
OUTPUT, ERRORS, STATUS = b"begin, end\n", b"errors\n", 3


def read_all(end):
    """What a pseudo-terminal gets until nobody has it open."""
    parts = []
    while True:
        try:
            part = os.read(end, 65536)
        except OSError:
            part = b""
        if not part:
            return b"".join(parts)
        parts.append(part)


def run_at(command, terminals):
    """Runs a command with a pseudo-terminal for these streams: its status, what the terminal got,
    and what the other outputs did."""
    end, place = pty.openpty()
    tty.setraw(place)
    with tempfile.TemporaryFile() as output, tempfile.TemporaryFile() as errors:
        streams = [subprocess.DEVNULL, output, errors]
        for stream in terminals:
            streams[stream] = place
        process = subprocess.Popen(command, stdin=streams[0], stdout=streams[1], stderr=streams[2])
        os.close(place)
        seen = read_all(end)
        os.close(end)
        status = process.wait()
        output.seek(0)
        errors.seek(0)
        return status, seen, output.read() + errors.read()


def wrong_in(command, terminals, shows=True):
    """What is wrong in a run: lines are shown, and the program's own bytes are as they were."""
    status, seen, other = run_at(command, terminals)
    lines = len(re.findall(LINE, seen))
    rest = SHOWN.sub(b"", seen)
    wanted = b"".join(text for stream, text in ((1, OUTPUT), (2, ERRORS)) if stream in terminals)
    others = b"".join(text for stream, text in ((1, OUTPUT), (2, ERRORS))
                      if stream not in terminals)
    wrong = []
    if status != STATUS:
        wrong.append(f"status {status}")
    if (lines > 0) != shows:
        wrong.append(f"{lines} lines")
    if rest != wanted:
        wrong.append(f"at the terminal {rest!r}")
    if other != others:
        wrong.append(f"elsewhere {other!r}")
    return wrong


# the runs, with the streams that are terminals, and whether lines are shown
REPORT = ("--output", "/dev/null")
RUNS = (
    (("exec",), (0, 1, 2), True), (("exec",), (2,), True), (("exec",), (0, 1), False),
    (("trace", *REPORT), (1, 2), True), (("trace", *REPORT), (1,), False),
    (("cover", *REPORT), (1, 2), True), (("cover", *REPORT), (1,), False),
)


@pytest.fixture(scope="module")
def living(once):
    """The program."""
    def build(room):
        done = run(EXAMPLES / "exec/cc", "-O2", EXAMPLES / "exec/trials/living.c", "-o",
                   room / "living")
        assert done.status == 0, done.errors
    return once("living", build) / "living"


@pytest.mark.tools(
    "riscv64-unknown-elf-gcc=gcc-riscv64-unknown-elf",
    "/usr/lib/picolibc/riscv64-unknown-elf/picolibc.specs=picolibc-riscv64-unknown-elf")
@pytest.mark.parametrize("words, terminals, shows", RUNS,
                         ids=[f"{words[0]} {terminals}" for words, terminals, _ in RUNS])
def test_terminal(rrs, living, words, terminals, shows):
    assert wrong_in([rrs, *words, living], terminals, shows) == []


def test_each_command_has_both():
    """Each command is run where lines are shown, and where none are."""
    made = {(words[0], shows) for words, _, shows in RUNS}
    assert made == {(name, shows) for name in ("exec", "trace", "cover") for shows in (True, False)}


# what a shell does in the place of rrs, with terminals for standard output and standard error, and
# whether it is right
SHOW = r"printf '\0337\033[?7l[1.0 million steps, 1.0 million a second]\033[K\033[?7h\0338' >&2"
ERASE = r"printf '\033[K' >&2"
TRIALS = (
    (f"printf 'begin, '; {SHOW}; {SHOW}; {ERASE}; echo end; echo errors >&2; exit 3", True),
    (f"printf 'begin, '; {SHOW}; {ERASE}; echo end; {SHOW}; {ERASE}; echo errors >&2; exit 3",
     True),
    ("printf 'begin, '; echo end; echo errors >&2; exit 3", False),
    (f"printf 'begin, '; {SHOW}; {ERASE}; echo end; echo errors >&2; exit 2", False),
    (f"printf 'begin, '; {SHOW}; echo end; echo errors >&2; exit 3", False),
    (f"printf 'begin, '; echo end; echo errors >&2; {SHOW}; exit 3", False),
    (f"printf 'begin, '; {SHOW}; {ERASE}; {ERASE}; echo end; echo errors >&2; exit 3", False),
    (f"printf 'begin, '; {SHOW}; {ERASE}; echo en; echo errors >&2; exit 3", False),
)


@pytest.mark.planted
@pytest.mark.parametrize("command, is_right", TRIALS, ids=range(len(TRIALS)))
def test_another_command(command, is_right):
    assert (wrong_in(["sh", "-c", command], (1, 2)) == []) == is_right


@pytest.mark.planted
@pytest.mark.parametrize("command, is_right", [(TRIALS[0][0], False), (TRIALS[2][0], True)],
                         ids=["lines", "no lines"])
def test_without_a_terminal(command, is_right):
    assert (wrong_in(["sh", "-c", command], (1,), False) == []) == is_right

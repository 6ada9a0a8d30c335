"""Runs each command of examples/rrs/screens in crates/rrs/data, and compares what it says and its
status with what stands there. Runs a compiled program with and without its instructions, and
commands whose standard streams are closed, are a pipe that nobody reads, or a terminal.

The program of plain Rust differs in two things, as its help and rust/README.md say: no look at the
input waits, and Rust opens /dev/null for a stream that is closed. Both are expected of it here."""

import os
import re
import subprocess
import time

import pytest

from support import EXAMPLES, ROOT, at_terminal, run, same, text_of

DATA = ROOT / "crates/rrs/data"
SCREENS = re.split(r"(?m)^(?=\$ rrs)", text_of(EXAMPLES / "rrs/screens"))[1:]
HELLO = EXAMPLES / "assembly/hello.s"
# what the help of rrs board says of the proved program, and of that of plain Rust
WAITS = "Each such look waits for\ninput here, with --input wait or without."
DOES_NOT_WAIT = "No such look waits for\ninput here, unless with --input wait."


def words_of(screen):
    """The words of a screen's command."""
    return screen.split("\n")[0].split()[2:]


def shown(rrs, words):
    """The screen of a command."""
    done = run(rrs, *words, cwd=DATA, stderr=subprocess.STDOUT)
    return f"$ rrs{''.join(' ' + word for word in words)}\n{done.output}status {done.status}\n"


def compare_screen(rrs, screen, is_plain=False):
    """Compares a screen with what its command says."""
    __tracebackhide__ = True
    wanted = screen.replace(WAITS, DOES_NOT_WAIT) if is_plain else screen
    same(shown(rrs, words_of(screen)), wanted, "the screen")


@pytest.mark.parametrize("screen", SCREENS, ids=lambda screen: " ".join(words_of(screen)) or "none")
def test_screen(rrs, is_plain, screen):
    compare_screen(rrs, screen, is_plain)


def test_all_screens():
    """Each line of the file belongs to a screen."""
    assert "".join(SCREENS) == text_of(EXAMPLES / "rrs/screens")
    assert len(SCREENS) == 126
    assert sum(WAITS in screen for screen in SCREENS) == 1


def test_the_end_of_a_run(rrs):
    """12,926 steps and the one that ends the run are printed, and then what --quiet prints."""
    quiet, traced = (run(rrs, "run", *words, "primes.bin", "1000000", cwd=DATA)
                     for words in (["--quiet"], []))
    same(quiet.output, "".join(traced.output.splitlines(True)[12927:]))
    assert quiet.output and quiet.status == traced.status


def closed(rrs, streams, *words):
    """What is said where the shell closes streams, and the status."""
    done = run("bash", "-c", f'"$0" "$@" {streams}', rrs, *words, cwd=DATA,
               stderr=subprocess.STDOUT)
    return f"{done.output}status {done.status}\n"


BAD = "standard output: Bad file descriptor\nstatus 1\n"
# what is said where streams are closed, and what it is in plain Rust, if that is something else
CLOSED = (
    ("<&-", "exec --raw count.bin --limit 1000000", "      0       0       0\nstatus 0\n", None),
    (">&-", "exec --raw hello.bin --limit 1000000", "status 3\n", None),
    (">&-", "run --quiet primes.bin 10", f"rrs run: {BAD}", "status 0\n"),
    (">&-", f"as {HELLO}", f"rrs as: {BAD}", "status 0\n"),
    ("2>&-", "run none 10", "status 1\n", None),
    ("<&- >&- 2>&-", "exec --raw none --limit 10", "status 125\n", None),
)


@pytest.mark.parametrize("streams, words, wanted, in_plain", CLOSED)
def test_closed(rrs, is_plain, streams, words, wanted, in_plain):
    if is_plain and in_plain:
        wanted = in_plain
    same(closed(rrs, streams, *words.split()), wanted)


def test_control_characters(rrs):
    """No control character of a path reaches the terminal."""
    wanted = "rrs dis: a^[[31m^Jb: No such file or directory\n"
    assert run(rrs, "dis", "a\x1b[31m\nb") == (1, "", wanted)


@pytest.fixture(scope="module")
def hello(rrs, tmp_path_factory):
    """An executable."""
    path = tmp_path_factory.mktemp("hello") / "hello.elf"
    assert run(rrs, "as", HELLO, "-o", path).status == 0
    return path


@pytest.mark.parametrize("words", ["help", "--version", "dis HELLO", "elf HELLO",
                                   "run primes.bin 9"])
def test_unread(rrs, hello, words):
    """Where nobody reads what is printed rrs ends as SIGPIPE kills, and says nothing."""
    reading, writing = os.pipe()
    os.close(reading)
    done = run(rrs, *words.replace("HELLO", str(hello)).split(), cwd=DATA, stdout=writing)
    os.close(writing)
    assert done == (141, "", "")


@pytest.mark.parametrize("form, wanted", [
    ([], "rrs as: the bytes are not written to a terminal; -o OUTPUT writes an executable"),
    (["--list"], "                        1  # The greatest common divisor of a0 and a1, in a0."),
])
def test_at_a_terminal(rrs, form, wanted):
    """The bytes of a program are not written to a terminal, and its listing is."""
    same(at_terminal(rrs, "as", *form, EXAMPLES / "assembly/gcd.s").output.split("\r\n")[0], wanted)


def test_the_streams(rrs, tmp_path):
    """No file that is opened is in the place of a closed stream. The program is a pipe with no
    bytes yet, so that it runs until its streams are seen."""
    program = tmp_path / "program"
    os.mkfifo(program)
    kept = os.open(program, os.O_RDWR)
    words = ["bash", "-c", 'exec "$0" exec --raw "$1" <&- >&- 2>&-', rrs, program]
    with subprocess.Popen(words) as running:
        until = time.monotonic() + 20
        while str(program) not in links_of(running.pid).values() and time.monotonic() < until:
            time.sleep(0.01)
        seen = links_of(running.pid)
        running.kill()
    os.close(kept)
    assert str(program) in seen.values()
    assert [seen.get(stream) for stream in "012"] == ["/dev/null"] * 3


def links_of(process):
    """What each descriptor of a process leads to."""
    found = {}
    for name in os.listdir(f"/proc/{process}/fd"):
        try:
            found[name] = os.readlink(f"/proc/{process}/fd/{name}")
        except FileNotFoundError:
            pass
    return found


def wrong_screens():
    """The first screen with something wrong in it."""
    whole = SCREENS[0]
    lines = whole.splitlines(True)
    yield pytest.param(whole.replace(lines[3], lines[3][:-2] + "\n"), id="a character")
    yield pytest.param(whole[:-2] + "1\n", id="the status")
    yield pytest.param("".join(lines[:-1]), id="no status")


@pytest.mark.planted
@pytest.mark.parametrize("screen", wrong_screens())
def test_another_screen(rrs, screen):
    assert screen not in SCREENS
    with pytest.raises(AssertionError, match="the screen differs"):
        compare_screen(rrs, screen)


@pytest.mark.planted
def test_another_status(rrs):
    """Another status where a stream is closed."""
    with pytest.raises(AssertionError, match="differs"):
        same(closed(rrs, *CLOSED[1][:1], *CLOSED[1][1].split()), "status 0\n")

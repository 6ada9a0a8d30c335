"""Runs gdb-multiarch over the sessions of examples/gdb, on rrs gdb, and compares what gdb prints
with the files of `wanted` there. Two of them are over firmware of examples/board. Random and
changed packets are sent, 100,000 of them, each between two questions: each must be answered, and an
error must leave the machine as it was; and a program goes back from its end and on again
(packets.py)."""

import os
import shutil
import sys

import pytest

from support import EXAMPLES, ROOT, instead, run, same, text_of

HERE = EXAMPLES / "gdb"
SESSIONS = sorted(file.stem for file in HERE.glob("sessions/*.gdb"))
# the program of a session, where it has another name
PROGRAMS = {"local": "points", "registers": "spin", "back": "sums", "detach": "sums",
            "run": "reader", "history": "reader", "scheduler": "scheduler.elf",
            "shell": "shell.elf"}
GDB = ["gdb-multiarch", "-q", "-nx", "-nh", "-batch", "-iex", "set width 0",
       "-iex", "set confirm off", "-iex", "set debuginfod enabled off",
       "-iex", "set remotetimeout 60", "-iex", "directory programs:firmware"]

pytestmark = [pytest.mark.gdb, pytest.mark.tools(
    "riscv64-unknown-elf-gcc=gcc-riscv64-unknown-elf",
    "/usr/lib/picolibc/riscv64-unknown-elf/picolibc.specs=picolibc-riscv64-unknown-elf",
    "gdb-multiarch=gdb-multiarch")]


@pytest.fixture(scope="module")
def room(rrs, once):
    """The folder that gdb is run in, with the programs."""
    def build(room):
        for folder in ("gdb", "board"):
            done = run(EXAMPLES / folder / "build", room)
            assert done.status == 0, done.errors
        (room / "rrs").symlink_to(rrs)
        # gdb takes a blank for the end of a folder
        (room / "programs").symlink_to(HERE / "programs")
        (room / "firmware").symlink_to(EXAMPLES / "board/firmware")
        shutil.copy(HERE / "sessions/input", room)
        shutil.copy(EXAMPLES / "board/shell.input", room)
    return once("gdb", build)


def compare_session(room, name, path=None):
    """Compares what gdb prints in a session, of which each line is a command, with what is wanted.
    A folder stands before the others of PATH, if one is given."""
    __tracebackhide__ = True
    lines = (HERE / f"sessions/{name}.gdb").read_text().splitlines()
    words = [word for line in lines if not line.startswith("#") for word in ("-ex", line)]
    given = {**os.environ, "PATH": f"{path}:{os.environ['PATH']}"} if path else None
    done = run("sh", "-c", 'exec "$@" 2>&1', "sh", *GDB, *words, PROGRAMS.get(name, name),
               cwd=room, env=given, timeout=300)
    seen = f"{done.output}-- status {done.status}\n".replace(str(room), "ROOM")
    same(seen, text_of(HERE / "wanted" / name), name)


def compare_packets(stub, room, count):
    """Sends so many packets to a stub, and compares what they did with a line of wanted/packets."""
    done = run(sys.executable, HERE / "packets.py", stub, ROOT / "crates/rrs/data/count.bin",
               count, room / "reader", room / "input")
    assert done.status == 0, done.output + done.errors
    wanted = text_of(HERE / "wanted/packets").splitlines(True)
    assert done.output in wanted and done.output.startswith(f"{count} "), done.output


@pytest.mark.parametrize("name", SESSIONS)
def test_session(room, name):
    compare_session(room, name)


def test_each_session_is_wanted():
    assert len(SESSIONS) == 14
    assert {file.name for file in HERE.glob("wanted/*")} == {*SESSIONS, "packets"}


@pytest.mark.parametrize("count", [200, 100000])
def test_packets(rrs, room, count):
    compare_packets(rrs, room, count)


@pytest.mark.planted
@pytest.mark.parametrize("line", ["echo more", "status=$((status + 1))"])
@pytest.mark.parametrize("name", SESSIONS)
def test_another_gdb(room, tmp_path, name, line):
    """A gdb that prints more, or ends otherwise."""
    instead(tmp_path / "bin/gdb-multiarch", shutil.which("gdb-multiarch"), line)
    with pytest.raises(AssertionError, match=f"{name} differs"):
        compare_session(room, name, tmp_path / "bin")


# another stub than rrs gdb, which gives other bytes of what it gives, `seen`, or another status
STUB = '''#!/usr/bin/env python3
import subprocess, sys

def otherwise(seen):
    """The registers that are shown behind the first error have another digit."""
    before, error, behind = seen.partition(b"$E16#ac")
    start = behind.index(b"$") + 1
    end = behind.index(b"#", start)
    shown = behind[start:end - 1] + (b"1" if behind[end - 1:end] == b"0" else b"0")
    sum_of = b"#%%02x" %% (sum(shown) %% 256)
    return before + error + behind[:start] + shown + sum_of + behind[end + 3:]

run = subprocess.run([%r, *sys.argv[1:]], stdin=sys.stdin.buffer, capture_output=True)
seen = run.stdout
sys.stdout.buffer.write(%s)
sys.exit(run.returncode + %s)
'''


@pytest.mark.planted
@pytest.mark.parametrize("given, more", [
    ('seen.replace(b"$E16#ac", b"")', 0), ("seen[:-9]", 0), ('seen.replace(b"-", b"+")', 0),
    ("otherwise(seen)", 0), ("seen", 1)], ids=["lost", "cut", "sums", "changed", "status"])
def test_another_stub(rrs, room, tmp_path, given, more):
    """A stub that leaves out its errors or its end, takes a wrong sum, changes the machine at an
    error, or ends otherwise; one that does all as rrs gdb does passes."""
    stub = tmp_path / "stub"
    for output, status, is_right in (("seen", 0, True), (given, more, False)):
        stub.write_text(STUB % (str(rrs), output, status))
        stub.chmod(0o755)
        if is_right:
            compare_packets(stub, room, 200)
        else:
            with pytest.raises(AssertionError):
                compare_packets(stub, room, 200)


@pytest.mark.planted
def test_another_count(rrs, room):
    """A number of packets of which nothing is known."""
    with pytest.raises(AssertionError, match="201 random packets"):
        compare_packets(rrs, room, 201)

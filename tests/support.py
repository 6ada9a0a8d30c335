"""What the tests share: places of the repository, commands, and texts that are compared."""

import difflib
import fcntl
import functools
import os
import pty
import shlex
import subprocess
import termios
from pathlib import Path
from typing import NamedTuple

import pytest

ROOT = Path(__file__).resolve().parent.parent
EXAMPLES = ROOT / "examples"
IN_CI = os.environ.get("CI") == "true"
# the program that is tried, which the fixture `rrs` has built
PROGRAM = Path(os.environ.get("RRS", ROOT / "crates/rrs/out/rrs")).resolve()


class Done(NamedTuple):
    """How a command ended: its status, what it printed, and what was on standard error. Each byte
    is one character, so that no text is refused."""

    status: int
    output: str
    errors: str


def run(*words, **how):
    """Runs a command, whose standard input is empty unless it is given."""
    if "input" not in how:
        how.setdefault("stdin", subprocess.DEVNULL)
    if isinstance(how.get("input"), str):
        how["input"] = how["input"].encode("latin-1")
    how.setdefault("stdout", subprocess.PIPE)
    how.setdefault("stderr", subprocess.PIPE)
    done = subprocess.run([str(word) for word in words], check=False, **how)
    return Done(status_of(done.returncode), *((text or b"").decode("latin-1")
                                              for text in (done.stdout, done.stderr)))


def status_of(code):
    """A status as a shell has it, where a signal ends a command too."""
    return code if code >= 0 else 128 - code


def at_terminal(*words, keys=None, prompt="> ", **how):
    """Runs a command whose streams are a terminal, and what the terminal got. Keys, if there are
    any, are typed where it asks first."""
    seen, keys = "", (keys or "").encode("latin-1")
    end, place = pty.openpty()
    with subprocess.Popen([str(word) for word in words], stdin=place, stdout=place, stderr=place,
                          start_new_session=True, preexec_fn=take_terminal, **how) as process:
        os.close(place)
        while part := read_of(end):
            seen += part
            if keys and seen.endswith(prompt):
                os.write(end, keys)
                keys = b""
    os.close(end)
    return Done(status_of(process.returncode), seen, "")


def take_terminal():
    """Has standard input be the terminal of a session, which Control C reaches."""
    fcntl.ioctl(0, termios.TIOCSCTTY, 0)


def read_of(end):
    """What a terminal got, or an empty text at its end."""
    try:
        return os.read(end, 4096).decode("latin-1")
    except OSError:
        return ""


def text_of(path):
    """The text of a file, a character for each byte."""
    return Path(path).read_bytes().decode("latin-1")


def first_difference(seen, wanted):
    """The lines about the place where two texts differ first, as `diff -u` has them."""
    one, other = (text.splitlines(keepends=True) for text in (wanted, seen))
    place = next((at for at, (mine, theirs) in enumerate(zip(one, other)) if mine != theirs),
                 min(len(one), len(other)))
    start = max(place - 3, 0)
    parts = ([repr(line)[1:-1] for line in lines[start:place + 20]] for lines in (one, other))
    shown = difflib.unified_diff(*parts, "wanted", "seen", lineterm="", n=20)
    return f"line {place + 1} is the first that differs:\n" + "\n".join(shown)


def same(seen, wanted, what="the text"):
    """Fails where two texts are not the same, and shows where they differ first."""
    __tracebackhide__ = True
    if seen != wanted:
        raise AssertionError(f"{what} differs: {first_difference(seen, wanted)}")


def same_bytes(seen, wanted, what="the bytes"):
    """Fails where the bytes of two texts are not the same, and shows those that differ first."""
    __tracebackhide__ = True
    if seen != wanted:
        place = next((at for at, (one, other) in enumerate(zip(seen, wanted)) if one != other),
                     min(len(seen), len(wanted)))
        near = [text[place:place + 8].encode("latin-1").hex(" ") for text in (seen, wanted)]
        raise AssertionError(f"{what}: {len(seen)} bytes, and not {len(wanted)}; at {place} "
                             f"{near[0]}, and not {near[1]}")


def instead(file, tool, after=":", before=":"):
    """Makes a program that does what another does. Lines of the shell stand before and after it,
    which may print more, or set `status`."""
    file.parent.mkdir(exist_ok=True)
    file.write_text(f"#!/bin/sh\nstatus=0\n{before}\n{shlex.quote(str(tool))} \"$@\" || status=$?\n"
                    f"{after}\nexit \"$status\"\n")
    file.chmod(0o755)
    return file


def missing(what):
    """Ends a test that can't be made here: where CI is true that is an error, and else a skip."""
    __tracebackhide__ = True
    if IN_CI:
        pytest.fail(what, pytrace=False)
    pytest.skip(what)


@functools.lru_cache(maxsize=None)
def lacking(*pairs):
    """The packages of the tools that are not there, PROGRAM=PACKAGE each. In CI they are installed,
    by one process at a time."""
    with open(ROOT / ".ci/tools", encoding="utf-8") as lock:
        fcntl.flock(lock, fcntl.LOCK_EX)
        done = run(ROOT / ".ci/tools", *pairs)
    return done.output.strip() if done.status else ""


def need(*pairs):
    """Has a test that needs tools end where one of them is missing."""
    __tracebackhide__ = True
    packages = lacking(*pairs)
    if packages:
        missing(f"not installed: {packages}")

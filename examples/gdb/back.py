#!/usr/bin/env python3
"""Runs programs under rrs gdb to their ends, back as far as can be gone, and on to their ends again.

usage: back.py RRS PROGRAM INPUT [PROGRAM INPUT] ..

Each time the end has to be the same, and so have the registers there; and what a program writes is what it
writes under rrs exec, once. Each runs with the arguments `one`, `two three` and an empty one. Each that
does not has a line, and the last line counts those that do. The status is 0."""
import re
import subprocess
import sys

sys.dont_write_bytecode = True
from packets import answers, framed  # noqa: E402

ARGUMENTS = ["one", "two three", ""]
# to the end, which has two answers where the program ends itself, and back
SENT = [b"c", b"g", b"c", b"bc"] * 2


def difference(rrs, program, file):
    """What is otherwise the second time, or nothing."""
    with open(file, "rb") as given:
        plain = subprocess.run([rrs, "exec", program, *ARGUMENTS], stdin=given, check=False,
                               stdout=subprocess.PIPE, stderr=subprocess.STDOUT, timeout=600)
    run = subprocess.run([rrs, "gdb", "--input", file, program, *ARGUMENTS], check=False, timeout=600,
                         input=b"".join(map(framed, SENT)), capture_output=True)
    said = list(answers(run.stdout))
    written = bytes.fromhex(b"".join(re.findall(rb"\$O([0-9a-f]+)#", run.stdout)).decode())
    if run.returncode or said[:4] != said[4:] or said[3] != b"T05replaylog:begin;":
        return f"status {run.returncode}, answers {said}"
    if written != re.sub(rb"rrs exec: .*\n", b"", plain.stdout):
        return f"it writes {written}, and under rrs exec {plain.stdout}"
    return ""


def main():
    rrs, words, alike = sys.argv[1], sys.argv[2:], 0
    for program, file in zip(words[::2], words[1::2]):
        how = difference(rrs, program, file)
        alike += not how
        if how:
            print(f"{program}: {how}")
    print(f"{alike} end alike")


if __name__ == "__main__":
    main()

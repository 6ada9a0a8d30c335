"""Gives a module with 64-bit addresses a memory of 32-bit addresses, by binaryen's wasm-opt, so that it
runs in browsers that have no other. Its calls take the same numbers.

usage: lower.py MODULE LOWERED
"""

import pathlib
import subprocess
import sys
import tempfile

SECTION = {"table": 4, "memory": 5, "elements": 9}
# what the compiler may use (its processor is lime1), by binaryen's names
FEATURES = ["memory64", "bulk-memory", "extended-const", "multivalue", "mutable-globals",
            "nontrapping-float-to-int", "sign-ext"]
WIDE = 4  # the flag of a table or a memory whose addresses have 64 bits


def sections(module):
    """Each section: its kind, where its content begins, and where it ends."""
    at = 8
    while at < len(module):
        size, start = number(module, at + 1)
        yield module[at], start, start + size
        at = start + size


def number(module, at):
    """The number at a place of the module (LEB128), and where it ends."""
    value = shift = 0
    while True:
        byte = module[at]
        value |= (byte & 127) << shift
        at, shift = at + 1, shift + 7
        if byte < 128:
            return value, at


def narrow_table(module):
    """Has the linker's table take 32-bit numbers, which wasm-opt can read. It has to be one in which no
    function stands."""
    kinds = {kind: start for kind, start, _ in sections(module)}
    if SECTION["table"] not in kinds:
        return module
    count, at = number(module, kinds[SECTION["table"]])
    if SECTION["elements"] in kinds or count != 1:
        sys.exit("lower.py: the module has functions in tables")
    flags = at + 1  # behind the type of what stands in it
    return module[:flags] + bytes([module[flags] & ~WIDE]) + module[flags + 1:]


def is_wide(module):
    """Whether the addresses of the module's memory have 64 bits."""
    for kind, start, _ in sections(module):
        if kind == SECTION["memory"]:
            return bool(module[number(module, start)[1]] & WIDE)
    return False


def main():
    given, lowered = map(pathlib.Path, sys.argv[1:])
    with tempfile.NamedTemporaryFile(suffix=".wasm") as narrowed:
        narrowed.write(narrow_table(given.read_bytes()))
        narrowed.flush()
        features = [f"--enable-{feature}" for feature in FEATURES]
        run = subprocess.run(["wasm-opt", *features, "--memory64-lowering", narrowed.name, "-o", lowered],
                             capture_output=True, text=True, check=False)
    if run.returncode or is_wide(lowered.read_bytes()):
        sys.exit(f"lower.py: {run.stdout}{run.stderr}the memory is not lowered")


if __name__ == "__main__":
    main()

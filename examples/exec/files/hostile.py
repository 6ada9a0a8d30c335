"""Random hostile paths and orders of calls, by rrs exec --files: what is outside of the folder is
not read, and stays as it is.

usage: hostile.py RRS PROGRAM ROUNDS [FIRST]

PROGRAM is hostile.c as examples/exec/cc builds it. In each round it makes 200 calls of paths with
links, parts `..`, long names, a NUL, and what is no UTF-8, in a folder of which a part is removed
before or meanwhile; the tree around the folder is compared, and each path that a call of the host
has is looked at by strace. Then it makes 100 calls that lead nowhere else, which must answer and
leave what they do under qemu-riscv32. Rounds are numbered from FIRST on.
"""

import os
import random
import re
import shutil
import subprocess
import sys
import tempfile
import threading

RRS, PROGRAM = map(os.path.abspath, sys.argv[1:3])
ROUNDS, FIRST = int(sys.argv[3]), int((sys.argv[4:] or ["0"])[0])
ROOM = tempfile.mkdtemp()
BOX = ROOM + "/box"
LINKS = {
    "up": "..",
    "abs": ROOM + "/secret",
    "rel": "../secret",
    "dir/up": "../..",
    "dir/deep/out": "../../../out",
    "loop": "loop",
    "dangling": "../created",
    "root": "/",
    "in": "dir",
}
NAMES = [b"..", b".", b"", b"dir", b"deep", b"file", b"up", b"abs", b"rel", b"out", b"loop",
         b"dangling", b"root", b"in", b"secret", b"etc", b"passwd", b"new", b"n" * 300, b"\xff",
         b"...", b"..x", b"x..", "é".encode(), b"room", b"box", b"fifo", b"f0", b"f1", b"a\0b"]
BY_PLACE = "CRWSETFGD"
# one of each call that takes a path: its name, and the path
TRACED = re.compile(r'^\d+ +(\w+)\([^"\n]*"([^"]*)"', re.M)


def tree(top):
    """What is below a folder, but for what is below the program's own."""
    found = {}
    for base, folders, files in os.walk(top):
        if base == BOX:
            folders.clear()
            continue
        for name in folders + files:
            path = os.path.join(base, name)
            if os.path.islink(path):
                found[path] = os.readlink(path)
            elif os.path.isdir(path):
                found[path] = os.lstat(path).st_mode
            elif path != ROOM + "/traced":
                with open(path, "rb") as file:
                    found[path] = (file.read(), os.lstat(path).st_mode)
    return found


def put(path, text):
    with open(path, "w") as file:
        file.write(text)


def make():
    """The program's folder, and what is around it."""
    shutil.rmtree(ROOM, ignore_errors=True)
    os.makedirs(BOX + "/dir/deep")
    os.makedirs(ROOM + "/out/more")
    for path in ["/secret", "/out/secret", "/out/more/secret"]:
        put(ROOM + path, "SECRET")
    for path in ["/file", "/dir/file", "/dir/deep/file", "/f1"]:
        put(BOX + path, "inside")
    for link, target in LINKS.items():
        os.symlink(target, f"{BOX}/{link}")
    os.mkfifo(BOX + "/fifo")


def hostile(dice):
    path = b"/".join(dice.choice(NAMES) for _ in range(dice.randint(1, 6)))
    kind = dice.random()
    if kind < 0.2:
        path = b"/" + path
    elif kind < 0.3:
        path = path + b"/"
    elif kind < 0.33:
        path = (ROOM + "/secret").encode()
    elif kind < 0.36:
        path = path * dice.randint(1, 2000)
    elif kind < 0.38:
        path = b"./" * dice.randint(2000, 2060) + path
    return path[:9000]


def tame(dice, call):
    """A path that leads nowhere else, with a name of a file or of a folder."""
    parts = [dice.choice(["d0", "d1", "."]) for _ in range(dice.randint(0, 2))]
    kind = "d" if call in "md" else dice.choice("fd") if call in "slctg" else "f"
    return "/".join(parts + [kind + str(dice.randint(0, 3))]).encode()


def lines(dice, count, calls, path):
    """The calls that are asked for."""
    text = b""
    for _ in range(count):
        call = dice.choice(calls)
        text += f"{call}{dice.randint(0, 7)} ".encode()
        text += (b"" if call in BY_PLACE else path(call).hex().encode()) + b"\n"
    return text


def traced(asked, option, while_running=lambda done: None):
    """Runs the program, and gives what it printed, and each call of the host that had a path."""
    log = ROOM + "/traced"
    done = threading.Event()
    other = threading.Thread(target=while_running, args=(done,))
    other.start()
    run = subprocess.run(
        ["strace", "-f", "-s", "20000", "-e", "trace=%file", "-o", log, RRS, "exec", option, BOX,
         PROGRAM], input=asked, capture_output=True, cwd="/")
    done.set()
    other.join()
    assert run.returncode == 0, (run.returncode, run.stderr[-300:])
    with open(log, encoding="latin-1") as file:
        return run.stdout, TRACED.findall(file.read())


def removes(done):
    """Removes a folder, and makes it again."""
    while not done.is_set():
        shutil.rmtree(BOX + "/dir", ignore_errors=True)
        try:
            os.makedirs(BOX + "/dir/deep")
        except OSError:
            pass


def is_below(path):
    """Whether a path is below the folder, or none: the call is one of a descriptor."""
    parts = path.split("/")
    if len(path) >= 4095:
        # strace has cut the last part
        parts.pop()
    return path in ("", BOX, BOX + "/.") or path.startswith(BOX + "/./") and ".." not in parts


def hostile_round(seed, start):
    dice = random.Random(seed)
    make()
    if seed % 10 == 9:
        shutil.rmtree(BOX + "/dir")
    before = tree(ROOM)
    asked = lines(dice, 200, "rwaxuslmdnoctkhig" + BY_PLACE, lambda _: hostile(dice))
    option = "--files-read-only" if seed % 4 == 3 else "--files"
    meanwhile = removes if seed % 5 == 2 else lambda done: None
    printed, calls = traced(asked, option, meanwhile)
    assert b"SECRET" not in printed, seed
    assert tree(ROOM) == before, (seed, set(tree(ROOM)) ^ set(before))
    for name, path in calls:
        assert (name, path) in start or is_below(path), (seed, name, path)
        assert "link" not in name or name in ["unlink", "unlinkat", "readlink"], (seed, name, path)
    for base, folders, files in os.walk(BOX):
        for name in folders + files:
            path = os.path.join(base, name)
            # a folder is renamed with the links in it; none is made
            if os.path.islink(path):
                known = {(os.path.basename(link), target) for link, target in LINKS.items()}
                assert (name, os.readlink(path)) in known, path
    return len(calls)


def tame_round(seed):
    dice = random.Random(seed)
    asked = lines(dice, 100, "rwaxuslmdnoctg" + BY_PLACE, lambda call: tame(dice, call))
    seen = []
    for command in [["qemu-riscv32", PROGRAM], [RRS, "exec", "--files", ".", PROGRAM]]:
        folder = f"{ROOM}/tame{len(seen)}"
        os.makedirs(folder + "/d0")
        put(folder + "/f1", "begun")
        run = subprocess.run(command, input=asked, capture_output=True, cwd=folder)
        assert run.returncode == 0, (seed, command, run.stderr[-300:])
        left = {path.removeprefix(folder): what for path, what in tree(folder).items()}
        seen.append((run.stdout, left))
    if seen[0] != seen[1]:
        for asked_for, wanted, was in zip(asked.split(b"\n"), *(s[0].split(b"\n") for s in seen)):
            if wanted != was:
                print(seed, asked_for, wanted, was)
        sys.exit("differs from qemu-riscv32")


def main():
    make()
    start = set(traced(b"", "--files")[1])
    calls = 0
    for seed in range(FIRST, FIRST + ROUNDS):
        calls += hostile_round(seed, start)
        tame_round(seed)
    # An empty folder is not removed by a path that is the folder itself.
    shutil.rmtree(ROOM)
    os.makedirs(BOX)
    paths = [b"/", b"//", b".", b"./", b"/.", b"/./"]
    traced(b"".join(b"d0 " + path.hex().encode() + b"\n" for path in paths), "--files")
    assert os.path.isdir(BOX)
    assert calls > 100 * ROUNDS, calls
    shutil.rmtree(ROOM)
    print("ok")


main()

"""Each way to open a file, by rrs exec --files and --files-read-only, beside qemu-riscv32.

usage: opens.py RRS PROGRAM

PROGRAM is opens.c as examples/exec/cc builds it. It opens 30 paths with each of 96 flags, and reads,
writes and cuts what it opened. What it prints, and what the folder is then, must be what they are
under qemu-riscv32, but where CALLS.md says something else (`answer`). With --files-read-only the
folder must stay as it was, and what is opened to be read alone must be open as it is without. As
root all runs as the user and the group 65534, so that the rights of files count.
"""

import itertools
import os
import shutil
import socket
import stat
import subprocess
import sys
import tempfile

RRS, PROGRAM = map(os.path.abspath, sys.argv[1:3])
CREATE, NEW, EMPTY, APPEND, FOLDER = 0x40, 0x80, 0x200, 0x400, 0x10000
OPTIONS = [CREATE, NEW, EMPTY, APPEND, FOLDER]
WAYS = [access + sum(some) for access in (0, 1, 2) for count in range(6)
        for some in itertools.combinations(OPTIONS, count)]
# the files, by their modes; each has the bytes "0123456789"
FILES = {"plain": 0o644, "to-read": 0o444, "to-write": 0o222, "closed": 0o000, "run": 0o755,
         "dir/in": 0o600, "dir/deep/in": 0o644, "still/in": 0o644, "shut/in": 0o644, "n" * 255: 0o644}
# those that other paths lead to, so that no path finds what another one left
MORE = ["empty", "slashed", "above", "beside", "dir/beside"]
FOLDERS = {"dir": 0o755, "dir/deep": 0o755, "still": 0o555, "shut": 0o000}
LINKS = {"link": "plain", "broken": "nothing", "to-dir": "dir", "loop": "loop"}
PATHS = [*FILES, "empty", "dir", "dir/", "dir/deep", "still", "still/new", "new", "newer/", "dir/new",
         "dir/no/new", "slashed/", "above/in", "./beside", "dir/./beside", "n" * 256, "", ".", "link",
         "broken", "to-dir/in"]
# of which the rights are asked for by the open alone
ASKED = ["to-read", "to-write", "closed", "still/new"]
# what is no file and no folder: EACCES (13), and Linux may wait for ever
OTHERS = ["fifo", "socket", "device"]
USER = 65534


def make(top):
    """The folder as each run finds it."""
    os.mkdir(top)
    for folder in FOLDERS:
        os.mkdir(f"{top}/{folder}")
    for name in [*FILES, *MORE]:
        with open(f"{top}/{name}", "w", encoding="ascii") as file:
            file.write("" if name == "empty" else "0123456789")
    for link, target in LINKS.items():
        os.symlink(target, f"{top}/{link}")
    os.mkfifo(f"{top}/fifo")
    with socket.socket(socket.AF_UNIX) as bound:
        bound.bind(f"{top}/socket")
    try:
        os.mknod(f"{top}/device", 0o666 | stat.S_IFCHR, os.makedev(1, 3))
    except PermissionError:
        os.mkfifo(f"{top}/device")
    for base, folders, files in os.walk(top):
        for name in [*folders, *files, ""]:
            if os.getuid() == 0:
                os.lchown(os.path.join(base, name), USER, USER)
    for name, mode in [*FILES.items(), *FOLDERS.items()]:
        os.chmod(f"{top}/{name}", mode)


def told(path):
    """What is known of a file, and what it has."""
    status = os.lstat(path)
    what = os.readlink(path) if stat.S_ISLNK(status.st_mode) else ""
    if stat.S_ISREG(status.st_mode):
        with open(path, "rb") as file:
            what = file.read()
    return oct(status.st_mode), what


def tree(top):
    """What is in a folder: as root, who may read all of it."""
    found = {}
    for base, folders, files in os.walk(top):
        for name in folders + files:
            path = os.path.join(base, name)
            found[os.path.relpath(path, top)] = told(path)
    return found


def run(room, words, paths):
    """Runs the program in a new folder; what it printed, and the folder before and then."""
    top = f"{room}/folder"
    make(top)
    before = tree(top)
    asked = "".join(path + "\n" for path in paths)
    as_user = dict(user=USER, group=USER, extra_groups=[]) if os.getuid() == 0 else {}
    ran = subprocess.run(words, input=asked, capture_output=True, text=True, cwd=top, timeout=60,
                         check=False, **as_user)
    after = tree(top)
    for folder in FOLDERS:
        os.chmod(f"{top}/{folder}", 0o755)
    shutil.rmtree(top)
    if ran.returncode != 0:
        sys.exit(f"{words}: status {ran.returncode}: {ran.stderr[-300:]}")
    return ran.stdout.splitlines(), before, after


def answer(path, way, of_linux):
    """What is printed, where Linux answers so: CALLS.md says which answers are others."""
    if path == "":
        return "-2"
    if way & CREATE and way & FOLDER:
        return "-22"
    is_new = way & CREATE and way & NEW
    if path == "to-dir/in" or path in ("link", "broken") and not is_new:
        return "-40"
    if way & CREATE and path.endswith("/"):
        return {"newer/": "-2", "slashed/": "-20"}.get(path, "-17" if is_new else "-21")
    # what Rust's options don't have: a file is made or emptied by what may not write it, or one that
    # may be there is emptied and appended to
    has_none = way & (CREATE | EMPTY) and not way & 3 or way & APPEND and way & EMPTY and not is_new
    if has_none and (not of_linux.startswith("-") or path in ASKED and of_linux == "-13"):
        return "-22"
    return of_linux


def compare(room, way, differing):
    """All paths with these flags."""
    flags = str(way)
    linux, _, of_linux = run(room, ["qemu-riscv32", PROGRAM, flags], PATHS)
    own, before, of_own = run(room, [RRS, "exec", "--files", ".", PROGRAM, flags], PATHS)
    for path, seen, other in zip(PATHS, own, linux, strict=True):
        wanted = answer(path, way, other)
        if seen != wanted:
            differing.append(f"{way:#x} {path!r}: {seen}, and not {wanted}")
        # a file that was not opened is as it was
        name = os.path.normpath(path)
        if wanted == other and of_own.get(name) != of_linux.get(name):
            differing.append(f"{way:#x} {path!r}: {of_own.get(name)}, and not {of_linux.get(name)}")
        if wanted.startswith("-") and of_own.get(name) != before.get(name):
            differing.append(f"{way:#x} {path!r}: {of_own.get(name)} then, and was not opened")
    kept, before, after = run(room, [RRS, "exec", "--files-read-only", ".", PROGRAM, flags], PATHS)
    if after != before:
        changed = {name for name in {*before, *after} if before.get(name) != after.get(name)}
        differing.append(f"{way:#x}: changed, though files may only be read: {changed}")
    for path, seen, other in zip(PATHS, kept, own, strict=True):
        # EROFS is 30
        is_tried = path == "" or way & CREATE and way & FOLDER
        wanted = other if is_tried or not way & (3 | CREATE | EMPTY) else "-30"
        if seen != wanted:
            differing.append(f"{way:#x} {path!r}, read-only: {seen}, and not {wanted}")
    for option in ("--files", "--files-read-only"):
        seen = run(room, [RRS, "exec", option, ".", PROGRAM, flags], OTHERS)[0]
        if any(not line.startswith("-") for line in seen):
            differing.append(f"{way:#x}: opened, with {option}: {seen}")


def main():
    room = tempfile.mkdtemp()
    os.chmod(room, 0o777)
    differing = []
    assert (len(WAYS), len(PATHS)) == (96, 30)
    for way in WAYS:
        compare(room, way, differing)
    shutil.rmtree(room)
    print("\n".join(differing) if differing else f"{len(WAYS) * len(PATHS)} agree")


main()

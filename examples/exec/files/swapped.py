"""Names that another process changes while a program opens them, by rrs exec --files.

usage: swapped.py RRS PROGRAM OPENS [--waits]

PROGRAM is hostile.c as examples/exec/cc builds it. First a FIFO, a socket and, where this process
may make one, a device stand in the folder: each call that opens answers at once, and by its error.
Then one name is that of a file, of a link to a file outside, of a folder, of a FIFO and of nothing
in turn, while the program opens it OPENS times to be read, to be cut, to be written at its end, to
have its times set and to be listed: all calls answer, and what is outside is neither read nor
changed. With --waits the name is never that of a FIFO: where no flag says otherwise an open of one
waits for another process.
"""

import os
import shutil
import socket
import stat
import subprocess
import sys
import tempfile
import threading

RRS, PROGRAM = map(os.path.abspath, sys.argv[1:3])
OPENS, WAITS = int(sys.argv[3]), sys.argv[4:] == ["--waits"]
ROOM = tempfile.mkdtemp()
BOX = ROOM + "/box"
SECRET = "SECRET" * 10
# how long a run may take
SECONDS = 120
# the names of errors, by the numbers of the program's library
ERRORS = {"2": "ENOENT", "6": "ENXIO", "13": "EACCES", "20": "ENOTDIR", "21": "EISDIR",
          "92": "ELOOP"}


def put(path, text):
    with open(path, "w") as file:
        file.write(text)


def answers(calls):
    """What the program prints of each call: a letter and a place, and a name."""
    asked = "".join(f"{call} {name.encode().hex()}\n" for call, name in calls)
    run = subprocess.run([RRS, "exec", "--files", BOX, PROGRAM], input=asked.encode(),
                         capture_output=True, timeout=SECONDS)
    assert run.returncode == 0, (run.returncode, run.stderr[-300:])
    lines = run.stdout.decode().splitlines()
    assert len(lines) == len(calls), (len(lines), len(calls))
    return lines


def outcome(line):
    """Of what is printed of a call: the error, or 0."""
    answer, error = line.split()[1:3]
    return ERRORS.get(error, error) if answer == "-1" else "0"


def standing():
    """Where another kind stands: it is EACCES (13), and EEXIST (17) where the name must be new."""
    os.mkfifo(BOX + "/fifo")
    names = ["fifo", "socket"]
    with socket.socket(socket.AF_UNIX) as bound:
        bound.bind(BOX + "/socket")
    try:
        os.mknod(BOX + "/device", 0o666 | stat.S_IFCHR, os.makedev(1, 3))
        names.append("device")
    except PermissionError:
        print("not tried, since it may not be made: a device", file=sys.stderr)
    for name in names:
        for call, wanted in zip("rwaxt", [13, 13, 13, 17, 13]):
            seen = answers([(call + "0", name)])
            assert seen == [f"{call} -1 {wanted}"], (name, seen)
        os.remove(f"{BOX}/{name}")


def swaps(done):
    """Gives a name to one kind after another."""
    name, made = BOX + "/name", ROOM + "/made"
    kinds = [
        lambda: put(made, "inside"),
        lambda: os.symlink(ROOM + "/outside", made),
        lambda: put(made, "another"),
        lambda: os.mkdir(made),
        lambda: os.mkfifo(made),
    ]
    if WAITS:
        kinds.pop()
    while not done.is_set():
        for kind in kinds:
            kind()
            while os.path.lexists(made):
                try:
                    os.rename(made, name)
                except IsADirectoryError:
                    os.rmdir(name)
                except NotADirectoryError:
                    os.remove(name)


def swapped():
    outside = ROOM + "/outside"
    put(outside, SECRET)
    before = os.stat(outside)
    put(BOX + "/name", "inside")
    calls = []
    for _ in range(OPENS):
        # what is opened, used and closed by each place; a capital takes no path
        for place, letters in enumerate(("rRC", "wWC", "aWC")):
            calls += [(f"{call}{place}", "name" if call.islower() else "") for call in letters]
        calls += [("t0", "name"), ("g0", "name")]
    done = threading.Event()
    other = threading.Thread(target=swaps, args=(done,))
    other.start()
    try:
        seen = answers(calls)
    finally:
        done.set()
        other.join()
    with open(outside) as file:
        assert file.read() == SECRET, "what is outside was changed"
    after = os.stat(outside)
    # what another opens is not read, so that its time stays
    assert before.st_mtime_ns == after.st_mtime_ns, "the time of what is outside was set"
    assert not any("SECRET" in line for line in seen), "what is outside was read"
    return {call: sorted({outcome(line) for line in seen if line[0] == call}) for call in "rwatg"}


def main():
    os.mkdir(BOX)
    try:
        standing()
        seen = swapped()
    finally:
        shutil.rmtree(ROOM)
    print("ok")
    print(seen, file=sys.stderr)


main()

"""What rrs leaves of the files that it writes a report to, and of those beside them.

In a folder of its own for each trial a command is run, and its status, what it says on standard
error, and all that is in the folder then is compared: the names, the kinds, the rights, the bytes.
A report is to be what the same command writes to standard error where it names no file. So a file
that is read is never written, by whatever path; an old file has all its bytes until a whole report
takes its place; and nothing is left beside it. What is no file is written as it is.

It needs no tool: sources are assembled by rrs."""

import os
import resource
import shutil
import signal
import stat
import subprocess
import tempfile
import time
from pathlib import Path

import pytest

# what is assembled for each trial, with -o or as raw bytes
EXECUTABLES = {
    "hello": "_start:\n li a7, 64\n li a0, 1\n la a1, text\n li a2, 6\n ecall\n li a7, 93\n"
             " li a0, 0\n ecall\ntext: .ascii \"hello\\n\"\n",
    "long": "_start:\n li a0, 2000\n1: addi a0, a0, -1\n bnez a0, 1b\n li a7, 93\n ecall\n",
    "fault": "_start:\n nop\n ebreak\n",
    "reader": "_start:\n li a7, 63\n li a0, 0\n addi a1, sp, -16\n li a2, 1\n ecall\n li a7, 93\n"
              " li a0, 0\n ecall\n",
}
RAW = {
    "firmware": " li t0, 0x10000000\n li t1, 'x'\n sb t1, 0(t0)\n li t0, 0x100000\n li t1, 0x5555\n"
                " sw t1, 0(t0)\n1: j 1b\n",
}
# the bytes of an old report, which are more than those of most new ones
OLD = b"old\n" * 3000
TOO_LARGE = "File too large"
IS_READ = "it is read, and stays as it is"
TWICE = "two options write it"
IS_OPEN = "it is open already, as a standard stream or a descriptor"
BOARD = ["--board", "--raw"]


def told(path):
    """What a path is: its kind and rights, and its bytes or where it leads."""
    found = os.lstat(path)
    if stat.S_ISLNK(found.st_mode):
        return "link", os.readlink(path)
    if stat.S_ISREG(found.st_mode):
        return oct(stat.S_IMODE(found.st_mode)), Path(path).read_bytes()
    return stat.filemode(found.st_mode), None


def all_in(folder):
    """What is in a folder, and in those below it."""
    return {os.path.relpath(os.path.join(place, name), folder): told(os.path.join(place, name))
            for place, folders, names in os.walk(folder) for name in folders + names}


class Trials:
    """A command that is tried, and what was wrong."""

    def __init__(self, rrs, room):
        self.rrs, self.room, self.wrong, self.count = str(rrs), Path(room), [], 0
        self.folder = self.room

    def run(self, *words, **how):
        """The status of a command in the folder, and what it says on standard error."""
        how = {"stdin": subprocess.DEVNULL, "stdout": subprocess.DEVNULL, **how}
        done = subprocess.run([self.rrs, *words], cwd=self.folder, stderr=subprocess.PIPE,
                              check=False, timeout=60, **how)
        return done.returncode, done.stderr.decode()

    def begin(self):
        """Has a new folder with the programs and an old report."""
        self.count += 1
        self.folder = self.room / str(self.count)
        shutil.copytree(self.room / "made", self.folder)
        (self.folder / "old").write_bytes(OLD)
        (self.folder / "old").chmod(0o640)
        (self.folder / "below").mkdir()

    def make(self):
        """Assembles what each trial has."""
        made = self.folder = self.room / "made"
        made.mkdir()
        (made / "bad").write_text("no executable\n")
        (made / "tree").write_bytes(bytes(64))
        for name, source in [*EXECUTABLES.items(), *RAW.items()]:
            (made / "source").write_text(source)
            if name in EXECUTABLES:
                subprocess.run([self.rrs, "as", "source", "-o", name], cwd=made, check=True)
                continue
            with open(made / name, "wb") as file:
                subprocess.run([self.rrs, "as", "source"], cwd=made, stdout=file, check=True)
        (made / "source").unlink()

    def report(self, *words):
        """What a command writes to standard error where it names no file, and says beside."""
        return self.run(*words)[1].encode()

    def compare(self, what, seen, wanted):
        """Notes where something else is seen."""
        if seen != wanted:
            differs = {key: (str(seen.get(key))[:90], str(wanted.get(key))[:90])
                       for key in {*seen, *wanted} if seen.get(key) != wanted.get(key)}
            self.wrong.append(f"{self.count}: {what}: seen and wanted: {differs}")

    def leaves(self, words, status, said, changes=(), before=None, **how):
        """Runs a command, which is to end so, say so, and change no more than this."""
        self.begin()
        if before:
            before(self.folder)
        wanted = {**all_in(self.folder), **dict(changes)}
        seen = dict(zip(("status", "said"), self.run(*words, **how)))
        self.compare(words, {**all_in(self.folder), **seen},
                     {**wanted, "status": status, "said": said})


def links(folder):
    """Names of the programs and of the old report, and two that lead to no file."""
    for name in ("hello", "tree", "old"):
        (folder / f"link.{name}").symlink_to(name)
        (folder / f"again.{name}").symlink_to(folder / f"link.{name}")
        os.link(folder / name, folder / "below" / f"hard.{name}")
    (folder / "free").symlink_to("below/new")


def limited(size):
    """Has no file grow beyond this size, which is an error of a write."""
    def limit():
        signal.signal(signal.SIGXFSZ, signal.SIG_IGN)
        resource.setrlimit(resource.RLIMIT_FSIZE, (size, size))
    return limit


def try_read(trials):
    """No file that is read is written, nor one twice, by whatever paths."""
    for path in ("hello", "./hello", "below/../hello", "link.hello", "again.hello",
                 "below/hard.hello"):
        for words in (["trace", "--output"], ["cover", "--output"], ["cover", "--callgrind"]):
            trials.leaves([*words, path, "hello"], 125, f"rrs {words[0]}: {path}: {IS_READ}\n",
                          before=links)
    for path in ("tree", "./tree", "again.tree", "below/hard.tree"):
        for name in ("trace", "cover"):
            trials.leaves([name, *BOARD, "--symbols", "hello", "--dtb", "tree", "--output", path,
                           "firmware"], 125, f"rrs {name}: {path}: {IS_READ}\n", before=links)
    for path in ("./hello", "link.hello"):
        trials.leaves(["trace", *BOARD, "--symbols", "hello", "--output", path, "firmware"],
                      125, f"rrs trace: {path}: {IS_READ}\n", before=links)
    given = Path(shutil.copy(trials.room / "made" / "hello", trials.room / "given"))
    was = told(given)
    with open(given, "rb") as file:
        trials.leaves(["trace", "--output", str(given), "-"], 125,
                      f"rrs trace: {given}: {IS_READ}\n", stdin=file)
    trials.compare("standard input", {"is": told(given)}, {"is": was})
    for one, other in (("new", "./new"), ("below/new", "free"), ("below/../new", "new"),
                       ("old", "again.old"), ("link.old", "below/hard.old")):
        trials.leaves(["cover", "--output", one, "--callgrind", other, "hello"], 125,
                      f"rrs cover: {one}: {TWICE}\n", before=links)


def try_refused(trials):
    """A command that is refused leaves all as it was."""
    reason = "rrs {}: bad: not an ELF file\n"
    for path in ("old", "link.old", "free", "new"):
        trials.leaves(["trace", "--output", path, "bad"], 125, reason.format("trace"), before=links)
        trials.leaves(["cover", "--output", path, "--callgrind", "below/other", "bad"], 125,
                      reason.format("cover"), before=links)
        trials.leaves(["trace", "--output", path, "--memory", "4096", "hello"], 125,
                      "rrs trace: hello: it needs 1052672 bytes of memory: --memory 1052672\n",
                      before=links)
    trials.leaves(["cover", "--output", "old", "--callgrind", "none/new", "hello"], 125,
                  "rrs cover: none/new: No such file or directory\n")
    with open("/dev/full", "wb") as full:
        for name, words in (("trace", []), ("cover", ["--symbols", "hello", "--callgrind", "new"])):
            trials.leaves([name, *BOARD, *words, "--output", "old", "firmware"], 125,
                          f"rrs {name}: standard output: No space left on device\n", stdout=full)
    for path, said in (("none/", "No such file or directory"),
                       ("none/new", "No such file or directory"),
                       ("", "No such file or directory"), ("hello/new", "Not a directory"),
                       ("below", "Is a directory"), ("below/", "Is a directory")):
        trials.leaves(["trace", "--output", path, "hello"], 125, f"rrs trace: {path}: {said}\n")


def try_full(trials):
    """Where not all can be written all is as it was."""
    for path in ("old", "link.old", "free", "new"):
        trials.leaves(["trace", "--output", path, "long"], 125, f"rrs trace: {path}: {TOO_LARGE}\n",
                      before=links, preexec_fn=limited(4096))
        trials.leaves(["cover", "--output", path, "hello"], 125,
                      f"rrs cover: {path}: {TOO_LARGE}\n", before=links, preexec_fn=limited(100))
        trials.leaves(["cover", "--output", "/dev/null", "--callgrind", path, "hello"], 125,
                      f"rrs cover: {path}: {TOO_LARGE}\n", before=links, preexec_fn=limited(100))
        trials.leaves(["trace", *BOARD, "--output", path, "firmware"], 125,
                      f"rrs trace: {path}: {TOO_LARGE}\n", before=links, preexec_fn=limited(100))
    # the table can be written, and the profile, which is longer, can't
    table = len(trials.report("cover", "hello"))
    trials.leaves(["cover", "--output", "old", "--callgrind", "new", "hello"], 125,
                  f"rrs cover: new: {TOO_LARGE}\n", preexec_fn=limited(table))


def try_whole(trials):
    """A whole report takes the place of the old one, which has its rights and its name."""
    log, table = trials.report("trace", "hello"), trials.report("cover", "hello")
    for path, at, mode in (("old", "old", "0o640"), ("./old", "old", "0o640"),
                           ("link.old", "old", "0o640"), ("again.old", "old", "0o640"),
                           ("new", "new", "0o644"), ("free", "below/new", "0o644")):
        trials.leaves(["trace", "--output", path, "hello"], 0, "", {at: (mode, log)}, before=links,
                      umask=0o022)
        trials.leaves(["cover", "--output", path, "hello"], 0, "", {at: (mode, table)},
                      before=links, umask=0o022)
    for mode in (0o600, 0o666, 0o755, 0o200):
        trials.leaves(["trace", "--output", "old", "hello"], 0, "", {"old": (oct(mode), log)},
                      before=lambda folder, mode=mode: (folder / "old").chmod(mode), umask=0o077)
    trials.leaves(["trace", "--output", "new", "hello"], 0, "", {"new": ("0o600", log)},
                  umask=0o077)
    # a hard link keeps the old bytes
    trials.leaves(["trace", "--output", "below/hard.old", "hello"], 0, "",
                  {"below/hard.old": ("0o640", log)}, before=links)
    # names that are taken beside it stay
    trials.leaves(["cover", "--output", "old", "--callgrind", "/dev/null", "hello"], 0, "",
                  {"old": ("0o640", table)},
                  before=lambda folder: [(folder / f".rrs-new-{number}").write_text("mine")
                                         for number in range(3)])
    # a run that ends at a fault, or at the limit
    for words in (["fault"], ["--limit", "5", "long"]):
        status, whole = trials.run("trace", *words)
        lines = [line for line in whole.splitlines(True) if line.startswith("core")]
        trials.leaves(["trace", "--output", "old", *words], status,
                      "".join(line for line in whole.splitlines(True) if line not in lines),
                      {"old": ("0o640", "".join(lines).encode())})


def try_others(trials):
    """What is no file is written as it is, and so is the file of standard output."""
    log = trials.report("trace", "hello")
    null = os.stat("/dev/null")
    trials.leaves(["cover", "--output", "/dev/null", "hello"], 0, "")
    trials.compare("/dev/null", {"is": os.stat("/dev/null").st_rdev}, {"is": null.st_rdev})
    trials.leaves(["trace", "--output", "/dev/full", "hello"], 125,
                  "rrs trace: /dev/full: No space left on device\n")
    trials.begin()
    os.mkfifo(trials.folder / "pipe")
    with subprocess.Popen(["cat", "pipe"], cwd=trials.folder, stdout=subprocess.PIPE) as cat:
        wanted = all_in(trials.folder)
        seen = {**dict(zip(("status", "said"), trials.run("trace", "--output", "pipe", "hello"))),
                "read": cat.stdout.read()}
    trials.compare("a pipe", {**all_in(trials.folder), **seen},
                   {**wanted, "status": 0, "said": "", "read": log})
    for path in ("/dev/stdout", "log", "./log", "/dev/fd/1"):
        trials.begin()
        with open(trials.folder / "log", "wb") as file:
            refused(trials, path, stdout=file)
    trials.begin()
    with open(trials.folder / "old", "rb") as file:
        refused(trials, "old", stdin=file)
    # a link leads on from its own folder
    trials.leaves(["trace", "--output", "below/log", "hello"], 125,
                  "rrs trace: below/log: No such file or directory\n", before=astray)


def refused(trials, path, **how):
    """Has a report written to what is open already, which is refused."""
    wanted = all_in(trials.folder)
    seen = dict(zip(("status", "said"), trials.run("cover", "--output", path, "hello", **how)))
    trials.compare(path, {**all_in(trials.folder), **seen},
                   {**wanted, "status": 125, "said": f"rrs cover: {path}: {IS_OPEN}\n"})


def astray(folder):
    """A link whose text leads to a file from above its folder, and to none from its folder."""
    (folder / "run").mkdir()
    (folder / "run" / "log").write_bytes(OLD)
    (folder / "below" / "log").symlink_to("run/log")


def try_meanwhile(trials):
    """While a program runs the old report is there. A new one that can't take its place is
    removed."""
    meanwhile(trials, "a folder in its place", in_its_place, "Is a directory")
    # the old one is not removed before the new one has its name
    meanwhile(trials, "no new one", lambda folder: (folder / ".rrs-new-0").unlink(),
              "No such file or directory")


def in_its_place(folder):
    """A folder in the place of the old report."""
    (folder / "old").unlink()
    (folder / "old").mkdir()


def meanwhile(trials, what, change, said):
    """Changes a folder while a program runs in it: its report is refused then, and no more is
    changed."""
    trials.begin()
    with subprocess.Popen([trials.rrs, "trace", "--output", "old", "reader"], cwd=trials.folder,
                          stdin=subprocess.PIPE, stderr=subprocess.PIPE) as running:
        until = time.monotonic() + 30
        while not (trials.folder / ".rrs-new-0").exists() and time.monotonic() < until:
            time.sleep(0.01)
        trials.compare("while it runs", {"old": told(trials.folder / "old")},
                       {"old": ("0o640", OLD)})
        change(trials.folder)
        wanted = {**all_in(trials.folder)}
        wanted.pop(".rrs-new-0", None)
        seen = running.communicate(b"x")[1].decode()
    trials.compare(what, {**all_in(trials.folder), "status": running.returncode, "said": seen},
                   {**wanted, "status": 125, "said": f"rrs trace: old: {said}\n"})


def try_rights(trials):
    """In a folder that may not be written an old report stays, and none is made."""
    nobody = {"user": 65534, "group": 65534, "extra_groups": []} if os.geteuid() == 0 else {}
    for rights, path, said in ((0o666, "below/old", "Permission denied"),
                               (0o444, "old", "Permission denied"),
                               (0o666, "below/new", "Permission denied")):
        def guard(folder, rights=rights):
            folder.chmod(0o777)
            (folder / "old").chmod(rights)
            shutil.copy(folder / "old", folder / "below" / "old")
            (folder / "below").chmod(0o555)
        trials.leaves(["trace", "--output", path, "hello"], 125, f"rrs trace: {path}: {said}\n",
                      before=guard, **nobody)


# what is tried, and how many trials that is
TRIED = {try_read: 34, try_refused: 21, try_full: 17, try_whole: 21, try_others: 9,
         try_meanwhile: 2, try_rights: 3}


def trials_of(rrs, *tried):
    """What is wrong of a program, and how many trials there were. The folder is one that others can
    read too, and so can run the copy of the program there."""
    before = os.umask(0o022)
    with tempfile.TemporaryDirectory() as room:
        os.chmod(room, 0o755)
        shutil.copy(rrs, Path(room) / "rrs")
        trials = Trials(Path(room) / "rrs", room)
        trials.make()
        for one in tried:
            one(trials)
    os.umask(before)
    return trials.wrong, trials.count


@pytest.mark.parametrize("tried", TRIED, ids=lambda tried: tried.__name__[4:])
def test_outputs(rrs, tried):
    assert trials_of(rrs, tried) == ([], TRIED[tried])


# commands that do more than rrs, or less: what they do before and after, to files of the folder
# alone
WRONG = {
    "nothing": (":", ":"),
    "emptied": ('[ ! -f "$to" ] || : >"$to"', ":"),
    "left": (":", '[ -z "$to" ] || : >.rrs-new-7'),
    "rights": (":", '[ ! -f "$to" ] || chmod 604 "$to"'),
    "linked": ('[ ! -L "$to" ] || rm "$to"', ":"),
    "cut": (":", '[ ! -f "$to" ] || truncate -s -1 "$to"'),
    "said": (":", "echo more >&2"),
    "status": (":", "status=1"),
}
WRAPPER = """#!/bin/sh
[ "$1" != as ] || exec {rrs} "$@"
to= last=
for word; do
    case $last:$word in
    --output:/*) ;;
    --output:*) to=$word ;;
    esac
    last=$word
done
status=0
{before}
{rrs} "$@" || status=$?
{after}
exit $status
"""


@pytest.mark.planted
@pytest.mark.parametrize("name", WRONG)
def test_another_rrs(rrs, name):
    """Each wrong command is seen."""
    before, after = WRONG[name]
    with tempfile.TemporaryDirectory() as room:
        os.chmod(room, 0o755)
        own = shutil.copy(rrs, Path(room) / "own")
        file = Path(room) / "wrong"
        file.write_text(WRAPPER.format(rrs=own, before=before, after=after))
        file.chmod(0o755)
        seen, made = trials_of(file, *TRIED)
    assert bool(seen) == (name != "nothing")
    assert made == sum(TRIED.values()) == 107

"""Assembles the programs of examples/assembly by rrs as, compares them with their words, and runs
them: each source of programs/, macros/ and files/ by rrs exec, with NAME.in as its input where
there is one, of which NAME.out has what it prints, and its status. What rrs as says of mistakes,
and what it leaves of files, is compared with what stands here. Random bytes have an answer too.
test_gnu_as.py compares it with GNU as."""

import os
import re
import resource
import signal
import struct

import pytest

from assembling import HERE, prints
from support import ROOT, instead, run, same, same_bytes, text_of
from test_gnu_as import OTHERS, PROGRAMS, ahead

MACROS = [source for source in OTHERS if source.parent.name == "macros"]
# the words of programs, as tests of crates/tests_assembler have them too
WORDS = {
    "three_words": "1234b137 f387e1b7 003100b3",
    "sum_loop": "00000613 00058c63 00052683 00d60633 00450513 fff58593 fedff06f",
    "gcd": "00059463 00008067 02b577b3 00058513 00078593 fedff06f",
    "copy_words":
        "02060063 00261613 00c58733 0005a783 00458593 00450513 fef52e23 fee598e3 00008067",
    "put_string": "0005c783 00079463 00008067 00158593 00f50023 fedff06f",
}


def bytes_of(name):
    """The bytes of these words."""
    words = [int(word, 16) for word in WORDS[name].split()]
    return struct.pack(f"<{len(words)}I", *words).decode("latin-1")


class Room:
    """A folder with sources, in which rrs as is run."""

    def __init__(self, rrs, path):
        self.rrs, self.path = rrs, path

    def put(self, name, text):
        """Writes a file."""
        file = self.path / name
        file.parent.mkdir(parents=True, exist_ok=True)
        file.write_bytes(text.encode("latin-1"))
        return file

    def text(self, name):
        """What a file has."""
        return text_of(self.path / name)

    def own(self, *words, **how):
        """How rrs as ends."""
        return run(self.rrs, "as", *words, cwd=self.path, **how)

    def says(self, wanted, status, *words):
        """Compares what is said of a mistake, and that nothing is written."""
        __tracebackhide__ = True
        done = self.own(*words)
        same(done.errors, wanted and wanted + "\n", " ".join(map(str, words)))
        assert (done.status, done.output) == (status, "")


@pytest.fixture
def room(rrs, tmp_path):
    room = Room(rrs, tmp_path)
    for name, text in SOURCES.items():
        room.put(name, text.replace("ROOM", str(tmp_path)))
    for name, place in LINKS.items():
        (tmp_path / name).symlink_to(place.replace("ROOM", str(tmp_path)))
    for name, place in HARD.items():
        os.link(tmp_path / place, tmp_path / name)
    return room


SOURCES = {
    "range.s": "nop\naddi a0, a0, 2048\n",
    "macro.s": ".macro add_all to\n.rept 3\naddi \\to, \\to, 2048\n.endr\n.endm\n"
               "add_all a0\nadd_all a0\n",
    "many.s": "".join(f"none{number} a0\n" for number in range(1, 26)),
    "condition.s": "nop\n.if 1\nnop\n", "deep.s": ".macro again\nagain\n.endm\nagain\n",
    "much.s": ".rept 100000000\nnop\n.endr\n", "files.s": 'nop\n.incbin "none"\n.incbin "no"\n',
    "others.s": '.incbin "/dev/zero"\n.incbin "../files.s"\n.incbin "."\n',
    "anywhere.s": '.incbin "ROOM/files.s"\n',
    "outside/file": "outside\n", "folder/file": "inside\n", "folder/below/.keep": "",
    "folder/out.s": '.incbin "link"\n.incbin "below/out/file"\n'
                    '.incbin "below/out/folder/link"\n',
    "folder/in.s": '.incbin "file"\n.incbin "below/in"\n.incbin "below/out/folder/file"\n',
    "same.s": "nop\n", "data.s": "nop\n.data\nmain: .word 19\n",
    "bytes.bin": "data\n", "names.s": 'nop\n.incbin "bytes.bin"\n',
}
# links that lead out of the folder of a source, by their last part and by another, and those that
# stay in it; and other paths of a source, and of a file that one names
LINKS = {"folder/link": "../outside/file", "folder/below/out": "../../outside",
         "folder/below/in": "../file", "outside/folder": "ROOM/folder",
         "same.link": "same.s", "bytes.link": "bytes.bin"}
HARD = {"same.hard": "same.s", "bytes.hard": "bytes.bin"}

USAGE = """usage: rrs as [--gnu | --list] [-o OUTPUT] [--rars] [-Ttext ADDRESS]
    [-Tdata ADDRESS] [--incbin-anywhere] FILE"""
OUT_OF_RANGE = "value out of range: addi takes -2048 to 2047; li puts any number into a register"
NOT_BESIDE = "this is no file beside the source, which --incbin-anywhere allows"
IS_SOURCE = "this is the source, which stays as it is"
OVER = "names.s:2:1: the executable would be written over this file: bytes.bin"
# the words behind rrs as, its status, and what it says
SAYS = (
    ("range.s", 1, f"range.s:2:14: {OUT_OF_RANGE}"),
    ("--gnu range.s", 1, "range.s:2:14: value out of range"),
    # in a macro, at the line of its body, and once; twenty at most; and in a directive
    ("macro.s", 1, f"macro.s:3:14: {OUT_OF_RANGE}"),
    ("many.s", 1, "".join(f"many.s:{n}:1: no such instruction or directive: none{n}\n"
                          for n in range(1, 21)) + "many.s: lines with further mistakes: 5"),
    ("condition.s", 1, "condition.s:2:1: there is no .endif for this condition"),
    ("deep.s", 1, "deep.s:2:1: macros are nested too deeply"),
    ("much.s", 1, "much.s:1:7: macros and repetitions make too much"),
    ("files.s", 1, "files.s:2:1: the file can't be read: none\n"
                   "files.s:3:1: the file can't be read: no"),
    ("others.s", 1, "\n".join(f"others.s:{line}:1: {NOT_BESIDE}: {path}" for line, path in
                              ((1, "/dev/zero"), (2, "../files.s"), (3, ".")))),
    ("folder/out.s", 1, "\n".join(f"folder/out.s:{line}:1: {NOT_BESIDE}: folder/{path}"
                                  for line, path in ((1, "link"), (2, "below/out/file"),
                                                     (3, "below/out/folder/link")))),
    ("none.s", 1, "rrs as: none.s: No such file or directory"),
    ("", 2, USAGE), ("a b", 2, f"rrs as: one word too many: b\n{USAGE}"), ("--gnu", 2, USAGE),
    (".", 1, "rrs as: .: Is a directory"), ("--gnu .", 1, "rrs as: .: Is a directory"),
    ("same.s -o ./same.s", 1, f"rrs as: ./same.s: {IS_SOURCE}"),
    ("data.s -o data.elf", 1, "rrs as: data.s: no instruction can begin at the entry 0x00011000"),
    # nor by another path of it, nor a file that the source names
    ("same.s -o same.link", 1, f"rrs as: same.link: {IS_SOURCE}"),
    ("same.s -o same.hard", 1, f"rrs as: same.hard: {IS_SOURCE}"),
    ("names.s -o bytes.bin", 1, OVER), ("names.s -o ./bytes.bin", 1, OVER),
    ("names.s -o bytes.link", 1, OVER), ("names.s -o bytes.hard", 1, OVER),
    ("--incbin-anywhere names.s -o bytes.bin", 1, OVER),
    ("/dev/zero", 1, "rrs as: /dev/zero: a source has at most 64 MiB"),
)


@pytest.mark.parametrize("words, status, wanted", SAYS,
                         ids=[words or "no words" for words, _, _ in SAYS])
def test_says(room, words, status, wanted):
    room.says(wanted, status, *words.split())
    same(room.text("bytes.bin"), "data\n")
    same(room.text("same.s"), "nop\n")


@pytest.mark.parametrize("name", WORDS)
def test_words(room, name):
    same_bytes(room.own(HERE / f"{name}.s").output, bytes_of(name))


def test_all_in_one_file(room):
    room.put("all.s", "".join(text_of(HERE / f"{name}.s") for name in WORDS))
    same_bytes(room.own("all.s").output, "".join(map(bytes_of, WORDS)))


def test_the_first_program_of_rrs_run():
    same_bytes(text_of(ROOT / "crates/rrs_run/data/three-words.bin"), bytes_of("three_words"))


# ---- files that a source names


@pytest.mark.parametrize("words, wanted", [
    (["--incbin-anywhere", "anywhere.s"], SOURCES["files.s"]),
    (["folder/in.s"], "inside\n" * 3),
    (["--incbin-anywhere", "folder/out.s"], "outside\n" * 3)],
    ids=["by any path", "in the folder, by links", "by any link"])
def test_files(room, words, wanted):
    same_bytes(room.own(*words).output, wanted)


def test_files_beside_standard_input(room):
    done = run(room.rrs, "as", "-", cwd=room.path / "folder", input=SOURCES["folder/in.s"])
    same_bytes(done.output, "inside\n" * 3)


EVERY_BYTE = bytes(range(256)).decode("latin-1") * 39063


@pytest.fixture
def large(room):
    """A folder with a file of each byte, and 10 MB of them."""
    room.put("bytes.all", EVERY_BYTE)
    room.put("all.s", '.incbin "bytes.all"\n')
    return room


@pytest.mark.alone
def test_a_file_of_10_mb(large):
    """Within three seconds."""
    same_bytes(large.own("all.s", timeout=3).output, EVERY_BYTE)


def test_files_of_too_many_bytes(large):
    large.put("hundred.s", '.rept 100\n.incbin "bytes.all"\n.endr\n')
    large.says("hundred.s:2:1: the source and its files have more than 64 MiB: bytes.all", 1,
               "hundred.s")


def test_the_line_of_a_file_in_a_listing(large):
    same(large.own("--list", "all.s").output.split("\n")[0],
         '00000000  03020100      1  .incbin "bytes.all"')


# ---- what takes long


def macros():
    """90 macros, each of which calls the next twice."""
    return "".join(f".macro m{n}\nm{n + 1}\nm{n + 1}\n.endm\n" for n in range(1, 91)) + (
        ".macro m91\n.endm\nm1\n")


STOPS = {
    "calls": macros(),
    # repetitions in one another
    "each": ".irp a, 1, 2, 3, 4, 5, 6, 7, 8, 9\n" * 9 + "nop\n" + ".endr\n" * 9,
    # conditions, in a repetition, and lines
    "conditions": ".rept 100000\n" + ".if 0\n.endif\n" * 46 + ".endr\n",
    "nops": ".rept 100000\n.if 1\n" + "nop\n" * 150 + ".endif\n.endr\n",
}


@pytest.mark.alone
@pytest.mark.parametrize("name", STOPS)
def test_macros_that_make_too_much(room, name):
    """That is said within five seconds."""
    room.put(f"{name}.s", STOPS[name])
    done = room.own(f"{name}.s", timeout=5)
    assert done.status == 1
    assert re.search(r"(?m): macros and repetitions make too much$", done.errors), done.errors


@pytest.mark.alone
def test_half_a_million_names(room):
    room.put("unknown.s", ".rept 500000\nx\n.endr\n")
    same(room.own("unknown.s", timeout=5).errors,
         "unknown.s:2:1: no such instruction or directive: x; a label is written x:\n")


@pytest.mark.alone
def test_a_million_branches(room):
    """Within half a minute."""
    room.put("ahead.s", ahead(1000000))
    wanted = bytes.fromhex("630ab500") * 1000000 + bytes.fromhex("13000000") * 5
    same_bytes(room.own("ahead.s", timeout=30).output, wanted.decode("latin-1"))


def test_a_source_of_64_mib(room):
    """It is taken, and one that is a byte longer is not."""
    room.put("large.s", "#" + "-" * 67108863)
    room.says("", 0, "large.s")
    room.put("large.s", "#" + "-" * 67108863 + "\n")
    room.says("rrs as: large.s: a source has at most 64 MiB", 1, "large.s")


@pytest.mark.parametrize("text", [0, 1, 1000, 10000000, "lines"], ids=lambda text: f"{text}")
def test_an_answer(room, text):
    """Random bytes, and empty lines, have an answer: no other status than 0 or 1."""
    room.put("random.s", "\n" * 10000000 if text == "lines" else os.urandom(text).decode("latin-1"))
    assert room.own("random.s").status in (0, 1)


# ---- an executable that is there


def kept(room):
    """The names and the rights of what is in a folder, and where links lead."""
    lines = run("find", room.path / "kept", "-mindepth", "1", "-printf", r"%f %M %l\n").output
    return sorted(lines.splitlines())


@pytest.fixture
def old(room):
    """A folder with an old executable, and a link to it."""
    file = room.put("kept/old", "old\n")
    file.chmod(0o640)
    (room.path / "kept/link").symlink_to("old")
    return room


OLD = ["link lrwxrwxrwx old", "old -rw-r----- "]


@pytest.mark.parametrize("words", ["range.s -o kept/old", "data.s -o kept/link",
                                   "none.s -o kept/old"])
def test_a_source_that_is_refused(old, words):
    """An executable that is there stays, and nothing is left beside it."""
    assert old.own(*words.split()).status == 1
    assert (old.text("kept/old"), kept(old)) == ("old\n", OLD)


def no_file_grows():
    """Has no file grow, which is an error of a write."""
    signal.signal(signal.SIGXFSZ, signal.SIG_IGN)
    resource.setrlimit(resource.RLIMIT_FSIZE, (0, 0))


def test_a_full_disk(old):
    """It stays too where not all can be written."""
    done = old.own("same.s", "-o", "kept/link", preexec_fn=no_file_grows)
    assert done == (1, "", "rrs as: kept/link: File too large\n")
    assert (old.text("kept/old"), kept(old)) == ("old\n", OLD)


def test_a_new_executable_by_a_link(old):
    """It has the rights of the old one and may be run, a link to it stays, and nothing is left
    beside it."""
    for name in ("kept/link", "same.elf"):
        assert old.own("same.s", "-o", name) == (0, "", "")
    same_bytes(old.text("kept/old"), old.text("same.elf"))
    assert kept(old) == ["link lrwxrwxrwx old", "old -rwxr-x--- "]


def test_an_executable_into_a_pipe(room):
    assert room.own("same.s", "-o", "same.elf").status == 0
    same_bytes(room.own("same.s", "-o", "/dev/stdout").output, room.text("same.elf"))


def test_an_executable_that_may_be_run(room):
    assert room.own(HERE / "hello.s", "-o", "hello.elf").status == 0
    assert os.stat(room.path / "hello.elf").st_mode & 0o100


# ---- programs


def run_raw(room, source):
    """Assembles a program, and runs its bytes."""
    __tracebackhide__ = True
    room.put("raw", room.own(source).output)
    prints(source, room.rrs, "exec", "--raw", room.path / "raw", "--limit", "10000000")


def run_executable(room, source, *words):
    """Makes an executable of a program, and runs it."""
    __tracebackhide__ = True
    assert room.own(*words, source, "-o", "executable").status == 0
    prints(source, room.rrs, "exec", room.path / "executable")


def test_hello(room):
    room.put("hello.bin", room.own(HERE / "hello.s").output)
    done = run(room.rrs, "exec", "--raw", "hello.bin", "--limit", "1000", cwd=room.path)
    same(done.output, "Hello from assembly; 6 * 7 = 42\n")


def stem_of(source):
    return source.stem


@pytest.mark.parametrize("source", PROGRAMS + OTHERS, ids=stem_of)
def test_assembled_and_run(room, source):
    run_raw(room, source)


@pytest.mark.parametrize("source", PROGRAMS + MACROS, ids=stem_of)
def test_executable(room, source):
    run_executable(room, source)


@pytest.mark.parametrize("source", PROGRAMS, ids=stem_of)
def test_executable_for_rars(room, source):
    run_executable(room, source, "--rars")


# ---- what is wrong must be seen


@pytest.mark.planted
def test_another_message(room):
    with pytest.raises(AssertionError, match="range.s differs"):
        room.says("range.s:2:15: value out of range", 1, "range.s")


@pytest.mark.planted
def test_what_is_written_beside_a_mistake(room):
    room.rrs = instead(room.path / "rrs", room.rrs, "echo more")
    with pytest.raises(AssertionError, match="more"):
        room.says(f"range.s:2:14: {OUT_OF_RANGE}", 1, "range.s")


@pytest.mark.planted
def test_no_answer(room):
    room.rrs = instead(room.path / "rrs", room.rrs, "status=2")
    with pytest.raises(AssertionError):
        test_an_answer(room, 1000)


@pytest.mark.planted
@pytest.mark.parametrize("old, new", [("", "9"), ("-- status 0\n", "-- status 00\n")],
                         ids=["printed", "ended"])
def test_another_output(room, old, new):
    """A program that prints something else than what is wanted, or ends otherwise."""
    for name in ("hanoi.s", "hanoi.out"):
        room.put(name, text_of(HERE / "programs" / name))
    run_raw(room, room.path / "hanoi.s")
    output = room.text("hanoi.out")
    assert old in output
    room.put("hanoi.out", output.replace(old, new, 1))
    with pytest.raises(AssertionError, match="hanoi.s differs"):
        run_raw(room, room.path / "hanoi.s")

"""Compares what `rrs elf` lists of executables with what GNU readelf lists of them.

The five programs of examples/elf/sources are built by gcc and clang, at -O0 to -O3, each in five
ways: plain, with debug information, without symbols, without page alignment, and with the symbols
of functions alone. That is 200 files. Of each the entry, the segments and the symbols are compared.

Then three of them are damaged: each byte of the headers becomes each of 0, 1, 0x7f, 0x80 and 0xff,
and the file is cut at each length below 4 KiB. Each is to be listed as readelf lists it, or refused
with a line, and accepted exactly where `is_executable` below, which is written from the ELF
specification, says so. With `pytest --hours` each of the 200 files is damaged so, which takes an
hour.

Last a function gets other names: with each control character, as readelf shows it, and with other
bytes and of other lengths, as the table NAMES has it.
"""

import concurrent.futures
import os
import re
import struct
import subprocess

import pytest

from support import EXAMPLES, run

SOURCES = EXAMPLES / "elf/sources"
READELF = "riscv64-unknown-elf-readelf"
pytestmark = pytest.mark.tools(
    "riscv64-unknown-elf-gcc=gcc-riscv64-unknown-elf",
    f"{READELF}=binutils-riscv64-unknown-elf",
    "clang=clang",
    "ld.lld=lld",
)
PROGRAMS = ("arrays", "few", "names", "tables", "zeros")
LEVELS = ("-O0", "-O1", "-O2", "-O3")
GCC = ["riscv64-unknown-elf-gcc", "-march=rv32im", "-mabi=ilp32", "-Wl,--no-warn-rwx-segments"]
CLANG = ["clang", "--target=riscv32", "-march=rv32im", "-mabi=ilp32", "-fuse-ld=lld"]
WAYS = {
    "plain": [],
    "debug": ["-g"],
    "stripped": ["-s"],
    "packed": ["-Wl,-n"],
    "cut": ["-g", "-Wl,--strip-debug", "-ffunction-sections", "-Wl,--gc-sections"],
}
FILES = {
    f"{program}-{name}{level}-{way}": [*compiler, level, *words, f"{program}.c"]
    for program in PROGRAMS for name, compiler in (("gcc", GCC), ("clang", CLANG))
    for level in LEVELS for way, words in WAYS.items()
}
# those that are damaged, and how many damaged forms each has; and how many all 200 files have
DAMAGED = {"arrays-gcc-O2-plain": 2398, "tables-clang-O0-packed": 4723, "zeros-gcc-O3-debug": 3341}
DAMAGES_OF_ALL = 581327
BYTES = (0, 1, 0x7F, 0x80, 0xFF)
# the file that is changed in ways that must be seen
PLAIN = "arrays-gcc-O2-plain"

# Names and what is shown of them: DEL, which readelf 2.40 writes otherwise, characters of UTF-8,
# those among them that are control characters, bytes that are not UTF-8, and 1,024 bytes at most.
NAMES = {
    b"a\x7fb": b"a^?b",
    "größe".encode(): "größe".encode(),
    "a\x80\x9b\x9f\xa0b".encode(): b"a{0x80}{0x9b}{0x9f}" + "\xa0b".encode(),
    b"a\x9b\xc3\xa4\x1b": b"a{0x9b}{0xc3}{0xa4}^[",
    b"a" * 1024: b"a" * 1024,
    b"a" * 1025: b"a" * 1024 + b"[...]",
}

# Segment types that readelf names, of the system and of the processor. Of others it has room for a
# part of the number, so such types are compared by their range, or by three digits.
SYSTEM = ("GNU_STACK", "GNU_RELRO", "GNU_EH_FRAME", "GNU_PROPERTY")
PROCESSOR = ("RISCV_ATTRIBUT",)


def type_of(word):
    """The type of a segment, in the form of either program, as far as both tell it."""
    if word in SYSTEM or re.match(r"LOOS\+|0x6.......$", word):
        return "LOOS"
    if word in PROCESSOR or re.match(r"LOPROC\+|0x7.......$", word):
        return "LOPROC"
    return word[:5] if word.startswith("0x") else word


def build(into):
    """Builds the 200 files. None depends on where the repository is."""
    def make(name):
        words = [*FILES[name], "start.S", "-ffreestanding", "-fno-pic", "-static", "-nostdlib",
                 f"-fdebug-prefix-map={SOURCES}=.", "-o", into / name]
        subprocess.run(words, cwd=SOURCES, check=True)
    with concurrent.futures.ThreadPoolExecutor(os.cpu_count()) as pool:
        list(pool.map(make, FILES))


@pytest.fixture(scope="session")
def files(once):
    """The folder of the 200 files."""
    return once("elf", build)


def number(word):
    """A number, decimal or hexadecimal."""
    return int(word, 16) if word.startswith("0x") else int(word)


# the lines of a segment and of a symbol, in the form of either program
SEGMENT = re.compile(r"\s+(\S+)\s+(0x\S+) (0x\S+) (0x\S+) (0x\S+) (0x\S+) (...) (\S+)$", re.M)
SYMBOL = re.compile(
    r"\s+(\d+): ([0-9a-f]{8})\s+(\S+)\s+(\S+)\s+(\S+)\s+(\S+)\s+(\S+)(?: (.*))?$", re.M)


def segment(line):
    """The fields of the line of a segment, in the form of either program."""
    found = SEGMENT.match(line)
    if not found:
        return None
    return (type_of(found[1]), *(number(found[n]) for n in range(2, 7)), found[7], number(found[8]))


def symbol(line):
    """The fields of the line of a symbol. readelf gives a section's symbol the section's name."""
    found = SYMBOL.match(line)
    if not found:
        return None
    name = "" if found[4] == "SECTION" else found[8] or ""
    return (int(found[1]), int(found[2], 16), number(found[3]), *found.groups()[3:7], name)


def listed(text):
    """The entry, the segments and the symbols of a listing; a file here has one table of them."""
    text = re.sub(r"<unknown>: (\w+)", r"0x\1", text)
    entry = re.search(r"Entry point (0x\w+)", text)
    lines, symbols = text.splitlines(), []
    for at, line in enumerate(lines):
        if re.match(r"Symbol table ('[^']*' )?contains", line):
            symbols = [symbol(one) for one in lines[at + 2:]]
            symbols = symbols[:symbols.index(None)] if None in symbols else symbols
    segments = [one for one in map(segment, lines) if one]
    return (entry and number(entry[1]), segments, symbols)


def is_executable(file):
    """Whether bytes are an executable for RV32IM, or with compressed code for RV32IMC, by the ELF
    specification, and its symbols sound."""
    if file[:4] != b"\x7fELF" or len(file) < 52 or file[4:7] != b"\1\1\1":
        return False
    kind, machine, version, entry, phoff, shoff, flags, _, phsize, phnum, shsize, shnum, _ = \
        struct.unpack_from("<HHIIIIIHHHHHH", file, 16)
    if (kind, machine, version, phsize) != (2, 243, 1, 32) or flags & 14 or phnum == 0xFFFF:
        return False
    if phoff + 32 * phnum > len(file):
        return False
    loads, has_interpreter = [], False
    for n in range(phnum):
        fields = struct.unpack_from("<8I", file, phoff + 32 * n)
        kind, offset, address, _, in_file, size, _, _ = fields
        has_interpreter |= kind == 3
        if kind == 1:
            if in_file and offset + in_file > len(file):
                return False
            if in_file > size or address + size > 1 << 32:
                return False
            loads.append(range(address, address + size))
    if has_interpreter or entry % (4 - flags % 2 * 2) or not any(entry in load for load in loads):
        return False
    places = sorted((load.start, load.stop) for load in loads if load)
    if any(one[1] > other[0] for one, other in zip(places, places[1:])):
        return False
    return has_sound_symbols(file, shoff, shsize, shnum)


def has_sound_symbols(file, shoff, shsize, shnum):
    """Whether the symbol table of an executable, if it has one, can be read."""
    if shnum == 0:
        return True
    if shsize != 40 or shoff + 40 * shnum > len(file):
        return False
    sections = [struct.unpack_from("<10I", file, shoff + 40 * n) for n in range(shnum)]
    for table in sections:
        if table[1] == 2:
            offset, size, link, entry = table[4], table[5], table[6], table[9]
            if entry != 16 or offset + size > len(file) or link >= shnum or sections[link][1] != 3:
                return False
            start, length = sections[link][4:6]
            if start + length > len(file) or (length and file[start + length - 1]):
                return False
            names = (struct.unpack_from("<I", file, offset + 16 * n)[0] for n in range(size // 16))
            return all(name < length for name in names)
    return True


def unchanged(text):
    """What rrs says, as it is."""
    return text


def differs(rrs, path, change=unchanged):
    """What is wrong with the listing of a file, or an empty text."""
    status, text, said = run(rrs, "elf", path)
    text, said = change(text), change(said)
    accepted = is_executable(path.read_bytes())
    if status not in (0, 1) or accepted != (status == 0):
        return f"status {status}, but is_executable says {accepted}: {said}"
    if status == 1:
        named = re.fullmatch(r"rrs elf: .+\n", said) and not text
        return "" if named else f"a refusal that is no line: {said!r}"
    one, other = listed(text), listed(run(READELF, "-lsW", path).output)
    return "" if one == other else first_difference(one, other)


def first_difference(one, other):
    """Where two listings differ first."""
    for mine, theirs in zip(one, other):
        if isinstance(mine, list):
            for pair in zip(mine + [None], theirs + [None]):
                if pair[0] != pair[1]:
                    return f"rrs elf has {pair[0]}, readelf {pair[1]}"
        elif mine != theirs:
            return f"rrs elf has {mine}, readelf {theirs}"
    return "two listings that differ"


def damages(file):
    """The damaged forms of a file, each with what was done."""
    count = struct.unpack_from("<H", file, 44)[0]
    start = struct.unpack_from("<I", file, 28)[0]
    for at in [*range(52), *range(start, start + 32 * count)]:
        for byte in BYTES:
            if file[at] != byte:
                yield f"byte {at} is {byte}", file[:at] + bytes([byte]) + file[at + 1:]
    for length in range(min(4096, len(file))):
        yield f"cut at {length}", file[:length]


def damaged_differ(rrs, room, path, forms):
    """What is wrong with damaged forms of a file."""
    own = room / f"damaged-{path.name}"
    wrong = []
    for what, changed in forms:
        own.write_bytes(changed)
        said = differs(rrs, own)
        if said:
            wrong.append(f"{path.name}, {what}: {said}")
    return wrong


def renamed(file, name):
    """A file in which the function `main` has another name, whose strings are moved to its end."""
    shoff, shnum = struct.unpack_from("<I", file, 32)[0], struct.unpack_from("<H", file, 48)[0]
    sections = [struct.unpack_from("<10I", file, shoff + 40 * n) for n in range(shnum)]
    table = next(one for one in sections if one[1] == 2)
    start, length = sections[table[6]][4:6]
    strings, changed = file[start:start + length], bytearray(file)
    for at in range(table[4], table[4] + table[5], 16):
        place = struct.unpack_from("<I", file, at)[0]
        if strings[place:].startswith(b"main\0"):
            struct.pack_into("<I", changed, at, length)
    more = strings + name + b"\0"
    struct.pack_into("<II", changed, shoff + 40 * table[6] + 16, len(file), len(more))
    return bytes(changed) + more


def name_differs(rrs, room, path, name, change=unchanged):
    """What is wrong with how a name is listed: as readelf lists it, or as NAMES has it."""
    own = room / "renamed"
    own.write_bytes(renamed(path.read_bytes(), name))
    if name not in NAMES:
        return differs(rrs, own, change)
    status, text, _ = run(rrs, "elf", own)
    names = [one[-1] for one in listed(change(text))[2]]
    is_right = status == 0 and names.count(NAMES[name].decode("latin-1")) == 1
    return "" if is_right else f"a name that is to be shown as {NAMES[name]}: {names}"


ALL_NAMES = [b"a%cb" % byte for byte in range(1, 32)] + list(NAMES)


@pytest.mark.parametrize("name", FILES)
def test_listing(rrs, files, name):
    assert not differs(rrs, files / name)


@pytest.mark.parametrize("name", DAMAGED)
def test_damaged(rrs, files, tmp_path, name):
    forms = list(damages((files / name).read_bytes()))
    assert len(forms) == DAMAGED[name]
    assert not damaged_differ(rrs, tmp_path, files / name, forms)


@pytest.mark.hours
def test_all_damaged(rrs, files, tmp_path):
    """Each of the 200 files."""
    forms = {name: list(damages((files / name).read_bytes())) for name in FILES}
    assert sum(map(len, forms.values())) == DAMAGES_OF_ALL
    with concurrent.futures.ThreadPoolExecutor(os.cpu_count()) as pool:
        wrong = pool.map(lambda name: damaged_differ(rrs, tmp_path, files / name, forms[name]),
                         FILES)
        assert not sum(wrong, [])


@pytest.mark.parametrize("name", ALL_NAMES, ids=range(1, len(ALL_NAMES) + 1))
def test_name(rrs, files, tmp_path, name):
    assert not name_differs(rrs, tmp_path, files / "arrays-gcc-O0-plain", name)


# What is changed in a listing or a refusal: each must be seen.
CHANGES = (
    ("Entry point 0x", "Entry point 0x1"),
    ("LOAD", "NOTE"),
    (" R E ", " RWE "),
    ("There are",
     "\n  LOAD           0x000000 0x00000000 0x00000000 0x00000 0x00000 R   0x1\nThere are"),
    ("FUNC", "OBJECT"),
    (" main\n", " mein\n"),
    (" GLOBAL", " LOCAL "),
)


def other_field(text, line, field):
    """A listing with another word in a field of the last line of this form."""
    found = [one for one in line.finditer(text) if one[8]]
    if not found:
        return text
    found = found[-1]
    word = found[field]
    last = "2" if word[-1] == "1" else "1"
    return text[:found.start(field)] + word[:-1] + last + text[found.end(field):]


@pytest.mark.planted
@pytest.mark.parametrize("old, new", CHANGES)
def test_another_listing(rrs, files, old, new):
    """What is changed in a listing is seen."""
    assert differs(rrs, files / PLAIN, lambda text: text.replace(old, new, 1))


@pytest.mark.planted
@pytest.mark.parametrize("field", range(1, 9))
@pytest.mark.parametrize("line", [SEGMENT, SYMBOL], ids=["segment", "symbol"])
def test_another_field(rrs, files, line, field):
    assert differs(rrs, files / PLAIN, lambda text: other_field(text, line, field))


@pytest.mark.planted
def test_another_refusal(rrs, files, tmp_path):
    """A refusal has the program's name."""
    cut = tmp_path / "cut"
    cut.write_bytes((files / PLAIN).read_bytes()[:40])
    assert not differs(rrs, cut)
    assert differs(rrs, cut, lambda text: text.replace("rrs elf", "elf"))


@pytest.mark.planted
def test_an_empty_listing(rrs, files):
    assert differs(rrs, files / PLAIN, lambda text: "")


@pytest.mark.planted
@pytest.mark.parametrize("shown, raw", [("a^[b", "a\x1bb"), ("a^?b", "a\x7fb"), ("[...]", "aaaaa"),
                                        ("{0x9b}", "\x9b")], ids=ascii)
def test_another_name(rrs, files, tmp_path, shown, raw):
    """A name that is shown otherwise is seen, of some name."""
    wrong = [name_differs(rrs, tmp_path, files / PLAIN, name,
                          lambda text: text.replace(shown, raw)) for name in ALL_NAMES]
    assert any(wrong)


@pytest.mark.planted
def test_another_program(rrs, files, tmp_path):
    """A program that lists something else is seen, of a file and of its damaged forms."""
    other = tmp_path / "other"
    other.write_text(f"#!/bin/sh\n'{rrs}' \"$@\" | sed s/LOAD/NOTE/\n")
    other.chmod(0o755)
    forms = list(damages((files / PLAIN).read_bytes()))[:60]
    assert not damaged_differ(rrs, tmp_path, files / PLAIN, forms)
    assert differs(other, files / PLAIN)
    assert len(damaged_differ(other, tmp_path, files / PLAIN, forms)) > 10

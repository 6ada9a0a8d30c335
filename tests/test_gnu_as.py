"""Compares rrs as with GNU as: on 10,000 statements, on 12,000 that are no rows of the kit, on
12,000 of which most are compressed, the other way out, and on lines that were cut short or changed.
The seeds of the lines are 1, 11, 12 and a fresh one. What gcc writes of the C files of
examples/assembly/compiled, at four levels, and with Zba and Zbb at one, is assembled as it stands
and compared with the bytes of GNU as and ld. So is each source of programs/, macros/ and files/,
and it is run by qemu-riscv32. How, assembling.py says."""

import re
import shutil
import struct

import pytest

from assembling import GNU, HERE, TOOLS, Assembler, lines_of, prints, succeeds
from support import run, same, text_of

pytestmark = [pytest.mark.qemu, pytest.mark.tools(*TOOLS)]

LEVELS = ("-O0", "-O1", "-O2", "-O3", "-O2 -march=rv32im_zba_zbb")
COMPILED = [(path, level) for path in sorted(HERE.glob("compiled/*.c")) for level in LEVELS]
PROGRAMS = sorted(HERE.glob("programs/*.s"))
OTHERS = sorted(HERE.glob("macros/*.s")) + sorted(HERE.glob("files/*.s"))
SMALL = ("three_words", "sum_loop", "gcd", "copy_words", "put_string", "hello")
# instructions of Zba to Zbkb, by the beginnings of their names
BITS = (r"sh[123]add|andn|orn|xnor|clz|ctz|cpop|max|min|sext|zext\.h|ro[lr]|orc|rev8|bclr|bext|"
        "binv|bset|clmul|pack|brev8|zip|unzip")
FRESH = "fresh"


@pytest.fixture
def assembler(rrs, tmp_path):
    return Assembler(rrs, tmp_path)


@pytest.fixture
def seed_of(seed):
    """A seed, of which one is fresh."""
    return lambda number: seed if number == FRESH else number


@pytest.mark.parametrize("words, total", [
    ("1 10000", "3764250277 219590"), ("11 20000 changed", "3353680308 392339"),
    ("12 300 each", "611086996 212020"), ("1 12000 layers", "3580206434 295612")])
def test_lines_of_a_seed(words, total):
    assert run("cksum", input=lines_of(*words.split())).output.strip() == total


def test_names_of_the_lines():
    """How many instructions and directives they have by their names."""
    text = re.sub(r"(?m)^\s*((near[0-9]+|[12]|first|last):\s*)*(nop; )?\s*", "",
                  lines_of(1, 10000))
    assert len({line.split()[0] for line in text.splitlines() if line.strip()}) == 184
    names = re.findall(r"(?m)^\.option rvc; (c\.[a-z0-9]*)", lines_of("--short", 1, 12000))
    assert len(set(names)) == 27


@pytest.mark.parametrize("number", [1, 2, FRESH])
def test_statements(assembler, seed_of, number):
    assembler.put("lines.s", lines_of(seed_of(number), 10000))
    assembler.compare("lines.s")


@pytest.mark.parametrize("number", [1, FRESH])
def test_statements_of_layers(assembler, seed_of, number):
    assembler.put("lines.s", lines_of(seed_of(number), 12000, "layers"))
    assembler.compare("lines.s")


@pytest.mark.parametrize("number", [1, FRESH])
def test_compressed(assembler, seed_of, number):
    """Among others, of which GNU as makes compressed ones only where they are."""
    assembler.put("short.s", lines_of("--short", seed_of(number), 12000))
    assembler.compare("short.s")


def flags_of(assembler, name):
    """The flags in the header of a file."""
    return re.search(r"Flags: +(.*)", assembler.tool("readelf", "-h", name))[1]


def test_flags(assembler):
    """Of compressed code, and of other code."""
    assembler.put("short.s", lines_of("--short", 1, 12000))
    succeeds(assembler.own("-o", "short.elf", "short.s"))
    succeeds(assembler.by_gnu("short.s", "-o", "gnu.o"))
    assert flags_of(assembler, "short.elf") == flags_of(assembler, "gnu.o")
    succeeds(assembler.own("-o", "hello.elf", HERE / "hello.s"))
    assert flags_of(assembler, "hello.elf") == "0x0"


def test_refused(assembler):
    """Compressed instructions that are none are refused by both."""
    lines, taken = lines_of("--short-refused").splitlines(), []
    for line in lines:
        assembler.put("none.s", f".option rvc\n{line}\nlater:\n")
        for name, done in (("rrs as", assembler.own("none.s")),
                           ("GNU as", assembler.by_gnu("none.s", "-o", "gnu.o"))):
            if done.status == 0:
                taken.append(f"{line}: taken by {name}")
    assert not taken
    assert len(lines) == 104


def test_texts_behind_a_directive(assembler):
    """Both take each directive, and refuse it with a text behind it."""
    (assembler.room / "behind").mkdir()
    lines_of("--behind", assembler.room / "behind")
    sources, wrong = sorted((assembler.room / "behind").glob("*.s")), []
    for source in sources:
        statuses = [assembler.own(source).status, assembler.by_gnu(source, "-o", "gnu.o").status]
        if [status != 0 for status in statuses] != [source.name.startswith("behind")] * 2:
            wrong.append(f"{text_of(source)}: statuses {statuses}")
    assert not wrong
    assert len(sources) == 86


# ---- what rrs dis writes, by objdump


def texts_of(assembler, name):
    """The texts of rrs dis."""
    return re.findall(r"(?m)^ *[0-9a-f]+:\t[^\t\n]*\t([^\t\n]*)",
                      succeeds(run(assembler.rrs, "dis", assembler.room / name)))


def gnu_texts_of(assembler, name):
    """Those of objdump, with no symbol for data, and with the extensions that GNU as tells objdump.
    objdump has a name of its own, unimp, for a write of x0 to cycle."""
    assembler.tool("objcopy", "-O", "binary", "-j", ".text", name, "texts.bin")
    assembler.put("texts.s", '.incbin "texts.bin"\n')
    succeeds(assembler.by_gnu("texts.s", "-o", "texts.o"))
    assembler.tool("strip", "--strip-all", "texts.o")
    listing = assembler.tool("objdump", "-d", "-z", "-M", "numeric,no-aliases", "texts.o")
    found = re.findall(r"(?m)^ *[0-9a-f]+:\t[^\t\n]*\t([^\t\n]*)(?:\t([^\t\n]*))?", listing)
    texts = (f"{word} {rest}".strip().replace(",", ", ") for word, rest in found)
    return ["csrrw x0, cycle, x0" if text == "unimp" else text for text in texts]


def executable_of(assembler, source):
    """An executable of a source, by rrs as."""
    assembler.put("texts-of.s", source)
    succeeds(assembler.own("-o", "texts.elf", "texts-of.s"))
    return "texts.elf"


def same_texts(seen, wanted):
    """Fails where lists of texts differ."""
    __tracebackhide__ = True
    same("\n".join(seen), "\n".join(wanted), "the texts")


def test_texts_of_layers(assembler, seed):
    """Instructions that are no rows of the kit. objdump has names for numbers that are no CSR
    here."""
    lines = [line for line in lines_of(seed, 12000, "layers").splitlines()
             if re.match(rf"\s*(csr|rd|mret|wfi|fence\.i|lr|sc|amo|{BITS})", line)]
    name = executable_of(assembler, "\n".join([".equ constant, 12", *lines, ""]))
    pairs = list(zip(texts_of(assembler, name), gnu_texts_of(assembler, name), strict=True))
    pairs = [pair for pair in pairs if ", 0x" not in "|".join(pair)]
    same_texts([own for own, _ in pairs], [wanted for _, wanted in pairs])
    assert len(pairs) >= 5000


def texts_of_words(assembler, words):
    """The texts of words by rrs dis and by objdump, where what is none has one text."""
    (assembler.room / "words.bin").write_bytes(struct.pack(f"<{len(words)}I", *words))
    name = executable_of(assembler, '.incbin "words.bin"\n')
    own = ["none" if text.startswith(".word") else text for text in texts_of(assembler, name)]
    wanted = ["none" if re.match(r"\.(word|4byte|insn)", text) else text
              for text in gnu_texts_of(assembler, name)]
    assert len(own) == len(words)
    return own, wanted


def test_words_of_extension_a(assembler):
    """Each of them, and with each funct3, funct7 and rs2 those that are none."""
    words = [funct << 25 | rs2 << 20 | rs1 << 15 | 0x202f | rd << 7
             for funct5 in (0, 1, 2, 3, 4, 8, 12, 16, 20, 24, 28)
             for funct in range(4 * funct5, 4 * funct5 + 4)
             for rs2 in range(1 if funct5 == 2 else 32) for rs1 in range(32) for rd in range(32)]
    words += [funct << 25 | rs2 << 20 | funct3 << 12 | 0x58b2f & ~0x7000
              for funct in range(128) for rs2 in range(32) for funct3 in range(8)]
    own, wanted = texts_of_words(assembler, words)
    same_texts(own, wanted)
    assert (len(own), own.count("none")) == (1347584, 31484)


def test_words_of_bits(assembler):
    """Each funct7, funct3 and rs2 of the two opcodes that Zba to Zbkb have, and more registers of
    those that are theirs. objdump has shift amounts of 32 and more, and not yet Zicond."""
    words = [funct7 << 25 | rs2 << 20 | rs1 << 15 | funct3 << 12 | rd << 7 | opcode
             for opcode in (0x13, 0x33) for rs2 in range(32)
             for funct3 in ((1, 5) if opcode == 0x13 else range(8))
             for funct7 in range(128) for rs1, rd in ((2, 1), (31, 0), (0, 31), (5, 6))
             if (rs1, rd) == (2, 1) or funct7 in (4, 5, 0x10, 0x14, 0x20, 0x24, 0x30, 0x34)]
    own, wanted = texts_of_words(assembler, words)
    own = [re.sub(r"^((?:s[lr][la]i|rori|b[a-z]+i) .*, )(\d+)$",
                  lambda found: f"{found[1]}{int(found[2]):#x}", text) for text in own]
    own = ["none" if text.startswith("czero.") else text for text in own]
    same_texts(own, ["none" if re.search(r" 0x[23].$", text) else text for text in wanted])
    assert (len(own), sum(bool(re.match(BITS, text)) for text in own)) == (48640, 3368)


@pytest.mark.tools("llvm-mc-19=llvm-19")
def test_words_of_zicond(assembler):
    """Each of them, as LLVM writes it; and the bytes of these lines are the words again."""
    words = [0x0e005033 | rs2 << 20 | rs1 << 15 | nez << 13 | rd << 7
             for nez in (0, 1) for rs2 in range(32) for rs1 in range(32) for rd in range(32)]
    own, _ = texts_of_words(assembler, words)
    llvm = ["llvm-mc-19", "--triple=riscv32", "--mattr=+zicond", "--disassemble",
            "-M", "no-aliases", "-M", "numeric"]
    given = "".join(" ".join(f"{byte:#x}" for byte in struct.pack("<I", word)) + "\n"
                    for word in words)
    wanted = succeeds(run(*llvm, input=given)).replace("\t", " ").splitlines()
    same_texts(own, [text.strip() for text in wanted if "czero" in text])
    assembler.put("zicond.s", "\n".join([*own, ""]))
    assert assembler.own("zicond.s").output.encode("latin-1") == struct.pack("<65536I", *words)


# ---- lines that may have mistakes


@pytest.mark.parametrize("number", [11, FRESH])
def test_changed(assembler, seed_of, number):
    """Lines that were cut short, or have a byte changed."""
    assembler.compare_changed(lines_of(seed_of(number), 100000, "changed"), 25000)


@pytest.mark.parametrize("number", [12, FRESH])
def test_each_place_changed(assembler, seed_of, number):
    """Each beginning, and each place changed."""
    assembler.compare_changed(lines_of(seed_of(number), 5000, "each"), 40000)


@pytest.mark.parametrize("number", [12, FRESH])
def test_changed_layers(assembler, seed_of, number):
    assembler.compare_changed(lines_of(seed_of(number), 40000, "changed", "layers"), 9000)


# ---- programs


@pytest.mark.parametrize("name", SMALL)
def test_small(assembler, name):
    assembler.put(f"{name}.s", text_of(HERE / f"{name}.s"))
    assembler.compare(f"{name}.s")


def branches(folder):
    """Writes sources of branches whose targets are about as far as they reach: random ones, and
    some where many branches grow or shrink one after the other."""
    lines_of("--branches", 1, 100, folder)
    far = "beq a0, a1, 1f\n.space 4084\n"
    sources = {
        "ahead": ahead(100000), "one": f".rept 56\n{far}1: nop\n.endr\n",
        "two": f".rept 56\n{far}beq a0, a1, 1f\n1: nop\n.endr\n",
        # two that each reach only where the other is short, and a row in which each grows by the
        # next
        "both": ".space 8192\ns: .space 92\nbeq a0, a1, t\n.space 4000\nbeq a0, a1, s\n.space 84\n"
                "t: nop\n",
        "row": ".rept 40\nbeq a0, a1, 1f\n2: .space 4084\nbeq a0, a1, 2f\n1: .space 4084\n.endr\n"
               "beq a0, a1, 3f\n2: .space 8000\n3: nop\n"}
    for name, text in sources.items():
        (folder / f"{name}.s").write_text(text)


def ahead(count):
    """So many branches, each to a label 20 bytes ahead."""
    return "".join([f"l{n}: beq a0, a1, l{n + 5}\n" for n in range(count)]
                   + [f"l{n}: nop\n" for n in range(count, count + 5)])


def test_branches(assembler):
    branches(assembler.room)
    sources, wrong = sorted(assembler.room.glob("*.s")), []
    for source in sources:
        own = assembler.own(source).output
        succeeds(assembler.by_gnu(source, "-o", "gnu.o"))
        assembler.tool("objcopy", "-O", "binary", "-j", ".text", "gnu.o", "gnu.bin")
        text = text_of(assembler.room / "gnu.bin")
        # GNU as fills the section up to its greatest alignment
        if not own or text[:len(own)] != own or len(text) - len(own) not in range(32):
            wrong.append(source.name)
    assert not wrong
    assert len(sources) == 105


def sum_of(path, level):
    """The line of compiled/sums for a C file at a level."""
    lines = text_of(HERE / "compiled/sums").splitlines()
    return next((line for line in lines if line.rsplit(" ", 2)[0] == f"{path.name} {level}"), None)


@pytest.mark.parametrize("path, level", COMPILED,
                         ids=[f"{path.stem} {level}" for path, level in COMPILED])
def test_compiled(assembler, path, level):
    assembler.compare_compiled(path, level, sum_of(path, level))


@pytest.mark.parametrize("source", PROGRAMS + OTHERS, ids=lambda source: source.stem)
def test_program(assembler, source):
    """Its bytes, and what it prints under qemu-riscv32."""
    assembler.compare_program(source)
    prints(source, "qemu-riscv32", assembler.room / "gnu.elf")


def test_how_many():
    assert len(COMPILED) == 210
    assert len(PROGRAMS) == 60
    assert len(OTHERS) == 8 + 1
    assert text_of(HERE / "compiled/sums").count("\n") == len(COMPILED)


# ---- what is wrong must be seen

# what a wrong rrs does with what rrs writes, the file `own`, by its words
EMPTY = '[ "$2" = --gnu ] || [ "$(stat -c %s own)" -lt 100 ] || : >own'
SHORT = '[ "$2" = --gnu ] || truncate -s -4 own'
WORD = '[ "$2" = --gnu ] || { truncate -s -1 own; printf "\\377" >>own; }'
AGAIN = '[ "$2" != out.s ] || truncate -s -4 own'


def another(assembler, line):
    """Has another rrs in the place of rrs."""
    text = f'#!/bin/sh\n{assembler.rrs} "$@" >own || exit 1\n{line}\ncat own\n'
    file = assembler.put("rrs", text)
    file.chmod(0o755)
    assembler.rrs = file
    return assembler


def of_lines(assembler):
    assembler.put("lines.s", lines_of(1, 300))
    assembler.compare("lines.s")


def of_changed(assembler):
    assembler.compare_changed(lines_of(11, 5000, "changed"), 1000)


def of_gcc(assembler):
    path = HERE / "compiled/list.c"
    assembler.compare_compiled(path, "-O1", sum_of(path, "-O1"))


def of_program(assembler):
    assembler.compare_program(HERE / "programs/hanoi.s")


@pytest.mark.planted
@pytest.mark.parametrize("compared", [of_lines, of_changed, of_gcc, of_program])
@pytest.mark.parametrize("line", [":", EMPTY, SHORT, WORD, AGAIN],
                         ids=["nothing", "empty", "short", "word", "again"])
def test_other_bytes(assembler, compared, line):
    """Other bytes are seen by each comparison; those of a source for GNU as by two."""
    if line == ":" or line == AGAIN and compared in (of_gcc, of_program):
        compared(another(assembler, line))
    else:
        with pytest.raises(AssertionError):
            compared(another(assembler, line))


@pytest.mark.planted
def test_fewer_lines(assembler):
    with pytest.raises(AssertionError, match="lines are left, and there must be 100000"):
        assembler.compare_changed(lines_of(11, 5000, "changed"), 100000)


@pytest.mark.planted
def test_what_is_not_named(assembler):
    """A GNU as that refuses a line of which GNU-AS.md says nothing."""
    file = assembler.put("as", '#!/bin/sh\n[ -e once ] || { echo "changed.s:3: Error: none" >&2; '
                         f'touch once; exit 1; }}\nexec {shutil.which(GNU + "as")} "$@"\n')
    file.chmod(0o755)
    assembler.gnu_as = file
    with pytest.raises(AssertionError, match="GNU as refuses what GNU-AS.md does not name"):
        of_changed(assembler)


@pytest.mark.planted
def test_another_sum(assembler):
    """What gcc makes is not what is known of it."""
    path = HERE / "compiled/list.c"
    with pytest.raises(AssertionError):
        assembler.compare_compiled(path, "-O1", sum_of(path, "-O2"))


@pytest.mark.planted
def test_another_program(assembler):
    """A program of which GNU as makes something else."""
    source = assembler.put("hanoi.s", text_of(HERE / "programs/hanoi.s") + "    la a0, 12\n")
    with pytest.raises(AssertionError, match="hanoi.s: "):
        assembler.compare_program(source)

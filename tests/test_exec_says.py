"""Compares what rrs exec says where it can't run a program, or where a run ends early, and its
status then. It needs no tool."""

import resource

import pytest

from executing import DATA, says
from support import run, same

HELLO, FAULT = DATA / "hello.bin", DATA / "fault.bin"
USAGE = """\
usage: rrs exec [--limit STEPS] [--memory BYTES] [--files FOLDER | --files-read-only FOLDER]
    [--march NAME] [--strict-alignment] [--clock fixed] [--random host]
    [--env NAME=VALUE] .. [--raw] PROGRAM [ARGUMENT] ..
"""
NUMBER = "number below 2^64, of decimal digits, or of 0x and hexadecimal ones\n"
MARCH = ("architecture that it takes: rv32im, rv32ima, rv32imc and rv32imac are four, and each may "
         "have _zicsr, _zifencei, _zba, _zbb, _zbs, _zbc, _zbkb and _zicond behind it, each "
         "once\n")


def limit_at(pc, steps):
    """What is said at a limit."""
    return f"rrs exec: at pc {pc:#010x}, after {steps} steps\nrrs exec: limit\n"


# what is said, the status, and the words: RAW has the bytes of hello, and ROOM is a folder
SAYS = (
    (limit_at(0x18, 10), 124, "--raw RAW --limit 10"),
    (limit_at(0, 0), 124, "--limit 0 --raw RAW"),
    ("", 3, "--raw RAW"), (USAGE, 125, ""), (USAGE, 125, "--raw"),
    (f"rrs exec: one word too many: 10\n{USAGE}", 125, "--raw RAW --raw 10"),
    (f"rrs exec: one word too many: more\n{USAGE}", 125, "--raw RAW --limit 10 more"),
    (f"rrs exec: --limit: 1a is no {NUMBER}", 125, "--raw RAW --limit 1a"),
    (f"rrs exec: --limit:  is no {NUMBER}", 125, "--raw RAW --limit NONE"),
    (f"rrs exec: --limit: -1 is no {NUMBER}", 125, "--raw RAW --limit -1"),
    (f"rrs exec: --limit: 18446744073709551616 is no {NUMBER}", 125,
     "--limit 18446744073709551616 --raw RAW"),
    ("rrs exec: RAW: not an ELF file\n", 125, "--memory 16M RAW"),
    ("rrs exec: RAW: not an ELF file\n", 125, "RAW"),
    ("", 3, "--limit 18446744073709551615 --raw RAW"),
    ("rrs exec: ROOM/none: No such file or directory\n", 125, "--raw ROOM/none --limit 10"),
    ("rrs exec: ROOM/none: No such file or directory\n", 125, "ROOM/none"),
    ("rrs exec: ROOM: Is a directory\n", 125, "--raw ROOM --limit 10"),
    ("rrs exec: ROOM: Is a directory\n", 125, "ROOM"),
    # the store that raises the exception is the step after 1,951 others
    ("rrs exec: at pc 0x000001a0, after 1951 steps\n"
     "rrs exec: StoreAccessFault addr=0x40000000\n", 139, f"--raw {FAULT} --limit 1952"),
    (limit_at(0x1a0, 1951), 124, f"--raw {FAULT} --limit 1951"),
    ("rrs exec: ROOM/long.bin: more bytes than the memory, which ends at 0x00100000\n", 125,
     "--raw ROOM/long.bin --limit 10"),
    # what an architecture may be
    ("", 3, "--march rv32im --raw RAW"), ("", 3, "--march=rv32imac_zifencei_zicsr --raw RAW"),
    ("", 3, "--march=rv32imac_zba_zbb_zbc_zbkb_zbs_zicond_zicsr_zifencei --raw RAW"),
    *((f"rrs exec: --march: {name} is no {MARCH}", 125, f"--march={name} --raw RAW")
      for name in ("rv32im_zba_zba", "rv32im_zbkc", "rv32i", "rv32im_", "")),
    # amoadd.w x0, x0, (x0) and fence.i, and then exit(7), by harts that have them and that don't
    ("rrs exec: at pc 0x00000000, after 0 steps\n"
     "rrs exec: IllegalInstruction pc=0x00000000 word=0x0000202f\n", 132,
     "--march rv32im --raw ROOM/layers.bin"),
    ("rrs exec: at pc 0x00000004, after 1 steps\n"
     "rrs exec: IllegalInstruction pc=0x00000004 word=0x0000100f\n", 132,
     "--march rv32ima_zicsr --raw ROOM/layers.bin"),
    ("", 7, "--march rv32ima_zifencei --raw ROOM/layers.bin"),
    # where no code is, where compressed code is, and a word of 32 bits that is no instruction
    ("rrs exec: at pc 0x00010058, after 1 steps\n"
     "rrs exec: no code is there; a program ends by a call of exit\n"
     "rrs exec: IllegalInstruction pc=0x00010058 word=0x00010000\n", 132, "ROOM/ended"),
    ("rrs exec: at pc 0x00010054, after 0 steps\nrrs exec: 0x0001 is compressed code\n"
     "rrs exec: IllegalInstruction pc=0x00010054 word=0x00000001\n", 132, "ROOM/pressed"),
    ("rrs exec: at pc 0x00010054, after 0 steps\n"
     "rrs exec: IllegalInstruction pc=0x00010054 word=0xffffffff\n", 132, "ROOM/ones"),
    # what its segment needs is more than there is, or as much, to the page; its address costs
    # nothing
    ("rrs exec: ROOM/large: it needs 2148532224 bytes of memory: --memory 2148532224\n", 125,
     "ROOM/large"),
    ("", 7, "ROOM/full"),
    ("rrs exec: ROOM/full: it needs 16777216 bytes of memory: --memory 16777216\n", 125,
     "--memory 16777215 ROOM/full"),
    # without a word for it a program has what it needs, up to 1 GiB
    ("", 7, "ROOM/wide"),
    ("rrs exec: ROOM/wide: it needs 34603008 bytes of memory: --memory 34603008\n", 125,
     "--memory 16M ROOM/wide"),
    ("rrs exec: ROOM/wider: it needs 1073745920 bytes of memory: --memory 1073745920\n", 125,
     "ROOM/wider"),
    ("", 7, "--memory 1052672 ROOM/high"),
    ("rrs exec: ROOM/last: there are no addresses for a heap and a stack\n", 125, "ROOM/last"),
)
EXIT = b"\x93\x08\xd0\x05\x13\x05\x70\0\x73\0\0\0"
NOTHING = bytes(8)


def small(address, size, code=EXIT):
    """An ELF file of 96 bytes with one segment, which calls exit(7)."""
    begin, room = address.to_bytes(4, "little"), size.to_bytes(4, "little")
    return b"".join((b"\x7fELF\1\1\1\0", NOTHING, b"\2\0\xf3\0\1\0\0\0",
                     (address + 0x54).to_bytes(4, "little"), b"\x34\0\0\0", NOTHING,
                     b"\x34\0\x20\0\1\0\0\0\0\0\0\0\1\0\0\0\0\0\0\0", begin, begin,
                     b"\x60\0\0\0", room, b"\7\0\0\0\0\x10\0\0", code))


FULL = small(0x10000, 0xf00000)
FILES = {
    "long.bin": bytes(1048577), "layers.bin": b"\x2f\x20\0\0\x0f\x10\0\0" + EXIT,
    "ended": small(0x10000, 0x1000, b"\x13\0\0\0\0\0\1\0\0\0\0\0"),
    "pressed": small(0x10000, 0x1000, b"\1" + bytes(11)),
    "ones": small(0x10000, 0x1000, b"\xff\xff\xff\xff" + NOTHING),
    "large": small(0x10000, 0x80000000), "full": FULL, "zeros": small(0x10000, 0x3f000000),
    "wide": small(0x10000, 0x2000000), "wider": small(0x10000, 0x3ff01000),
    "high": small(0x80000000, 0x1000), "last": small(0xfff00000, 0x1000),
}
ADVICE = "compile it with -march=rv32im -mabi=ilp32"
# what is refused for its kind: the place and the bytes that make it, and what it is, or what is to
# be done
REFUSED = {
    "wide-risc-v": (4, b"\2",
                    f"e_ident[EI_CLASS] is 2, not 1 (32 bits): a program for RV64: {ADVICE}"),
    "arm": (18, b"\x28\0", f"e_machine is 40, not 243 (RISC-V): a program for Arm: {ADVICE}"),
    "loongarch": (18, b"\2\1",
                  f"e_machine is 258, not 243 (RISC-V): a program for LoongArch: {ADVICE}"),
    "unheard": (18, b"\xf9\3", f"e_machine is 1017, not 243 (RISC-V): {ADVICE}"),
    "floating": (36, b"\4", f"e_flags: a floating-point ABI: {ADVICE}"),
    "object": (16, b"\1", "e_type is 1, not 2 (an executable): link it"),
    "core": (16, b"\4", "e_type is 4, not 2 (an executable)"),
    "shared": (16, b"\3", "e_type is 3: a shared object or a position-independent executable: "
                          "link it with -static -no-pie"),
}


@pytest.fixture
def room(tmp_path):
    """A folder with the files."""
    for name, file in FILES.items():
        (tmp_path / name).write_bytes(file)
    return tmp_path


@pytest.mark.parametrize("told, status, words", SAYS,
                         ids=[words or "no words" for *_, words in SAYS])
def test_says(rrs, room, told, status, words):
    def placed(text):
        return text.replace("ROOM", str(room)).replace("RAW", str(HELLO))
    given = ["" if word == "NONE" else placed(word) for word in words.split()]
    says(rrs, placed(told), status, *given)


@pytest.mark.alone
def test_a_gigabyte_of_zeros(rrs, room):
    """Zeros are not stored: a gigabyte of them takes less than a second of the processor."""
    says(rrs, "", 7, "--memory", "1G", room / "zeros",
         preexec_fn=lambda: resource.setrlimit(resource.RLIMIT_CPU, (1, 1)))


@pytest.mark.parametrize("name", REFUSED)
def test_refused(rrs, tmp_path, name):
    place, changed, told = REFUSED[name]
    path = tmp_path / name
    path.write_bytes(FULL[:place] + changed + FULL[place + len(changed):])
    says(rrs, f"rrs exec: {path}: {told}\n", 125, path)


def test_rrs_run_of_an_elf_file(rrs, room):
    done = run(rrs, "run", room / "full", 10)
    same(done.errors.splitlines()[-1], f"rrs run: {room}/full: an ELF file: rrs exec runs it")
    assert (done.status, done.output) == (1, "")


@pytest.mark.planted
@pytest.mark.parametrize("told, status", [("rrs exec: limits\n", 124), ("", 124),
                                          (limit_at(0x18, 10), 125), (limit_at(0x18, 11), 124)])
def test_something_else(rrs, told, status):
    with pytest.raises(AssertionError):
        says(rrs, told, status, "--raw", HELLO, "--limit", "10")

"""System calls with their answers, and a program that makes them. Both have to answer so: the page,
and `rrs exec`, whose calls are served by the proved crate rrs_linux."""

import os
import pty
import struct
import subprocess
import termios

from trials.report import same

READ, WRITE, EXIT, BRK = 63, 64, 93, 214
IOCTL, CLOSE, LSEEK, WRITEV, GETPID = 29, 57, 62, 66, 172
GETUID, GETEUID, GETGID, GETEGID = 174, 175, 176, 177
NEWFSTATAT, FSTAT, STATX, GETTIMEOFDAY, CLOCK_GETTIME = 79, 80, 291, 169, 403
UNAME, GETRANDOM = 160, 278
NAMES = {
    READ: "read", WRITE: "write", BRK: "brk", IOCTL: "ioctl", CLOSE: "close", LSEEK: "lseek",
    WRITEV: "writev", GETPID: "getpid", GETUID: "getuid", GETEUID: "geteuid", GETGID: "getgid",
    GETEGID: "getegid", NEWFSTATAT: "newfstatat", FSTAT: "fstat", STATX: "statx",
    GETTIMEOFDAY: "gettimeofday", CLOCK_GETTIME: "clock_gettime64", UNAME: "uname",
    GETRANDOM: "getrandom",
}
EFAULT, EBADF, ENOENT, ENOTDIR, EINVAL, ENOTTY, ESPIPE = -14, -9, -2, -20, -22, -25, -29

# sixteen letters to write, where reads put bytes, where the answers are kept, and the first address
# behind the memory of `rrs exec`
TEXT, BUFFER, ANSWERS, END = 0x7000, 0x8000, 0x9000, 0x100000
# the pieces of a writev, a byte that is 0, where a status is put, where a time is, and where random
# bytes and names are
VECTOR, EMPTY, STATUS, TIME, RANDOM = 0x7100, 0x7200, 0xA000, 0xB000, 0xC000
PIECES = (TEXT, 4, TEXT + 4, 2, END, 1, TEXT, 0x80000000)
AT_FDCWD, AT_EMPTY_PATH = 0xFFFFFF9C, 0x1000
LETTERS = "0123456789abcdef"

# what is typed, line by line, before the input ends
LONG = "x" * 299 + "\n"
INPUT = f"abcdefgh\nij\n{LONG}"

# the number of a call, its a0 and further arguments, and its answer
CALLS = [
    # a buffer that passes the last address
    (WRITE, 1, 16, 0xFFFFFFFF, EFAULT),
    (WRITE, 1, 16, 0xFFFFFFF1, EFAULT),
    (WRITE, 1, END - 8, 0xFFF00009, EFAULT),
    (WRITE, 2, 0xFFFFFFFF, 2, EFAULT),
    (READ, 0, 16, 0xFFFFFFFF, EFAULT),
    (READ, 0, 0xFFFFFFFF, 2, EFAULT),
    # a file that is not open, which is told first
    (WRITE, 3, 16, 0xFFFFFFFF, EBADF),
    (WRITE, 0, TEXT, 4, EBADF),
    (READ, 1, BUFFER, 4, EBADF),
    # a write goes on to the first byte that is not mapped
    (WRITE, 1, TEXT, 16, 16),
    (WRITE, 2, TEXT + 1, 3, 3),
    (WRITE, 1, TEXT, 0, 0),
    (WRITE, 1, END, 0, 0),
    (WRITE, 1, END, 1, EFAULT),
    (WRITE, 1, 0xFFFFFFFF, 1, EFAULT),
    (WRITE, 1, 0x80000000, 0x80000000, EFAULT),
    (WRITE, 1, END - 4, 0xFFF00004, 4),
    (WRITE, 1, END - 3, 300, 3),
    # bytes that were read and found no room are given by the next read, and no others with them
    (READ, 0, END, 0, 0),
    (READ, 0, END, 4, EFAULT),
    (READ, 0, BUFFER, 100, 4),
    (READ, 0, END - 2, 100, 2),
    (READ, 0, BUFFER + 4, 2, 2),
    (READ, 0, BUFFER + 6, 100, 1),
    # one read gives a line at most, and 256 bytes
    (READ, 0, BUFFER + 7, 0xFFFF7FF9, 3),
    (READ, 0, BUFFER + 10, 1000, 256),
    (READ, 0, 0x80000000, 1000, EFAULT),
    (READ, 0, BUFFER + 266, 43, 43),
    (READ, 0, BUFFER + 309, 1, 1),
    # the break moves in its heap, and stays where an address is in none
    (BRK, 0, 0, 0, 0x80000),
    (BRK, 0x9000C, 0, 0, 0x9000C),
    (BRK, 0x7FFFF, 0, 0, 0x9000C),
    (BRK, 0xC0001, 0, 0, 0x9000C),
    (BRK, 0xC0000, 0, 0, 0xC0000),
    (BRK, 0x80000, 0, 0, 0x80000),
    # at the end of the input there is nothing to store
    (READ, 0, BUFFER, 100, 0),
    (READ, 0, END, 4, 0),
    (READ, 0, 0xFFFFFFFF, 2, EFAULT),
    # pieces are written up to the first that is not whole
    (WRITEV, 1, VECTOR, 2, 6),
    (WRITEV, 2, VECTOR, 3, 6),
    (WRITEV, 1, VECTOR, 0, 0),
    (WRITEV, 1, VECTOR + 16, 1, EFAULT),
    (WRITEV, 1, VECTOR + 16, 2, EINVAL),
    (WRITEV, 1, VECTOR, 1025, EINVAL),
    (WRITEV, 1, END - 8, 2, EFAULT),
    (WRITEV, 1, 0xFFFFFFF8, 2, EFAULT),
    (WRITEV, 0, VECTOR, 1, EBADF),
    # the status of a stream, by its number and by an empty name
    (FSTAT, 1, STATUS, 0),
    (FSTAT, 3, STATUS, EBADF),
    (FSTAT, 1, END - 100, EFAULT),
    (FSTAT, 1, 0xFFFFFFF0, EFAULT),
    (NEWFSTATAT, 1, EMPTY, STATUS, AT_EMPTY_PATH, 0),
    (NEWFSTATAT, 1, EMPTY, STATUS, 0, ENOENT),
    (NEWFSTATAT, 3, EMPTY, STATUS, AT_EMPTY_PATH, EBADF),
    (NEWFSTATAT, 1, TEXT, STATUS, 0, ENOTDIR),
    (NEWFSTATAT, AT_FDCWD, TEXT, STATUS, 0, ENOENT),
    (NEWFSTATAT, 7, TEXT, STATUS, 0, EBADF),
    (NEWFSTATAT, 1, END, STATUS, AT_EMPTY_PATH, EFAULT),
    (NEWFSTATAT, 1, EMPTY, STATUS, 1, EINVAL),
    (STATX, 2, EMPTY, AT_EMPTY_PATH, 0x7FF, STATUS + 104, 0),
    (STATX, 2, EMPTY, 0x7000, 0x7FF, STATUS, EINVAL),
    (STATX, 2, EMPTY, AT_EMPTY_PATH, 0x80000000, STATUS, EINVAL),
    (STATX, 2, EMPTY, AT_EMPTY_PATH, 0x7FF, END, EFAULT),
    # what does nothing, and the clocks
    (IOCTL, 1, 0, 0, ENOTTY),
    (IOCTL, 3, 0, 0, EBADF),
    (LSEEK, 0, 0, 0, ESPIPE),
    (CLOSE, 2, 0),
    (CLOSE, 3, EBADF),
    (GETPID, 9, 1),
    (GETUID, 9, 1000),
    (GETEUID, 9, 1000),
    (GETGID, 9, 1000),
    (GETEGID, 9, 1000),
    (CLOCK_GETTIME, 0, TIME, 0),
    (CLOCK_GETTIME, 3, TIME, 0),
    (CLOCK_GETTIME, 4, TIME, EINVAL),
    (CLOCK_GETTIME, 1, END, EFAULT),
    (GETTIMEOFDAY, TIME, 0),
    (GETTIMEOFDAY, 0xFFFFFFF8, EFAULT),
    # random bytes: each call but the last two of these goes on by 32 numbers
    (GETRANDOM, RANDOM, 16, 0, 16),
    (GETRANDOM, RANDOM + 16, 300, 1, 256),
    (GETRANDOM, END - 3, 8, 4, 3),
    (GETRANDOM, END, 0, 0, 0),
    (GETRANDOM, END, 1, 0, EFAULT),
    (GETRANDOM, 0xFFFFFFFF, 2, 2, EFAULT),
    (GETRANDOM, RANDOM, 16, 6, EINVAL),
    (GETRANDOM, RANDOM, 16, 8, EINVAL),
    (GETRANDOM, RANDOM + 272, 8, 0, 8),
    # the names of the system
    (UNAME, RANDOM + 280, 0),
    (UNAME, END - 389, EFAULT),
]

# what the calls write, and what then stands at BUFFER
WRITTEN = f"{LETTERS}123" + 7 * "\0" + 2 * "012345"
STORED = f"abcdgh\nij\n{LONG}"

# the status of a stream, as fstat and as statx have it: its fields that are not 0, by their places
STATUSES = bytearray(104 + 256)
for place, field in {16: 0x1180, 20: 1, 56: 4096, 104: 0x7FF, 108: 4096, 120: 1, 132: 0x1180}.items():
    struct.pack_into("<I", STATUSES, place, field)


def random_number(index):
    """The number of SplitMix64 at this index, from the seed 0."""
    z = (index + 1) * 0x9E3779B97F4A7C15 % 2 ** 64
    z = (z ^ z >> 30) * 0xBF58476D1CE4E5B9 % 2 ** 64
    z = (z ^ z >> 27) * 0x94D049BB133111EB % 2 ** 64
    return z ^ z >> 31


# what then stands at RANDOM: random bytes of three calls, and the names
RANDOMS = b"".join(random_number(index).to_bytes(8, "little")
                   for index in (0, 1, *range(32, 64), 192))
NAMED = b"".join(text.ljust(65, b"\0")
                 for text in (b"Linux", b"rrs", b"6.1.0", b"#1", b"riscv32", b"(none)"))


def make_call(number, *arguments):
    """The lines of a call."""
    values = zip(("a7", "a0", "a1", "a2", "a3", "a4"), (number, *arguments))
    return [f"li {register}, {value:#x}" for register, value in values] + ["ecall"]


def source():
    """A program that makes the calls, and writes what they put into memory, and the answers."""
    lines = [f"li s0, {ANSWERS:#x}"]
    for *call, _ in CALLS:
        lines += make_call(*call) + ["sw a0, (s0)", "addi s0, s0, 4"]
    lines += make_call(WRITE, 1, BUFFER, len(STORED))
    lines += make_call(WRITE, 1, STATUS, len(STATUSES))
    lines += make_call(WRITE, 1, RANDOM, len(RANDOMS + NAMED))
    lines += make_call(WRITE, 1, ANSWERS, 4 * len(CALLS))
    lines += make_call(EXIT, 0)
    return "\n".join([*lines, f".org {TEXT:#x}", f'.ascii "{LETTERS}"', f".org {VECTOR:#x}",
                      f".word {', '.join(map(hex, PIECES))}", ""])


def assemble(rrs, folder):
    """The path of the program, assembled by `rrs as`."""
    path = folder / "calls.s"
    path.write_text(source())
    program = folder / "calls.bin"
    with open(program, "wb") as file:
        subprocess.run([rrs, "as", path], stdout=file, check=True)
    return program


def execute(rrs, program):
    """What the program writes under `rrs exec`, whose input is a terminal: the end of it is typed
    once for each read that gets there."""
    leader, terminal = pty.openpty()
    try:
        settings = termios.tcgetattr(terminal)
        settings[3] &= ~termios.ECHO
        termios.tcsetattr(terminal, termios.TCSANOW, settings)
        os.write(leader, INPUT.encode() + 4 * b"\x04")
        run = subprocess.run(
            [rrs, "exec", "--raw", program, "--limit", "10000"], stdin=terminal,
            stdout=subprocess.PIPE, stderr=subprocess.STDOUT, timeout=60, check=True)
    finally:
        os.close(leader)
        os.close(terminal)
    # a line at the end says that a break was refused
    refused = b"rrs exec: the program was refused memory: --memory gives it more\n"
    same("the last line on standard error", True, run.stdout.endswith(refused))
    return run.stdout.removesuffix(refused)


def differences(output):
    """What is other than it should be in what the program wrote: the answers of calls first."""
    answers = output[-4 * len(CALLS):]
    found = [
        f"{NAMES[number]}({', '.join(map(hex, arguments))}) should answer {wanted}, and answers "
        f"{got}"
        for (number, *arguments, wanted), (got,) in zip(CALLS, struct.iter_unpack("<i", answers))
        if wanted != got
    ]
    rest = output[:-len(answers)]
    if not found and rest != (WRITTEN + STORED).encode() + STATUSES + RANDOMS + NAMED:
        found.append(f"the calls wrote and stored {rest}")
    return found

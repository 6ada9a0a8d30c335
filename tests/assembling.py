"""How rrs as is compared with GNU as: on sources as they stand, and on what rrs as --gnu writes of
them."""

import re
import sys
from pathlib import Path

from support import EXAMPLES, run, same, same_bytes, text_of

HERE = EXAMPLES / "assembly"
LINES = HERE / "lines.py"
GNU = "riscv64-unknown-elf-"
MARCH = ["-march=rv32ima_zicsr_zifencei_zba_zbb_zbc_zbkb_zbs", "-mabi=ilp32", "-mno-relax"]
TOOLS = (f"{GNU}as=binutils-riscv64-unknown-elf", f"{GNU}gcc=gcc-riscv64-unknown-elf",
         "qemu-riscv32=qemu-user")


def lines_of(*words):
    """What lines.py writes."""
    done = run(sys.executable, LINES, *words)
    assert done.status == 0, done.errors
    return done.output


def succeeds(done):
    """What a command prints that has to succeed."""
    __tracebackhide__ = True
    assert done.status == 0, done.errors
    return done.output


def prints(source, *command):
    """Compares what a program prints, and its status, with what stands beside its source."""
    __tracebackhide__ = True
    given = source.with_suffix(".in")
    input_text = text_of(given) if given.exists() else ""
    done = run("sh", "-c", 'exec "$@" 2>&1', "sh", *command, input=input_text)
    seen = f"{done.output}-- status {done.status}\n"
    same(seen, text_of(source.with_suffix(".out")), source.name)


class Assembler:
    """The two assemblers, and a folder to work in."""

    def __init__(self, rrs, room):
        self.rrs, self.room, self.gnu_as = rrs, room, f"{GNU}as"

    def own(self, *words):
        """How rrs as ends."""
        return run(self.rrs, "as", *words, cwd=self.room)

    def by_gnu(self, *words):
        """How GNU as ends, for the instructions that rrs as has."""
        return run(self.gnu_as, *MARCH, *words, cwd=self.room)

    def tool(self, name, *words):
        """What another tool of GNU prints."""
        return succeeds(run(GNU + name, *words, cwd=self.room))

    def put(self, name, text):
        """Writes a file, and gives its path."""
        path = self.room / name
        path.write_bytes(text.encode("latin-1"))
        return path

    def text_by_gnu(self, source, size):
        """The bytes of a source by GNU as, which are so many up to a label behind the last line.
        Behind it GNU as fills the section up to its greatest alignment, which is left out."""
        self.put("gnu.s", text_of(self.room / source) + "\nthe_end_of_all:\n")
        said = self.by_gnu("gnu.s", "-o", "gnu.o").errors
        assert "Error" not in said, said[:500]
        self.tool("ld", "-m", "elf32lriscv", "--no-relax", "-Ttext=0", "-e", "0", "gnu.o",
                  "-o", "gnu.elf")
        self.tool("objcopy", "-O", "binary", "-j", ".text", "gnu.elf", "gnu.bin")
        end = re.search(r"(?m)^(\w+) t the_end_of_all$", self.tool("nm", "gnu.elf"))
        written = text_of(self.room / "gnu.bin")
        assert int(end[1], 16) == size, f"GNU as writes {int(end[1], 16)} bytes, rrs as {size}"
        assert len(written) >= size
        return written[:size]

    def compare(self, source):
        """Compares a source by rrs as and by GNU as, and what --gnu writes of it by both."""
        __tracebackhide__ = True
        own = succeeds(self.own(source))
        same_bytes(own, self.text_by_gnu(source, len(own)), f"{source} by rrs as and by GNU as")
        self.put("out.s", succeeds(self.own("--gnu", source)))
        same_bytes(own, self.text_by_gnu("out.s", len(own)), f"{source} as a source for GNU as")
        same_bytes(succeeds(self.own("out.s")), own, f"{source} once more")

    def settled(self, text):
        """Of lines that may have mistakes those that have none: --gnu tells them all."""
        for _ in range(400):
            self.put("changed.s", text)
            done = self.own("--gnu", "changed.s")
            if done.status == 0:
                return text
            text = without(text, [line.split(":")[1] for line in done.errors.splitlines()])
        raise AssertionError("lines that were changed: there are always mistakes left")

    def compare_changed(self, text, least):
        """Compares lines that may have mistakes: what rrs as takes, GNU as takes too, but for what
        docs/GNU-AS.md names. At least so many lines are left."""
        __tracebackhide__ = True
        text = self.settled(text)
        for _ in range(20):
            said = self.by_gnu("changed.s", "-o", "gnu.o").errors
            errors = [line for line in said.splitlines(True) if "Error:" in line]
            if not errors:
                break
            self.put("gnu.errors", "".join(errors))
            done = run(sys.executable, LINES, "--refused", "changed.s", "gnu.errors", cwd=self.room)
            assert done.status == 0, f"GNU as refuses what GNU-AS.md does not name: {done.output}"
            text = self.settled(without(text, [line.split(":")[1] for line in errors]))
        count = text.count("\n")
        assert count >= least, f"{count} lines are left, and there must be {least}"
        self.compare("changed.s")

    def compare_compiled(self, path, level, wanted):
        """Compares what gcc writes of a C file, as it stands, by rrs as and by GNU as and ld. What
        these make of it has a sum that is known."""
        __tracebackhide__ = True
        self.tool("gcc", "-S", "-march=rv32im", "-mabi=ilp32", *level.split(), "-ffreestanding",
                  "-fno-builtin", "-fno-merge-constants", path, "-o", "compiled.s")
        linked = self.linked("compiled.s")
        total = run("cksum", input=linked).output.strip()
        assert f"{path.name} {level} {total}" == wanted
        own = self.own("compiled.s").output
        assert own
        same_bytes(own, linked, f"{path.name} at {level}")

    def linked(self, source, *words):
        """The bytes of a source by GNU as and ld."""
        succeeds(self.by_gnu("-I", Path(source).parent, source, "-o", "gnu.o"))
        self.tool("ld", "-m", "elf32lriscv", "--no-relax", "--no-warn-rwx-segments", *words,
                  "-T", HERE / "compiled/link.ld", "gnu.o", "-o", "gnu.elf")
        self.tool("objcopy", "-O", "binary", "gnu.elf", "gnu.bin")
        return text_of(self.room / "gnu.bin")

    def compare_program(self, source):
        """Compares the bytes of a program, which are filled up to words."""
        __tracebackhide__ = True
        own = self.own(source).output
        linked = self.linked(source, "-e", "_start")
        assert own
        same_bytes(filled(own), filled(linked), source.name)


def filled(text):
    """Bytes with zeros up to a whole word."""
    return text + "\0" * (-len(text) % 4)


def without(text, numbers):
    """A text without lines, by their numbers."""
    bad = set(map(int, numbers))
    return "\n".join(line for number, line in enumerate(text.split("\n"), 1) if number not in bad)

"""The definitions beside qemu-system-riscv32: random programs with CSRs, traps and interrupts, each
with its registers, pc and CSRs after each step. QEMU is driven step by step over gdb's protocol."""

import random
import re
import socket
import subprocess
import time

from . import user
from .user import EDGES, MASK, b_type, i_type, j_type, r_type, s_type

RAM, SIZE, ROOM = 0x80000000, 0x200000, 0x1000     # the board's memory, and its end that is used
BASE = RAM + SIZE - ROOM
STEPS = 24
# registers that keep a value: the middle of the room, its end, an address below the last one, the
# software interrupt, the timer's, a place of a handler, and values for mstatus and mie
MIDDLE, LAST, WRAP, SOFT, TIMER, HANDLER, STATUS, ENABLE = range(8, 16)
CSRS = ["mstatus", "mie", "mtvec", "mscratch", "mepc", "mcause", "mtval", "mip"]
NUMBERS = dict(mstatus=0x300, misa=0x301, mie=0x304, mtvec=0x305, mstatush=0x310, mscratch=0x340,
               mepc=0x341, mcause=0x342, mtval=0x343, mip=0x344, mvendorid=0xF11, marchid=0xF12,
               mimpid=0xF13, mhartid=0xF14, satp=0x180, none=0x7C0)


class Stub:
    """QEMU's end of gdb's protocol."""

    def __init__(self, room):
        path = f"{room}/gdb"
        self.qemu = subprocess.Popen(
            ["setpriv", "--pdeathsig", "KILL", "qemu-system-riscv32", "-M", "virt", "-bios", "none",
             "-display", "none", "-serial", "none", "-monitor", "none", "-m", "2M", "-S",
             "-singlestep", "-cpu",
             "rv32,a=false,c=false,f=false,d=false,h=false,s=false,u=false,pmp=false,mmu=false,"
             "marchid=0,mimpid=0,pmu-num=0,sstc=false,priv_spec=v1.12.0", "-chardev",
             f"socket,path={path},server=on,wait=off,id=gdb", "-gdb", "chardev:gdb"],
            stderr=subprocess.DEVNULL)
        self.socket = socket.socket(socket.AF_UNIX)
        for _ in range(200):
            try:
                self.socket.connect(path)
                break
            except OSError:
                time.sleep(0.05)
        self.left = b""
        self.socket.sendall(b"+")
        self.ask("qSupported:xmlRegisters=riscv")
        self.ask("QStartNoAckMode")
        self.acknowledges = False
        text, self.numbers = "", {}
        for name in re.findall(r'href="([^"]*csr[^"]*)"', self.read("target.xml")):
            text += self.read(name)
        for name, number in re.findall(r'<reg name="(\w+)"[^>]*regnum="(\d+)"', text):
            self.numbers[name] = int(number)
        self.ask("Qqemu.sstep=1")       # interrupts are taken, and the timer goes on

    acknowledges = True

    def ask(self, text):
        data = text.encode()
        self.socket.sendall(b"$" + data + b"#%02x" % (sum(data) % 256))
        while not (m := re.match(rb"\+*\$([^#]*)#..", self.left)):
            part = self.socket.recv(65536)
            if not part:
                raise RuntimeError("qemu-system-riscv32 ended")
            self.left += part
        self.left = self.left[m.end():]
        if self.acknowledges:
            self.socket.sendall(b"+")
        return m[1].decode("latin-1")

    def read(self, name):
        text, more = "", "m"
        while more == "m":
            part = self.ask(f"qXfer:features:read:{name}:{len(text):x},800")
            more, text = part[:1], text + part[1:]
        return text

    def registers(self):
        return [int.from_bytes(bytes.fromhex(v), "little")
                for v in re.findall("." * 8, self.ask("g"))][:33]

    def set_registers(self, values):
        self.ask("G" + "".join(v.to_bytes(4, "little").hex() for v in values))

    def csr(self, name):
        return int.from_bytes(bytes.fromhex(self.ask(f"p{self.numbers[name]:x}")), "little")

    def set_csr(self, name, value):
        self.ask(f"P{self.numbers[name]:x}={value.to_bytes(4, 'little').hex()}")

    def set_memory(self, address, data):
        for at in range(0, len(data), 1024):
            part = data[at:at + 1024]
            self.ask(f"M{address + at:x},{len(part):x}:{part.hex()}")


def csr_instruction(chance, rd):
    """One instruction on a CSR, with what that CSR takes in each of its implementations: its other
    bits may be kept or dropped, which the specification leaves open."""
    kind = chance.randrange(12)
    if kind == 0:
        return i_type(NUMBERS["mstatus"], STATUS, 1, rd, 0x73)
    if kind == 1:
        return i_type(NUMBERS["mstatus"], 8, chance.choice([6, 7]), rd, 0x73)
    if kind == 2:
        return i_type(NUMBERS["mie"], chance.choice([ENABLE, 0]), chance.choice([1, 2, 3]), rd,
                      0x73)
    if kind == 3:
        return i_type(NUMBERS["mie"], 8, chance.choice([5, 6, 7]), rd, 0x73)
    if kind == 4:
        return i_type(NUMBERS["mtvec"], HANDLER, 1, rd, 0x73)
    if kind == 5:
        return i_type(NUMBERS["mepc"], MIDDLE, 1, rd, 0x73)
    if kind == 6:
        return i_type(NUMBERS["mepc"], chance.randrange(0, 32, 4), chance.choice([6, 7]), rd, 0x73)
    if kind < 9:
        return i_type(NUMBERS[chance.choice(["mscratch", "mcause", "mtval"])],
                      chance.randrange(32), chance.choice([1, 2, 3, 5, 6, 7]), rd, 0x73)
    if kind == 9:
        # To QEMU 7.2 csrrs and csrrc of a register with the value 0 write nothing. The specification
        # says so of x0 alone.
        funct3 = chance.choice([1, 2, 3, 5, 6, 7])
        rs1 = chance.choice([0, MIDDLE, STATUS]) if funct3 in (2, 3) else chance.randrange(32)
        return i_type(NUMBERS[chance.choice(["mvendorid", "mhartid", "satp", "none"])], rs1, funct3,
                      rd, 0x73)
    return i_type(NUMBERS[chance.choice(list(NUMBERS))], 0, chance.choice([2, 3, 6, 7]), rd, 0x73)


def random_word(chance):
    """An instruction, or a word that is none. Accesses to data are aligned, since QEMU makes those
    that are not, and the definitions raise an exception; targets of jumps need not be."""
    rd = chance.choice([r for r in range(32) if not MIDDLE <= r <= ENABLE])
    kind, rs1, rs2 = chance.randrange(20), chance.randrange(32), chance.randrange(32)
    if kind < 7:
        return csr_instruction(chance, rd)
    if kind == 7:
        return i_type(chance.randrange(-2048, 2048), rs1, chance.choice([0, 2, 3, 4, 6, 7]), rd)
    if kind == 8:
        return r_type(chance.choice([0, 1]), rs2, rs1, chance.randrange(8), rd)
    if kind < 11:
        base = chance.choice([MIDDLE, LAST, WRAP])
        funct3, offset = chance.choice([0, 1, 2, 4, 5]), chance.randrange(-64, 64) * 4
        return i_type(offset, base, funct3, rd, 0x03)
    if kind == 11:
        base, offset = chance.choice([MIDDLE, LAST, WRAP]), chance.randrange(16, 64) * 4
        return s_type(offset, rs2, base, chance.randrange(3))
    if kind == 12:
        if chance.random() < 0.7:
            return s_type(0, chance.choice([0, 1]), SOFT, 2)
        return s_type(4, chance.choice([0, 2]), TIMER, 2)
    if kind == 13:
        return j_type(chance.choice([4, 8, 12, 6, 10]), rd)
    if kind == 14:
        return b_type(chance.choice([4, 8, 12, 6]), rs2, rs1, chance.choice([0, 1, 4, 5, 6, 7]))
    if kind == 15:
        return i_type(chance.randrange(-32, 32), chance.choice([MIDDLE, LAST]), 0, rd, 0x67)
    if kind == 16:
        return chance.choice([0x73, 0x100073])
    if kind == 17:
        return 0x30200073
    if kind == 18:
        return chance.choice([0x100F, 0x0FF0000F])
    return chance.choice([0, MASK, 0x00002063, 0x00003003, 0x00003023, 0x02001013, 0x00001067,
                          0x30200173, 0x00004073, 0x40001033])


def random_state(chance):
    """The registers with the pc, the CSRs, and the words of the room."""
    words = [random_word(chance) for _ in range(ROOM // 4)]
    registers = [0] + [chance.choice(EDGES) if chance.random() < 0.6 else chance.getrandbits(32)
                       for _ in range(31)]
    middle = BASE + ROOM // 2
    registers[1], registers[2] = 1, MASK
    for register, value in ((MIDDLE, middle), (LAST, BASE + ROOM - 64), (WRAP, 0xFFFFFF80),
                            (SOFT, 0x02000000), (TIMER, 0x02004000),
                            (HANDLER, middle + 4 * chance.randrange(64) + chance.randrange(2)),
                            (STATUS, 0x1800 | chance.choice([0, 8, 0x80, 0x88])),
                            (ENABLE, chance.choice([0x888, 0x88, 8, 0x80, 0x800]))):
        registers[register] = value
    csrs = dict(mstatus=0x1800 | chance.choice([0, 8, 0x80, 0x88]),
                mie=chance.choice([0, 0x888, 8]),
                mtvec=middle + 4 * chance.randrange(64) + chance.randrange(2),
                mscratch=chance.getrandbits(32), mepc=middle + 4 * chance.randrange(64),
                mcause=chance.randrange(12), mtval=chance.getrandbits(32))
    return registers + [middle], csrs, words


def quiet(stub):
    """The devices say nothing: two stores, since gdb writes to no device."""
    words = [s_type(0, 0, SOFT, 2), s_type(4, 2, TIMER, 2), s_type(0, 0, TIMER, 2)]
    stub.set_csr("mstatus", 0x1800)
    stub.set_memory(BASE, b"".join(w.to_bytes(4, "little") for w in words))
    registers = [0] * 32 + [BASE]
    registers[2], registers[SOFT], registers[TIMER] = MASK, 0x02000000, 0x02004000
    stub.set_registers(registers)
    for _ in words:
        stub.ask("s")


def begin(stub, registers, csrs, words):
    """QEMU with a program at its first instruction."""
    quiet(stub)
    stub.set_memory(BASE, b"".join(w.to_bytes(4, "little") for w in words))
    for name, value in csrs.items():
        stub.set_csr(name, value)
    stub.set_registers(registers)


def told(stub, kind, word, ours, csrs):
    """What QEMU 7.2 has otherwise in a CSR: the program goes on with that of the definitions. The
    specification has the target in mtval after a jump to a misaligned address, and QEMU the jump's
    own; it lets mtval after an ebreak be 0 or the address, and after an illegal instruction the
    word or its low half, if that says that it is no word; and it has MPP as M after an mret where
    there is no U mode, and QEMU has U."""
    half = int(word, 16) % 2 ** 16 if kind == "Raised 2" and int(word, 16) % 4 != 3 else None
    if (kind == "Raised 0" and csrs[6] == csrs[4] or kind == "Raised 3" and csrs[6] == 0
            or csrs[6] == half):
        csrs[6] = ours[6]
        stub.set_csr("mtval", ours[6])
    if word == "30200073" and kind == "Retired" and csrs[0] == ours[0] & ~0x1800:
        csrs[0] = ours[0]
        stub.set_csr("mstatus", ours[0])


def same_step(stub, line):
    """Makes a step in QEMU: the answer of the definitions if they left the same, or None, and what
    QEMU left."""
    stub.ask("s")
    registers, csrs = stub.registers(), [stub.csr(name) for name in CSRS]
    m = re.match(r"0x\w+ (\w+(?: \d+)?) (\S+) csrs=(\S+) pc=0x(\w+) last=\S+ regs=(\S+)$", line)
    ours = [int(v, 16) for v in m[3].split(",")] if m else []
    if m:
        told(stub, m[1], m[2][-8:], ours, csrs)
    left = csrs, registers[32], user.registers_words(registers[:32])
    return m[1] if m and left == (ours, int(m[4], 16), m[5]) else None, left


def compare(answers, stub, seed):
    """Compares a random program: the answers of its steps, and the first difference."""
    registers, csrs, words = random_state(random.Random(seed))
    memory = b"".join(w.to_bytes(4, "little") for w in words)
    asked = user.question("machine", STEPS, registers[32], registers[:32], [(BASE, memory)])
    lines = user.ask(answers, [asked + " csrs=" + ",".join(f"0x{v:08x}" for v in csrs.values())])
    kinds = []
    begin(stub, registers, csrs, words)
    for line in lines:
        kind, left = same_step(stub, line)
        if kind is None:
            values, pc, rest = left
            return kinds, (f"step {len(kinds)}: {line}; QEMU: "
                           f"csrs={','.join(f'0x{v:08x}' for v in values)} pc=0x{pc:08x} {rest}")
        kinds.append(kind)
    return kinds, None if len(lines) == STEPS else f"{len(lines)} steps"

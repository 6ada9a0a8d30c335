#!/usr/bin/env python3
"""Questions whose answers come from tables and rules that are written here anew: names, causes,
comparisons of records, and executables in the ELF format. `make` stores them behind the others.
README.md has the forms.

usage: checks.py questions | checks.py answers
"""
import random
import struct
import sys

from questions import EDGES, ROWS, hexed

ROW_NAMES = """add sub sll slt sltu xor srl sra or and addi slli slti sltiu xori srli srai ori andi lui
auipc beq bne blt bltu bge bgeu lb lbu lh lhu lw sb sh sw jal jalr mul mulh mulhu mulhsu div divu rem
remu fence ecall ebreak""".split()
# The instructions above the table, numbered from 49 on: the word of each without rd, rs1, rs2 and the
# number of a CSR, and which of these it has, by the manual's listings of Zicsr, Zifencei, A, B, Zbc,
# Zbkb and Zicond.
LAYER_NAMES = """csrrw csrrs csrrc csrrwi csrrsi csrrci mret wfi fence.i lr.w sc.w amoswap.w amoadd.w
amoxor.w amoand.w amoor.w amomin.w amomax.w amominu.w amomaxu.w sh1add sh2add sh3add andn orn xnor clz
ctz cpop max maxu min minu sext.b sext.h zext.h rol ror rori orc.b rev8 bclr bclri bext bexti binv binvi
bset bseti clmul clmulh clmulr pack packh brev8 zip unzip czero.eqz czero.nez""".split()
LAYERS = [*((funct3 << 12 | 0x73, "csr") for funct3 in (1, 2, 3, 5, 6, 7)), (0x30200073, ""),
          (0x10500073, ""), (0x100F, "csr"), (0x1000202F, "lr"),
          *((funct5 << 27 | 0x202F, "amo") for funct5 in (3, 1, 0, 4, 12, 8, 16, 20, 24, 28)),
          (0x20002033, "two"), (0x20004033, "two"), (0x20006033, "two"), (0x40007033, "two"),
          (0x40006033, "two"), (0x40004033, "two"), (0x60001013, "one"), (0x60101013, "one"),
          (0x60201013, "one"), (0x0A006033, "two"), (0x0A007033, "two"), (0x0A004033, "two"),
          (0x0A005033, "two"), (0x60401013, "one"), (0x60501013, "one"), (0x08004033, "one"),
          (0x60001033, "two"), (0x60005033, "two"), (0x60005013, "by"), (0x28705013, "one"),
          (0x69805013, "one"), (0x48001033, "two"), (0x48001013, "by"), (0x48005033, "two"),
          (0x48005013, "by"), (0x68001033, "two"), (0x68001013, "by"), (0x28001033, "two"),
          (0x28001013, "by"), (0x0A001033, "two"), (0x0A003033, "two"), (0x0A002033, "two"),
          (0x08004033, "some"), (0x08007033, "two"), (0x68705013, "one"), (0x08F01013, "one"),
          (0x08F05013, "one"), (0x0E005033, "two"), (0x0E007033, "two")]
REGISTERS = ["zero", "ra", "sp", "gp", "tp", "t0", "t1", "t2", "s0", "s1",
             *(f"a{n}" for n in range(8)), *(f"s{n}" for n in range(2, 12)), "t3", "t4", "t5", "t6"]
FAULTS = ["no exception", "illegal instruction", "fetch access fault", "load access fault",
          "store access fault", "misaligned address", "environment call", "breakpoint"]
FIELDS = """order insn fetched trap pc_rdata pc_wdata rs1_addr rs1_rdata rs2_addr rs2_rdata rd_addr
rd_wdata mem_addr mem_rmask mem_wmask mem_rdata mem_wdata""".split()
COMPARED = [field for field in FIELDS if field != "fetched"]
# mcause of the privileged specification, by the kinds of rrs.h but MISALIGNED
CAUSES = {1: 2, 2: 1, 3: 5, 4: 7, 6: 11, 7: 3}
NO_CAUSE = 2**32 - 1


def names():
    for kind, table in (("row", [None, *ROW_NAMES, *LAYER_NAMES]), ("fault", FAULTS), ("register", REGISTERS),
                        ("field", ["same", *COMPARED])):
        for number in [*range(len(table) + 2), 2**31, 2**32 - 1]:
            yield f"name {kind} {number}", (table + [None] * 2)[number] or "none" \
                if number < len(table) else "none"


def layers():
    """The fields of words above the table, and words beside them that are none."""
    draw = random.Random(68)
    for row, (fixed, fields) in enumerate(LAYERS, 49):
        for _ in range(4):
            rd, rs1, high = draw.randrange(32), draw.randrange(32), draw.randrange(4096)
            rs2, order = high % 32, high // 32 % 4
            if fields == "csr":
                word = fixed | high << 20 | rs1 << 15 | rd << 7
                answer = f"{row} rd={rd} rs1={rs1} rs2=0 shamt=0 imm={high}"
            elif fields == "":
                word, answer = fixed, f"{row} rd=0 rs1=0 rs2=0 shamt=0 imm={fixed >> 20}"
            elif fields in ("one", "two", "some", "by"):
                last = 0 if fields == "one" else rs2 or int(fields == "some")
                word = fixed | last << 20 | rs1 << 15 | rd << 7
                second, amount = (0, last) if fields == "by" else (last, 0)
                answer = f"{row} rd={rd} rs1={rs1} rs2={second} shamt={amount} imm=0"
            else:
                rs2 = 0 if fields == "lr" else rs2
                word = fixed | order << 25 | rs2 << 20 | rs1 << 15 | rd << 7
                answer = f"{row} rd={rd} rs1={rs1} rs2={rs2} shamt=0 imm={order}"
            yield f"fields {hexed(word)}", answer
    # a wfi with rd, an lr.w with rs2, amoadd.d, funct5 5, funct3 4 and 0 of SYSTEM, a packh of
    # funct3 6, a rori and a bseti by 32, an orc.b and a zip of another number, a czero of funct3 6
    for word in (0x105000F3, 0x1010202F, 0x0000302F, 0x2800202F, 0x00004073, 0x30200173, 0x08006033,
                 0x62005013, 0x2A001013, 0x28605013, 0x08E01013, 0x0E006033):
        yield f"fields {hexed(word)}", "none"


def causes():
    words = [fixed for fixed, _ in ROWS] + [0, 0xFFFFFFFF, 0x00000043]
    for kind in range(10):
        for word in words if kind == 5 else words[:2]:
            for pc in (0, 0x80000002, 0x80000004, 0xFFFFFFFF):
                answer = CAUSES.get(kind, NO_CAUSE)
                if kind == 5:
                    rows = [fixed for fixed, _ in ROWS]
                    load, store = word & 0x7F == 3, word & 0x7F == 0x23
                    is_row = word in rows
                    answer = 4 if pc % 4 == 0 and load and is_row else \
                        6 if pc % 4 == 0 and store and is_row else 0
                yield f"cause {kind} {hexed(pc)} {hexed(word)}", str(answer)


def as_core(model, by_words):
    """The record as a core tells it, with what is not compared left out or arbitrary."""
    core = dict(model, fetched=1)
    place = model["mem_addr"] % 4 if by_words else 0
    core["mem_addr"] -= place
    for field in ("mem_rmask", "mem_wmask"):
        core[field] = model[field] << place
    for field in ("mem_rdata", "mem_wdata"):
        core[field] = model[field] << 8 * place & 2**32 - 1
    return core


def bytes_of(mask, place, value):
    return value >> 8 * place & {1: 0xFF, 3: 0xFFFF}.get(mask, 2**32 - 1)


def difference(model, core, by_words):
    place = model["mem_addr"] % 4 if by_words else 0
    lax = model["trap"] == 1 or model["insn"] & 0x7F == 0x0F
    for field in COMPARED:
        own, other = model[field], core[field]
        if field == "insn" and model["fetched"] != 1:
            continue
        if field[:2] == "rs" and lax and 0 in (model[field[:4] + "addr"], core[field[:4] + "addr"]):
            continue
        if field == "mem_addr":
            if model["mem_rmask"] == model["mem_wmask"] == 0:
                continue
            own -= place
        if field in ("mem_rmask", "mem_wmask"):
            own <<= place
        if field in ("mem_rdata", "mem_wdata"):
            mask = model[field[:5] + "mask"]
            if mask == 0:
                continue
            other = bytes_of(mask, place, other)
        if own != other:
            return f"{field} 0x{own:x} 0x{other:x}"
    return "same"


def record(generator):
    """A record of the model: a word of a row, or another."""
    value = lambda: generator.choice(EDGES) if generator.random() < 0.4 else generator.getrandbits(32)
    fixed, free = generator.choice(ROWS)
    trap = int(generator.random() < 0.3)
    r = dict.fromkeys(FIELDS, 0)
    r.update(order=generator.choice([0, 7, 2**32, 2**64 - 1]), fetched=int(generator.random() < 0.9),
             trap=trap, pc_rdata=value() & ~3, pc_wdata=value() & ~1)
    r["insn"] = (fixed | generator.getrandbits(32) & free) * r["fetched"]
    for source in ("rs1", "rs2"):
        if generator.random() < 0.6:
            r[f"{source}_addr"], r[f"{source}_rdata"] = generator.randrange(1, 32), value()
    if not trap and generator.random() < 0.6:
        r["rd_addr"], r["rd_wdata"] = generator.randrange(1, 32), value()
    if not trap and generator.random() < 0.6:
        size = generator.choice([1, 2, 4])
        kind = generator.choice("rw")
        r["mem_addr"] = value() // size * size
        r[f"mem_{kind}mask"] = 2**size - 1
        r[f"mem_{kind}data"] = value() % 256**size
    return r


def comparisons():
    generator = random.Random(48)
    for number in range(900):
        by_words = generator.choice([0, 1, 1, 2])
        model = record(generator)
        core = as_core(model, by_words == 1)
        if number % 3:
            field = generator.choice(COMPARED)
            # a face may have the flag as such
            bits = {"order": 64, "trap": 1}.get(field, 32)
            core[field] ^= 1 << generator.randrange(bits)
        if number % 5 == 0:
            field = generator.choice(["rs1_addr", "rs2_addr", "mem_rdata", "mem_wdata", "mem_addr"])
            core[field] = generator.choice([0, generator.getrandbits(32)])
        question = " ".join(",".join(str(r[field]) for field in FIELDS) for r in (model, core))
        yield f"compare {by_words} {question}", difference(model, core, by_words == 1)


# ---- executables, by the ELF specification

def refusal_of(file):
    """The first refusal, with its numbers, or None."""
    if file[:4] != b"\x7fELF":
        return 1, 0, 0
    if len(file) < 52:
        return 2, 0, 0
    for number, at in ((3, 4), (4, 5), (5, 6)):
        if file[at] != 1:
            return number, file[at], 0
    kind, machine, version, entry, phoff, _, flags, _, size, count = \
        struct.unpack_from("<HHIIIIIHHH", file, 16)
    if kind != 2:
        return (6, 0, 0) if kind == 3 else (7, kind, 0)
    for number, is_right, value in ((8, machine == 243, machine), (9, version == 1, version),
                                    (10, flags & 1 == 0, 0), (11, flags & 6 == 0, 0),
                                    (12, flags & 8 == 0, 0), (13, size == 32, size),
                                    (14, count <= 256, 0)):
        if not is_right:
            return number, value, 0
    if phoff + 32 * count > len(file):
        return 15, 0, 0
    loads = []
    for index in range(count):
        kind, offset, address, _, in_file, size, _, _ = \
            struct.unpack_from("<8I", file, phoff + 32 * index)
        if kind == 3:
            return 16, index, 0
        if kind != 1:
            continue
        for number, is_wrong in ((17, in_file and offset + in_file > len(file)),
                                 (18, size < in_file), (19, address + size > 2**32)):
            if is_wrong:
                return number, index, 0
        for earlier, start, end in loads:
            if max(start, address) < min(end, address + size):
                return 20, earlier, index
        loads.append((index, address, address + size))
    if entry % 4:
        return 21, entry, 0
    return None if any(start <= entry < end for _, start, end in loads) else (22, entry, 0)


def symbols_of(file):
    """The symbols that can be read: value, size, type, section, name. None where they can't be."""
    start, size, count = (*struct.unpack_from("<I", file, 32), *struct.unpack_from("<HH", file, 46))
    if count and (size != 40 or start + 40 * count > len(file)):
        return None
    sections = [struct.unpack_from("<10I", file, start + 40 * n) for n in range(count)]
    table = next((s for s in sections if s[1] == 2), None)
    if table is None:
        return []
    if table[9] != 16 or table[4] + table[5] > len(file) or table[6] >= count:
        return None
    strings = sections[table[6]]
    if strings[1] != 3 or strings[4] + strings[5] > len(file):
        return None
    text = file[strings[4]:strings[4] + strings[5]]
    if text and text[-1]:
        return None
    symbols = []
    for n in range(table[5] // 16):
        name, value, size, info, _, section = struct.unpack_from("<IIIBBH", file, table[4] + 16 * n)
        if name >= len(text):
            return None
        symbols.append((value, size, info & 15, section, text[name:].split(b"\0")[0].decode()))
    return symbols


def place_of(file, segments, address):
    """Where an address lies, by the symbols."""
    symbols = [s for s in symbols_of(file) or [] if 0 < s[3] < 0xFF00]
    for value, size, kind, _, name in symbols:
        if kind == 2 and value <= address < value + size:
            return f"in {name}+{address - value}"
    segment = next((s for s in segments if s and s[0] <= address < s[0] + s[1]), None)
    if segment is None:
        return "none"
    before = [(s[0], s[4]) for s in symbols if segment[0] <= s[0] <= address
              and (s[2] == 2 or s[2] == 0 and not s[4].startswith("$"))]
    if not before:
        return "none"
    nearest = max(value for value, _ in before)
    name = next(name for value, name in before if value == nearest)
    return f"behind {name}+{address - nearest}"


def answer_elf(file, base, count, address):
    refusal = refusal_of(file)
    if refusal:
        return "refused {} {} {} none".format(*refusal)
    entry, phoff = struct.unpack_from("<II", file, 24)
    headers = [struct.unpack_from("<8I", file, phoff + 32 * n)
               for n in range(struct.unpack_from("<H", file, 44)[0])]
    segments = [(h[2], h[5], h[1], h[4], h[6]) if h[0] == 1 else None for h in headers]
    told = [f"entry={hexed(entry)}"]
    told += [f"{hexed(s[0])},{s[1]},{s[2]},{s[3]},{s[4]}" if s else "none" for s in segments]
    memory, ended = bytearray([255] * 4 * count), "loaded"
    base -= base % 4
    for s in filter(None, segments):
        for at in range(s[0], s[0] + s[1]):
            if not base <= at < min(base + len(memory), 2**32):
                ended = f"refused 31 {hexed(at)}"
                break
            memory[at - base] = file[s[2] + at - s[0]] if at - s[0] < s[3] else 0
        if ended != "loaded":
            break
    words = ",".join(hexed(word) for word, in struct.iter_unpack("<I", memory))
    return " ".join([*told, ended, words, place_of(file, segments, address)])


def executable(segments, symbols, entry=0x10000, with_sections=True):
    """An executable of segments, each with its type, address, bytes, size and flags; and symbols."""
    place = 52 + 32 * len(segments)
    headers, body = b"", b""
    for kind, address, own, size, flags in segments:
        headers += struct.pack("<8I", kind, place + len(body), address, address ^ 0x100, len(own),
                               size, flags, 4)
        body += own
    names, table = b"\0", bytes(16)
    for value, size, kind, section, name in symbols:
        table += struct.pack("<IIIBBH", len(names), value, size, kind | 16, 0, section)
        names += name.encode() + b"\0"
    at = place + len(body)
    sections = [bytes(40), struct.pack("<10I", 0, 1, 6, 0x10000, place, 4, 0, 0, 4, 0),
                struct.pack("<10I", 0, 2, 0, 0, at, len(table), 3, 1, 4, 16),
                struct.pack("<10I", 0, 3, 0, 0, at + len(table), len(names), 0, 0, 1, 0)]
    count = len(sections) if with_sections else 0
    tail = table + names + b"".join(sections[:count])
    start = at + len(table) + len(names) if count else 0
    head = b"\x7fELF\1\1\1" + bytes(9) + struct.pack(
        "<HHIIIIIHHHHHH", 2, 243, 1, entry, 52, start, 0, 52, 32, len(segments), 40 if count else 0,
        count, 0)
    return head + headers + body + (tail if count else b"")


def executables():
    code = bytes(range(1, 17))
    main = (0x10004, 8, 2, 1, "main")
    symbols = [(0x10000, 0, 0, 1, "_start"), main, (0x1000C, 4, 1, 1, "data"),
               (0x10008, 0, 0, 1, "$x"), (0x20000, 4, 2, 0, "not_defined"), (0x20004, 0, 2, 1, "f")]
    whole = executable([(1, 0x10000, code, 20, 5), (4, 0, b"", 0, 4), (1, 0x10020, b"abc", 9, 6)],
                       symbols)
    plain = executable([(1, 0x10000, code, 16, 5)], [], with_sections=False)
    high = executable([(1, 0xFFFFFFF0, code[:8], 16, 7)], [main], 0xFFFFFFF0)
    files = [(whole, 0x10000), (plain, 0x10000), (high, 0xFFFFFFF0)]
    for file, base in files:
        for offset in (0, 4, 11, 12, 24, 32, 41, 2**31):
            for count, low in ((12, base), (9, base + 3), (0, base), (12, base + 4)):
                yield file, low % 2**32, count, (base + offset) % 2**32
    for one, other in ((0x10000, 0x1000F), (0x10000, 0x10010), (0x1000F, 0x10000), (0x20000, 0x20000)):
        yield executable([(1, one, code, 16, 5), (1, other, code, 17, 6)], symbols), 0x10000, 12, one
    for file, base in files:
        places = [*range(52 + 32 * struct.unpack_from("<H", file, 44)[0])]
        for at in places + [*range(max(places[-1], len(file) - 160), len(file))]:
            for byte in (0, 1, 2, 3, 0x7F, 0xFF):
                if file[at] != byte and (7 * at + byte) % 13 == 0:
                    yield file[:at] + bytes([byte]) + file[at + 1:], base, 14, base + 4
        for length in (0, 3, 4, 51, 52, 83, 84, len(file) - 1):
            yield file[:length], base, 14, base


def elfs():
    for file, base, count, address in executables():
        question = f"elf {file.hex()} {hexed(base)} {count} {hexed(address)}"
        yield question, answer_elf(file, base, count, address)


def main():
    which = ("questions", "answers").index(sys.argv[1])
    for kind in (names, layers, causes, comparisons, elfs):
        for pair in kind():
            print(pair[which])


main()

#!/usr/bin/env python3
"""Writes a decoder of RV32IMC and Zba to Zbkb in C that is QEMU's: its tables, insn32.decode and
insn16.decode, through its own generator, decodetree.py, which makes of each a tree of tests that call
trans_NAME with the fields of the word. For a half-word that is the row that it stands for. What is
written here is these functions: for a name of RV32IM or Zba to Zbkb one that stores its row and its
fields, and for each other name one that refuses the word, as QEMU does where the hart has not that
extension.

usage: decoder.py QEMU INTO

QEMU is the folder of its source. INTO/decoder.c has `qemu_decode` and `qemu_decode_half`, and
INTO/names.rs the names of the rows in the order of its numbers. The status is 0, or 1 where the table
has not what is looked for."""
import pathlib
import re
import subprocess
import sys

# The names of RV32IM by the kind of fields that a row has. The rest of the table is other extensions:
# of its section on RV32I these are Zifencei, Zicsr and Zihintpause, whose `pause` is a `fence` else.
ROWS = {
    "R": "add sub sll slt sltu xor srl sra or and mul mulh mulhu mulhsu div divu rem remu",
    "I": "addi slti sltiu xori ori andi lb lbu lh lhu lw jalr fence ecall ebreak",
    "SHAMT": "slli srli srai",
    "S": "sb sh sw",
    "B": "beq bne blt bltu bge bgeu",
    "U": "lui auipc",
    "J": "jal",
    "BITS": "sh1add sh2add sh3add andn orn xnor max maxu min minu rol ror bclr bext binv bset clmul "
            "clmulh clmulr pack packh",
    "AMOUNT": "rori bclri bexti binvi bseti",
    "ALONE": "clz ctz cpop sext_b sext_h zext_h_32 orc_b rev8_32 brev8 zip unzip",
}
# The format of fields that a row of each kind has: those of the last three kinds are as of R, with an
# amount or a number in the place of rs2.
FORMATS = ["R", "I", "SHAMT", "S", "B", "U", "J"]
# QEMU's names that are not the standard's
NAMES = {"sext_b": "sext.b", "sext_h": "sext.h", "zext_h_32": "zext.h", "orc_b": "orc.b",
         "rev8_32": "rev8"}
# What a row stores of its fields. QEMU's table has seven bits of a shift amount, and its
# gen_shift_imm_fn refuses those of XLEN and more.
STORED = {
    "R": "d->rd = a->rd; d->rs1 = a->rs1; d->rs2 = a->rs2;",
    "I": "d->rd = a->rd; d->rs1 = a->rs1; d->imm = a->imm;",
    "SHAMT": "if (a->shamt >= 32) return false; d->rd = a->rd; d->rs1 = a->rs1; d->shamt = a->shamt;",
    "S": "d->rs1 = a->rs1; d->rs2 = a->rs2; d->imm = a->imm;",
    "B": "d->rs1 = a->rs1; d->rs2 = a->rs2; d->imm = a->imm;",
    "U": "d->rd = a->rd; d->imm = a->imm;",
    "J": "d->rd = a->rd; d->imm = a->imm;",
    "BITS": "d->rd = a->rd; d->rs1 = a->rs1; d->rs2 = a->rs2;",
    "AMOUNT": "if (a->shamt >= 32) return false; d->rd = a->rd; d->rs1 = a->rs1; d->rs2 = a->shamt;",
    "ALONE": "d->rd = a->rd; d->rs1 = a->rs1; d->rs2 = d->word >> 20 & 31;",
}
# The table gives these rows no immediate and no register. They store those of its format @i.
WITHOUT_FORMAT = ("fence", "ecall", "ebreak")
FENCE = "if ((i.imm >> 4 & 15) != a->pred || (i.imm & 15) != a->succ) abort();"

# QEMU's trans_illegal takes a half-word, so that no row behind it does.
ILLEGAL = "d->row = UINT32_MAX; return true;"

HEAD = """#include <assert.h>
#include <stdbool.h>
#include <stdint.h>
#include <stdlib.h>
typedef struct {
    uint32_t word, row, format, funct7, funct3, rd, rs1, rs2, shamt;
    int32_t imm;
} DisasContext;
static int ex_plus_1(DisasContext *d, int n) { (void)d; return n + 1; }
"""
# The registers of three bits, and the shift amounts of 32 bits and of 64, in which none stands for another
COMPRESSED = """static int ex_rvc_register(DisasContext *d, int n) { (void)d; return 8 + n; }
static int ex_rvc_shiftli(DisasContext *d, int n) { (void)d; return n; }
static int ex_rvc_shiftri(DisasContext *d, int n) { (void)d; return n; }
"""
SHIFT = "static int ex_shift_{0}(DisasContext *d, int n) {{ (void)d; return n * (1 << {0}); }}\n"
# What the tree calls to take a word apart, which is QEMU's too
BITS = ("uint32_t extract32", "int32_t sextract32", "uint32_t deposit32")
TAIL = """
bool qemu_decode(uint32_t word, DisasContext *d) {
    *d = (DisasContext){ .word = word };
    return decode_insn32(d, word) && d->row != UINT32_MAX;
}

// Of a half-word only ebreak looks at the word: its fields are those of the word of 32 bits.
bool qemu_decode_half(uint16_t half, DisasContext *d) {
    *d = (DisasContext){ .word = %#x };
    return decode_insn16(d, half) && d->row != UINT32_MAX;
}
"""


def taken(header, functions):
    """The text of some functions of a header of QEMU."""
    text = header.read_text()
    for function in functions:
        found = re.search(rf"^static inline {function}\(.*?^}}\n", text, re.M | re.S)
        if not found:
            sys.exit(f"{header.name} has no {function}")
        yield found[0]


def fixed_bits(table, name):
    """The bits of a word of this name that the table fixes; those that are free are 0."""
    found = re.search(rf"^ *{name} +((?:[-.01]+ +|[a-z]+:\d+ +)+[-.01]+)(?: |$)", table, re.M)
    if not found:
        sys.exit(f"insn32.decode has no {name}")
    bits = re.sub(r"[a-z]+:(\d+)", lambda field: "." * int(field[1]), found[1]).replace(" ", "")
    if len(bits) != 32:
        sys.exit(f"insn32.decode: {name} has {len(bits)} bits")
    return int(bits.replace(".", "0").replace("-", "0"), 2)


def function(name, row, table):
    """The function that QEMU's decoder calls for a word of this name; row is None where it is of
    another extension."""
    head = f"static bool trans_{name}(DisasContext *d, arg_{name} *a)"
    if row is None:
        return f"{head} {{ (void)d; (void)a; {ILLEGAL if name == 'illegal' else 'return false;'} }}"
    number, kind = row
    fixed, stored = fixed_bits(table, name), STORED[kind]
    if name in WITHOUT_FORMAT:
        stored = "arg_i i; decode_insn32_extract_i(d, &i, d->word); " + (
            FENCE if name == "fence" else "(void)a;") + " " + stored.replace("a->", "i.")
    form = FORMATS.index(kind) if kind in FORMATS else 0
    return (f"{head} {{ {stored} d->row = {number}; d->format = {form};"
            f" d->funct7 = {fixed >> 25}; d->funct3 = {fixed >> 12 & 7}; return true; }}")


def tree(qemu, into, width):
    """What the generator makes of the table of this width."""
    made = into / f"tree{width}.c"
    subprocess.run([sys.executable, qemu / "scripts/decodetree.py", f"--insnwidth={width}",
                    f"--static-decode=decode_insn{width}", "-o", made,
                    qemu / f"target/riscv/insn{width}.decode"], check=True)
    return made.read_text()


def main():
    qemu, into = map(pathlib.Path, sys.argv[1:])
    into.mkdir(parents=True, exist_ok=True)
    table = (qemu / "target/riscv/insn32.decode").read_text()
    trees = tree(qemu, into, 32) + tree(qemu, into, 16)
    bits = "".join(taken(qemu / "include/qemu/bitops.h", BITS))
    rows, names = {}, []
    for kind, of_kind in ROWS.items():
        for name in of_kind.split():
            rows[name] = len(names), kind
            names.append(name)
    asked = sorted(set(re.findall(r"^static bool trans_(\w+)\(", trees, re.M)))
    if not set(names) <= set(asked):
        sys.exit(f"insn32.decode has no {sorted(set(names) - set(asked))}")
    shifts = sorted(set(re.findall(r"\bex_shift_(\d+)\(", trees)))
    text = HEAD + COMPRESSED + bits + "".join(map(SHIFT.format, shifts)) + trees
    text += TAIL % fixed_bits(table, "ebreak")
    text += "\n".join(function(name, rows.get(name), table) for name in asked) + "\n"
    (into / "decoder.c").write_text(text)
    quoted = ", ".join(f'"{NAMES.get(name, name)}"' for name in names)
    (into / "names.rs").write_text(f"const NAMES: [&str; {len(names)}] = [{quoted}];\n")


if __name__ == "__main__":
    if len(sys.argv) != 3:
        sys.exit("usage: decoder.py QEMU INTO")
    main()

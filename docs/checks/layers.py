"""The lists of the instructions of the layers: what their definitions in rrs_words give."""

import re
from dataclasses import dataclass

SPECS = "crates/rrs_words/specs/"
# the definitions of the layers, in the order of their numbers
LAYERS = [("system", "SystemInstructions"), ("atomic", "AtomicInstructions"),
          ("bit", "BitInstructions")]
ORDERS = ("", ".aq", ".rl", ".aqrl")


@dataclass
class Row:
    """An instruction of a layer: its number, its name, the form of its operands, and what else the
    table has of it."""

    number: int
    name: str
    form: str
    rest: str

    def constant(self):
        """Its name where a name has no dot, in capitals."""
        return self.name.replace(".", "_").upper()


def form_of(layer, name, rest):
    """The form of the operands of an instruction, of rrs_asm_output."""
    if layer == "bit":
        kind = rest.split()[-1]
        forms = {"Register": "Registers", "NotX0": "Registers", "Amount": "Shift"}
        return forms.get(kind, "Copy")
    if layer == "atomic":
        return "Reserved" if name == "lr.w" else "Atomic"
    if not name.startswith("csr"):
        return "Alone"
    return "CsrImmediate" if name.endswith("i") else "Csr"


def rows_of(root):
    """The instructions of the layers, by their numbers."""
    numbers = (root / f"{SPECS}Layers.antt").read_text()
    for layer, module in LAYERS:
        file = root / f"{SPECS}{module}.antt"
        table = file.read_text() if file.exists() else ""
        form = rf"^{layer}_table (\w+) = \w+ \(codes \"([\w.]+)\"\)(.*)"
        for one, name, rest in re.findall(form, table, re.M):
            number = re.search(rf"^{layer}_number {one} = (\d+)$", numbers, re.M)
            yield Row(int(number[1]), name, form_of(layer, name, rest), rest)


def wrapped(words, first, other, last=""):
    """Words with spaces between them in lines of at most 100 columns: the first begins with `first`,
    and the others with `other`; each but the last ends with `last`."""
    lines, line = [], first
    for number, word in enumerate(words):
        joined = line + (" " if line not in (first, other) else "") + word
        if len(joined) + len(last) > 100:
            lines.append(line + last)
            line = other + word
        else:
            line = joined
    return [*lines, line]


# ---- the lines of each list

def of_names(rows):
    return [f'    "{row.name}",' for row in rows]


def of_bits(rows):
    """The words of those of Zba to Zicond, whose fields are those of the table, and whose rs2 is x1
    where it can't be x0."""
    lines = []
    for row in rows:
        found = re.match(r" Z\w+ (\w+) (\w+) (\w+) (?:(\w+)|\(Fixed (\d+)\))$", row.rest)
        if found:
            opcode, funct7, funct3 = (int(text, 0) for text in found.groups()[:3])
            second = 1 if found[4] == "NotX0" else int(found[5] or "0")
            word = f"{funct7 << 25 | second << 20 | funct3 << 12 | opcode:08x}"
            lines.append(f"    0x{word[:4]}_{word[4:]}, // {row.name}")
    return lines


def of_header(rows):
    lines = [f"    RRS_ROW_{row.constant()} = {row.number}," for row in rows]
    return [*lines[:-1], lines[-1].rstrip(",")]


def of_layouts(rows):
    return [f"RRS_ROW_{row.constant()} {row.number}" for row in rows]


def of_python(rows):
    lines = wrapped([row.constant() for row in rows], '    "', '    "', ' "')
    return [*lines[:-1], lines[-1] + '",']


def of_forms(rows):
    """The names of each form, and those of extension A with each order."""
    lines = []
    for form in dict.fromkeys(row.form for row in rows):
        names = [row.name for row in rows if row.form == form]
        if form in ("Reserved", "Atomic"):
            names = [name + order for order in ORDERS for name in names]
        whole = f'b"{" ".join(names)}", Form::{form}'
        if len(whole) <= 60:
            lines.append(f"    ({whole}),")
        else:
            inner = wrapped(names, '        b"', "            ", " \\")
            lines += ["    (", *inner[:-1], inner[-1] + '",', f"        Form::{form},", "    ),"]
    return lines


# Each list: a file, the line before the list, the line behind it, and its lines.
LISTS = [
    ("crates/rrs_c/src/names.rt", '    "ebreak",', "];", of_names),
    ("crates/rrs_c/include/rrs.h", "    RRS_ROW_EBREAK = 48,", "};", of_header),
    ("bindings/layouts", "RRS_ROW_EBREAK 48", "RRS_NO_ACCESS 0", of_layouts),
    ("bindings/python/rrs.py", "    # the layers, as docs/check --write writes them", ")", of_python),
    ("crates/rrs_asm/src/bits.rt", "    // docs/check --write writes them", "];", of_bits),
    ("crates/rrs_asm_output/src/forms.rt", "    // The layers, as docs/check --write writes them.",
     "    // The compressed ones.", of_forms),
]

# Each place of the last number, and maybe of its name: a file, and what stands there.
LAST = [
    ("crates/rrs_c/src/names.rt", "const ROWS: [&str; {number}] = ["),
    ("crates/rrs_c/src/names.rt", "if row == 0 || {number} < row {{"),
    ("crates/rrs_c/specs/Names.antt", "  pub above : {number} < number → name ≡ None"),
    ("crates/rrs_c/include/rrs.h", "* from 49 (csrrw) to {number} ({name}) above it, or 0 for"),
]

# Files that name each instruction, and whose lines are kept by hand: a file, and what stands in it.
NAMED = [
    ("docs/ASSEMBLY.md", r"`{name}[` ]"),
    ("bindings/answers/checks.py", r"[\s\"]{name}[\s\"]"),
    ("examples/assembly/lines.py", r"[\s\"]{name}[\s\"{]"),
    ("crates/tests_assembler/src/lines.rt", r"\(\"{name}[\s\"]"),
]


class NoPlace(Exception):
    """A line that is not there, beside which a list or a number stands."""


def place_of(lines, before, behind):
    """Where a list stands: after the line before it, up to the line behind it."""
    for line in (before, behind):
        if line not in lines:
            raise NoPlace(line)
    start = lines.index(before) + 1
    return start, start + lines[start:].index(behind)


def pattern_of(form):
    """What stands at a place of the last number, with any number and any name."""
    before, number, rest = re.split(r"(\{number\})", form)
    escaped = "".join(map(re.escape, (before, number, rest.format(name="NAME"))))
    return escaped.replace(re.escape("{number}"), r"\d+").replace("NAME", r"[\w.]+")


def with_layers(file, text, rows):
    """The text of a file, with its list and its numbers as the definitions give them."""
    for own, before, behind, lines_of in LISTS:
        if own == file:
            lines = text.split("\n")
            start, end = place_of(lines, before, behind)
            text = "\n".join(lines[:start] + lines_of(rows) + lines[end:])
    for own, form in LAST:
        if own == file:
            last = form.format(number=rows[-1].number, name=rows[-1].name)
            text, count = re.subn(pattern_of(form), lambda _, last=last: last, text)
            if count != 1:
                raise NoPlace(last)
    return text


def files_with_layers(files):
    """The files with a list or a number that is made of the definitions."""
    return [file for file in files if file in {own for own, *_ in LISTS + LAST}]


def write_layers(root, files):
    """Writes the lists of the layers' instructions."""
    rows = list(rows_of(root)) if f"{SPECS}Layers.antt" in files else []
    for file in files_with_layers(files) if rows else []:
        (root / file).write_text(with_layers(file, (root / file).read_text(), rows))


def check_layers(root, files):
    """The first line of each list that is not what the definitions give, and the instructions that a
    file does not name."""
    rows = list(rows_of(root)) if f"{SPECS}Layers.antt" in files else []
    for file in files_with_layers(files) if rows else []:
        lines = (root / file).read_text().split("\n")
        try:
            wanted = with_layers(file, "\n".join(lines), rows).split("\n")
        except NoPlace as missing:
            yield file, 1, f"a list of the layers has no place: no line `{missing}`"
            continue
        for number, (one, other) in enumerate(zip(lines, wanted), 1):
            if one != other:
                yield file, number, f"the layers give `{other[:60]}`: call docs/check --write"
                break
    for file, form in NAMED:
        text = (root / file).read_text() if file in files else ""
        missing = [f"`{row.name}`" for row in rows if text
                   and not re.search(form.replace("{name}", re.escape(row.name)), text)]
        if missing:
            yield file, 1, f"of the layers {', '.join(missing)} should be here"

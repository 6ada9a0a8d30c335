"""What is written into the docs: the contracts, the examples as doctests, and what is claimed."""

import re
import textwrap
from pathlib import Path

# The examples that are written by hand, each with its source and the header of its item.
EXAMPLES = re.findall(
    r"^## (\S+): `([^`]+)`\n\n```rust\n(.*?)^```$",
    (Path(__file__).resolve().parent.parent / "examples.md").read_text(),
    re.M | re.S,
)
# How rrs-kit passes a crate on, by its items: Rust 1.85 refuses another name of the crate itself.
IN_KIT = {
    "rrs_memory": "pub use rrs_memory::*;",
    "rrs_instruction": "pub use rrs_instruction::*;",
    "rrs_lib": "pub use rrs_lib::*;",
    "rrs_fast": "pub mod fast { pub use rrs_fast::*; }",
    "rrs_encode": "pub mod encode { pub use rrs_encode::*; }",
    "rrs_extra": "pub mod extra { pub use rrs_extra::*; }",
    "rrs_trace": "pub mod trace { pub use rrs_trace::*; }",
    "rrs_elf": "pub mod elf { pub use rrs_elf::*; }",
    "rrs_history": "pub mod gdb { pub mod history { pub use rrs_history::*; } }",
    "rrs_hart": "pub mod hart { pub use rrs_hart::*; }",
    "rrs_machine": "pub mod machine { pub use rrs_machine::*; }",
    "rrs_board": "pub mod machine { pub mod board { pub use rrs_board::*; } }",
    "rrs_asm": "pub mod asm { pub use rrs_asm::*; }",
    "rrs_asm_output": "pub mod asm { pub use rrs_asm::*; "
    "pub mod assembly { pub use rrs_asm_output::*; } }",
}

CLAIM = """\
The code of this crate is the proved text of `{name}`, with its contracts taken away and a published
list of substitutions, and of impls by hand (`rust/residue.txt` in its repository). rustc, LLVM,
Rust's library and the crate `rrs-kit-std` are trusted. A Rust caller proves nothing: what a contract
`requires`, register numbers below 32 and the laws of `Memory` among it, is for the caller to keep.
Where it is not kept an index panics or a result is wrong, and nothing is undefined."""
CONTRACTS = """\
The clauses under "Contract" are what is proved of the text. `requires` is what a caller keeps,
`ensures` what then holds after the call: `result` is what is returned, `x.old` and `x.new` are what
a `&mut` leads to before and after, `x.now` what a `&` leads to. The other names are definitions of
the repository, in `crates/*/specs/`."""


def documented(lines, indent=""):
    """Lines as docs."""
    return "".join(f"{indent}/// {line}".rstrip() + "\n" for line in lines)


def is_in_trait(code, i):
    """Whether a place is in the body of a trait."""
    depth = 0
    while i >= 0:
        depth += (code.at(i) == "}") - (code.at(i) == "{")
        if depth < 0:
            return "trait" in code.texts(code.statement(i), i)
        i -= 1
    return False


def contracts_are_shown(code):
    """Puts the clauses of each documented call of a user at the end of its docs."""
    for i in range(len(code)):
        if code.kind(i) == "clause" and code.kind(i - 1) != "clause":
            show_contract(code, i)


def show_contract(code, i):
    """Puts the clauses from a place on into the docs of their function."""
    start = code.find_back(i, "fn")
    while code.at(start - 1) in ("const", "pub"):
        start -= 1
    if code.at(start) != "pub" and not is_in_trait(code, start):
        return
    while code.at(start - 1) == "]":
        start = code.find_back(start - 1, "#")
    lead = code.tokens[start].lead
    if "///" not in lead:
        return
    lines = ["", "# Contract", "", "```text"]
    while code.kind(i) == "clause":
        lines += clause_lines(code.tokens[i])
        i += 1
    lines.append("```")
    cut = lead.rindex("\n") + 1
    code.tokens[start].lead = lead[:cut] + documented(lines, lead[cut:]) + lead[cut:]


def clause_lines(token):
    """The lines of a clause, as they are indented under its first."""
    first, *rest = token.text.split("\n")
    margin = len(token.lead) - token.lead.rfind("\n") - 1
    return [first, *(line[min(margin, len(line) - len(line.lstrip())) :] for line in rest)]


# ------------------------------------------------------------------ the code in docs


def examples_are_put(path, text, named):
    """Puts the examples by hand into the docs of their items. They name rrs-kit, which is above the
    crate: what it passes on of the crates that are named stands in lines that are not shown."""
    kit = {IN_KIT[name].split("{")[0]: IN_KIT[name] for name in named[::-1] if name in IN_KIT}
    kit = " ".join(["pub use rattle_std::alloc;", *kit.values()])
    for source, header, example in EXAMPLES:
        if source != path:
            continue
        if text.count(header) != 1:
            raise SystemExit(f"crates/{path}: `{header}` does not stand there once")
        at = text.rindex("\n", 0, text.index(header)) + 1
        indent = re.match(" *", text[at:]).group()
        while text[:at].splitlines()[-1].lstrip().startswith("#["):
            at = text.rindex("\n", 0, at - 1) + 1
        lines = ["", "# Examples", "", "```rust", f"# mod rrs_kit {{ {kit} }}"]
        lines += [*example.splitlines(), "```"]
        text = text[:at] + documented(lines, indent) + text[at:]
    return text


def examples_are_doctests(text, imports):
    """Writes each example of the docs as Rust, with what it needs in lines that are not shown."""
    out, lines, i = [], text.split("\n"), 0
    while i < len(lines):
        fence = re.match(r"(\s*//[/!] )```(\w*)$", lines[i])
        if not fence:
            out.append(lines[i])
            i += 1
            continue
        end = next(k for k in range(i + 1, len(lines)) if lines[k].strip(" /!") == "```")
        block = lines[i : end + 1]
        out += block if fence.group(2) else doctest(block, fence.group(1), imports)
        i = end + 1
    return "\n".join(out)


def doctest(block, margin, imports):
    """An example of Rattle, which has `rt` and `alloc` and may fail, as one of Rust."""
    body = [line[len(margin) :] for line in block[1:-1]]
    body = [re.sub(r"\b(assert\w*!)\(rt; ", r"\1(", line) for line in body]
    body = [re.sub(r"vec!\[in alloc; ([^\]]*)\]\?", r"vec![\1]", line) for line in body]
    body = [re.sub(r"return Err\((\".*?\")\)", r"return Err(\1.into())", line) for line in body]
    # modules of one name, as `laws`, have functions of one name: the first is that of this crate
    firsts = {path.split("::")[-2]: path for path in reversed(imports)}.values()
    before = [f"# use {path};" for path in imports if path in firsts]
    if any(re.search(r"\balloc\b", line) for line in body):
        before.append("# let alloc = rattle_std::alloc::Global;")
    if any(re.search(r"\?[;.)?]|return Err", line) for line in body):
        before.append("# fn example() -> Result<(), Box<dyn std::error::Error>> {")
        body[-1:] = [body[-1], "# Ok(())", "# }", "# example().unwrap();"]
        before[-2:] = sorted(before[-2:], key=lambda line: "let alloc" in line)
    return [margin + line for line in ["```", *before, *body, "```"]]


def clause_names_are_no_links(text):
    """A clause's name in the docs, [`so`], is no link of rustdoc, since no item has the name."""
    names = set(re.findall(r"ensures (\w+) \{|requires (\w+) \{", text))
    for name in {name for pair in names for name in pair if name}:
        text = re.sub(rf"(//[/!].*)\[`{name}`\](?!\()", rf"\1(`{name}`)", text)
    return text


# ------------------------------------------------------------------ the root of a crate


def claim_is_first(text, name):
    """Puts what is claimed after the first paragraph of the docs of a root."""
    paragraphs = re.match(r"((?://![^\n]*\n)+?)(//!\n|\n)", text)
    if not paragraphs:
        raise SystemExit(f"the root of {name} has no docs")
    claim = "\n\n".join(part.replace("\n", " ") for part in (CLAIM, CONTRACTS))
    lines = []
    for paragraph in claim.format(name=name).split("\n\n"):
        lines += ["", *textwrap.wrap(paragraph, 95)]
    added = "".join(f"//! {line}".rstrip() + "\n" for line in lines)
    at = len(paragraphs.group(1))
    return text[:at] + added + text[at:]

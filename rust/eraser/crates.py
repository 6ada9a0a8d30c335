"""The crates that are written: which, from what sources, and with what text."""

import re
from pathlib import Path

from . import docs, rules, sites
from .text import Code

ROOT = Path(__file__).resolve().parent.parent.parent
CRATES = ROOT / "crates"
# What is written by hand beside the proved text, since an impl stands in the crate of its type:
# CRATE.rs is for the root of a crate, CRATE/MODULE.rs for a module whose private fields it names.
IMPLS = ROOT / "rust/impls"

# The crates that do not go over, each with the reason.
NOT_OVER = {
    "rrs_c": "a static library: what it exports needs unsafe code",
    "rrs_lent": "an allocator of lent memory: Rust's containers take no allocator as yet",
    "tests_programs": "its machine is a runtime of the toolchain's, by traits that are not here",
}
# The modules that do not, in crates that do: they are tests of the crates above.
MODULES_NOT_OVER = {("tests_assembler", "lent"), ("tests_assembler", "room")}
# The modules that need the feature `std`, in crates that otherwise do not.
NEED_STD = {
    ("rrs_memory", "load"),
    ("rrs_board", "images"),
    ("rrs_board", "input"),
    ("rrs_board", "terminal"),
}
# Crates of others, for which those of stand-in/ stand. A registry has those with a version. The
# others take an allocator in Rattle, and the crates of their names in a registry do not.
OUTSIDE = {"arrayvec": "0.7", "itoa": "1", "hex": None, "circular_buffer": None}
# What of the library needs the feature `std`, and the macros that are Rattle's.
HOST = re.compile(r"\bstd::(?:\{[^}]*\b)?(?:io|fs|env|rt|process|time|os)\b")
MACROS = {"vec", "format", "println", "eprintln", "assert", "assert_eq", "prove"}


def all_crates():
    """Each crate that goes over, with the crates that it uses, in the order of crates.txt."""
    crates = {}
    for line in (ROOT / "crates.txt").read_text().splitlines():
        head, colon, used = line.split("#")[0].partition(":")
        name = head.split()[0] if colon else None
        if name and name not in NOT_OVER:
            crates[name] = [crate for crate in used.split() if crate not in NOT_OVER]
    for name, used in crates.items():
        for crate in used:
            if crate not in crates and crate not in OUTSIDE:
                raise SystemExit(f"{name} uses {crate}, for which nothing stands: see {__file__}")
    added = {added_to(path) for name in crates for path in source_files(name)}
    for path in IMPLS.rglob("*.rs"):
        if path not in added:
            raise SystemExit(f"{path} is added to no source")
    for source, header, _ in docs.EXAMPLES:
        if not (CRATES / source).exists():
            raise SystemExit(f"there is no crates/{source} for the example of `{header}`")
    return crates


def with_all_below(crates, names):
    """Crates with all that they use, in the order of the list."""
    wanted = set(names)
    while True:
        more = {used for name in wanted for used in crates.get(name, ())} - wanted
        if not more:
            return [name for name in crates if name in wanted]
        wanted |= more


def source_files(name):
    """The sources of a crate, each by its path from `crates/` on."""
    sources = sorted((CRATES / name / "src").rglob("*.rt"))
    over = [path for path in sources if (name, path.stem) not in MODULES_NOT_OVER]
    return [path.relative_to(CRATES) for path in over]


def texts_of(name):
    """The texts of a crate's sources."""
    return [(CRATES / path).read_text() for path in source_files(name)]


def added_to(path):
    """The file of what is added by hand to a source, as a module of it. It may not be there."""
    inside = path.with_suffix(".rs").relative_to(Path(path.parts[0], "src"))
    return IMPLS / (f"{path.parts[0]}.rs" if is_root(path) else Path(path.parts[0], inside))


def module_added(path):
    """Where that module stands, by its path from `crates/` on."""
    return (path.parent if is_root(path) else path.with_suffix("")) / "impls.rs"


def declaration(path):
    """How a source declares that module, and passes on what it has by name; nothing without one."""
    if not added_to(path).exists():
        return ""
    has_names = re.search(r"^pub ", added_to(path).read_text(), re.M)
    return "\nmod impls;\n" + ("pub use impls::*;\n" if has_names else "")


def is_root(path):
    """Whether a source is the root of its crate."""
    return path.parts[1:] in (("src", "lib.rt"), ("src", "main.rt"))


def needs_host(name):
    """Whether a crate can't do without the feature `std`."""
    return any(
        HOST.search((CRATES / path).read_text())
        for path in source_files(name)
        if (name, path.stem) not in NEED_STD
    )


def has_macros(name):
    """Whether the code of a crate uses macros of Rattle's library."""
    codes = map(Code, texts_of(name))
    return any(code.at(i - 1) in MACROS for code in codes for i in code.places("!"))


def has_tests(name):
    """Whether a crate has modules that are tests alone."""
    return any("cfg(test)" in text for text in texts_of(name))


def public_modules(name):
    """The paths whose names an example in the docs may use: the crate, and its public modules."""
    root = CRATES / name / "src/lib.rt"
    text = root.read_text() if root.exists() else ""
    modules = re.findall(r"^pub mod (\w+);", text, re.M)
    return [f"{name}::*", *(f"{name}::{module}::*" for module in modules)]


def without_modules(name, text):
    """The text of a source without the modules that do not go over, and with those that need `std`
    behind the feature."""
    for crate, module in MODULES_NOT_OVER:
        if crate == name:
            text = re.sub(rf"#\[cfg\(test\)\]\nmod {module};\n", "", text)
    for crate, module in NEED_STD:
        if crate == name:
            declared = rf"^((?:pub )?mod|pub use) {module}\b"
            text = re.sub(declared, rf'#[cfg(feature = "std")]\n\1 {module}', text, flags=re.M)
    return text


def erased_code(name, path, text):
    """The text of a source by the rules."""
    code = Code(text)
    ghosts = {word for t in code.tokens if t.kind in ("ghost", "clause") for word in t.words()}
    docs.contracts_are_shown(code)
    if is_root(path):
        rules.root_names_the_library(code, has_macros(name), has_tests(name))
    for rule in rules.RULES:
        rule(code)
    rules.unused_imports_go(code, ghosts)
    rules.preludes_are_imported(code)
    text = re.sub(r"\n{3,}", "\n\n", code.text())
    return re.sub(r"\{\n\n", "{\n", text)


def erased(name, path, crates, registry=False):
    """The text of Rust of a source, over the stand-ins or the crates of a registry."""
    named = [crate for crate in [name, *crates[name]] if crate not in OUTSIDE]
    text = sites.put(str(path), (CRATES / path).read_text(), registry)
    text = docs.examples_are_put(str(path), text, named)
    text = docs.clause_names_are_no_links(without_modules(name, text))
    text = erased_code(name, path, text)
    imports = [module for crate in named for module in public_modules(crate)]
    text = docs.examples_are_doctests(text, imports)
    text = docs.claim_is_first(text, name) if is_root(path) else text
    return text + declaration(path)

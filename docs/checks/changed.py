"""Which contracts and definitions changed between two commits: each text before and after."""

import re
import subprocess
import tempfile
from pathlib import Path

from sources import one_line, read_crates
from surface import owner

NAMED = re.compile(r"(?:(?:pub|abbrev|unfoldable|record|data|table)\s+)*([^\s:=({]+)")


def definitions(text):
    """The definitions of a text, each part with its name: what begins at the margin, or at that of a
    module, up to the next one. Comments and imports are none."""
    pieces, margin = [], 0
    for line in text.splitlines():
        if re.match(r"\s*(--|$)", line):
            continue
        depth = len(line) - len(line.lstrip())
        begun = pieces[-1][1] if pieces else ""
        is_head = begun.startswith("module ") and not begun.endswith("where")
        if begun.startswith("module ") and not is_head:
            margin = depth
        if is_head or depth > margin or re.match(r"\s*[})]", line):
            pieces[-1][1] += " " + line
            continue
        margin = depth
        pieces.append([NAMED.match(line.lstrip())[1], line])
    for name, piece in pieces:
        if not re.match(r"(pub )?(use|mod)\b", piece):
            yield name, one_line(piece)


def clauses(items, before=""):
    """What items promise, each with its name: clauses, and what `ghost` gives a type."""
    for item in items:
        name = before + item.name
        if item.kind == "ghost" and not item.head.startswith("ghost use"):
            yield f"{before}ghost {item.name}", item.head
        for clause in item.clauses:
            yield f"{name}: {clause.kind} {clause.name}".rstrip(), clause.text
        trait, of = owner(item.head) if item.kind == "impl" else ("", item.name)
        yield from clauses(item.items, f"{of} as {trait}::" if trait else f"{of}::")


def promises(root):
    """All of a repository: the texts by the crate and the name, as often as there is one."""
    found = {}
    for crate in read_crates(root):
        named = [one for items in crate.files.values() for one in clauses(items)]
        for path in sorted((crate.folder / "specs").rglob("*.antt")):
            module = path.relative_to(crate.folder / "specs").with_suffix("").as_posix()
            named += [(f"{module}: {name}", text) for name, text in definitions(path.read_text())]
        for name, text in named:
            found.setdefault(f"{crate.name}: {name}", []).append(text)
    return found


def promises_of(root, commit):
    """Those of a commit, or, where none is named, of the files as they stand."""
    if not commit:
        return promises(root)
    with tempfile.TemporaryDirectory() as folder:
        packed = subprocess.run(["git", "-C", root, "archive", commit, "crates", "crates.txt"],
                                capture_output=True, check=True).stdout
        subprocess.run(["tar", "-x", "-C", folder], input=packed, check=True)
        return promises(Path(folder))


def print_changed(root, first, second=None):
    """Prints what another commit promises otherwise, before and after."""
    before, after = promises_of(root, first), promises_of(root, second)
    count = 0
    for name in sorted(before.keys() | after.keys()):
        old, new = before.get(name, []), after.get(name, [])
        if old == new:
            continue
        count += 1
        print(name)
        for word, texts, others in (("before", old, new), ("after", new, old)):
            own = [text for text in texts if text not in others]
            is_moved = sorted(old) == sorted(new)
            for text in (texts if is_moved else own) or ["none"] * (not texts):
                print(f"  {word}: {text}")
    print(f"{count} contracts and definitions changed")

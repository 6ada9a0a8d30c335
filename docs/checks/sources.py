"""What the sources say: the crates, their modules, and the public items with their contracts."""

import re
from dataclasses import dataclass, field
from pathlib import Path

QUIET = re.compile(r"//[^\n]*|\"(?:\\.|[^\"\\])*\"|'(?:\\[^'\n]*|[^'\\\n])'", re.S)
HEAD = re.compile(
    r"(?P<public>pub(?:\((?P<within>[^)]*)\))?\s+)?"
    r"(?:(?:unsafe|extern\s+\"C\"|const(?=\s+fn))\s+)*"
    r"(?P<kind>fn|struct|enum|trait|impl|const|static|type|mod|use|ghost)\b\s*(?P<name>\w*)"
)
CLAUSE = re.compile(r"\s*(requires|ensures)\*?(?:\s+(\w+))?\s*\{")


@dataclass
class Clause:
    """A `requires` or an `ensures`, with its name, which may be none, and its text."""

    kind: str
    name: str
    text: str


@dataclass
class Item:
    """An item: what is written before its body, its docs, and the items in its body."""

    kind: str
    name: str
    public: bool
    file: str
    line: int
    docs: list
    attributes: list
    head: str
    clauses: list = field(default_factory=list)
    body: str = ""
    items: list = field(default_factory=list)


@dataclass
class Crate:
    """A line of crates.txt, with the items of the crate's files by the file's path."""

    name: str
    is_static_library: bool
    folder: Path
    files: dict = field(default_factory=dict)

    def is_library(self):
        return (self.folder / "src/lib.rt").exists()


def one_line(text):
    """A text with each run of blanks as one blank."""
    return " ".join(text.split())


def without_texts(source):
    """A source in which comments, texts and characters are blanks, place by place."""
    return QUIET.sub(lambda found: re.sub(r"[^\n]", " ", found[0]), source)


def closing(plain, start):
    """The place after the bracket that closes the one at `start`."""
    depth = 0
    for place in range(start, len(plain)):
        if plain[place] in "([{":
            depth += 1
        elif plain[place] in ")]}":
            depth -= 1
            if depth == 0:
                return place + 1
    raise ValueError(f"a bracket that nothing closes, at {start}")


def head_end(plain, start, end):
    """Where the head of an item ends: at its first clause, its body, or its `;`."""
    place = start
    while place < end:
        if plain[place] in "([":
            place = closing(plain, place)
        elif plain[place] in "{;" or re.match(r"\s(requires|ensures)\b", plain[place:place + 10]):
            return place
        else:
            place += 1
    return end


class Reader:
    """Reads the items of a file."""

    def __init__(self, file, source):
        self.file, self.source, self.plain = file, source, without_texts(source)

    def items(self, start, end):
        """The items between two places, in order."""
        found = []
        docs, attributes = [], []
        place = start
        while place < end:
            line_end = self.source.find("\n", place)
            line_end = end if line_end < 0 else line_end
            line = self.source[place:line_end].strip()
            if not line or line.startswith("//"):
                if line.startswith("///"):
                    docs.append(line[3:].removeprefix(" "))
                place = line_end + 1
            elif line.startswith("#"):
                after = closing(self.plain, self.plain.index("[", place))
                attributes.append(self.source[place:after].strip())
                place = after
            else:
                place += len(self.source[place:]) - len(self.source[place:].lstrip())
                item, place = self.item(place, end, docs, attributes)
                found += [item] if item else []
                docs, attributes = [], []
        return found

    def item(self, start, end, docs, attributes):
        """The item that begins at a place, if it is one, and where it ends."""
        head = HEAD.match(self.source, start)
        after = head_end(self.plain, start, end)
        if not head:
            return None, self.past(after, end)
        line = self.source.count("\n", 0, start) + 1
        item = Item(head["kind"], head["name"], bool(head["public"]) and not head["within"],
                    self.file, line, docs, attributes, one_line(self.source[start:after]))
        if item.kind in ("use", "const", "static", "type", "ghost"):
            after = self.statement_end(start, end)
            item.head = one_line(self.source[start:after].rstrip(";"))
            return item, after
        after = self.clauses(item, after)
        past = self.past(after, end)
        item.body = self.source[after:past]
        if item.kind in ("trait", "impl") and self.plain[after:after + 1] == "{":
            item.items = self.items(after + 1, past - 1)
        return item, past

    def clauses(self, item, place):
        """Reads the clauses from a place on into an item, and says where they end."""
        while found := CLAUSE.match(self.plain, place):
            after = closing(self.plain, found.end() - 1)
            text = one_line(self.source[found.end():after - 1])
            item.clauses.append(Clause(found[1], found[2] or "", text))
            place = after
        return place + len(self.plain[place:]) - len(self.plain[place:].lstrip())

    def statement_end(self, place, end):
        """Where a statement ends, after its `;`."""
        while place < end and self.plain[place] != ";":
            place = closing(self.plain, place) if self.plain[place] in "([{" else place + 1
        return place + 1

    def past(self, place, end):
        """Where an item ends whose body or `;` is at a place."""
        if self.plain[place:place + 1] == "{":
            return closing(self.plain, place)
        return min(place + 1, end)


def read_file(path, name):
    """The items of a file."""
    source = path.read_text()
    return Reader(name, source).items(0, len(source))


def read_crates(root):
    """The crates of crates.txt, in its order, with their items."""
    crates = []
    for line in (root / "crates.txt").read_text().splitlines():
        words = line.split("#")[0].replace(":", " : ").split()
        if words:
            colon = words.index(":")
            folder = root / "crates" / words[0]
            crates.append(Crate(words[0], "staticlib" in words[:colon], folder))
    for crate in crates:
        for path in sorted((crate.folder / "src").rglob("*.rt")):
            crate.files[path] = read_file(path, str(path.relative_to(root)))
    return crates

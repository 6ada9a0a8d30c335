"""The pages: their lines, their code blocks with the markers before them, links, and headings."""

import re
import subprocess
from dataclasses import dataclass

from surface import BELOW

FENCE = re.compile(r"^(\s*)```+\s*(\w*)")
MARKER = re.compile(r"^\s*<!--\s*(from|example|not run|builds rrs)\b:?\s*(.*?)\s*-->\s*$")
LEFT_OUT = re.compile(r"^\s*(//|--|#|/\*)?\s*\.\.\s*(\*/)?$")
LINK = re.compile(r"(?<!\\)\[[^\]]*\]\(\s*<?([^)\s>]+)>?[^)]*\)|^\[[^\]]+\]:\s*(\S+)", re.M)
LONGEST = 300
SPAN = re.compile(r"(`+)(.+?)\1", re.S)


@dataclass
class Block:
    """A code block: its language, the marker before it, and its lines."""

    line: int
    language: str
    marker: str
    argument: str
    lines: list


class Page:
    """A page, with the lines that are kept by hand: those above the marker of what is made."""

    def __init__(self, root, name):
        self.name, self.path = name, root / name
        self.all_lines = self.path.read_text().splitlines()
        end = self.all_lines.index(BELOW) if BELOW in self.all_lines else len(self.all_lines)
        self.lines = self.all_lines[:end]
        self.blocks, self.text_lines = [], []
        self.read()

    def read(self):
        """Tells code blocks from text, in which a line of a block is empty."""
        block, indent = None, 0
        for number, line in enumerate(self.lines, 1):
            fence = FENCE.match(line)
            if block is not None:
                if fence and not fence[2]:
                    block = None
                else:
                    block.lines.append(line[indent:] if not line[:indent].strip() else line)
            elif fence:
                indent = len(fence[1])
                block = Block(number, fence[2], *self.marker_before(number - 1), [])
                self.blocks.append(block)
            self.text_lines.append("" if block is not None or fence else line)
        self.is_open = block is not None

    def marker_before(self, count):
        """The marker above a block that has so many lines above it, if there is one."""
        above = [line for line in self.lines[:count] if line.strip()]
        found = MARKER.match(above[-1]) if above else None
        return (found[1], found[2]) if found else ("", "")

    def paragraphs(self):
        """The runs of lines of text that are not empty, each with the number of its first line."""
        start, gathered = 0, []
        for number, line in enumerate(self.text_lines + [""], 1):
            if line.strip() and not line.lstrip().startswith(("|", "-", "#")):
                start = start if gathered else number
                gathered.append(line)
                continue
            if gathered:
                yield start, "\n".join(gathered)
                gathered = []
            if line.strip():
                start, gathered = number, [line]

    def spans(self):
        """The texts in backticks, each with the number of its line."""
        for start, text in self.paragraphs():
            for found in SPAN.finditer(text):
                yield start + text.count("\n", 0, found.start()), " ".join(found[2].split())

    def links(self):
        """The targets of links, each with the number of its line."""
        for start, text in self.paragraphs():
            text = SPAN.sub(lambda span: "`" + "\n" * span[0].count("\n") + "`", text)
            for found in LINK.finditer(text):
                yield start + text.count("\n", 0, found.start()), found[1] or found[2]

    def anchors(self):
        """What a link may name after `#`: the headings as GitHub writes them."""
        seen = {}
        block = False
        for line in self.all_lines:
            block ^= bool(FENCE.match(line))
            found = re.match(r"#{1,6}\s+(.*?)\s*#*$", line)
            if found and not block:
                name = re.sub(r"\[([^\]]*)\]\([^)]*\)", r"\1", found[1]).lower()
                name = re.sub(r"[^\w\- ]", "", name).replace(" ", "-")
                seen[name] = seen.get(name, -1) + 1
                yield name if seen[name] == 0 else f"{name}-{seen[name]}"
            yield from re.findall(r"<a (?:id|name)=\"([^\"]+)\"", line)


def files_of(root):
    """The files of the repository, those among them that are not committed yet."""
    listed = subprocess.run(["git", "-C", root, "ls-files", "-co", "--exclude-standard"],
                            capture_output=True, text=True, check=True).stdout.splitlines()
    return [name for name in sorted(set(listed)) if (root / name).is_file()]


def shift_of(wanted, line):
    """By how many columns a line stands further right than the wanted one, or None if it is
    another line."""
    if wanted.strip() != line.strip():
        return None
    return len(line) - len(line.lstrip()) - (len(wanted) - len(wanted.lstrip()))


def stands_at(piece, source, place, shift):
    """Whether lines stand in a source from a line on, all moved by as many columns."""
    if place + len(piece) > len(source):
        return False
    for wanted, line in zip(piece, source[place:]):
        if wanted.strip() != line.strip():
            return False
        if wanted.strip() and shift_of(wanted, line) != shift:
            return False
    return True


def pieces_of(lines):
    """The lines of a block in pieces, between the lines that say that something is left out.
    Empty lines at the ends of a piece are left out too."""
    pieces = [[]]
    for line in lines:
        if LEFT_OUT.match(line):
            pieces.append([])
        else:
            pieces[-1].append(line.rstrip())
    for piece in pieces:
        while piece and not piece[0]:
            piece.pop(0)
        while piece and not piece[-1]:
            piece.pop()
    return [piece for piece in pieces if piece]


def fit(pieces, source, place, shift):
    """How many of the pieces stand in a source, one after another, from a line on."""
    for count, piece in enumerate(pieces):
        starts = (at for at in range(place, len(source)) if stands_at(piece, source, at, shift))
        at = next(starts, None)
        if at is None:
            return count
        place = at + len(piece)
    return len(pieces)


def first_difference(piece, source):
    """The line of a piece after the longest beginning of it that stands in a source."""
    best = 0
    for place, line in enumerate(source):
        shift = shift_of(piece[0], line)
        length = 0
        while shift is not None and length < len(piece) and \
                stands_at(piece[length:length + 1], source, place + length, shift):
            length += 1
        best = max(best, length)
    return piece[min(best, len(piece) - 1)].strip()


def copy_mistake(lines, source):
    """Why lines are no copy of a source's, or none."""
    pieces = pieces_of(lines)
    if not pieces:
        return "the block is empty"
    starts = [(place, shift_of(pieces[0][0], line)) for place, line in enumerate(source)]
    tried = [fit(pieces, source, place, shift) for place, shift in starts if shift is not None
             and stands_at(pieces[0], source, place, shift)]
    best = max(tried, default=0)
    if best == len(pieces):
        return None
    return f"not there: `{first_difference(pieces[best], source)}`"


def check_blocks(root, page):
    """The code blocks that are not what their markers say, or have none."""
    for block in page.blocks:
        if block.marker == "from":
            source = root / block.argument
            if not source.is_file():
                yield block.line, f"copied from {block.argument}, which is not there"
            elif why := copy_mistake(block.lines, source.read_text().splitlines()):
                yield block.line, f"no copy of {block.argument}: {why}"
        elif block.marker != "example" and block.language not in ("sh", "text"):
            yield block.line, "code with neither `<!-- from PATH -->` nor `<!-- example -->`"
    if page.is_open:
        yield page.blocks[-1].line, "a code block that nothing ends"


def check_lengths(page):
    """The lines that nobody reads in an editor or in a difference."""
    for number, line in enumerate(page.lines, 1):
        if len(line) > LONGEST:
            yield number, f"a line of {len(line)} characters: {LONGEST} are the most"


def check_links(root, page, pages, files):
    """The relative links that lead nowhere."""
    for line, target in page.links():
        if re.match(r"\w+:", target):
            continue
        where, _, anchor = target.partition("#")
        path = (page.path.parent / where).resolve() if where else page.path
        name = str(path.relative_to(root)) if path.is_relative_to(root) else "?"
        if name not in files and not any(file.startswith(f"{name}/") for file in files):
            yield line, f"a link to {target}: there is no such file"
        elif anchor and name in pages and anchor not in set(pages[name].anchors()):
            yield line, f"a link to {target}: there is no such heading"

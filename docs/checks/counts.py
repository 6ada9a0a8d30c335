"""The counts that pages may give before a marker, as functions of the sources."""

import re

from layers import LISTS
from pages import SPAN

MARKER = re.compile(r"([\w,]*\w)?[`*]*\s*<!--\s*count\s+([\w:/-]*)\s*-->")
WORDS = ("no one two three four five six seven eight nine ten eleven twelve thirteen fourteen "
         "fifteen sixteen seventeen eighteen nineteen twenty").split()


class Sources:
    """What the counts are taken of."""

    def __init__(self, root, files, crates):
        self.root, self.files, self.crates = root, files, crates

    def named(self, pattern):
        """The files whose names are of this form."""
        return [name for name in self.files if re.fullmatch(pattern, name)]

    def text(self, name):
        return (self.root / name).read_text()

    def lines(self, pattern):
        """How many lines the files of this form have together."""
        return sum(len(self.text(name).splitlines()) for name in self.named(pattern))

    def matches(self, name, pattern):
        """How often a form stands in a file."""
        return len(re.findall(pattern, self.text(name), re.M))

    def items(self):
        """All items of the sources."""
        waiting = [item for crate in self.crates for items in crate.files.values()
                   for item in items]
        while waiting:
            item = waiting.pop()
            waiting += item.items
            yield item


TABLE = "crates/rrs_instruction/specs/Table.antt"
HEADER = "crates/rrs_c/include/rrs.h"
BITS = "crates/rrs_words/specs/BitInstructions.antt"
TESTS = r"crates/(?:tests_\w+/.*|\w+/src/tests)\.rt"


def row_names(sources):
    """The constructors of the rows of the table, with their names."""
    return re.findall(r"^table Row\.(\w+) =[^\"]*\"(\w+)\"", sources.text(TABLE), re.M)


def bit_rows(sources):
    """The constructors of the rows of Zba, Zbb and Zbs, with their names."""
    return re.findall(r"^bit_table (\w+) =[^\"]*\"([\w.]+)\"", sources.text(BITS), re.M)


def files_of_rows(sources):
    """The sources in which each of these rows stands by hand, by its constructor or its name."""
    made = {file for file, *_ in LISTS}
    found = [file for file in sources.named(r"crates/\w+/(src|specs|proofs)/.*") if file not in made]
    for one, name in bit_rows(sources):
        form = re.compile(rf"\b({one}|{re.escape(name)})\b")
        found = [file for file in found if form.search(sources.text(file))]
    return found


LISTED = re.compile(r"^\| `([\w/.]*/[^`]*)` \| (\d+) \|", re.M)


def listed_rows(sources):
    """The lines of the table of docs/ADDING.md: each file that an added row is written into, with
    its places."""
    return [(file, int(count)) for file, count in LISTED.findall(sources.text("docs/ADDING.md"))]


def layer_sources(sources):
    """How many of these are no tests and no pages."""
    return sum(bool(re.match(r"crates/rrs_", file)) for file, _ in listed_rows(sources))


def unlisted_files(sources):
    """The sources with each row that the table of docs/ADDING.md does not list."""
    listed = [file for file, _ in listed_rows(sources)]
    return [file for file in files_of_rows(sources) if file not in listed]


def layer_profiles(sources):
    """The files in which the profile of a hart names Zba."""
    files = sources.named(r"crates/rrs_\w+/(src|specs|include)/.*|bindings/(layouts|\w+/rrs\w*\.\w+)")
    form = re.compile(r"\bzba\b|_ZBA\b|\bZBA =|^    Zba,|TheVariants\.\{Zba\b", re.M)
    return sum(bool(form.search(sources.text(file))) for file in files)


def constant(sources, name):
    """The value of a constant of the sources."""
    values = {item.head.split(" = ")[-1] for item in sources.items()
              if item.kind == "const" and item.name == name}
    numbers = {int(value.replace("_", ""), 0) for value in values
               if re.fullmatch(r"(0x)?[\da-fA-F_]+", value)}
    return numbers.pop() if len(numbers) == 1 else None


def variants(sources, name):
    """The number of variants of an enum."""
    found = [item for item in sources.items() if item.kind == "enum" and item.name == name]
    if len(found) != 1:
        return None
    body = re.sub(r"//[^\n]*|\([^()]*\)|\{[^{}]*\}", "", found[0].body[1:-1])
    return len(re.findall(r"^\s*\w+", body, re.M))


def constructors(sources, name):
    """The number of constructors of a definition."""
    for file in sources.named(r"crates/\w+/specs/.*\.antt"):
        found = re.search(rf"^(?:pub )?data {name}\b.*\n((?:[ \t].*\n|\n)*)", sources.text(file),
                          re.M)
        if found:
            return len(re.findall(r"^  (?:pub )?\w+ :", found[1], re.M))
    return None


def crates_of(sources, wanted):
    """How many crates are of a kind."""
    return sum(bool(wanted(crate)) for crate in sources.crates)


def cache_bytes(sources):
    """What a cache of decoded words takes: a key of 4 bytes and an entry of 16 at each place."""
    return 20 * constant(sources, "ENTRIES")


def c_functions(sources):
    """The functions that C finds."""
    return sum(sources.text(file).count("unsafe(no_mangle)")
               for file in sources.named(r"crates/rrs_c/src/\w+\.rt"))


def answers(sources):
    """The stored answers of rrs-replay."""
    return len(sources.text("crates/rrs_replay/stdout").splitlines())


def given_questions(sources):
    """The stored questions whose answers come from elsewhere: those before the empty line."""
    return sources.text("crates/rrs_replay/stdin").split("\n\n")[0].count("\n") + 1


def own_answers(sources):
    """The stored answers that do not come from elsewhere."""
    return answers(sources) - given_questions(sources)


def definition_lines(sources, crate=r"\w+"):
    return sources.lines(rf"crates/(?:{crate})/specs/.*\.antt")


# The definitions that the contracts of a step and of a run cite, in the order of docs/TRUST.md.
HEADLINE = ("rrs_instruction/Words rrs_instruction/Encodings rrs_instruction/Results "
            "rrs_instruction/Table rrs_memory/Bytes rrs_lib/Machine rrs_lib/Steps "
            "rrs_memory/AccessLists rrs_lib/Accesses rrs_lib/Executor").split()


def spec_lines(sources, module):
    """The lines of one file of definitions, CRATE/NAME."""
    crate, _, name = module.partition("/")
    return sources.lines(rf"crates/{crate}/specs/{name}\.antt")


def headline_lines(sources):
    return sum(spec_lines(sources, module) for module in HEADLINE)


def code_lines(sources, crate=r"\w+"):
    return sources.lines(rf"(?!{TESTS})crates/(?:{crate})/src/.*\.rt")


def proof_lines(sources, crate=r"\w+"):
    return sources.lines(rf"crates/(?:{crate})/proofs/.*\.antt")


def rust_lines(sources, folder):
    """The lines of a folder of rust/, in Rust or Python."""
    return sources.lines(rf"rust/{folder}/.*\.(?:rs|py)")


def edits(sources, crate=r"\w+"):
    return len(sources.named(rf"crates/(?:{crate})/must-fail/.*\.edit"))


def bodies_tried_alone(sources):
    """The wrong bodies that docs/development/wrong-bodies tries."""
    return sum(sources.matches(name, r"^part: ")
               for name in sources.named(r"crates/\w+/must-fail/tried-alone\.md"))


def tests(sources, crate=r"\w+"):
    return sum(sources.matches(name, r"^\s*#\[test\]")
               for name in sources.named(rf"crates/(?:{crate})/src/.*\.rt"))


def compared(sources, what):
    """How many things of a kind tests/test_gnu_as.py compares, which it asks for."""
    found = re.search(rf"^    assert len\({what.upper()}\) == (\d+)$",
                      sources.text("tests/test_gnu_as.py"), re.M)
    return int(found[1]) if found else None


KIT = "rrs_lib|rrs_memory|rrs_instruction"

# Each count: what gives it, and to what it may be rounded. One with a colon takes what stands
# after the colon as its second argument.
COUNTS = {
    "rows": (lambda s: len(row_names(s)), 1),
    "layer-files": (lambda s: len(listed_rows(s)), 1),
    "layer-places": (lambda s: sum(places for _, places in listed_rows(s)), 1),
    "layer-sources": (layer_sources, 1),
    "layer-profiles": (layer_profiles, 1),
    "action-kinds": (lambda s: constructors(s, "Action"), 1),
    "exports": (lambda s: s.matches(HEADER, r"^[a-z]\w*[\w ]*[ *]rrs_\w+\("), 1),
    "header-lines": (lambda s: s.lines(re.escape(HEADER)), 1),
    "answers": (answers, 1),
    "answers-from-elsewhere": (given_questions, 1),
    "own-answers": (own_answers, 1),
    "compared:": (compared, 1),
    "door-questions": (lambda s: s.lines("bindings/answers/questions"), 1),
    "screens": (lambda s: s.matches("examples/rrs/screens", r"^\$ rrs"), 1),
    "crates": (lambda s: len(s.crates), 1),
    "libraries": (lambda s: crates_of(s, lambda crate: crate.is_library()), 1),
    "programs": (lambda s: crates_of(s, lambda crate: not crate.is_library()), 1),
    "test-crates": (lambda s: crates_of(s, lambda crate: crate.name.startswith("tests_")), 1),
    "edits": (edits, 1),
    "edits:": (edits, 1),
    "bodies-tried-alone": (bodies_tried_alone, 1),
    "kit-edits": (lambda s: edits(s, KIT), 1),
    "tests": (tests, 1),
    "tests:": (tests, 1),
    "code-lines": (code_lines, 100),
    "code-lines:": (code_lines, 100),
    "test-lines": (lambda s: s.lines(TESTS), 100),
    "definition-lines": (definition_lines, 100),
    "definition-lines:": (definition_lines, 10),
    "kit-definition-lines": (lambda s: definition_lines(s, KIT), 100),
    "headline-lines": (headline_lines, 1),
    "spec-lines:": (spec_lines, 1),
    "proof-lines": (proof_lines, 100),
    "proof-lines:": (proof_lines, 100),
    "rust-lines:": (rust_lines, 10),
    "cache-bytes": (cache_bytes, 1),
    "c-functions": (c_functions, 1),
    "cache-kib": (lambda s: cache_bytes(s) // 1024, 1),
    "const:": (constant, 1),
    "variants:": (variants, 1),
    "constructors:": (constructors, 1),
}


def counted(sources, name):
    """What the sources give for a name, and to what it may be rounded; or None."""
    before, colon, argument = name.partition(":")
    if before + colon not in COUNTS:
        return None, 1
    count, step = COUNTS[before + colon]
    return (count(sources, argument) if colon else count(sources)), step


def number_of(word):
    """The number that a word is, with commas or spelled out, or None."""
    word = (word or "").lower()
    if word in WORDS:
        return WORDS.index(word)
    plain = word.replace(",", "").replace("_", "")
    return int(plain) if plain.isdigit() else None


def agrees(number, count, step):
    """Whether a number is a count, or is what it is rounded to."""
    return number == count or step > 1 and number == (count + step // 2) // step * step


def markers(text):
    """The markers of a line, but for those in code."""
    shown = SPAN.sub(lambda span: "." * len(span[0]) if "<!--" in span[0] else span[0], text)
    return list(MARKER.finditer(shown))


def spelled(count, step, before):
    """A count in the form of the number that stood there: rounded, with commas, or as a word."""
    count = (count + step // 2) // step * step
    if before.lower() in WORDS and count < len(WORDS):
        word = WORDS[count]
        return word.capitalize() if before[0].isupper() else word
    return str(count) if count < 1000 or before.isdigit() and len(before) > 3 else f"{count:,}"


def with_counts(text, sources):
    """A line with the counts of the sources before its markers."""
    for found in reversed(markers(text)):
        number, (count, step) = number_of(found[1]), counted(sources, found[2])
        if None not in (number, count) and not agrees(number, count, step):
            text = text[:found.start(1)] + spelled(count, step, found[1]) + text[found.end(1):]
    return text


def check_counts(page, sources):
    """The numbers before markers that are not what the sources give."""
    for line, text in enumerate(page.lines, 1):
        for found in markers(text):
            number, (count, step) = number_of(found[1]), counted(sources, found[2])
            if count is None:
                yield line, f"there is no count `{found[2]}`"
            elif number is None:
                yield line, f"no number before the marker of `{found[2]}`, which is {count}"
            elif not agrees(number, count, step):
                yield line, f"`{found[2]}` is {count}, and not {found[1]}"


def check_rows(page, sources):
    """The sources with each row that docs/ADDING.md does not list."""
    if page.name == "docs/ADDING.md":
        for file in unlisted_files(sources):
            yield 1, f"no line of the table lists {file}, which names each row"

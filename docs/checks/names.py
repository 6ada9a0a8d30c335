"""The names in backticks: each has to stand in a source."""

import re
from fnmatch import fnmatchcase

WORD = re.compile(r"[A-Za-z_]\w*(?:-\w+)*")
PATH = re.compile(r"\w+(?:(?:::|\.)[\w-]+)+")
SCOPED = re.compile(r"\w+(?:<[^<>]*>)?(?:::\w+)+")
FILE = re.compile(r"[\w.*-]+(?:/[\w.*-]+)*/?")
ENDINGS = ("rt antt md sh py js rs c h s S bin edit txt toml ld html css").split()
COMMENTS = ((r"\.(rt|rs|c|js)$", r"//[^\n]*"), (r"\.antt$", r"--(?!\w)[^\n]*"),
            (r"(\.(py|sh|txt)|/[^.]*)$", r"(?m)(^|\s)#[^\n]*"))
BRACES = re.compile(r"(\w+)::\{([^{}]*)\}")


def without_comments(name, text):
    """A source without the comments of its language, which may name what is gone."""
    for ending, comment in COMMENTS:
        if re.search(ending, name):
            return re.sub(comment, "", text)
    return text


class Vocabulary:
    """The words, the pairs of words and the files of the sources."""

    def __init__(self, root, files, crates):
        self.files = files
        self.words, self.pairs, self.texts = set(), set(), []
        for name in files:
            self.words.update(WORD.findall(name.replace("/", " ").replace(".", " ")))
            if not name.endswith((".md", ".bin", ".png")) and not name.startswith("docs/checks/"):
                text = (root / name).read_text(errors="replace")
                self.read(without_comments(name, text))
        for crate in crates:
            self.words.add(crate.name)
            for path, items in crate.files.items():
                module = crate.name if path.stem in ("lib", "main") else path.stem
                self.add_items(module, items)

    def read(self, text):
        """Takes the words of a source, and which stand after which."""
        self.texts.append(text)
        found = WORD.findall(text)
        self.words.update(found)
        for word in found:
            if "-" in word:
                self.words.update(word.split("-"))
        self.pairs.update(re.findall(r"(?=\b(\w+)(?:<[^<>]*>)?(?:::|\.)(\w+))", text))
        for head, names in BRACES.findall(text):
            self.pairs.update((head, name) for name in re.findall(r"\w+", names))

    def add_items(self, owner, items):
        """Takes the items of a module, a type or a trait as what may stand after its name."""
        for item in items:
            name = item.name
            if item.kind == "impl":
                text = re.sub(r"<[^<>]*>", "", re.sub(r"<[^<>]*>", "", item.head))
                self.add_items(re.findall(r"\w+", text)[-1], item.items)
            elif item.kind == "use":
                self.pairs.update((owner, word) for word in WORD.findall(item.head))
            else:
                self.pairs.add((owner, name))
                self.add_items(name, item.items)
            if item.kind in ("struct", "enum"):
                self.pairs.update((name, word) for word in re.findall(r"\w+", item.body))

    def has_word(self, word):
        """Whether a word stands in a source; one that ends with `_` begins others."""
        return word in self.words or word.endswith("_") and any(
            one.startswith(word) for one in self.words)

    def has_file(self, name):
        """Whether a file or a folder ends with these parts. A part in capitals, and a `*`, stand
        for any; what is under `out` is not looked for."""
        if "out" in name.split("/"):
            return True
        parts = [r"[^/]*" if re.fullmatch(r"[A-Z]+", part) else
                 re.escape(part).replace(r"\*", r"[^/]*") for part in name.strip("/").split("/")]
        form = re.compile(rf"(?:.*/)?{'/'.join(parts)}(?:/.*)?")
        return any(form.fullmatch(file) for file in self.files)


def is_file_name(text):
    """Whether a text is written as a file or a folder is."""
    name, _, ending = text.rpartition(".")
    return bool(FILE.fullmatch(text)) and ("/" in text or bool(name) and ending in ENDINGS)


def missing_of_path(text, vocabulary):
    """The first part of a path that no source has after the one before it."""
    parts = re.findall(r"[\w-]+", re.sub(r"<[^<>]*>", "", text))
    if not parts[0][0].isalpha():
        return None
    for part in parts:
        if part not in vocabulary.words and not part.isdigit():
            return part
    if "::" in text:
        for one, other in zip(parts, parts[1:]):
            if (one, other) not in vocabulary.pairs:
                return f"{one}::{other}"
    return None


def is_made_up(word):
    """Whether a word of an expression can only be a name: it has a `_`, or capitals."""
    return len(word) > 3 and bool(re.search(r"[a-z\d]_[a-z\d]|[a-z][A-Z]|^[A-Z][a-z]", word))


def missing(text, vocabulary):
    """The part of a text in backticks that is written as a name, and stands in no source."""
    word = text.removesuffix("()")
    if is_file_name(text):
        return None if vocabulary.has_file(text) else text
    if re.fullmatch(WORD, word):
        return None if vocabulary.has_word(word) or len(word) < 3 else word
    if re.fullmatch(r"(--|\.)\w[\w-]*", text):
        return None if any(text in one for one in vocabulary.texts) else text
    if re.fullmatch(PATH, text) or re.fullmatch(SCOPED, text):
        return missing_of_path(text, vocabulary)
    for path in SCOPED.findall(text):
        if part := missing_of_path(path, vocabulary):
            return part
    made_up = (word for word in re.findall(r"[A-Za-z_]\w*", text) if is_made_up(word))
    return next((word for word in made_up if not vocabulary.has_word(word)), None)


def check_names(page, vocabulary, others):
    """The names of a page that stand in no source, and belong to no other."""
    for line, text in page.spans():
        part = missing(text, vocabulary)
        if part and not any(fnmatchcase(part, other) for other in others):
            yield line, f"`{text}`: no source has `{part}`"

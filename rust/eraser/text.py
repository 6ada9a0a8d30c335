"""The text of Rattle as tokens, and how they are changed. Nothing is parsed but brackets."""

import re

TOKEN = re.compile(
    r"""
  (?P<space>\s+) | (?P<comment>//[^\n]*|/\*.*?\*/)
| (?P<string>b?r(?P<hashes>\#*)".*?"(?P=hashes) | [bc]?"(?:\\.|[^"\\])*")
| (?P<char>b?'(?:\\(?:u\{[^}]*\}|x[0-9a-fA-F]{2}|.)|[^'\\])')
| (?P<life>'[A-Za-z_]\w*)
| (?P<name>[^\W\d]\w*) | (?P<number>\d\w*(?:\.\d\w*)?)
| (?P<mark>::|->|=>|\.\.=|\.\.\.|\.\.|&&|\|\||.)
""",
    re.X | re.S,
)
TEXT = re.compile(r'"(?:\\.|[^"\\])*"', re.S)
OPEN, CLOSE = ("(", "[", "{"), (")", "]", "}")


class Token:
    """A token: its kind, its text, and the spaces and comments before it."""

    __slots__ = ("kind", "text", "lead")

    def __init__(self, kind, text, lead):
        self.kind, self.text, self.lead = kind, text, lead

    def words(self):
        """The words of its text."""
        return re.findall(r"\w+", self.text)


def after_braces(text, at):
    """The place after the brace that closes the one at a place, in the words of a definition."""
    depth = 0
    while True:
        if text[at] == '"':
            at = TEXT.match(text, at).end()
            continue
        depth += (text[at] == "{") - (text[at] == "}")
        at += 1
        if depth == 0:
            return at


def after_ghost(text, at):
    """The place after a ghost item: after its `;` or `,`, or before the `}` of its struct."""
    while text[at] not in ";,}":
        at = after_braces(text, at) if text[at] == "{" else at + 1
    return at if text[at] == "}" else at + 1


def pieces(text):
    """The pieces (kind, text) of a source. A ghost item is one, `ghost`, and a clause, `clause`."""
    at = 0
    while at < len(text):
        begin, found = at, TOKEN.match(text, at)
        kind, at = found.lastgroup, found.end()
        if found.group() == "ghost":
            kind, at = "ghost", after_ghost(text, at)
        elif found.group() in ("requires", "ensures"):
            kind, at = "clause", after_braces(text, text.index("{", at))
        yield "string" if kind == "hashes" else kind, text[begin:at]


class Code:
    """The tokens of a source, by index. An index outside has the text ``."""

    def __init__(self, text):
        self.tokens, lead = [], ""
        for kind, piece in pieces(text):
            if kind in ("space", "comment"):
                lead += piece
            else:
                self.tokens.append(Token(kind, piece, lead))
                lead = ""
        self.tail = lead

    def __len__(self):
        return len(self.tokens)

    def text(self):
        """The source."""
        return "".join(t.lead + t.text for t in self.tokens) + self.tail

    def at(self, i):
        """The text of a token. A search that goes far outside is a mistake of a rule."""
        tokens = self.tokens
        if 0 <= i < len(tokens):
            return tokens[i].text
        assert -9 < i < len(tokens) + 9, "a rule looks for something that is not there"
        return ""

    def kind(self, i):
        """The kind of a token."""
        return self.tokens[i].kind if 0 <= i < len(self.tokens) else ""

    def texts(self, begin=0, end=None):
        """The texts of the tokens between two indexes."""
        return [t.text for t in self.tokens[begin:end]]

    def has(self, i, *texts):
        """Whether tokens with these texts stand from an index on."""
        return all(self.at(i + k) == text for k, text in enumerate(texts))

    def places(self, *texts):
        """The indexes at which tokens with these texts stand, the last first."""
        firsts = [i for i, token in enumerate(self.tokens) if token.text == texts[0]]
        return [i for i in reversed(firsts) if self.has(i, *texts)]

    def find(self, i, *texts):
        """The first index from `i` on at which one of the texts stands."""
        while self.at(i) not in texts:
            i += 1
        return i

    def find_back(self, i, *texts):
        """The last index up to `i` at which one of the texts stands."""
        while self.at(i) not in texts:
            i -= 1
        return i

    def is_mark(self, i, texts):
        """Whether a token is one of these brackets, and no character or text."""
        return self.kind(i) == "mark" and self.at(i) in texts

    def close(self, i):
        """The index of the bracket that closes the one at `i`."""
        depth = 0
        while True:
            depth += self.is_mark(i, OPEN) - self.is_mark(i, CLOSE)
            if depth == 0:
                return i
            i += 1

    def close_angle(self, i):
        """The index of the `>` that closes the `<` at `i`."""
        depth = 0
        while True:
            depth += (self.at(i) == "<") - (self.at(i) == ">")
            if depth == 0:
                return i
            i += 1

    def statement(self, i):
        """The index of the first token of the statement of a token."""
        depth = 0
        while i > 0:
            if self.is_mark(i - 1, CLOSE):
                if self.at(i - 1) == "}" and depth == 0:
                    return i
                depth += 1
            elif self.is_mark(i - 1, OPEN):
                if depth == 0:
                    return i
                depth -= 1
            elif self.at(i - 1) == ";" and depth == 0:
                return i
            i -= 1
        return i

    def arguments(self, i):
        """The number of arguments between the bracket at `i` and the one that closes it."""
        end, count, depth = self.close(i), 1, 0
        for k in range(i + 1, end - 1):
            depth += self.is_mark(k, OPEN) - self.is_mark(k, CLOSE)
            count += self.at(k) == "," and depth == 0
        return count if end > i + 1 else 0

    def cut(self, begin, end):
        """Takes tokens away. The comments before them stay, but for docs."""
        lead = self.tokens[begin].lead
        del self.tokens[begin:end]
        if begin < len(self.tokens):
            kept = re.sub(r"^[ \t]*///[^\n]*\n?", "", lead, flags=re.M)
            breaks = "\n" if "\n" in lead else ""
            self.tokens[begin].lead = (kept if kept.strip() else breaks) + self.tokens[begin].lead

    def drop(self, begin, end):
        """Takes tokens inside of a line away: what comes after them stands where they began."""
        lead = self.tokens[begin].lead
        del self.tokens[begin:end]
        if begin < len(self.tokens) and self.kind(begin) != "mark":
            is_apart = lead or self.kind(begin - 1) == "mark"
            self.tokens[begin].lead = lead if is_apart else " "

    def put(self, begin, end, text):
        """Puts code in the place of tokens."""
        new = Code(text).tokens
        new[0].lead = self.tokens[begin].lead
        self.tokens[begin:end] = new

    def rename(self, i, text):
        """Gives a token another text."""
        self.tokens[i].text = text

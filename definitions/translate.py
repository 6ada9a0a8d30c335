#!/usr/bin/env python3
"""Writes the definition files of the kit as Agda modules.

usage: translate.py CRATES OUTPUT       CRATES is the folder of the crates

A definition file `crates/NAME/specs/FILE.antt` becomes a module `NAME.FILE`, and the types of the
code that definitions speak of become `NAME.Declared`. `Definitions` imports all of them. The lines
stay in their order, comments and all. The rules are those of RULES, of what a line may be, of DECLARATIONS, and of types of the
code, of RUST. What none of them takes is an error, which names the file and the line.
"""

import re
import sys
from pathlib import Path

# The crates whose definition files go over, each with the name of its modules. A crate that is
# renamed is renamed here: neither the reading nor the laws know of its old name.
CRATES = {
    "rrs_memory": "rrs-memory",
    "rrs_instruction": "rrs-instruction",
    "rrs_lib": "rrs-lib",
    "rrs_extra": "rrs-extra",
    "rrs_fast": "rrs-fast",
    "rrs_elf": "rrs-elf",
    "rrs_words": "machine-words",
    "rrs_machine": "machine-mode",
    "rrs_hart": "hart",
    "rrs_oracle": "questions",
}

# The files that stay behind, each with the reason.
LEFT_OUT = {
    "rrs_machine.MachineRecords": "it speaks of records of rrs_trace, which do not go over",
    "rrs_memory.SpaceLends": "it speaks of when a borrow ends, in the toolchain's logic of borrows",
    "rrs_oracle.Taking": "it speaks of the code that reads a line, and no answer depends on it",
}

# Definitions that Agda is not to unfold. It unfolds the types that it checks, and a number of
# 2 ^ 31 times a variable is 2 ^ 31 sums to it. A program computes them; `refl` does not.
OPAQUE = {
    "rrs_elf.Numbers": {"half", "word"},
    "rrs_words.CsrNumbers": {"both", "either"},
}

# The libraries of the toolchain: what is imported from one of them is a line of Prelude.agda.
LIBRARIES = {"std", "core", "std_alloc", "std_collections"}

# Words that Agda keeps for itself and that are names here: they get an exclamation mark.
AGDA_WORDS = set(
    "abstract coinductive constructor data do eta-equality field forall hiding import in inductive "
    "infix infixl infixr instance interleaved let macro module mutual no-eta-equality open overlap "
    "pattern postulate primitive private public quote quoteTerm record renaming rewrite syntax "
    "tactic to unquote unquoteDecl unquoteDef using variable where with".split())

# Words of the notation that no definition may use: they are programs of proofs.
NOT_TAKEN = set("let in do elim as absurd axiom ruleset unfolding unfold mutual deriving coe hcom "
                "com 𝕀 ∨ ∧ ↦".split())

TOKEN = re.compile(r"""
    (?P<comment>--[^\n]*)
  | (?P<string>"[^"\n]*")
  | (?P<space>\s+)
  | (?P<number>0x[0-9a-f]+|[0-9]+)
  | (?P<operator>[-+*]ℤ|≤ℤ|∷|\+\+|==|&&|\|\||≡|≢|≤|⊎|¬|[-+*/%^<])
  | (?P<name>◌[^\s(){}.;,]+|if◌then◌else◌|\[\]|coded×|[^\W\d][\w']*|[_ℕℤ⊥⊤])
  | (?P<mark>[(){}.:;,=→×λ])
""", re.X)


class Untranslatable(Exception):
    """What no rule takes, with its file and line."""


class Token(str):
    """A part of a line, with its kind and the number of the line."""

    def __new__(cls, text, kind, line):
        self = super().__new__(cls, text)
        self.kind, self.line = kind, line
        return self


def tokens_of(text, line, error):
    """The tokens of a text that begins at a line."""
    found, at = [], 0
    while at < len(text):
        m = TOKEN.match(text, at)
        if not m:
            raise error(f"no rule takes {text[at:].split()[0]!r}")
        if m[0] in NOT_TAKEN:
            raise error(f"no rule takes the word {m[0]!r}")
        found.append(Token(m[0], m.lastgroup, line))
        line, at = line + m[0].count("\n"), m.end()
    return found


class Source:
    """A definition file: its crate, its name, its text, and what its declarations are."""

    def __init__(self, crate, path):
        self.crate, self.path = crate, path
        self.module = f"{CRATES[crate]}.{path.stem}"
        self.text = path.read_text()
        self.fields = {}        # record -> its fields
        self.datas = set()
        for line in self.text.split("\n"):
            if m := re.match(r" *pub record ([\w']+)", line):
                self.fields[m[1]] = record = []
            elif m := re.match(r" *pub data ([\w']+)", line):
                self.datas.add(m[1])
            elif m := re.match(r" +pub ([\w']+) :", line):
                if self.fields:
                    record.append(m[1])

    def error(self, line, what):
        return Untranslatable(f"{self.path}:{line}: {what}")

    def tokens(self, text, line):
        return tokens_of(text, line, lambda what: self.error(line, what))


def agda_name(word):
    """A name. Agda's places of operands are `_`, so a `_` in a name becomes `-`."""
    if word == "_":
        return word
    word = word.replace("◌", "\0").replace("_", "-").replace("\0", "_")
    return word + "!" if word in AGDA_WORDS else word


def field_name(word):
    """A field gets a point: a variable of its name would hide it, as in `record { pc = pc }`."""
    return agda_name(word) + "·"


def is_blank(token):
    return token.kind in ("space", "comment")


def after_blanks(tokens, at):
    while at < len(tokens) and is_blank(tokens[at]):
        at += 1
    return at


def matching(tokens, at):
    """The place of the bracket that closes the one here."""
    depth = 0
    for place in range(at, len(tokens)):
        depth += (tokens[place] in "({") - (tokens[place] in ")}")
        if depth == 0:
            return place
    return None


class Expressions:
    """The translation of types, terms and patterns in one file."""

    def __init__(self, source, constructors, datas):
        self.source, self.constructors, self.datas = source, constructors, datas
        self.own_fields = set()     # of the record at hand: its later fields use the earlier ones

    def error(self, token, what):
        return self.source.error(token.line, what)

    def text(self, text, line):
        return self.translated(self.source.tokens(text, line))

    def translated(self, tokens):
        out, at = [], 0
        while at < len(tokens):
            for rule in self.RULES:
                after = rule(self, tokens, at, out)
                if after is not None:
                    at = after
                    break
            else:
                raise self.error(tokens[at], f"no rule takes {tokens[at]!r} here")
        return "".join(out)

    # ---- the rules, in the order in which they are tried, each with its reason

    def dependent_pair(self, tokens, at, out):
        """`(x : A) × B`: Agda has a type of pairs, Σ, and no notation for it."""
        end = matching(tokens, at) if tokens[at] == "(" else None
        if end is None:
            return None
        after = after_blanks(tokens, end + 1)
        body = tokens[at + 1:end]
        colon = next((i for i, t in enumerate(body) if t == ":"), None)
        if colon is None or after == len(tokens) or tokens[after] != "×":
            return None
        names = [t for t in body[:colon] if not is_blank(t)]
        if any(t.kind != "name" for t in names):
            return None
        kind = self.translated(body[colon + 1:]).strip()
        out.append(" ".join(f"Σ ({kind}) λ {agda_name(n)} →" for n in names))
        return after + 1

    def brackets(self, tokens, at, out):
        """Brackets stay, without a comma before the closing one, which Agda does not take."""
        if tokens[at] not in "({":
            return None
        end = matching(tokens, at)
        if end is None:
            raise self.error(tokens[at], "a bracket is not closed")
        body = tokens[at + 1:end]
        last = max((i for i, t in enumerate(body) if not is_blank(t)), default=None)
        if last is not None and body[last] == ",":
            body = body[:last] + body[last + 1:]
        out.append(tokens[at] + self.translated(body) + tokens[end])
        return end + 1

    def of_a_type(self, tokens, at, out):
        """`Row.Add`, a constructor by its type: Agda has a module for each type."""
        if (tokens[at].kind == "name" and tokens[at] in self.datas
                and tokens[at + 1:at + 2] == ["."]):
            out.append(f"{agda_name(tokens[at])}.{self.constructor(tokens[at + 2])}")
            return at + 3
        return None

    def projection(self, tokens, at, out):
        """`x.f` binds tighter than application, and Agda's `x .f` does not. `.0` and `.1` are the
        parts of a pair. A tuple of three is flat in the library and a pair in a pair in Agda, so
        its parts have no numbers."""
        if tokens[at] != "." or not out or at + 1 == len(tokens) or is_blank(tokens[at - 1]):
            return None
        part = tokens[at + 1]
        if part.kind == "number":
            if part not in ("0", "1"):
                raise self.error(part, "a tuple of three or more parts")
            name = {"0": "proj₁", "1": "proj₂"}[part]
        elif part.kind == "name":
            name = field_name(part)
        else:
            return None
        out[-1] = f"({out[-1]} .{name})"
        return at + 2

    def function(self, tokens, at, out):
        """`λ x y. e`: Agda writes an arrow for the dot."""
        if tokens[at] != "λ":
            return None
        depth, end = 0, at + 1
        while end < len(tokens) and not (tokens[end] == "." and depth == 0):
            depth += (tokens[end] in "({") - (tokens[end] in ")}")
            end += 1
        if end == len(tokens):
            raise self.error(tokens[at], "a λ without its dot")
        out.append("λ" + self.translated(tokens[at + 1:end]) + " →")
        return end + 1

    def record_value(self, tokens, at, out):
        """`record { f = x; }` and `record r { .. }`: fields get their point, and Agda takes no
        semicolon before the closing bracket."""
        if tokens[at] != "record":
            return None
        start = next((i for i in range(at, len(tokens)) if tokens[i] == "{"), None)
        end = matching(tokens, start) if start else None
        if end is None:
            raise self.error(tokens[at], "a record without its brackets")
        parts, depth = [[]], 0
        for token in tokens[start + 1:end]:
            depth += (token in "({") - (token in ")}")
            if token == ";" and depth == 0:
                parts.append([])
            else:
                parts[-1].append(token)
        fields = []
        for part in parts:
            first = after_blanks(part, 0)
            if first < len(part):
                before = self.translated(part[:first])
                fields.append(f"{before}{field_name(part[first])}"
                              + self.translated(part[first + 1:]))
        out.append("record" + self.translated(tokens[at + 1:start])
                   + "{" + " ;".join(fields) + " }")
        return end + 1

    def universe(self, tokens, at, out):
        """`Type 0` is Agda's Set, and `Type 1` its Set₁."""
        if tokens[at] != "Type":
            return None
        level = after_blanks(tokens, at + 1)
        sets = {"0": "Set", "1": "Set₁"}
        if level == len(tokens) or tokens[level] not in sets:
            raise self.error(tokens[at], "a universe that is not Type 0 or Type 1")
        out.append(sets[tokens[level]])
        return level + 1

    def unit(self, tokens, at, out):
        """`Unit`, also with its `{0}`, the fact that always holds, is Agda's ⊤."""
        if tokens[at] != "Unit":
            return None
        out.append("⊤")
        start = after_blanks(tokens, at + 1)
        return start + 3 if tokens[start:start + 3] == ["{", "0", "}"] else at + 1

    def comma(self, tokens, at, out):
        """A comma is an operator in Agda, and has spaces around it."""
        if tokens[at] != ",":
            return None
        out.append(" ,")
        return at + 1

    def name(self, tokens, at, out):
        """A name, a field of the record at hand, or a constructor."""
        if tokens[at].kind != "name":
            return None
        own = tokens[at] in self.own_fields
        out.append(field_name(tokens[at]) if own else self.constructor(tokens[at]))
        return at + 1

    def as_it_is(self, tokens, at, out):
        """Agda has the same spaces, comments, numbers, texts and operators."""
        if tokens[at].kind in ("space", "comment", "number", "string", "operator"):
            out.append(tokens[at])
        elif tokens[at] in "→×:=":
            out.append(tokens[at])
        else:
            return None
        return at + 1

    RULES = [dependent_pair, brackets, of_a_type, projection, function, record_value, universe,
             unit, comma, name, as_it_is]

    def constructor(self, word):
        """A constructor with the name of a type gets a prime: Agda has one space of names."""
        return agda_name(word) + "′" if word in self.constructors else agda_name(word)


# ---- the types that the code declares

class Declared:
    """The structs and enums of a crate that definitions speak of, as records and data types."""

    def __init__(self, crate, folder):
        self.crate, self.module = crate, f"{CRATES[crate]}.Declared"
        text = "\n".join(p.read_text() for p in sorted((folder / crate / "src").rglob("*.rt")))
        text = re.sub(r"//[^\n]*", "", text)
        form = r"\b(struct|enum) (\w+)(<[^>]*>)? \{\n(.*?)\n\}"
        self.found = {m[2]: m for m in re.finditer(form, text, re.S)}
        self.fields, self.datas, self.lines = {}, set(), []
        self.foreign = {}       # types of other crates: name -> crate

    def error(self, name, what):
        return Untranslatable(f"{self.crate}: the type {name}: {what}")

    def clashes(self):
        """The constructors that have the name of a type of the crate."""
        return {c for m in self.found.values() if m[1] == "enum"
                for c in re.findall(r"^ {4}(\w+)", m[4], re.M) if c in self.found}

    def rust(self, kind, owner, parameters):
        """RUST: what a type of the code is as one of a value. A reference is its value, and beside
        it the name of what it borrows; an array and a slice are lists, and a text its bytes."""
        kind = kind.strip()
        if kind in ("u8", "u16", "u32", "u64", "usize"):
            return "ℕ"
        if kind in ("i32", "i64"):
            return "ℤ"
        if kind == "bool":
            return "Bool"
        if m := re.fullmatch(r"\[(\w+)(;.*)?\]", kind):
            return "List " + self.rust(m[1], owner, parameters)
        if m := re.fullmatch(r"(Option|Vec)<(.*)>", kind):
            return m[1] + " " + self.argument(self.rust(m[2], owner, parameters))
        if m := re.fullmatch(r"&(?:'\w+ )?mut (.*)", kind):
            return "MutBor " + self.argument(self.rust(m[1], owner, parameters))
        if kind == "&'static str":
            return "List ℕ"
        if kind == "io::Error":
            return "IoError"
        if kind in parameters or kind == "Global":
            return kind
        if re.fullmatch(r"[A-Z]\w*", kind):
            self.need(kind)
            return agda_name(kind)
        raise self.error(owner, f"no rule takes {kind!r}")

    def fact(self, text, fields):
        """A field that is a fact about those before it, in the notation of the definitions."""
        expressions = Expressions(self, set(), set())
        expressions.own_fields = set(fields)
        return expressions.text(text, 0)

    def tokens(self, text, line):
        return tokens_of(text, line, lambda what: self.error("", what))

    @staticmethod
    def argument(text):
        return f"({text})" if " " in text else text

    def need(self, name):
        """Declares a type, and those in it, once."""
        if name in self.fields or name in self.datas or name in self.foreign:
            return
        if name not in self.found:
            self.foreign[name] = None
            return
        kind, generics, body = (self.found[name][i] for i in (1, 3, 4))
        parameters = {}
        for part in (generics or "<>")[1:-1].split(","):
            if m := re.fullmatch(r"\s*const (\w+): usize", part):
                parameters[m[1]] = "ℕ"
            elif m := re.fullmatch(r"\s*(\w+)(: \w+)?", part):
                parameters[m[1]] = "Set"
        head = "".join(f" ({p} : {k})" for p, k in parameters.items())
        (self.struct if kind == "struct" else self.enum)(name, head, body, parameters)

    def struct(self, name, head, body, parameters):
        self.fields[name] = []
        made = [f"record {name}{head} : Set where", "  field"]
        for line in filter(str.strip, re.sub(r" *#\[[^\n]*", "", body).split("\n")):
            if m := re.fullmatch(r" {4}ghost (\w+): \{ (.*) \},", line):
                kind = self.fact(m[2], self.fields[name])
            elif m := re.fullmatch(r" {4}(?:pub(?:\([^)]*\))? )?(\w+): (.*),", line):
                kind = self.rust(m[2], name, parameters)
            else:
                raise self.error(name, f"no rule takes the field {line.strip()!r}")
            self.fields[name].append(m[1])
            made.append(f"    {field_name(m[1])} : {kind}")
        self.lines += made + [f"open {name} public", ""]

    def enum(self, name, head, body, parameters):
        self.datas.add(name)
        made = [f"data {name}{head} : Set where"]
        for line in filter(str.strip, re.sub(r" *#\[[^\n]*", "", body).split("\n")):
            m = re.fullmatch(r" {4}(\w+)(?:\((.*)\)| \{ (.*) \})?,", line)
            if not m:
                raise self.error(name, f"no rule takes the variant {line.strip()!r}")
            parts = m[2].split(",") if m[2] else [x.split(":")[1] for x in (m[3] or "").split(",")
                                                  if x]
            mark = "′" if m[1] in self.clashes() else ""
            types = "".join(self.rust(p, name, parameters) + " → " for p in parts)
            made.append(f"  {agda_name(m[1])}{mark} : {types}{name}")
        self.lines += made + [""]


# ---- files

class Translation:
    """All files of the crates, with what each may refer to."""

    def __init__(self, folder):
        self.folder = Path(folder)
        self.declared = {c: Declared(c, self.folder) for c in CRATES}
        self.sources, self.passed_on = {}, {}
        for crate in CRATES:
            specs = self.folder / crate / "specs"
            if not specs.is_dir():
                raise Untranslatable(f"{specs}: there is no such folder (CRATES of translate.py)")
            for path in sorted(specs.glob("*.antt")):
                if path.stem == "Lib":
                    self.read_root(crate, path)
                elif f"{crate}.{path.stem}" not in LEFT_OUT:
                    self.sources[crate, path.stem] = Source(crate, path)
        prelude = Path(__file__).with_name("Prelude.agda").read_text()
        self.prelude = set(re.sub(r"--[^\n]*", "", prelude).replace("(", " ").replace(")", " ")
                           .replace(";", " ").split())
        for source in self.sources.values():
            self.want_types(source)

    def read_root(self, crate, path):
        """A crate's root passes on the files of others under its own name."""
        for m in re.finditer(r"^pub use Rattle\.(\w+)\.specs\.(\w+)$", path.read_text(), re.M):
            self.passed_on[crate, m[2]] = m[1]

    def owner(self, crate, name, source, line):
        """The crate that declares a type: the one that is named, or one that it passes it on
        from."""
        known = [c for c in CRATES if name in self.declared[c].found]
        if crate in known:
            return crate
        if len(known) != 1:
            raise source.error(line, f"{len(known)} crates declare the type {name}")
        return known[0]

    def imports(self, source):
        """The lines `use`, each with its number and its parts."""
        form = re.compile(r"(pub )?use Rattle\.(\w+)\.(specs\.[\w.]+?)\.\{(.*?)\}$", re.S)
        for number, line in enumerate(source.text.split("\n"), 1):
            if re.match(r"(pub )?use ", line):
                m = form.match(line)
                if not m:
                    raise source.error(number, "no rule takes this use")
                yield number, m[1] or "", m[2], m[3].split(".")[1:], \
                    [x.strip() for x in m[4].split(",")]

    def want_types(self, source):
        """Declares the types of the code that a file imports, or whose variants it does."""
        for number, _, crate, path, names in self.imports(source):
            if path[0] == "declared" and crate not in LIBRARIES:
                name = path[-2] if path[-1] == "TheVariants" else path[-1]
                owner = self.owner(crate, name, source, number)
                self.declared[owner].need(name)
        for declared in self.declared.values():
            for name in [n for n, c in declared.foreign.items() if c is None]:
                owner = self.owner(declared.crate, name, source, 1)
                declared.foreign[name] = owner
                self.declared[owner].need(name)

    def module_of(self, source, number, crate, path):
        """The module, and the crate that declares a type or the file's key."""
        if crate in LIBRARIES:
            return "Prelude", None
        if crate not in CRATES:
            raise source.error(number, f"{crate} is none of the crates that go over")
        if path[0] == "declared":
            name = path[-2] if path[-1] == "TheVariants" else path[-1]
            owner = self.owner(crate, name, source, number)
            return self.declared[owner].module, (owner, name)
        key = (crate, path[0])
        while key in self.passed_on:
            key = (self.passed_on[key], path[0])
        if key not in self.sources:
            raise source.error(number, f"{crate}.{path[0]} does not go over"
                               + ": " * (key in LEFT_OUT) + LEFT_OUT.get(".".join(key), ""))
        return self.sources[key].module, key

    def modules_below(self, key):
        """The modules that a file imports from."""
        source = self.sources[key]
        return {self.module_of(source, number, crate, path)[0]
                for number, _, crate, path, _ in self.imports(source)}

    def order(self):
        """The files, each after those that it uses."""
        done = []

        def visit(key, users):
            if key in users:
                raise Untranslatable(f"{self.sources[key].path}: it uses itself")
            if key in done:
                return
            for number, _, crate, path, _ in self.imports(self.sources[key]):
                module, used = self.module_of(self.sources[key], number, crate, path)
                if module != "Prelude" and path[0] != "declared":
                    visit(used, users | {key})
            done.append(key)

        for key in self.sources:
            visit(key, frozenset())
        return done

    def modules(self):
        """The names of the modules and their texts, each after those that it uses."""
        for declared in self.declared.values():
            if declared.lines:
                yield declared.module, self.declared_text(declared)
        for key in self.order():
            yield self.sources[key].module, FileText(self, self.sources[key]).text()

    def declared_text(self, declared):
        head = [f"-- The types of crates/{declared.crate}/src that definitions speak of.",
                f"module {declared.module} where", "open import Prelude"]
        others = {}
        for name, crate in declared.foreign.items():
            others.setdefault(self.declared[crate].module, []).append(name)
        head += [f"open import {m} using ({'; '.join(n)})" for m, n in others.items()]
        return "\n".join(head + [""] + declared.lines)


class FileText:
    """The module of one file."""

    def __init__(self, translation, source):
        self.all, self.source = translation, source
        datas, primed = set(source.datas), set()
        self.records = {}       # module -> records that are imported from it
        self.behind = set()     # the modules that those import from
        for number, _, crate, path, names in translation.imports(source):
            module, key = translation.module_of(source, number, crate, path)
            if module == "Prelude":
                continue
            self.records.setdefault(module, set()).update(names)
            if path[0] != "declared":
                datas |= translation.sources[key].datas & set(names)
                self.behind |= translation.modules_below(key)
            elif path[-1] == "TheVariants":
                primed |= translation.declared[key[0]].clashes() & set(names)
            else:
                datas |= translation.declared[key[0]].datas & set(names)
        self.expressions = Expressions(source, primed, datas)

    def text(self):
        out = [f"module {self.source.module} where",
               "open import Prelude using (Σ; _×_; _,_; proj₁; proj₂; ⊤; tt; ⊥; ¬_)"]
        out += self.fields()
        self.record = None      # the indent and the name of the record at hand
        self.opaque = False     # whether the definition at hand is one that stays folded
        for line, indent, text in self.declarations():
            out += self.declaration(line, indent, text)
        out += self.end_of_record(0)
        return "\n".join(out) + "\n"

    def fields(self):
        """The fields that a file selects or sets come from the modules that it imports from. One
        that it selects may be of a record that it does not name: it comes also from the modules
        that those import from, and Agda takes the one of the record at hand. Another is one of a
        type of the code."""
        used = set(re.findall(r"\.([a-z][\w']*)|\b([a-z][\w']*) =(?!=)", re.sub(
            r"--[^\n]*", "", self.source.text)))
        selected = {a for a, _ in used}
        used = {a or b for a, b in used}
        groups = {d.module: d.fields for d in self.all.declared.values()}
        groups |= {s.module: s.fields for s in self.all.sources.values() if s is not self.source}
        groups["Prelude"] = {"Vec": ["items"], "MutBor": ["now", "ghost_name"]}
        wanted = {}
        for name in sorted(used):
            having = [m for m, records in groups.items()
                      if any(name in fs for fs in records.values())]
            named = [m for m in having if m == "Prelude" or m in self.records
                     or name in selected and m in self.behind]
            named = named or [m for m in having if m.endswith(".Declared")]
            for module in dict.fromkeys(named):
                wanted.setdefault(module, []).append(field_name(name))
        return [f"open import {m} using ({'; '.join(f)})" for m, f in wanted.items()]

    def declarations(self):
        """The declarations of a file, each with its line, its indent and its text. One goes on
        over the lines that are indented further, and over a closing bracket."""
        found = []
        for number, line in enumerate(self.source.text.split("\n"), 1):
            bare, indent = line.strip(), len(line) - len(line.lstrip())
            last = found[-1] if found else None
            goes_on = (last and bare and not bare.startswith("--") and last[2].strip()
                       and not last[2].lstrip().startswith("--")
                       and not last[2].rstrip().endswith(" where")
                       and (indent > last[1] or bare == "}"))
            if goes_on:
                last[2] += "\n" + ("  " if bare == "}" else "") + line
            else:
                found.append([number, indent, line])
        return found

    def end_of_record(self, indent):
        if self.record and indent <= self.record[0]:
            space, name = self.record
            self.record, self.expressions.own_fields = None, set()
            return [" " * space + f"open {agda_name(name)} public"]
        return []

    def declaration(self, line, indent, text):
        bare = text.strip()
        if not bare or bare.startswith("--"):
            return [text]
        before = self.end_of_record(indent)
        for form, made in self.DECLARATIONS:
            if m := re.fullmatch(form, bare, re.S):
                return before + made(self, line, " " * indent, m)
        raise self.source.error(line, f"no rule takes {bare.split(chr(10))[0]!r}")

    # ---- DECLARATIONS: what a line may be, with what it becomes

    def use(self, line, space, m):
        """An import, of the same names."""
        for number, public, crate, path, names in self.all.imports(self.source):
            if number == line:
                break
        module, key = self.all.module_of(self.source, line, crate, path)
        plain, renamed = [], []
        for name in names:
            if " as " in name:
                raise self.source.error(line, "no rule takes `as` in a use")
            made = self.expressions.constructor(name) if path[-1] == "TheVariants" \
                else agda_name(name)
            if module == "Prelude" and made not in self.all.prelude:
                raise self.source.error(line, f"{name} is no line of Prelude.agda")
            plain.append(made)
        public = " public" if public else ""
        return [f"open import {module}{public} using ({'; '.join(plain)})"]

    def header(self, line, space, m):
        """The head of a record, of a data type or of a block with parameters."""
        word, name, rest = m[1].removeprefix("pub "), m[2], m[3]
        head = f"{space}{word} {agda_name(name)}{self.expressions.text(rest, line)}where"
        if word != "record":
            return [head]
        self.record = (len(space), name)
        return [head, space + "  field"]

    def member(self, line, space, m):
        """A field of the record at hand, whose type may name the fields before it."""
        if not self.record:
            return self.signature(line, space, m)
        made = f"{space}  {field_name(m[1])} :{self.expressions.text(m[2], line)}"
        self.expressions.own_fields |= {m[1]}
        return [made]

    def signature(self, line, space, m):
        """A name and its type. `abbrev` and `unfoldable` say what the prover unfolds by itself,
        and Agda unfolds all but OPAQUE: they go."""
        made = f"{space}{agda_name(m[1])} :{self.expressions.text(m[2], line)}"
        self.opaque = m[1] in OPAQUE.get(f"{self.source.crate}.{self.source.path.stem}", ())
        return ["abstract", "  " + made] if self.opaque else [made]

    def clause(self, line, space, m):
        """A clause of a function. `{M}` on its left side binds the implicit argument M, and Agda's
        `{M}` the first one."""
        left = re.sub(r"\{(\w+)\}", r"{\1 = \1}", m[1])
        made = space + self.expressions.text(left + " =" + m[2], line)
        return ["  " + made.replace("\n", "\n  ") if self.opaque else made]

    DECLARATIONS = [
        (r"(?:pub )?use .*", use),
        (r"(pub record|pub data) ([\w']+)(.*)where", header),
        (r"(module) (_)(.*)where", header),
        (r"pub ([\w']+) :(.*)", member),
        (r"(?:abbrev|unfoldable) (?:pub )?([\w']+) :(.*)", signature),
        (r"([\w']+) :(.*)", signature),
        (r"([\w'].*?) =(\s.*)", clause),
    ]


def write(folder, module, text):
    """Writes a module, unless it stands there already, so that Agda need not read it again."""
    path = Path(folder, *module.split(".")).with_suffix(".agda")
    text = "{-# OPTIONS --safe --without-K #-}\n" + text
    path.parent.mkdir(parents=True, exist_ok=True)
    if not path.exists() or path.read_text() != text:
        path.write_text(text)
    return path


def write_all(crates, folder):
    """Writes the modules into a folder, and takes away what stands there and is none of them."""
    modules = list(Translation(crates).modules())
    every = "\n".join(["-- All of them.", "module Definitions where"]
                      + [f"import {name}" for name, _ in modules]) + "\n"
    written = {write(folder, name, text) for name, text in [*modules, ("Definitions", every)]}
    for path in set(Path(folder).rglob("*.agda")) - written:
        path.unlink()


def main():
    if len(sys.argv) != 3 or sys.argv[1].startswith("-"):
        sys.exit("usage: translate.py CRATES OUTPUT")
    try:
        write_all(*sys.argv[1:])
    except Untranslatable as error:
        sys.exit(str(error))


if __name__ == "__main__":
    main()

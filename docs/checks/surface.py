"""The part of SURFACE.md that is made: the public items, and the names of their clauses."""

import re

BELOW = "<!-- made by docs/check --write: nothing below is kept by hand -->"
KINDS = ("const", "static", "type", "struct", "enum", "trait", "fn")
PLAIN = ("From", "PartialEq")


class Modules:
    """The files of a crate as modules, and which items they make public under which path."""

    def __init__(self, crate):
        self.crate = crate
        self.source = crate.folder / "src"
        self.groups = []
        self.passed = []
        self.visit(crate.name, self.source / "lib.rt")

    def below(self, file, name):
        """The file of a module that a file names."""
        folder = file.parent if file.name == "lib.rt" else file.with_suffix("")
        return folder / f"{name}.rt"

    def items(self, file):
        return self.crate.files.get(file, [])

    def visit(self, path, file):
        """Gathers the public items of a module and of the public modules below it."""
        here = [item for item in self.items(file) if item.public and item.kind in KINDS]
        for item in self.items(file):
            if item.kind == "use" and item.public:
                here += self.used(path, file, item)
        self.groups.append((path, here))
        for item in self.items(file):
            if item.kind == "mod" and item.public:
                self.visit(f"{path}::{item.name}", self.below(file, item.name))

    def used(self, path, file, item):
        """The items that a `pub use` makes public, if they are of this crate."""
        found = re.fullmatch(r"pub use ([\w:]+?)(?:::\{([\w, ]*)\})?", item.head)
        if not found:
            raise SystemExit(f"{item.file}:{item.line}: not a form of `pub use` that is read here")
        steps, names = found[1].split("::"), found[2]
        names = re.findall(r"\w+", names) if names else [steps.pop()]
        target = self.below(file, steps[0])
        if steps[0] == "crate":
            target = self.source / "lib.rt"
        if target not in self.crate.files:
            self.passed.append((path, "::".join(steps), names))
            return []
        for step in steps[1:]:
            target = self.below(target, step)
        found = [one for one in self.items(target) if one.public and one.kind in KINDS]
        for inner in self.items(target):
            if inner.kind == "use" and inner.public:
                found += self.used(path, target, inner)
        return [one for one in found if one.name in names]

    def all_items(self):
        """The items of all files of the crate."""
        return [item for items in self.crate.files.values() for item in items]

    def blocks_of(self, name):
        """The `impl` blocks of a type."""
        return [item for item in self.all_items()
                if item.kind == "impl" and owner(item.head)[1] == name]

    def blocks_for_others(self, trait):
        """The `impl` blocks of a trait for types that are none of the crate's."""
        types = [one.name for one in self.all_items() if one.kind in ("struct", "enum", "type")]
        return [item for item in self.all_items() if item.kind == "impl"
                and last_name(owner(item.head)[0]) == trait and owner(item.head)[1] not in types]


def owner(head):
    """The trait of an `impl`, or none, and the name of its type."""
    text = re.sub(r"^(unsafe )?impl\s*", "", head)
    if text.startswith("<"):
        depth, place = 0, 0
        for place, sign in enumerate(text):
            depth += (sign == "<") - (sign == ">" and text[place - 1] != "-")
            if depth == 0:
                break
        text = text[place + 1:].strip()
    text = text.split(" where ")[0]
    trait, _, kind = text.rpartition(" for ")
    return trait, re.sub(r"^&?('\w+ )?(mut )?", "", kind).split("<")[0].strip()


def signature(item):
    """What stands before an item's body, with no `pub`."""
    text = re.sub(r"^pub ", "", item.head)
    text = re.sub(r"^(unsafe |extern \"C\" )+fn", "fn", text)
    return text.replace("( ", "(").replace(", )", ")").rstrip(",; ")


def split_at_commas(text):
    """The parts of a text between the commas that stand in no bracket."""
    parts, depth, start = [], 0, 0
    for place, sign in enumerate(text):
        depth += (sign in "([{<") - (sign in ")]}>" and text[place - 1:place + 1] != "->")
        if sign == "," and depth == 0:
            parts.append(text[start:place])
            start = place + 1
    return parts + [text[start:]]


def names_of(clauses):
    """The names of clauses, after a colon: conditions with their kind, others by name."""
    names = []
    for clause in clauses:
        kind = clause.kind if clause.kind == "requires" or not clause.name else ""
        names.append(" ".join(filter(None, (kind, clause.name))))
    return ": " + ", ".join(names) if names else ""


def types_only(text):
    """A function's signature without the names of its arguments."""
    found = re.match(r"((?:const )?fn \w+(?:<.*?>)?)\((.*)", text)
    depth, end = 1, 0
    while depth:
        depth += (found[2][end] == "(") - (found[2][end] == ")")
        end += 1
    types = (re.sub(r"^(mut )?\w+: ", "", one.strip())
             for one in split_at_commas(found[2][:end - 1]))
    return f"{found[1]}({', '.join(types)}){found[2][end:]}"


def function_lines(functions, before):
    """The lines of functions. Those of one form in a row are one line."""
    lines, last = [], None
    for one in functions:
        text = types_only(signature(one)) + names_of(one.clauses)
        form = re.sub(rf"\b{one.name}\b", "_", text)
        if form == last:
            lines[-1] += f"; {one.name}"
        else:
            lines.append(before + text)
        last = form
    return lines


def ghosts(item):
    """Whether an `impl` says something of itself that is no function."""
    return any(one.kind == "type" or one.kind == "ghost" and not one.head.startswith("ghost use")
               for one in item.items)


def trait_lines(item, modules, traits):
    """The lines of a trait: its functions, and the types of others that have it."""
    functions = [one for one in item.items if one.kind == "fn"]
    lines = [signature(item), *function_lines(functions, "  ")]
    for block in modules.blocks_for_others(item.name):
        lines += impl_lines(block, traits)
    return lines


def last_name(trait):
    """The name of a trait without its path and its arguments."""
    return trait.split("<")[0].split("::")[-1]


def type_lines(item, modules, traits):
    """The lines of a struct, an enum or an alias, with the calls of its `impl` blocks."""
    lines = [re.sub(r"(?<!\w)pub ", "", signature(item))]
    for block in modules.blocks_of(item.name):
        trait, _ = owner(block.head)
        if not trait:
            lines += function_lines([one for one in block.items if one.kind == "fn" and one.public],
                                    "  ")
        elif last_name(trait) in traits or ghosts(block) and last_name(trait) not in PLAIN:
            lines += impl_lines(block, traits)
    return lines


def impl_lines(block, traits):
    """The lines of an `impl` of a trait: the clauses that the trait lacks, by their functions."""
    known = traits.get(last_name(owner(block.head)[0]), {})
    lines = [f"  {block.head}"]
    for one in block.items:
        more = [clause for clause in one.clauses if one.kind == "fn"
                and clause.kind == "ensures" and clause.name not in known.get(one.name, [""])]
        if more:
            lines.append(f"    {one.name}{names_of(more)}")
    return lines


def item_lines(item, modules, traits):
    """The lines of an item of a module."""
    if item.kind == "fn":
        return function_lines([item], "")
    if item.kind == "trait":
        return trait_lines(item, modules, traits)
    if item.kind in ("struct", "enum", "type"):
        return type_lines(item, modules, traits)
    text = signature(item)
    return [text if len(text) < 100 else text.split(" = ")[0]]


def crate_lines(modules, traits):
    """The section of a crate: a block of lines for each module."""
    crate = modules.crate
    lines = [f"## `{crate.name}`", ""]
    for path, items in modules.groups:
        made = [line for item in items if item.kind == "fn" or not crate.is_static_library
                for line in item_lines(item, modules, traits)]
        made += [f"pub use {of}: {', '.join(names)}"
                 for by, of, names in modules.passed if by == path]
        if made:
            lines += [f"`{path}`", "", "```text", *made, "```", ""]
    return lines


def all_traits(every):
    """The public traits, with the names of the clauses of each function."""
    traits = {}
    for modules in every:
        for _, items in modules.groups:
            for item in items:
                if item.kind == "trait":
                    traits[item.name] = {one.name: [clause.name for clause in one.clauses]
                                         for one in item.items if one.kind == "fn"}
    return traits


def generated(crates):
    """The lines that the page has below its marker, the marker among them."""
    every = [Modules(crate) for crate in crates if crate.is_library()]
    every = [modules for modules in every if any(items for _, items in modules.groups)]
    traits = all_traits(every)
    lines = [BELOW, ""]
    for modules in every:
        lines += crate_lines(modules, traits)
    while lines[-1] == "":
        lines.pop()
    return lines

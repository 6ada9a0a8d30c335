"""docs/PROVED.md: each call that carries a promise has the clauses that a line names."""

import re

from surface import owner

PAGE = "docs/PROVED.md"
CALL = re.compile(r"\[`([\w:]+)`\]\(\.\./(crates/[^)#]*\.rt)\)")
NAME = re.compile(r"`(\w+)`")


def calls_of(sources, file, name):
    """The functions of a file with this name, or with this name in an `impl` or trait of a type."""
    kind, _, last = name.rpartition("::")
    for crate in sources.crates:
        for path, items in crate.files.items():
            if str(path.relative_to(sources.root)) != file:
                continue
            for item in items:
                inner = item.name if item.kind == "trait" else owner(item.head)[1]
                if item.kind in ("impl", "trait") and inner == kind:
                    yield from (one for one in item.items if one.name == last)
                elif item.kind == "fn" and item.name == last and not kind:
                    yield item


def promised(item):
    """The names of what a function ensures; a clause without a name is `ensures`."""
    return {clause.name or "ensures" for clause in item.clauses if clause.kind == "ensures"}


def check_line(sources, carried, how):
    """What is wrong with the calls of a line and their clauses."""
    calls = CALL.findall(carried)
    groups = [NAME.findall(group) for group in how.split(";")]
    if len(groups) == 1:
        groups *= len(calls)
    if calls and len(groups) != len(calls):
        yield f"{len(groups)} lists of clauses for {len(calls)} calls"
        return
    for (name, file), names in zip(calls, groups):
        found = list(calls_of(sources, file, name))
        # A call that repeats no clause has those of its trait.
        found = [item for item in found if item.clauses] or found
        if not found:
            yield f"`{name}`: no function of {file} has this name"
        elif not names:
            yield f"`{name}`: no clause is named"
        for one in names if found else []:
            if not all(one in promised(item) for item in found):
                yield f"`{name}` ensures no clause `{one}`"


def check_proved(page, sources):
    """The lines of the table whose calls or clauses are not there."""
    if page.name != PAGE:
        return
    for number, line in enumerate(page.text_lines, 1):
        cells = [cell.strip() for cell in line.strip().strip("|").split(" | ")]
        if not line.startswith("|") or len(cells) != 3 or cells[0] in ("Promise", "---|---|---"):
            continue
        if not CALL.search(cells[1]) and not cells[2].startswith("tested"):
            yield number, "carried by no call, and not tested: it belongs under `Neither`"
        for what in check_line(sources, cells[1], cells[2]):
            yield number, what

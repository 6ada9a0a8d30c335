"""The rules by which a source of Rattle becomes one of Rust, each with its reason.

A rule takes away what is only for the proof, or writes in Rust what Rust says otherwise. What it
changes in code is listed by rust/residue.
"""

import re

from .text import Code

# ------------------------------------------------------------------ what is only for the proof


def ghosts_go(code):
    """Ghost items, `requires` and `ensures` go, with their docs: only the prover reads them."""
    i = 0
    while i < len(code):
        if code.kind(i) not in ("ghost", "clause"):
            i += 1
            continue
        begin, end = i, i + 1
        if code.at(i - 1) == "pub":
            begin -= 1
        elif code.at(i - 1) == ")" and code.has(i - 4, "pub", "("):
            begin -= 4
        while code.at(end) == "*":
            end += 1
        is_clause = code.kind(i) == "clause"
        code.cut(begin, end)
        if is_clause and begin < len(code) and code.kind(begin) != "clause":
            close_header(code, begin)
        i = begin


def close_header(code, i):
    """Writes the `{` or `;` after a header whose clauses went where rustfmt writes it."""
    start = code.find_back(i - 1, "fn")
    if code.at(i) == ";":
        code.tokens[i].lead = ""
    elif "where" not in code.texts(start, i) and "//" not in code.tokens[i].lead:
        code.tokens[i].lead = " "


def models_go(code):
    """An `impl Model for ..` has ghost items alone, and its import names nothing else: both go."""
    for i in code.places("Model", "for"):
        body = code.find(i, "{")
        code.cut(code.find_back(i, "impl"), code.close(body) + 1)
    for i in code.places("use", "std", "::", "marker", "::", "Model", ";"):
        code.cut(i, i + 7)


def drops_that_take_apart_go(code):
    """An `impl Drop` with the body `let X { .. } = self;` says that the value may be dropped. In
    Rust each value may, so it goes. One with another body stays, and does not compile."""
    for i in code.places("Drop", "for"):
        body = code.find(i, "{")
        end = code.close(body)
        is_one = code.texts(body, end).count(";") == 1
        if is_one and code.has(end - 4, "=", "self", ";", "}"):
            code.cut(code.find_back(i, "impl"), end + 1)


def attributes_of_the_prover_go(code):
    """`tactic` and `cycle` are for the prover; `Drop` is no derive of Rust; `derive_where(X)` asks
    nothing of an allocator, and is `derive(X)` where there is none."""
    for i in code.places("#"):
        first = i + 2 if code.at(i + 1) == "!" else i + 1
        name = code.at(first + 1)
        end = code.close(first) + 1
        if name in ("tactic", "cycle"):
            drop_attribute(code, i, end)
        elif name == "derive":
            names = [t for t in code.texts(first + 3, end - 2) if t != ","]
            if "Drop" in names:
                names.remove("Drop")
                if names:
                    code.put(i, end, f"#[derive({', '.join(names)})]")
                else:
                    drop_attribute(code, i, end)
        elif name == "derive_where":
            code.rename(first + 1, "derive")


def drop_attribute(code, begin, end):
    """Takes an attribute away. The docs before it stay, and belong to what it belonged to."""
    lead = code.tokens[begin].lead
    del code.tokens[begin:end]
    if begin < len(code):
        after = code.tokens[begin].lead
        code.tokens[begin].lead = lead.rstrip(" ") + after.lstrip("\n") if lead else after.lstrip()


def drop_bounds_go(code):
    """`T: Drop` says in Rattle that a value may be dropped. In Rust each may, and the bound means
    another thing."""
    for i in code.places("Drop"):
        if code.at(i + 1) == "for" or code.at(i - 1) in ("::", "impl", ">", "{", ","):
            continue
        if code.at(i - 1) == "+":
            code.drop(i - 1, i + 1)
        elif code.at(i - 1) == ":" and code.at(i + 1) == "+":
            code.drop(i, i + 2)
        elif code.at(i - 1) == ":":
            start = i - 1
            while code.at(start - 1) not in ("where", ",", "<", "(", "{", ";", "}"):
                start -= 1
            if code.at(start - 1) != "where":
                code.drop(i - 1, i + 1)
                continue
            end = i + 1 + (code.at(i + 1) == ",")
            if code.at(end) in ("{", ";"):
                code.drop(start - 1, end)
                code.tokens[start - 1].lead = " " if code.at(start - 1) == "{" else ""
            else:
                code.drop(start, end)


# ------------------------------------------------------------------ what Rust says otherwise


def root_names_the_library(code, has_macros, has_tests):
    """`std` is in each crate the support crate, whose paths and macros are those of Rattle's
    library. So no path of the text changes. It stands where `tactic(auto)` stood. The macros may be
    those of tests alone."""
    where = code.places("#", "!", "[", "tactic")[0]
    lines = ["#![no_std]", ""]
    if has_macros:
        lines += ["#[allow(unused_imports)]"] if has_tests else []
        lines += ["#[macro_use]"]
    lines.append("extern crate rattle_std as std;")
    code.put(where, code.close(where + 2) + 1, "\n".join(lines))


def allocators_are_the_one(code):
    """Rust's containers take no allocator as yet. So a parameter `A: Allocator` goes, and what was
    of type `A` is a `Global`, which a caller passes as before."""
    if "Allocator" not in code.texts():
        return
    i = 0
    while i < len(code):
        if code.at(i) == "Allocator" and code.at(i - 1) in ("{", ",", "::"):
            code.rename(i, "Global")
        elif code.at(i) == "A":
            i = allocator_parameter(code, i)
        i += 1
    for i in code.places("Global", ",", "Global"):
        code.drop(i, i + 2)


def allocator_parameter(code, i):
    """Takes a parameter or an argument `A` away, or names the allocator: returns the place after."""
    end = i + 1
    if code.has(end, ":", "Allocator"):
        end = code.find(end, ",", ">")
    elif code.at(end) not in (",", ">") or code.at(i - 1) not in (",", "<"):
        code.rename(i, "Global")
        return i
    if code.at(i - 1) == "<" and code.at(end) == ">":
        code.drop(i - 1, end + 1)
    elif code.at(end) == ",":
        code.drop(i, end + 1)
    else:
        code.drop(i - 1, end)
    return i - 2


# Methods that allocate. Rattle's return a `Result`, and those of these names in Rust do not.
FALLIBLE = {
    "push": "try_push",
    "push_str": "try_push_str",
    "insert": "try_put",
    "resize": "try_resize",
    "extend_from_slice": "try_extend_from_slice",
    "clone": "try_clone",
    "reserve": "try_make_room",
    "sort_by_key": "try_sort_by_key",
}
# Methods that are passed an allocator, and functions that make a container in one.
PASSED = {
    "to_vec": "copied_in",
    "collect": "collect_in",
    "to_ascii_lowercase": "to_ascii_lowercase_in",
    "to_string": "to_string_in",
}
MAKERS = {
    ("Vec", "new"): "empty",
    ("Vec", "from_slice"): "of_slice",
    ("Vec", "with_capacity"): "with_room",
    ("String", "new"): "empty",
    ("String", "from_str"): "copied",
    ("String", "with_capacity"): "with_room",
    ("Box", "new"): "boxed",
    ("BTreeMap", "new"): "empty",
    ("BufReader", "new"): "buffered",
    ("BufWriter", "new"): "buffered",
}


def calls_that_allocate_are_fallible(code):
    """A call that allocates is passed an allocator, and returns an error where memory ran out.
    Rust's do neither, so these calls are those of `rattle_std`, under names that Rust has not."""
    for i in range(len(code)):
        name = code.at(i)
        if code.at(i - 1) == "." and code.at(i + 1) == "(":
            close = code.close(i + 1)
            if name in FALLIBLE and not is_statement(code, i, close):
                if name != "push" or code.arguments(i + 1) == 1:
                    code.rename(i, FALLIBLE[name])
            elif name in PASSED and close > i + 2:
                code.rename(i, PASSED[name])
        elif code.kind(i) == "name" and code.at(i + 1) == "::":
            maker = i + 2
            if code.at(maker) == "<":
                maker = code.close_angle(maker) + 2
            if code.at(maker + 1) == "(" and (name, code.at(maker)) in MAKERS:
                code.rename(maker, MAKERS[name, code.at(maker)])


def is_statement(code, i, close):
    """Whether a call stands alone as a statement: then what it returns is no `Result`."""
    start = code.statement(i)
    return code.at(close + 1) == ";" and not {"=", "return", "break"} & set(code.texts(start, i))


def formatters_have_no_writer(code):
    """Rust's `Formatter` has a lifetime where Rattle's has its writer."""
    i = 0
    while i < len(code):
        if code.has(i, "Formatter", "<") and code.at(i + 3) == ">":
            writer = code.at(i + 2)
            code.put(i + 2, i + 3, "'_")
            name = code.find_back(i, "fn") + 1
            if code.has(name + 1, "<", writer):
                end = code.find(name + 3, ",", ">")
                begin = name + 1 if code.at(end) == ">" else name + 2
                code.drop(begin, end + 1)
                i -= end + 1 - begin
        i += 1


def texts_are_checked(code):
    """`unsafe { str::from_utf8_unchecked(x) }` is proved to be right. Here it is checked, so that
    no crate has unsafe code."""
    for i in code.places("unsafe", "{", "str", "::", "from_utf8_unchecked"):
        end = code.close(i + 1)
        inner = "".join(t.lead + t.text for t in code.tokens[i + 5 : end]).rstrip()
        code.put(i, end + 1, f'str::from_utf8{inner}.expect("proved to be UTF-8")')


def tests_make_their_runtime(code):
    """Rattle passes a test the runtime of the host, and a test of Rust makes it. A test that
    returns a `Fail` fails by it."""
    for i in code.places("#", "[", "test", "]"):
        name = code.find(i, "fn") + 1
        if code.at(name + 2) == ")":
            continue
        close = code.close(name + 1)
        body = code.find(close, "{")
        end = code.close(body)
        runtime = code.at(name + 2) if code.at(name + 2) != "mut" else code.at(name + 3)
        made = f"let {runtime} = HostRuntime::new();" if runtime in code.texts(body, end) else ""
        if code.at(close + 1) == "->":
            code.put(end, end + 1, "}; std::test::pass(run()); }")
            code.put(close + 1, body + 1, "{ %s let run = || -> Result<(), Fail> {" % made)
        elif made:
            code.put(body, body + 1, "{ " + made)
        del code.tokens[name + 2 : close]


def main_makes_the_runtime(code):
    """Rattle passes `main` the runtime of the host, and `main` of Rust makes it."""
    for i in code.places("fn", "main", "("):
        close, runtime = code.close(i + 2), code.at(i + 3)
        if runtime != ")":
            body = code.find(close, "{")
            code.put(body, body + 1, "{ let %s = HostRuntime::new();" % runtime)
            del code.tokens[i + 3 : close]


# ------------------------------------------------------------------ what is left over


def lives_of_nothing_go(code):
    """A label that only ghosts named goes, since Rust warns of it."""
    for i in range(len(code) - 1, -1, -1):
        if code.kind(i) == "life" and code.at(i + 1) == ":":
            if code.at(i + 2) in ("while", "for", "loop"):
                end = code.close(code.find(i, "{"))
                if code.texts(i, end).count(code.at(i)) == 1:
                    code.drop(i, i + 2)


def unused_parameters_are_marked(code):
    """A parameter or a variable of a loop that only ghosts named gets a `_`, since Rust warns of
    it."""
    for i in range(len(code)):
        if code.at(i) == "fn":
            open_ = code.find(i, "(")
            close = code.close(open_)
            body = code.find(close, "{", ";")
            if code.at(body) == "{":
                used = names_in(code, body, code.close(body))
                for k in range(open_ + 1, close):
                    is_parameter = code.at(k + 1) == ":" and code.at(k - 1) in ("(", ",", "mut")
                    if is_parameter and code.kind(k) == "name" and code.at(k)[0] != "_":
                        if code.at(k) not in used and code.at(k) != "self":
                            code.rename(k, "_" + code.at(k))
        elif code.at(i) == "for" and code.kind(i + 1) == "name" and code.at(i + 2) == "in":
            body = code.find(i, "{")
            if code.at(i + 1) not in names_in(code, body, code.close(body)):
                code.rename(i + 1, "_")


def names_in(code, begin, end):
    """The names between two places, those in texts too: a format may name a variable."""
    return set(re.findall(r"\w+", " ".join(code.texts(begin, end))))


def unused_imports_go(code, ghosts):
    """An import that only ghosts named goes, since Rust warns of it. In a crate with tests it is
    theirs."""
    is_tested = bool(code.places("cfg", "(", "test", ")"))
    named = names_outside_imports(code)
    for i in code.places("use"):
        if code.at(i - 1) in ("pub", ")"):
            continue
        end = code.find(i, ";")
        for k in range(end - 1, i, -1):
            name = code.at(k)
            is_leaf = code.kind(k) == "name" and code.at(k + 1) in (",", "}", ";")
            is_ours = name in ghosts or name == "Global" or name[0].islower() and name != "self"
            if not (is_leaf and is_ours) or code.at(k - 1) == "as" or name in named:
                continue
            if code.at(k + 1) == ",":
                code.drop(k, k + 2)
            elif code.has(k - 1, ",") and code.at(k + 1) == "}":
                code.drop(k - 1, k + 1)
            elif is_tested:
                code.put(i, i + 1, "#[cfg(test)]\nuse")
            else:
                code.cut(i, code.find(i, ";") + 1)
                break


def names_outside_imports(code):
    """The names that stand elsewhere than in imports, and after no `.`."""
    names, i = set(), 0
    while i < len(code):
        if code.at(i) == "use":
            i = code.find(i, ";")
        elif code.at(i - 1) != ".":
            names.add(code.at(i))
        i += 1
    return names


# What Rust's prelude has with `std` alone, and what `rattle_std` adds to it.
PRELUDE = {
    "Vec", "String", "Box", "ToString", "ToOwned", "HostRuntime", "AllocGlobal", "Print", "Eprint",
}  # fmt: skip
ADDED = {*FALLIBLE.values(), *PASSED.values(), "to_string", "to_vec", "to_owned", "push_reserved"}
# Methods of Rust 1.87, which `rattle_std` has for those before it. From then on they are Rust's.
CASTS = ("cast_signed", "cast_unsigned")


def preludes_are_imported(code):
    """Rattle's prelude has names that Rust's without `std` has not: a source that uses one imports
    them. `write!` to a `String` is by `WriteText`, which returns an error where memory ran out; where
    `Write` of `io` is there, it writes to a file. `cast_signed` is Rust's from 1.87 on, and before it
    by a trait. An `ArrayVec` has `try_extend_from_slice` itself."""
    texts = code.texts()
    added = ADDED - {"try_extend_from_slice"} if "ArrayVec" in texts else ADDED
    wants = "format" in texts and bool(code.places("format", "!"))
    for i, text in enumerate(texts):
        before = texts[i - 1] if i else ""
        wants |= text in PRELUDE and before != "::"
        wants |= text in added and before == "."
        wants |= text in MAKERS.values() and before == "::"
        wants |= text == "alloc" and before == "." and texts[i + 1 : i + 3] == ["(", ")"]
    wanted = ["use std::prelude::*;"] if wants else []
    writes = any(code.places(name, "!") for name in ("write", "writeln"))
    to_file = re.search(r"use std :: io :: [^;]*\bWrite\b", " ".join(texts))
    if writes and "String" in texts and "Formatter" not in texts and not to_file:
        wanted.append("use std::text::WriteText;")
        for i in code.places("use", "std", "::", "fmt", "::", "Write", ";"):
            code.cut(i, i + 7)
    if any(code.places(".", name, "(") for name in CASTS):
        wanted += ["#[allow(unused_imports)]", "use std::casts::*;"]
    if not wanted:
        return
    first = next(
        (i for i in code.places("use")[::-1] if code.at(i - 1) in (";", "}", "]", "")),
        None,
    )
    if first is None:
        first = 0
        while code.has(first, "#", "!"):
            first = code.close(first + 2) + 1
    new = Code("\n".join(wanted)).tokens
    lead = code.tokens[first].lead
    head = re.match(r"(?:\s*//![^\n]*\n)*", lead).group()
    new[0].lead = head + "\n" if head else lead and "\n\n" if first else ""
    code.tokens[first].lead = "\n" + lead[len(head) :].lstrip("\n")
    code.tokens[first:first] = new


RULES = (
    ghosts_go,
    models_go,
    drops_that_take_apart_go,
    attributes_of_the_prover_go,
    drop_bounds_go,
    allocators_are_the_one,
    calls_that_allocate_are_fallible,
    formatters_have_no_writer,
    texts_are_checked,
    tests_make_their_runtime,
    main_makes_the_runtime,
    lives_of_nothing_go,
    unused_parameters_are_marked,
)
# The rules with another form: the first is of roots, and the last two come after the others.
ALL_RULES = (root_names_the_library, *RULES, unused_imports_go, preludes_are_imported)

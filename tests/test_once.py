"""What stands once stays so: functions of equal text in two files of the crates, and constants that
several crates define. Tests are left out, and functions of a line or two. The numbers below are
those that are there today. They fall with each that goes, and never rise."""

import re
from collections import defaultdict

import pytest

from support import ROOT

# functions that stand in several files, and names of constants that several crates have
FUNCTIONS, CONSTANTS = 9, 48
SHORTEST = 25
FUNCTION = re.compile(r"^( *)(?:pub(?:\(\w+\))? )?(?:const |unsafe )*fn (\w+).*?\n\1\}$", re.M | re.S)
CONSTANT = re.compile(r"^ *(?:pub(?:\(\w+\))? )?const ([A-Z]\w*):", re.M)


def sources():
    """Each file of code of the crates that are no tests, by its path, without its comments."""
    for path in sorted(ROOT.glob("crates/rrs*/src/**/*.rt")):
        yield path.relative_to(ROOT), re.sub(r"(?m)^ *//.*\n", "", path.read_text())


def functions_of(text):
    """The functions of a file, in one line each, as they stand behind `pub`."""
    for found in FUNCTION.finditer(text):
        whole = re.sub(r"^ *(pub(\(\w+\))? )?", "", found[0])
        if len(re.split(r"\{\n", whole)[-1].strip("} \n")) > SHORTEST:
            yield " ".join(whole.split())


def in_several(found):
    """What stands in more than one place, with these."""
    return {what: sorted(places) for what, places in found.items() if len(places) > 1}


def equal_functions(files):
    """The functions that stand in several of these files."""
    found = defaultdict(set)
    for path, text in files:
        for function in functions_of(text):
            found[function].add(str(path))
    return in_several(found)


def shared_constants(files):
    """The names of constants that several crates have."""
    found = defaultdict(set)
    for path, text in files:
        for name in CONSTANT.findall(text):
            found[name].add(path.parts[1])
    return in_several(found)


COUNTED = [(equal_functions, FUNCTIONS), (shared_constants, CONSTANTS)]


@pytest.mark.parametrize("counted, ceiling", COUNTED)
def test_what_stands_twice(counted, ceiling):
    found = counted(sources())
    listed = "\n".join(f"{', '.join(places)}: {what[:80]}" for what, places in found.items())
    assert len(found) == ceiling, listed


@pytest.mark.planted
@pytest.mark.parametrize("counted, ceiling", COUNTED)
def test_a_copy_is_seen(counted, ceiling):
    """One file that is copied to another crate, where a comment and `pub` are new."""
    files = list(sources())
    path, text = next((path, text) for path, text in files if path.parts[1:] == (
        "rrs_linux", "src", "requests.rt"))
    copy = re.sub(r"(?m)^(fn|const) ", r"pub \1 ", text)
    assert copy != text
    assert len(counted([*files, (path.parents[2] / "rrs_other/src/copy.rt", copy)])) > ceiling

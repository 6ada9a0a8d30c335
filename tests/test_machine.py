"""Compares the checksums of the model of machine mode (examples/machine/model.py) with those in
crates/tests_machine_mode, which the gate compares with the hart. It builds nothing."""

import re
import sys

import pytest

from support import EXAMPLES, ROOT, text_of

sys.path.insert(0, str(EXAMPLES / "machine"))

import model  # noqa: E402

TEST = ROOT / "crates/tests_machine_mode/src/generated.rt"
# each table, and whether its programs have user mode
TABLES = {"CHECKSUMS": False, "USER_CHECKSUMS": True}
PLACES = [(table, group) for table in TABLES for group in range(model.GROUPS)]


def table_of(text, name):
    """The numbers of a table of the test."""
    found = re.search(rf"const {name}[^=]*= \[(.*?)\]", text, re.S)[1]
    return [int(value.replace("_", ""), 16) for value in re.findall(r"0x[0-9a-f_]+", found)]


def differing(text, places, programs=model.PROGRAMS):
    """The places of tables that have another checksum than the model, which makes so many programs
    in each group, and the tables that have not a number for each group."""
    wrong = [name for name in TABLES if len(table_of(text, name)) != model.GROUPS]
    for name, group in places:
        numbers = table_of(text, name)
        if numbers[group:group + 1] != [model.checksum_of(group, TABLES[name], programs)]:
            wrong.append((name, group))
    return wrong


@pytest.mark.parametrize("name, group", PLACES)
def test_checksum(name, group):
    assert differing(text_of(TEST), [(name, group)]) == []


def text_with(numbers):
    """A test with these two tables, of which the second may be shorter."""
    parts = (numbers[:model.GROUPS], numbers[model.GROUPS:])
    return "".join(f"const {name}: [u32; 20] = [{', '.join(f'0x{value:08x}' for value in part)}];\n"
                   for name, part in zip(TABLES, parts))


@pytest.fixture(scope="module")
def right():
    """Both tables, of one program a group."""
    return [model.checksum_of(group, TABLES[name], 1) for name, group in PLACES]


@pytest.mark.planted
@pytest.mark.parametrize("place", range(len(PLACES)))
def test_another_checksum(right, place):
    other = [*right[:place], 0, *right[place + 1:]]
    assert differing(text_with(other), PLACES, 1) == [PLACES[place]]


@pytest.mark.planted
def test_a_table_that_is_cut_off(right):
    assert differing(text_with(right), PLACES, 1) == []
    assert differing(text_with(right[:-1]), PLACES, 1) == ["USER_CHECKSUMS", PLACES[-1]]

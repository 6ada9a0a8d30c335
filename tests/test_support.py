"""What the tests share has to tell apart what differs, and to end where a tool is missing."""

import pytest

from support import IN_CI, instead, missing, run, same, same_bytes, text_of

pytestmark = pytest.mark.planted

OTHERS = ("one\ntwo", "one\n\ntwo\n", "one\ntwo\n\n", "one \ntwo\n", " one\ntwo\n",
          "one\r\ntwo\n", "One\ntwo\n", "two\none\n", "one\n", "", "one\ntwo\ntwo\n",
          "on\0e\ntwo\n", "one\n\ttwo\n")


@pytest.mark.parametrize("other", OTHERS)
def test_two_texts(tmp_path, other):
    """Two texts that differ in little, also where they are a file's."""
    file = tmp_path / "file"
    file.write_bytes(other.encode())
    for seen in (other, text_of(file), run("cat", file).output):
        with pytest.raises(AssertionError, match="line [123] is the first that differs"):
            same(seen, "one\ntwo\n")


def test_one_text():
    same("one\ntwo\n", "one\ntwo\n")
    same_bytes("\0\xff", "\0\xff")


@pytest.mark.parametrize("other, place", [("", 0), ("\0", 1), ("\0\xfe", 1), ("\0\xff\0", 2)])
def test_other_bytes(other, place):
    with pytest.raises(AssertionError, match=f"{len(other)} bytes, and not 2; at {place} "):
        same_bytes(other, "\0\xff")


def test_where_texts_differ():
    """What is shown has the line of either text."""
    lines = [f"{number}\n" for number in range(100000)]
    with pytest.raises(AssertionError) as seen:
        same("".join(lines[:70000] + ["other\n"] + lines[70001:]), "".join(lines), "a text")
    assert "a text differs: line 70001 is" in str(seen.value)
    assert "-70000\\n\n+other\\n" in str(seen.value)


def test_another_tool(tmp_path):
    """A tool in the place of another does more, and ends otherwise."""
    other = instead(tmp_path / "bin/other", "echo", "echo more; status=3", "echo less")
    assert run(other, "a", "b c") == (3, "less\na b c\nmore\n", "")
    assert run(instead(tmp_path / "same", "echo"), "a") == (0, "a\n", "")


def test_a_tool_that_is_missing():
    """It is an error in CI, and a skip elsewhere."""
    missing_tool = pytest.fail.Exception if IN_CI else pytest.skip.Exception
    with pytest.raises(missing_tool, match="a tool"):
        missing("a tool")

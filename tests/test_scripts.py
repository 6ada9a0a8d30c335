"""The checks that are scripts still. Each runs alone, once over what is built, and once over what
is known to be wrong, with --self-test. A script ends with status 0 where all is as it should be,
and with 2 where a tool is missing."""

import re
import subprocess

import pytest

from support import IN_CI, ROOT, missing, run

pytestmark = pytest.mark.alone

SCRIPTS = (
    "docs/check", "docs/check --self-test",
    "docs/development/wrong-bodies --few", "docs/development/wrong-bodies --self-test",
    "rust/check", "rust/check --self-test",
    # a look at the input that does not wait, which the crates of plain Rust alone have
    "rust/check --board",
    "rust/every-word/check", "rust/every-word/check --self-test",
    "docs/development/refuse-each.sh", "docs/development/refuse-each.sh --self-test",
    "bindings/check.sh", "bindings/check.sh --self-test",
    "bindings/sv/check", "bindings/sv/check --self-test",
    "definitions/check", "definitions/check --self-test",
    "docs/development/speed/measure.py --check", "docs/development/speed/measure.py --self-test",
    "bindings/dist --check", "bindings/dist --self-test",
    "web/check", "web/check --self-test",
)
# what needs more than a compiler
MARKS = {"docs/development/speed/measure.py": "qemu", "rust/every-word/check": "qemu",
         "bindings/sv/check": "verilator", "web/check": "browser", "definitions/check": "qemu"}


def cases():
    """Each script with its words, and its marker if it has one."""
    for words in SCRIPTS:
        mark = MARKS.get(words.split()[0])
        yield pytest.param(words, marks=[getattr(pytest.mark, mark)] if mark else [])


def passes(*words):
    """Runs a script, which has to end with status 0."""
    __tracebackhide__ = True
    done = run(*words, cwd=ROOT, stderr=subprocess.STDOUT)
    if done.status == 2:
        missing(f"{' '.join(words)}: {(done.output.splitlines() or [''])[-1]}")
    assert done.status == 0, f"{' '.join(words)}: status {done.status}\n{done.output}"
    return done.output


@pytest.mark.parametrize("words", cases())
def test_script(words):
    print(passes(*words.split()))


def test_no_script_is_left_out():
    """Each script whose usage has --self-test is run both ways."""
    found = set()
    for name in run("git", "ls-files", cwd=ROOT).output.splitlines():
        file = ROOT / name
        if file.is_file() and file.stat().st_mode & 0o100:
            head = file.read_bytes()[:2000].decode("utf-8", "replace")
            if re.search(r"(?m)^#? *usage:(.|\n#? {4})*--self-test", head):
                found.add(name)
    assert len(found) > 5
    given = {words.split()[0] for words in SCRIPTS if words.endswith("--self-test")}
    assert found == given


@pytest.mark.planted
@pytest.mark.parametrize("status, wanted", [(0, None), (1, AssertionError), (127, AssertionError),
                                            (2, "missing")])
def test_status(tmp_path, status, wanted):
    """A script that fails is not taken for one that passes, nor one that lacks a tool."""
    script = tmp_path / "script"
    script.write_text(f"#!/bin/sh\necho first\necho last\nexit {status}\n")
    script.chmod(0o755)
    if wanted is None:
        assert passes(str(script)) == "first\nlast\n"
        return
    ends = pytest.fail.Exception if IN_CI else pytest.skip.Exception
    with pytest.raises(ends if wanted == "missing" else wanted, match="last"):
        passes(str(script))

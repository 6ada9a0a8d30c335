"""The scripts of .ci: run, built, tools and each-wrong, in a repository of two small crates that is
made, where rt, pytest and apt-get are scripts that write down how they were called. What is older
than its sources is built again, a tool that is missing is named or installed, and a part that fails
is not lost. Each script of the repository is read by the tool shellcheck, which must have nothing
to say."""

import os
import re
import shutil
import time

import pytest

from support import ROOT, run

# an rt that makes what it is asked for, where there is no file `broken`
RT = r"""#!/bin/sh
[ "$1" != doc ] || { echo "$PWD/kit/page" && exit; }
crate=$(basename "$PWD")
echo "$1 $crate" >>"$ROOM/called"
[ "$1" != ci ] || exit "$(cat "$ROOM/ci.ends" 2>/dev/null || echo 0)"
[ ! -e "$ROOM/broken" ] || { echo "it is broken" && exit 1; }
mkdir -p out
case $1 in
run) touch "out/$crate" ;;
test) touch "out/${crate}_tests" ;;
lib) touch "out/lib$crate.a" ;;
esac
"""
APT = r"""#!/bin/sh
echo "apt-get $*" >>"$ROOM/called"
[ "$1" != install ] || ln -s /bin/true "$ROOM/bin/a-missing-tool"
"""
# a pytest that ends with the status of the file of its words in `ends`, and skips what `skips` has
PYTEST = r"""#!/bin/sh
echo "pytest" >>"$ROOM/called"
for word; do
    case $word in --skipped=*) cat "$ROOM/skips" >>"${word#*=}" ;; esac
    last=$word
done
exit "$(sed -n "s/^$last //p" "$ROOM/ends" | grep . || echo 0)"
"""
# ends with the status that it is given for a wrong subject, of which only 1 is right, and with
# RIGHT for the right subject, of which only 0 is
ENDS = '#!/bin/sh\n[ "$2" != nothing ] || exit "$RIGHT"\nexit "$2"\n'
CRATES = ("low", "high", "rrs_c")
SOURCES = ("crates/high/src/lib.rt", "crates/high/specs/Lib.antt", "crates/low/src/lib.rt",
           "crates/low/specs/Lib.antt", "crates/low/proofs/Lib.antt", "crates.txt")


class Repository:
    """The repository that is made."""

    def __init__(self, room):
        self.room = room
        (room / ".ci").mkdir()
        for name in ("run", "built", "tools", "each-wrong"):
            shutil.copy(ROOT / ".ci" / name, room / ".ci")
        (room / "crates.txt").write_text("low:\nhigh: low # a program\nrrs_c staticlib: low\n")
        for crate in CRATES:
            for part in ("src", "specs", "proofs"):
                (room / "crates" / crate / part).mkdir(parents=True)
            (room / "crates" / crate / "src/lib.rt").touch()
        for name in SOURCES:
            (room / name).touch()
        (room / "skips").touch()
        (room / "ends").touch()
        for name, text in (("rt", RT), ("apt-get", APT), ("pytest", PYTEST), ("ends", ENDS)):
            self.put(f"bin/{name}", text)

    def put(self, name, text):
        """Writes a script."""
        file = self.room / name
        file.parent.mkdir(exist_ok=True)
        file.write_text(text)
        file.chmod(0o755)

    def calls(self, *words, **more):
        """What a script calls, its status, and what it prints."""
        called = self.room / "called"
        called.write_text("")
        path = {"PATH": f"{self.room}/bin:{os.environ['PATH']}", "ROOM": str(self.room)}
        given = {key: value for key, value in os.environ.items() if key != "CI"}
        done = run(*words, cwd=self.room, env={**given, **path, **more})
        return called.read_text().splitlines(), done.status, done.output

    def built(self, *words):
        """What rt is called for, and the status."""
        return self.calls(".ci/built", *words)[:2]


@pytest.fixture
def repository(tmp_path):
    return Repository(tmp_path)


def test_a_program(repository):
    """It is built where it is not there, and once."""
    assert repository.built("program", "high") == (["run high"], 0)
    assert repository.built("program", "high") == ([], 0)


@pytest.mark.parametrize("source", SOURCES)
def test_a_program_older_than_a_source(repository, source):
    repository.built("program", "high")
    later = time.time() + 3600
    os.utime(repository.room / source, (later, later))
    assert repository.built("program", "high") == (["run high"], 0)
    os.utime(repository.room / source, (later - 7200, later - 7200))
    assert repository.built("program", "high") == ([], 0)


def test_the_tests_of_a_crate(repository):
    assert repository.built("tests", "high") == (["test high"], 0)
    assert repository.built("tests", "high") == ([], 0)


def test_the_library(repository):
    assert repository.built("library") == (["lib rrs_c"], 0)
    assert repository.built("library") == ([], 0)


def test_what_does_not_build(repository):
    (repository.room / "broken").touch()
    called, status, said = repository.calls(".ci/built", "library")
    assert (called, status, said.splitlines()[0]) == (["lib rrs_c"], 1, "it is broken")


@pytest.mark.parametrize("words", [("program", "none"), ("tests",)])
def test_no_such_crate(repository, words):
    assert repository.built(*words) == ([], 2)


INSTALL = ["apt-get update", "apt-get install -y --no-install-recommends one"]


@pytest.mark.parametrize("words, in_ci, wanted", [
    (("sh=dash", "/bin/sh=dash"), {}, ([], 0, "")),
    (("a-missing=two", "sh=dash", "/none=one", "b-missing=two"), {}, ([], 2, "one two\n")),
    (("/none=one",), {"CI": "true"}, (INSTALL, 2, "one\n")),
    (("a-missing-tool=one",), {"CI": "true"}, (INSTALL, 0, "")),
])
def test_tools(repository, words, in_ci, wanted):
    """Those that are missing are named, and in CI installed."""
    assert repository.calls(".ci/tools", *words, **in_ci) == wanted


@pytest.mark.parametrize("right, wrong, wanted",
                         [("0", "0", 1), ("0", "1", 0), ("0", "2", 1), ("0", "127", 1),
                          ("1", "1", 1), ("2", "1", 1)])
def test_each_wrong(repository, right, wrong, wanted):
    status = repository.calls(".ci/each-wrong", "bin/ends", "nothing", wrong, RIGHT=right)[1]
    assert status == wanted


def ran(repository, ends="", skips="", **more):
    """How a run ends: what it calls, its status, and its last line."""
    (repository.room / "ends").write_text(ends)
    (repository.room / "skips").write_text(skips)
    called, status, said = repository.calls(".ci/run", XDIST="/bin/sh", **more)
    return called, status, re.sub(r"\d+ s$", "N s", said.splitlines()[-1])


def test_a_run_in_which_all_passes(repository):
    called, status, last = ran(repository)
    assert called[0].startswith("ci ") and called[1:] == ["pytest", "pytest"]
    assert (status, last) == (0, "== pytest -v -m alone: status 0, N s")


@pytest.mark.parametrize("ends, wanted", [("not alone 1\n", 1), ("alone 1\n", 1), ("alone 5\n", 5),
                                          ("not alone 3\nalone 1\n", 3)])
@pytest.mark.parametrize("skips", ["", "a test: a tool\n"])
def test_a_run_in_which_tests_fail(repository, ends, wanted, skips):
    """The rest runs all the same."""
    called, status, _ = ran(repository, ends, skips)
    assert (called[1:], status) == (["pytest", "pytest"], wanted)


def test_a_run_in_which_tools_are_missing(repository):
    last = "not all was compared: one: a tool; other: more"
    assert ran(repository, "", "one: a tool\nother: more\n")[1:] == (2, last)


def test_a_run_in_which_the_gate_fails(repository):
    (repository.room / "ci.ends").write_text("4")
    called, status, _ = repository.calls(".ci/run", XDIST="/bin/sh")
    assert (len(called), status) == (1, 4)


def test_a_run_without_pytest(repository):
    """Where it is missing it is installed in CI, and named elsewhere."""
    called, status, said = repository.calls(".ci/run", XDIST="/none")
    assert (called[1:], status) == ([], 2)
    assert said.endswith("not all was compared: pytest: not installed: python3-pytest-xdist\n")
    called, status, _ = repository.calls(".ci/run", XDIST="/none", CI="true")
    assert called[1:] == [*INSTALL[:1], INSTALL[1].replace("one", "python3-pytest-xdist")]
    assert status == 2


# tests that a pytest of its own runs beside the conftest.py of this folder
OF_TOOLS = """
import pytest
@pytest.mark.tools("no-such-tool=no-such-package")
def test_tool(): pass
def test_other(): pass
"""


@pytest.mark.parametrize("in_ci, status", [("", 0), ("true", 1)])
def test_what_is_skipped(repository, in_ci, status):
    """A test without its tool is skipped by the tool's name, and has failed in CI."""
    room, skipped = repository.room / "tests", repository.room / "skipped"
    room.mkdir()
    for name in ("conftest.py", "support.py"):
        shutil.copy(ROOT / "tests" / name, room)
    shutil.copy(ROOT / "pytest.ini", repository.room)
    (room / "test_of_tools.py").write_text(OF_TOOLS)
    (repository.room / "bin/pytest").unlink()
    _, ended, said = repository.calls("pytest", f"--skipped={skipped}", CI=in_ci)
    assert ended == status, said
    wanted = "not installed: no-such-package"
    assert wanted in said if in_ci else wanted in skipped.read_text()
    assert ("1 passed, 1 error" if in_ci else "1 passed, 1 skipped") in said


@pytest.mark.tools("/usr/lib/python3/dist-packages/xdist=python3-pytest-xdist")
def test_the_words_of_a_run(repository):
    """The pytest that is installed takes them, and runs each test once."""
    room = repository.room / "tests"
    room.mkdir()
    for name in ("conftest.py", "support.py"):
        shutil.copy(ROOT / "tests" / name, room)
    shutil.copy(ROOT / "pytest.ini", repository.room)
    (room / "test_of_tools.py").write_text(f"{OF_TOOLS}\n@pytest.mark.alone\n"
                                           "def test_alone(): pass\n")
    (repository.room / "bin/pytest").unlink()
    _, status, said = repository.calls(".ci/run", XDIST="/bin/sh")
    assert re.findall(r"\d (?:passed|skipped)", said) == ["1 passed", "1 skipped", "1 passed"], said
    assert said.endswith("\nnot all was compared: tests/test_of_tools.py::test_tool: "
                         "not installed: no-such-package\n")
    assert status == 2


def is_shell(file):
    """Whether a file is a script of a shell, or a part of one."""
    first = file.read_bytes().split(b"\n")[0]
    return bool(re.match(rb"#!.*\b(ba)?sh\b|.*shellcheck shell=", first))


@pytest.mark.tools("shellcheck=shellcheck")
def test_shellcheck():
    names = run("git", "ls-files", cwd=ROOT).output.splitlines()
    scripts = [name for name in names if (ROOT / name).is_file() and is_shell(ROOT / name)]
    assert len(scripts) > 15
    done = run("shellcheck", "-x", "-P", "SCRIPTDIR", *scripts, cwd=ROOT)
    assert done.status == 0, done.output

"""What pytest does for the tests of this folder.

A tool that is missing is installed where the variable CI is true, by apt-get as root, and a test
that is skipped there has failed. Elsewhere the test is skipped by the tool's name. What several
tests read is built once, also where several processes run them (pytest -n).

The program that is tried is the proved one, which `.ci/built` builds where it is older than its
sources. RRS=PATH in the environment tries another, as built/rust/target/release/rrs.
"""

import fcntl
import os
import random
import shutil
from collections import defaultdict

import pytest

from support import IN_CI, PROGRAM, ROOT, missing, need, run

# of each file the seconds that it took, and the least that the disk had left meanwhile
TAKEN = defaultdict(lambda: [0.0, float("inf")])


def pytest_addoption(parser):
    parser.addoption("--skipped", metavar="FILE", help="write which tests were skipped, and why")
    parser.addoption("--seed", type=int, help="in the place of a fresh one, which is printed")
    parser.addoption("--hours", action="store_true", help="run what takes an hour too")


def pytest_collection_modifyitems(config, items):
    """Leaves out what takes an hour, unless it is asked for, and what the program of plain Rust
    alone has, unless it is the one that is tried."""
    are_run = {"hours": config.getoption("hours"), "plain": is_plain_rust()}
    marks = [mark for mark, is_run in are_run.items() if not is_run]
    left_out = [item for item in items if any(map(item.get_closest_marker, marks))]
    items[:] = [item for item in items if item not in left_out]
    config.hook.pytest_deselected(items=left_out)


@pytest.hookimpl(tryfirst=True)
def pytest_runtest_setup(item):
    """Looks for the tools of a test, before anything is built for it."""
    for marker in item.iter_markers("tools"):
        need(*marker.args)


@pytest.hookimpl(hookwrapper=True)
def pytest_runtest_makereport(item):
    """Has a test that is skipped fail where CI is true."""
    report = (yield).get_result()
    if IN_CI and report.skipped:
        report.outcome = "failed"
        report.longrepr = f"{item.nodeid} is skipped where CI is true: {report.longrepr[2]}"
    item.has_failed = report.failed or getattr(item, "has_failed", False)


def pytest_runtest_logreport(report):
    """Adds to what a file took."""
    taken = TAKEN[report.nodeid.split("::")[0]]
    taken[0] += report.duration
    taken[1] = min(taken[1], shutil.disk_usage(ROOT).free)


def pytest_terminal_summary(terminalreporter, config):
    """Says what each file took, and writes what was skipped."""
    for name, (seconds, free) in sorted(TAKEN.items()):
        terminalreporter.write_line(f"== {name}: {seconds:.0f} s, {free / 2**30:.1f}G free")
    if config.getoption("skipped"):
        with open(config.getoption("skipped"), "a", encoding="utf-8") as file:
            for report in terminalreporter.stats.get("skipped", []):
                why = report.longrepr[2].removeprefix("Skipped: ")
                file.write(f"{report.nodeid.split('[')[0]}: {why}\n")


def is_plain_rust():
    """Whether the program is that of plain Rust, by its own help: no look at the input waits."""
    return PROGRAM.exists() and "No such look waits" in run(PROGRAM, "board", "--help").output


@pytest.fixture(scope="session")
def rrs():
    """The program."""
    if "RRS" in os.environ:
        assert PROGRAM.exists(), f"RRS is {PROGRAM}, which is not there"
        return PROGRAM
    done = run(ROOT / ".ci/built", "program", "rrs")
    if done.status == 2:
        missing(done.errors.strip())
    assert done.status == 0, done.output + done.errors
    return PROGRAM


@pytest.fixture(scope="session")
def is_plain(rrs):
    """Whether the program is that of plain Rust."""
    return is_plain_rust()


@pytest.fixture
def tmp_path(request, tmp_path):
    """The room of a test, which is removed where the test has passed."""
    yield tmp_path
    if not request.node.has_failed:
        shutil.rmtree(tmp_path, ignore_errors=True)


@pytest.hookimpl(trylast=True)
def pytest_sessionfinish(session):
    """Removes what was built once, behind the last process of a run."""
    if not hasattr(session.config, "workerinput"):
        base = session.config._tmp_path_factory.getbasetemp()
        for room in base.glob("once-*"):
            shutil.rmtree(room, ignore_errors=True)


@pytest.fixture(scope="session")
def once(request, tmp_path_factory):
    """Makes a folder of a name, which one process of the run fills: once(NAME, FILL)."""
    base = tmp_path_factory.getbasetemp()
    if hasattr(request.config, "workerinput"):  # which the processes of pytest -n have
        base = base.parent

    def make(name, fill):
        room, done = base / f"once-{name}", base / f"once-{name}.done"
        with open(base / f"once-{name}.lock", "w", encoding="utf-8") as lock:
            fcntl.flock(lock, fcntl.LOCK_EX)
            if not done.exists():
                shutil.rmtree(room, ignore_errors=True)
                room.mkdir()
                fill(room)
                done.touch()
        return room

    return make


@pytest.fixture
def seed(request, once):
    """A number for what is random, which is the same for all tests of a run."""
    number = request.config.getoption("seed")
    if number is None:
        folder = once("seed", lambda room: (room / "seed").write_text(str(random.randrange(32768))))
        number = int((folder / "seed").read_text())
    print(f"the seed is {number}: --seed {number}")
    return number

"""What rrs exec --files does with the files below a folder: the same as qemu-riscv32 does where it
runs, and none outside of it. The scripts of examples/exec/files try each way to open a file,
hostile paths, and names that change meanwhile."""

import os
import shutil
import sys
import tempfile
from pathlib import Path

import pytest

from executing import HERE, TOOLS, made
from support import run, same

pytestmark = [pytest.mark.qemu, pytest.mark.tools(*TOOLS)]
FILES = HERE / "files"


@pytest.fixture(scope="module")
def built(once):
    """The folder of the programs."""
    def build(room):
        for name in ("same", "folders", "hostile", "opens", "crowded"):
            made(HERE / "cc", "-O2", FILES / f"{name}.c", "-o", room / name)
    return once("exec-files", build)


def with_files(folder):
    """A folder with a file below it, and a link to that."""
    (folder / "dir").mkdir(parents=True)
    (folder / "dir/in").write_text("in\n")
    (folder / "link").symlink_to("dir/in")
    return folder


def listed(folder):
    """The rights, the sizes and the names of all files below a folder."""
    words = [folder, "-type", "d", "-printf", r"%M %P\n", "-o", "-printf", r"%M %s %P\n"]
    return "\n".join(sorted(made("find", *words).output.splitlines()))


def test_files_below_a_folder(rrs, built, tmp_path):
    """What two programs say of them, and the folder then."""
    own, other = (with_files(tmp_path / of) for of in ("own", "qemu"))
    for name in ("same", "folders"):
        seen = run(rrs, "exec", "--files", own, built / name)
        wants = run("qemu-riscv32", built / name, cwd=other)
        assert len(wants.output.splitlines()) > 20
        same(seen.output, wants.output, name)
        assert seen.status == wants.status
    same(listed(own), listed(other), "the folder then")


def by_script(script, *words, **how):
    """What a script of examples/exec/files prints."""
    return run(sys.executable, FILES / script, *words, **how).output


def test_ways_to_open_a_file(rrs, built):
    """The programs are where a user without rights finds them."""
    with tempfile.TemporaryDirectory() as folder:
        os.chmod(folder, 0o755)
        for path in (rrs, built / "opens"):
            shutil.copy(path, folder)
        seen = by_script("opens.py", Path(folder) / rrs.name, Path(folder) / "opens")
    same(seen, "2880 agree\n")


def test_hostile_paths(rrs, built, tmp_path):
    same(by_script("hostile.py", rrs, built / "hostile", 20, cwd=tmp_path), "ok\n")


def test_names_that_change(rrs, built, tmp_path):
    same(by_script("swapped.py", rrs, built / "hostile", 2000, "--waits", cwd=tmp_path), "ok\n")


def test_names_that_cannot_be_looked_at(rrs, built, tmp_path):
    """Of a folder that may be read and not searched, by who may not do all, the names are listed,
    of a kind that is not known. The first number has the bytes of the names, and 4000 for each of
    . and .."""
    folder = tmp_path / "some"
    folder.mkdir()
    (folder / "file").touch()
    folder.chmod(0o400)
    as_owner = []
    if os.geteuid() == 0:
        as_owner = ["setpriv", "--bounding-set=-dac_override,-dac_read_search"]
    seen = run(*as_owner, rrs, "exec", "--files", tmp_path, built / "hostile",
               input="g0 736f6d65\n")
    folder.chmod(0o700)
    same(seen.output, "g 8007 0\n")


ALL, NONE = "12102, error 0", "0, error 12"
# of 12,102 files: the memory, and what is listed of more, after two, of others, the last two, and
# where one is closed; the position after two names is one of the host's under qemu-riscv32
CROWDS = {"qemu": (None, ALL, None, ALL, ALL, ALL),
          "seven times": ("64M", ALL, "12100, error 0", ALL, ALL, ALL),
          "five times": ("8M", ALL, "12100, error 0", ALL, NONE, ALL),
          "never": ("1300K", NONE, "100, error 0", NONE, NONE, NONE)}


@pytest.mark.parametrize("name", CROWDS)
def test_many_files(rrs, built, tmp_path, name):
    """What folders list of them, where there is room to do so so often."""
    memory, more, after, others, last, closed = CROWDS[name]
    words = ["qemu-riscv32"]
    if memory:
        words = [rrs, "exec", "--memory", memory, "--files", tmp_path]
    seen = run(*words, built / "crowded", 12000, cwd=tmp_path).output.splitlines()
    wanted = ["few: 2, error 0", "many: 102, error 0", f"more: {more}", f"after two: {after}",
              "few again: 2, error 0", *[f"another: {others}"] * 4, *[f"another: {last}"] * 2,
              f"where one is closed: {closed}", "fewer: 102, error 0"]
    if after is None:
        seen[3:4] = [seen[3].split(":")[0] + ": None"]
    same("\n".join(seen), "\n".join(wanted))

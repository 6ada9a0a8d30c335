"""The commands of the pages, tried in a fresh clone, or in a room of its own."""

import os
import shutil
import subprocess
import tempfile
from pathlib import Path

EACH = """
[ ! -e "$KEPT" ] || PATH=$(cat "$KEPT")
for command in "$@"; do
    printf '$ %s\\n' "$command"
    eval "$command"
    status=$?
    echo "== status $status"
    [ "$status" = 0 ] || failed=1
done
[ -z "$KEEPS" ] || printf '%s' "$PATH" >"$KEPT"
exit "${failed:-0}"
"""


def is_whole(command):
    """Whether bash takes a text as commands that end where it ends."""
    if command.rstrip().endswith("\\"):
        return False
    tried = subprocess.run(["bash", "-n", "-c", command], capture_output=True, text=True)
    return tried.returncode == 0 and "here-document" not in tried.stderr


def commands_of(block):
    """The commands of a block: its lines, each with those that go on with it."""
    commands, begun = [], ""
    for line in block.lines:
        begun = f"{begun}\n{line}" if begun else line
        if is_whole(begun):
            if begun.strip() and not begun.lstrip().startswith("#"):
                commands.append(begun)
            begun = ""
    return commands + ([begun] if begun else [])


def fresh_clone(root, files, folder):
    """Clones a repository, with the outputs that it has. A file that is as it was keeps its time,
    or all outputs would count as older than their sources."""
    clone = Path(folder) / "clone"
    subprocess.run(["git", "clone", "--quiet", root, clone], check=True)
    for name in files:
        one, other = root / name, clone / name
        if other.is_file() and one.read_bytes() == other.read_bytes():
            shutil.copystat(one, other)
    for part in sorted({part for name in files for part in Path(name).parents}):
        if (root / part / "out").is_dir():
            shutil.copytree(root / part / "out", clone / part / "out", symlinks=True)
    return clone


def run_block(page, block, enters, clone, environment):
    """Runs the commands of a block in one bash, from the top of the clone, and says whether the
    status of each was 0. The path of a block that builds rrs is that of the blocks after it."""
    print(f"{page.name}:{block.line}", flush=True)
    words = [*enters, "bash", "-c", EACH, "bash", *commands_of(block)]
    environment = {**environment, "PAGER": "cat", "KEPT": f"{clone}.path",
                   "KEEPS": "yes" if block.marker == "builds rrs" else ""}
    return subprocess.run(words, cwd=None if enters else clone, stdin=subprocess.DEVNULL,
                          stderr=subprocess.STDOUT, env=environment).returncode == 0


def run_blocks(pages, left_out, *where):
    """Runs each block of commands but those with a marker that is left out. Returns whether all went
    well."""
    all_well = True
    for page in pages:
        for block in page.blocks:
            if block.language == "sh" and block.marker in left_out:
                print(f"{page.name}:{block.line} {block.marker}: {block.argument}".rstrip(": "))
            elif block.language == "sh":
                all_well &= run_block(page, block, *where)
    return all_well


def try_commands(root, pages, files):
    """Runs the commands of pages in a fresh clone, with what this machine has."""
    with tempfile.TemporaryDirectory() as folder:
        clone = fresh_clone(root, files, folder)
        return run_blocks(pages, ["not run"], [], clone, os.environ)


def try_commands_in(room, has_rrs, root, pages):
    """Runs them in a clone in a room, the root folder of a Debian, with what is there alone: the
    words that build rrs are left out where it has rrs."""
    subprocess.run(["git", "clone", "--quiet", root, Path(room) / "root/rrs"], check=True)
    enters = ["chroot", room, "env", "-C", "/root/rrs"]
    environment = {"PATH": "/usr/local/bin:/usr/bin:/bin:/usr/sbin:/sbin", "HOME": "/root",
                   "DEBIAN_FRONTEND": "noninteractive"}
    left_out = ["not run"] + ["builds rrs"] * has_rrs
    return run_blocks(pages, left_out, enters, "/root/rrs", environment)

"""A small repository with one thing wrong in its pages, which the check must tell."""

import os
import re
import shutil
import subprocess
import sys
import tempfile
from pathlib import Path

from surface import BELOW

TABLE = "crates/rrs_words/specs/BitInstructions.antt"
NUMBERS = "crates/rrs_words/specs/Layers.antt"
RIGHT = {
    "crates.txt": "one:\n",
    "crates/one/src/lib.rt": "//! A crate.\n\n/// One.\npub fn one_name() -> u32 {\n    1\n}\n"
                             "\n/// Two.\npub fn other_name() -> u32\n    ensures value "
                             "{ result ≡ 2 }\n    ensures { result < 3 }\n{\n    2\n}\n",
    TABLE: "bit_table Clz = bit_entry (codes \"clz\") Zbb 0x13 0x30 1 (Fixed 0)\n",
    "crates/one/specs/One.antt": "-- A number.\nuse One.{ℕ}\nabbrev pub f : ℕ → ℕ\nf 0 = 1\nf n = n\n"
                                 "module _\n    (x : ℕ) where\n  abbrev pub g : ℕ\n  g =\n      x\n",
    "crates/one/must-fail/tried-alone.md": "part: another\nfile: src/lib.rt\nold:     1\nnew:     2\n",
    "docs/ADDING.md": f"# Adding\n\n| `{TABLE}` | 1 |\n| `{NUMBERS}` | 1 |\n",
    "docs/PROVED.md": "# Proved\n\n| Promise | Carried by | How |\n|---|---|---|\n"
                      "| Two is 2 | [`other_name`](../crates/one/src/lib.rt) | `value`, `ensures` |\n",
    # the definitions of a layer, a list of it, and a file that names its instructions
    NUMBERS: "system_number Mret = 49\nsystem_number FenceI = 50\nbit_number Clz = 51\n",
    "crates/rrs_words/specs/SystemInstructions.antt":
        "system_table Mret = system_entry (codes \"mret\") 0x73\n"
        "system_table FenceI = system_entry (codes \"fence.i\") 0x0f\n",
    "bindings/layouts": "RRS_ROW_EBREAK 48\nRRS_NO_ACCESS 0\n",
    "crates/rrs_c/specs/Names.antt": "  pub above : 7 < number → name ≡ None\n",
    "docs/ASSEMBLY.md": "# Assembly\n\n<!-- example -->\n```text\n`mret`, `fence.i`, `clz`\n```\n",
    # two headings of one name
    "docs/OTHER.md": "# Other\n\n## A heading\n\n## A [heading](PROVED.md)!\n",
    "docs/development/SURFACE.md": f"# Surface\n\n{BELOW}\n",
    "README.md": """# A page

The name `one_name`, [a heading](docs/OTHER.md#a-heading), [another](docs/OTHER.md#a-heading-1), and
1<!--count crates--> crate.

<!-- from crates/one/src/lib.rt -->
```rust
pub fn one_name() -> u32 {
    1
```
""",
}

# a file, what stands in it, what stands there instead, and what is told of it
WRONG = [
    ("README.md", "    1\n", "    2\n", "no copy of crates/one/src/lib.rt: not there: `2`"),
    ("README.md", "    1\n", "      1\n", "no copy of crates/one/src/lib.rt: not there"),
    ("README.md", "from crates/one/src/lib.rt", "from none", "from none, which is not there"),
    ("README.md", "<!-- from", "<!-- of", "neither `<!-- from PATH -->` nor"),
    ("README.md", "    1\n```", "    1\n", "a code block that nothing ends"),
    ("README.md", "OTHER.md#", "NONE.md#", "there is no such file"),
    ("README.md", "#a-heading", "#another", "there is no such heading"),
    ("README.md", "#a-heading-1", "#a-heading-2", "there is no such heading"),
    ("docs/OTHER.md", "## A heading", "```sh\n## A heading\n```", "there is no such heading"),
    ("docs/OTHER.md", "## A [", "A [", "there is no such heading"),
    ("README.md", "`one_name`", "`two_name`", "no source has `two_name`"),
    ("README.md", "`one_name`", "`src/lib.r`", "no source has `src/lib.r`"),
    ("README.md", "`one_name`", "`src/lib.s`", "no source has `src/lib.s`"),
    # a path of which a part is nowhere, and those of which one stands behind no such other
    ("README.md", "`one_name`", "`one::two_name`", "no source has `two_name`"),
    ("README.md", "`one_name`", "`other_name::one_name`", "no source has `other_name::one_name`"),
    ("README.md", "`one_name`", "`one::one_name::other_name`", "no source has `one_name::other_name`"),
    # in an expression, and an option
    ("README.md", "`one_name`", "`1 + two_name(3)`", "no source has `two_name`"),
    ("README.md", "`one_name`", "`1 + other_name::one_name`", "no source has `other_name::one_name`"),
    ("README.md", "`one_name`", "`--two`", "no source has `--two`"),
    ("README.md", "1<!--", "2<!--", "`crates` is 1, and not 2"),
    ("README.md", "count crates", "count none", "there is no count `none`"),
    ("crates/one/must-fail/tried-alone.md", "old:     1", "old:     3", "this stands 0 times"),
    ("crates/one/must-fail/tried-alone.md", "old:     1", "old: u", "this stands 9 times"),
    ("docs/ADDING.md", "specs/BitInstructions.antt", "src/lib.rt", "lists " + TABLE),
    ("bindings/layouts", "RRS_ROW_MRET 49", "RRS_ROW_MRET 50", "layouts:2: the layers give `RRS_ROW_MRET 49`"),
    ("bindings/layouts", "RRS_ROW_MRET 49\n", "", "layouts:2: the layers give `RRS_ROW_MRET 49`"),
    ("bindings/layouts", "RRS_ROW_FENCE_I 50\n", "", "layouts:3: the layers give `RRS_ROW_FENCE_I 50`"),
    ("bindings/layouts", "RRS_ROW_FENCE_I", "RRS_ROW_FENCE", "layouts:3: the layers give `RRS_ROW_FENCE_I 50`"),
    ("bindings/layouts", "RRS_ROW_EBREAK", "EBREAK", "has no place: no line `RRS_ROW_EBREAK 48`"),
    ("crates/rrs_c/specs/Names.antt", "51 <", "52 <", "the layers give `  pub above : 51 < number"),
    ("crates/rrs_c/specs/Names.antt", "51 <", "51 ≤", "no line `  pub above : 51 < number"),
    (NUMBERS, "= 51", "= 52", "the layers give `RRS_ROW_CLZ 52`"),
    ("docs/ASSEMBLY.md", "`mret`", "`mre`", "ASSEMBLY.md:1: of the layers `mret` should be here"),
    ("docs/OTHER.md", "# Other", "# Other\n\n" + 301 * "x", "a line of 301 characters"),
    ("docs/PROVED.md", "`value`", "`values`", "`other_name` ensures no clause `values`"),
    ("docs/PROVED.md", "other_name", "another", "no function of crates/one/src/lib.rt has this"),
    ("docs/PROVED.md", "`value`, `ensures`", "proved", "`other_name`: no clause is named"),
    ("docs/PROVED.md", "[`other_name`](../crates/one/src/lib.rt)", "us", "carried by no call"),
    ("crates/one/src/lib.rt", "ensures value", "ensures worth", "ensures no clause `value`"),
    ("docs/development/SURFACE.md", "one_name", "two_name", "call docs/check --write"),
    ("crates/one/src/lib.rt", "ensures {", "ensures kept {", "call docs/check --write"),
    ("crates/one/src/lib.rt", "ensures {", "requires {", "call docs/check --write"),
    ("crates/one/src/lib.rt", "other_name()", "other_name(word: u32)", "call docs/check --write"),
    ("crates/one/src/lib.rt", "pub fn one_name", "fn one_name", "call docs/check --write"),
]

# the commands of a page, the status of --commands over them, and what it prints of each
COMMANDS = [
    ("```sh\ntrue\n# false\n```\n", 0, "$ true\n== status 0\n"),
    ("```sh\nfalse\ntrue\n```\n", 1, "$ false\n== status 1\n$ true\n== status 0\n"),
    ("```sh\nfalse\n```\n\n```sh\ntrue\n```\n", 1,
     "$ false\n== status 1\nanother block\n$ true\n== status 0\n"),
    ("```sh\ntest 1 = \\\n    2\n```\n", 1, "$ test 1 = \\\n    2\n== status 1\n"),
    # what goes on over lines, and what one command leaves to the next, but not to another block
    ("```sh\nfor word in one two; do\n    echo $word\ndone\ncat <<END\nfalse\nEND\n```\n", 0,
     "$ for word in one two; do\n    echo $word\ndone\none\ntwo\n== status 0\n"
     "$ cat <<END\nfalse\nEND\nfalse\n== status 0\n"),
    ("```sh\ncd docs && own=1\necho $own; ls\n```\n\n```sh\necho \"$own\" >&2\nread -r line\nls docs\n```\n", 1,
     "$ cd docs && own=1\n== status 0\n$ echo $own; ls\n1\nOTHER.md\n== status 0\nanother block\n"
     "$ echo \"$own\" >&2\n\n== status 0\n$ read -r line\n== status 1\n$ ls docs\nOTHER.md\n== status 0\n"),
    # the clone has the outputs, and the times of the files
    ("```sh\ncat crates/one/out/made\nfind crates -name lib.rt ! -newermt 2002-01-01\npwd | grep -o clone\n```\n", 0,
     "$ cat crates/one/out/made\nmade\n== status 0\n$ find crates -name lib.rt ! -newermt 2002-01-01\n"
     "crates/one/src/lib.rt\n== status 0\n$ pwd | grep -o clone\nclone\n== status 0\n"),
    ("<!-- not run: it fails -->\n```sh\nfalse\n```\n\n```text\nfalse\n```\n", 0, ""),
    # the path of a block that builds rrs stays
    ("<!-- builds rrs -->\n```sh\nPATH=/none:$PATH\n```\n\n```sh\necho ${PATH%%:*}\nPATH=/other:$PATH\n```\n\n"
     "```sh\necho ${PATH%%:*}\n```\n", 0,
     "$ PATH=/none:$PATH\n== status 0\nanother block\n$ echo ${PATH%%:*}\n/none\n== status 0\n"
     "$ PATH=/other:$PATH\n== status 0\nanother block\n$ echo ${PATH%%:*}\n/none\n== status 0\n"),
]

# a file, what stands in it, what stands there instead, and what --changed prints of that before it counts
CLAUSES = "crates/one/src/lib.rt"
DEFINITIONS = "crates/one/specs/One.antt"
CHANGES = [
    (CLAUSES, "result ≡ 2", "result ≡ 3",
     "one: other_name: ensures value\n  before: result ≡ 2\n  after: result ≡ 3\n"),
    (CLAUSES, "ensures { result < 3 }", "requires few { 3 < 4 }",
     "one: other_name: ensures\n  before: result < 3\n  after: none\n"
     "one: other_name: requires few\n  before: none\n  after: 3 < 4\n"),
    (CLAUSES, "{\n    2\n}", "{\n    3 // three\n}\n", ""),
    (DEFINITIONS, "f 0 = 1", "f 0 = 2", "one: One: f\n  before: f 0 = 1\n  after: f 0 = 2\n"),
    (DEFINITIONS, "f 0 = 1\nf n = n", "f n = n\nf 0 = 1", "one: One: f\n  before: abbrev pub f : ℕ → ℕ\n"
     "  before: f 0 = 1\n  before: f n = n\n  after: abbrev pub f : ℕ → ℕ\n  after: f n = n\n  after: f 0 = 1\n"),
    (DEFINITIONS, "      x\n", "      0\n", "one: One: g\n  before: g = x\n  after: g = 0\n"),
    (DEFINITIONS, "(x : ℕ)", "(x y : ℕ)", "one: One: module\n  before: module _ (x : ℕ) where\n"
     "  after: module _ (x y : ℕ) where\n"),
    (DEFINITIONS, "-- A number.\nuse One.{ℕ}", "-- Another.\n\nuse Two.{ℕ}", ""),
]


def checked(folder, *words):
    """The status of the check in a repository, and what it prints."""
    run = subprocess.run([sys.executable, folder / "docs/check", *words], capture_output=True,
                         text=True, check=False)
    return run.returncode, run.stdout + run.stderr


def told_of_commands(folder, text):
    """The status of --commands over a page, and what it prints of each command."""
    (folder / "docs/OTHER.md").write_text(text)
    status, said = checked(folder, "--commands", "docs/OTHER.md")
    head, *blocks = re.split(r"^docs/OTHER\.md:\d+\n", said, flags=re.M)
    return status, "another block\n".join(blocks)


def self_test(root):
    """Tries the check on what is right, and on each wrong page. Returns 0 where all is told."""
    missed = []
    with tempfile.TemporaryDirectory() as name:
        folder = Path(name)
        for file, text in RIGHT.items():
            (folder / file).parent.mkdir(parents=True, exist_ok=True)
            # --write has to set the number before the marker
            (folder / file).write_text(text.replace("1<!--count", "7<!--count"))
        shutil.copy(root / "docs/check", folder / "docs")
        shutil.copytree(root / "docs/checks", folder / "docs/checks")
        subprocess.run(["git", "init", "--quiet", folder], check=True)
        own = ["git", "-C", folder, "-c", "user.name=one", "-c", "user.email=one@localhost"]
        subprocess.run([*own, "commit", "--quiet", "--allow-empty", "-m", "Begin"], check=True)
        checked(folder, "--write")
        status, said = checked(folder)
        if status != 0:
            missed.append(f"status {status} where nothing is wrong: {said}")
        for file, old, new, wanted in WRONG:
            path = folder / file
            text = path.read_text()
            path.write_text(text.replace(old, new, 1))
            status, said = checked(folder)
            path.write_text(text)
            if status != 1 or wanted not in said or text.count(old) == 0:
                missed.append(f"{file}: {new!r} for {old!r}: status {status}, {said}")
        subprocess.run([*own, "add", "docs/OTHER.md", "crates", "crates.txt"], check=True)
        subprocess.run([*own, "commit", "--quiet", "-m", "Add what the clone has"], check=True)
        for file, old, new, wanted in CHANGES:
            path = folder / file
            text = path.read_text()
            path.write_text(text.replace(old, new, 1))
            status, said = checked(folder, "--changed", "HEAD")
            is_told = said.rsplit("\n", 2)[0] + "\n" == wanted or said.startswith("0 ") and not wanted
            between = checked(folder, "--changed", "HEAD", "HEAD")
            path.write_text(text)
            if status != 0 or not is_told or text.count(old) == 0 or not between[1].startswith("0 "):
                missed.append(f"--changed: {new!r} for {old!r}: status {status}, {said}")
        os.utime(folder / "crates/one/src/lib.rt", (1e9, 1e9))
        (folder / "crates/one/out").mkdir()
        (folder / "crates/one/out/made").write_text("made\n")
        for text, *wanted in COMMANDS:
            told = told_of_commands(folder, text)
            if [*told] != wanted:
                missed.append(f"commands {text!r}: {told}")
    print("\n".join([*missed, f"self-test: status {int(bool(missed))}"]))
    return int(bool(missed))

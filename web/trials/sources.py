"""Sources of assembly, which the page has assembled by the library: it tells what `rrs as` does."""

import json
import pathlib
import re
import subprocess
import sys
import tempfile

from trials.generated import node
from trials.report import Differs, same
from trials.running import RRS
from trials.view import WEB

ASSEMBLY = WEB.parent / "examples" / "assembly"
STATEMENTS = 1000
# changed lines, of which each source has some, since twenty mistakes are told of one
CHANGED, TOGETHER = 2000, 20
ROW = re.compile(r"([0-9a-f]{8})  [0-9a-f ]{8}(?: +(\d+)  .*)?")
MISTAKE = re.compile(r".*?:(\d+):(\d+): (.*)")
# a `b` of RARS, which is a jump to the page and no instruction to `rrs as`
OF_RARS = re.compile(r"(^|:|;)\s*b(?![\w.$])")


def lines(*arguments):
    """Lines of the comparison with GNU as, which have any byte."""
    run = subprocess.run([sys.executable, ASSEMBLY / "lines.py", *map(str, arguments)],
                         capture_output=True, check=True)
    return run.stdout.decode("latin1")


def assembled(*words):
    return subprocess.run([RRS / "out" / "rrs", "as", *words], capture_output=True, check=False)


def rows_of(listing):
    """The numbers of lines in a listing, and the addresses of what stands there."""
    rows, line = [], None
    for row in filter(None, map(ROW.fullmatch, listing.split("\n"))):
        line = int(row[2]) if row[2] else line
        rows.append([line, int(row[1], 16)])
    return rows


def mistakes_of(errors, text):
    """The mistakes that are told, each with the character of its line in place of the byte."""
    told = []
    for number, column, what in map(re.Match.groups, filter(None, map(MISTAKE.fullmatch, errors))):
        before = text.split("\n")[int(number) - 1].encode()[:int(column) - 1]
        letters = len(before.decode(errors="ignore").encode("utf-16-le")) // 2
        told.append(f"{number}:{letters + 1} {what}")
    return told


def as_proved(path, text):
    """What `rrs as` makes of a source: its bytes, where each statement lies, and its mistakes."""
    made = assembled(path)
    mistakes = mistakes_of(made.stderr.decode().split("\n"), text)
    rows = [] if mistakes else rows_of(assembled("--list", path).stdout.decode())
    return {"bytes": made.stdout.hex(), "rows": sorted(rows), "mistakes": mistakes}


def of_folders():
    """The examples in folders, but for those that name files, which the page has not."""
    return [path for path in sorted(ASSEMBLY.glob("*/*.s")) if path.parent.name != "files"]


def texts():
    """Sources by their names: those of the examples, in both forms of ends of lines, statements of
    every kind, and lines that are changed."""
    for path in [*sorted(ASSEMBLY.glob("*.s")), *of_folders()]:
        text = path.read_text(encoding="utf-8")
        name = f"{path.parent.name}-{path.name}"
        yield name, text
        yield f"crlf-{name}", text.replace("\n", "\r\n")
    yield "statements.s", lines(1, STATEMENTS)
    changed = lines(31, CHANGED, "changed").split("\n")
    for at in range(0, CHANGED, TOGETHER):
        of_both = (line for line in changed[at:at + TOGETHER] if not OF_RARS.search(line))
        yield f"changed-{at}.s", "\n".join(of_both)


def sources():
    """sources give the bytes, the places of statements and the mistakes that `rrs as` tells"""
    with tempfile.TemporaryDirectory() as name:
        folder, given = pathlib.Path(name), dict(texts())
        for source, text in given.items():
            (folder / source).write_bytes(text.encode())
        status, said = node("sources.js", *(folder / source for source in given))
        if status:
            raise Differs(said)
        came = list(map(json.loads, said.splitlines()))
        same("how many sources were assembled", len(given), len(came))
        mistakes = 0
        for (source, text), got in zip(given.items(), came):
            got["rows"].sort()
            same(f"what comes of {source}", as_proved(folder / source, text), got)
            mistakes += len(got["mistakes"])
        same("whether there are mistakes enough", True, mistakes > CHANGED // 2)
    return f"{len(given)} sources, {mistakes:,} mistakes"


def classroom():
    """programs as classes have them print and end in the page as they do under rrs exec"""
    paths = [path for path in of_folders() if not path.with_suffix(".in").exists()]
    status, said = node("classroom.js", *paths)
    if status:
        raise Differs(said)
    came = said.splitlines()
    same("how many programs were tried", len(paths), len(came))
    for path, end in zip(paths, came):
        wanted = path.with_suffix(".out").read_text(encoding="latin1")
        same(f"what {path.name} prints, and its status", wanted, json.loads(end))
    return f"{len(paths)} programs"

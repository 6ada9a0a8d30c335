#!/usr/bin/env python3
"""Makes the pages of man of rrs, of each subcommand and of other programs from what the help says.

usage: man.py VERSION RRS FOLDER [PROGRAM ..]
"""
import os
import re
import subprocess
import sys

VERSION, RRS, FOLDER, *PROGRAMS = sys.argv[1:]


def help_of(*words):
    """The usage of what a command says, and the paragraphs before and behind it."""
    said = subprocess.run(words, capture_output=True, text=True, check=True).stdout
    paragraphs = said.rstrip("\n").split("\n\n")
    usage = next(text for text in paragraphs if text.startswith("usage: "))
    paragraphs.remove(usage)
    lines = usage.removeprefix("usage: ").split("\n")
    return [re.sub(r"\s+", " ", line).strip() for line in lines], paragraphs


def escaped(text):
    """A text as roff takes it."""
    text = text.replace("\\", "\\e").replace("-", "\\-")
    return "\n".join("\\&" + line if line[:1] in (".", "'") else line for line in text.split("\n"))


def joined(lines):
    """The usages of a subcommand: a line that does not begin with rrs goes on with the one before."""
    usages = []
    for line in lines:
        if line.startswith("rrs"):
            usages.append(line)
        else:
            usages[-1] += " " + line
    return usages


def paragraph(text):
    """A paragraph; lines that are indented stay lines."""
    parts = []
    for line in text.split("\n"):
        is_shown = line.startswith("  ")
        if not parts or parts[-1][0] != is_shown:
            parts.append((is_shown, []))
        parts[-1][1].append(line)
    for is_shown, lines in parts:
        body = escaped("\n".join(lines))
        yield f".PP\n.nf\n{body}\n.fi" if is_shown else f".PP\n{body}"


def page(name, summary, usages, paragraphs, others):
    """The page of man of a subcommand, or of rrs itself."""
    yield f'.TH {name.upper()} 1 "" "rrs {VERSION}" "User Commands"'
    yield f".SH NAME\n{name} \\- {escaped(summary)}\n.SH SYNOPSIS"
    for usage in usages:
        program, _, words = usage.partition(" [")
        yield f".B {escaped(program)}" + (f"\n{escaped('[' + words)}" if words else "") + "\n.br"
    yield ".SH DESCRIPTION"
    for text in paragraphs:
        if text.startswith("Status: "):
            yield f".SH EXIT STATUS\n{escaped(text.removeprefix('Status: '))}"
        else:
            yield from paragraph(text)
    yield ".SH SEE ALSO"
    yield ",\n".join(f".BR {escaped(other)} (1)" for other in others)


def write(name, *rest):
    with open(os.path.join(FOLDER, f"{name}.1"), "w", encoding="ascii") as file:
        print("\n".join(page(name, *rest)), file=file)


def main():
    usages, paragraphs = help_of(RRS, "help")
    listed = [line.split(None, 2) for line in paragraphs[0].split("\n")]
    names = {word: summary for _, word, summary in listed if word != "help"}
    pages = ["rrs-" + word for word in names] + list(map(os.path.basename, PROGRAMS))
    write("rrs", "run, assemble and debug programs for RV32IM", joined(usages), paragraphs, pages)
    for word, summary in names.items():
        usages, paragraphs = help_of(RRS, "help", word)
        usages = joined(usages) + ["rrs-run FILE LIMIT"] * (word == "run")
        others = ["rrs"] + [each for each in pages if each != "rrs-" + word]
        write("rrs-" + word, summary, usages, paragraphs, others)
    for program in PROGRAMS:
        usages, paragraphs = help_of(program, "--help")
        # what it does begins the first paragraph
        summary = re.match(r"[^.:]*", paragraphs[0])[0]
        summary = summary[0].lower() + summary[1:].replace("\n", " ")
        others = ["rrs"] + [each for each in pages if each != os.path.basename(program)]
        write(os.path.basename(program), summary, joined(usages), paragraphs, others)


main()

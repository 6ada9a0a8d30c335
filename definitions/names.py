#!/usr/bin/env python3
"""Compares the names of the definition files, each with its type and its clauses, with those of the
Agda modules that were written from them.

usage: names.py CRATES MODULES [--list]     --list prints the names with their types, side by side

It knows nothing of the translator's rules but its list of files. Both texts are read as a list of
names, each with the words of its type and of its clauses, fields or constructors, in their order,
without brackets and punctuation. So a premise, a case, a field or a whole definition that is in one
and not in the other is seen, and so are two that stand in another order.
"""

import re
import sys
from pathlib import Path

import translate

# Words of the notations that are no part of what is said.
GONE = {"abbrev", "unfoldable", "pub", "abstract", "field", "record", "where", "data", "module",
        "_", "Set", "Set₁", "Type", "Unit", "⊤", "Σ", "λ", "×", "→", "proj₁", "proj₂"}
WORD = re.compile(r'"[^"\n]*"|0x[0-9a-f]+|\d+|[-+*]ℤ|≤ℤ|[^\W\d][\w\'′·!-]*|[ℕℤ⊥]|\[\]|∷|\+\+|==|&&|'
                  r'\|\||≡|≢|≤|⊎|¬|[-+*/%^<]')


def words(text):
    found = [word.replace("_", "-").rstrip("·!′") for word in WORD.findall(text)]
    return [word for word in found if word and word not in GONE]


def type_first(text):
    """`(x y : A) × B` with its parts in Agda's order, which is that of `Σ A λ x → Σ A λ y → B`."""
    while m := re.search(r"\(([\w' ]+) :", text):
        end, depth = m.end(), 1
        while depth:
            depth += (text[end] == "(") - (text[end] == ")")
            end += 1
        kind, names = text[m.end():end - 1], m[1].split()
        pair = text[end:].lstrip().startswith("×")
        made = " ".join(f"{kind} {n}" for n in names) if pair else f"{m[1]} {kind}"
        text = f"{text[:m.start()]} {made} {text[end:]}"
    return text


def antt_words(text):
    text = re.sub(r"Type \d|Unit \{0\}", " ", text)
    text = re.sub(r"\.(0|1)\b", " ", text)
    text = re.sub(r"λ ([^.]*)\.", r" \1 ", text)
    text = re.sub(r"\{(\w+)\}", r"\1 \1", text)       # `{M}`, which Agda writes as `{M = M}`
    text = re.sub(r'(?<!")\.|\.(?!")', " ", text)       # but not the text "."
    return words(type_first(text).replace("◌", " "))


def agda_words(text):
    return words(re.sub(r"(?<=[\w\)])\.|\s\.", " ", text))


def entries(text, notation):
    """name, line -> what is said of it. A field, a constructor and a clause are entries of their
    own, with a number where one name has more than one."""
    found, block, last = {}, [], None
    for number, line in enumerate(text.split("\n"), 1):
        bare = re.sub(r"--.*", "", line).strip()
        if not bare or re.match(r"(pub )?use |open |import |abstract$|field$|\{-#", bare):
            last = last if not bare else None
            continue
        indent = len(line) - len(line.lstrip())
        if last and (indent > last[1] or bare == "}"):
            found[last[0]] += "\n" + bare
            last = None if bare.endswith("where") else last
            continue
        head = re.match(r"(?:(?:abbrev|unfoldable) )?(?:pub )?(?:(?:record|data|module) )?(\S+)",
                        bare)
        name = head[1].replace("_", "-").rstrip("·!′") if head[1] != "_" else "_"
        key, count = (name, 0), 0
        while key in found:
            count += 1
            key = (name, count)
        found[key] = bare
        last = None if bare.endswith("where") else (key, indent)
    return {key: notation(text) for key, text in found.items()}


def without_header(text):
    """An Agda module without its own first line: the file's name is no name in it."""
    return re.sub(r"^module \S+ where$", "", text, flags=re.M)


def main():
    crates, modules = sys.argv[1:3]
    every, wrong = translate.Translation(crates), []
    for source in every.sources.values():
        path = Path(modules, *source.module.split(".")).with_suffix(".agda")
        ours = entries(source.text, antt_words)
        theirs = entries(without_header(path.read_text()), agda_words)
        for key in sorted(ours.keys() | theirs.keys()):
            if "--list" in sys.argv:
                print(source.module, *key, "|", *ours.get(key, []), "|", *theirs.get(key, []))
            if ours.get(key) != theirs.get(key):
                wrong.append(f"{source.path}: {key[0]}: " + " ".join(ours.get(key, ["nothing"]))
                             + "; in Agda " + " ".join(theirs.get(key, ["nothing"])))
    if wrong:
        sys.exit("\n".join(wrong[:20]))
    if "--list" not in sys.argv:
        print(f"{sum(len(entries(s.text, antt_words)) for s in every.sources.values())} names, "
              "types, clauses, fields and constructors are the same")


if __name__ == "__main__":
    main()

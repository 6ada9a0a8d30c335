"""The wrong bodies of must-fail/: each still fits the source that it changes."""

import re


def is_bodies(name):
    """Whether a file has wrong bodies."""
    return bool(re.fullmatch(r"crates/\w+/must-fail/(.*\.edit|tried-alone\.md)", name))


def check_bodies(root, name):
    """Each text of a wrong body that does not stand in its source exactly once."""
    crate = (root / name).parent.parent
    source = None
    for number, line in enumerate((root / name).read_text().splitlines(), 1):
        word, _, text = line.partition(": ")
        if word == "file":
            source = crate / text
        if word == "old":
            count = source.read_text().count(text) if source and source.exists() else 0
            if count != 1:
                yield number, f"this stands {count} times in its source, and not once: `{text}`"

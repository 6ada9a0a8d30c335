"""The packages of the crates: their manifests and READMEs, and how they are written."""

import re
from pathlib import Path

from . import crates, docs, rules

VERSION = "0.2.0"
# The first Rust of edition 2024. What the text has of later ones is in `rattle_std` and sites.py.
RUST = "1.85"
# The crates with fields, functions or variants that a proof alone reads.
READ_BY_PROOFS = {"rrs_asm", "rrs_cli", "tests_kit"}
# The groups of clippy's lints, and those of others, that say how to write what is right otherwise:
# the proved text stays as it is.
STYLE = ("complexity", "style")
STYLE_LINTS = ("manual_unwrap_or_default", "unnecessary_get_then_check")
LIBRARY = f'package = "rrs-kit-std", version = "{VERSION}", path = "../../rattle_std"'


def package_of(name):
    """The name of a crate's package. That of rrs_lib is not the original's."""
    return name if name == "rrs" else "rrs-kit-" + name.removeprefix("rrs_").replace("_", "-")


def description(name):
    """The first sentence of the docs of a crate."""
    root = next(path for path in crates.source_files(name) if crates.is_root(path))
    text = (crates.CRATES / root).read_text()
    first = re.match(r"((?://![^\n]*\n)+?)(?://!\n|\n)", text).group(1)
    words = " ".join(line[3:].strip() for line in first.splitlines())
    return words.split(". ")[0].split(": ")[0].rstrip(".").replace('"', "'")


def readme(name):
    """The README of a crate."""
    claim = " ".join(docs.CLAIM.format(name=name).split())
    return f"# {package_of(name)}\n\n{description(name)}. A part of `rrs-kit`.\n\n{claim}\n"


def dependency(name, registry, more):
    """A line of a manifest for a crate that is used."""
    outside = name in crates.OUTSIDE
    if registry and crates.OUTSIDE.get(name):
        return f'{name} = {{ version = "{crates.OUTSIDE[name]}", default-features = false }}'
    place = f"../../stand-in/{name}" if outside else f"../{name}"
    more = "" if outside else more
    return (
        f'{name} = {{ package = "{package_of(name)}", version = "{VERSION}",'
        f' path = "{place}"{more} }}'
    )


def package_lines(name, has_host):
    """The head of a manifest."""
    categories = '["emulators"]' if has_host else '["emulators", "no-std"]'
    is_program = (crates.CRATES / name / "src/main.rt").exists()
    lines = [
        "[package]",
        f'name = "{package_of(name)}"',
        f'version = "{VERSION}"',
        'edition = "2024"',
        f'rust-version = "{RUST}"',
        'license = "Apache-2.0"',
        f'description = "{description(name)}"',
        'documentation = "https://docs.rs/rrs-kit"',
        'readme = "README.md"',
        'keywords = ["riscv", "simulator", "emulator", "rv32im"]',
        f"categories = {categories}",
    ]
    if name.startswith("tests_"):
        lines.append("publish = false")
    if is_program:
        binary = name.replace("_", "-")
        return [*lines, "", "[[bin]]", f'name = "{binary}"', 'path = "src/main.rs"']
    return [*lines, "", "[lib]", f'name = "{name}"']


def dependency_lines(name, used, registry, has_host):
    """The features and the dependencies of a manifest."""
    bare = "" if has_host else ", default-features = false"
    with_std = ["rattle_std", *(crate for crate in used if crate not in crates.OUTSIDE)]
    std = ", ".join(f'"{crate}/std"' for crate in with_std)
    lines = ["", "[features]", 'default = ["std"]', f"std = [{std}]", "", "[dependencies]"]
    lines.append(f"rattle_std = {{ {LIBRARY}{bare} }}")
    lines += [dependency(crate, registry, bare) for crate in used]
    lines += ["", "[dev-dependencies]"]
    lines.append('rattle_std = { package = "rrs-kit-std", path = "../../rattle_std" }')
    return lines


def manifest(name, used, registry):
    """The manifest of a crate that uses others."""
    has_host = crates.needs_host(name)
    lines = package_lines(name, has_host) + dependency_lines(name, used, registry, has_host)
    # The casts of `rattle_std` have the names of those that Rust has since.
    has_casts = any(f".{cast}(" in text for text in crates.texts_of(name) for cast in rules.CASTS)
    lines += ["", "[lints.rust]", 'unsafe_code = "forbid"']
    if has_casts:
        lines.append('unstable_name_collisions = "allow"')
    if name in READ_BY_PROOFS:
        lines.append('dead_code = "allow"')
    lines += ["", "[lints.clippy]"]
    lines += [f'{group} = {{ level = "allow", priority = -1 }}' for group in STYLE]
    lines += [f'{lint} = "allow"' for lint in STYLE_LINTS]
    if has_casts:
        lines.append('incompatible_msrv = "allow"')
    return "\n".join(lines) + "\n"


def write(path, text):
    """Writes a file, where it is not the same: cargo builds again what is newer."""
    path.parent.mkdir(parents=True, exist_ok=True)
    if not path.exists() or path.read_text() != text:
        path.write_text(text)


def write_package(output, name, known, registry):
    """Writes the package of a crate into `output/crates`, and takes away sources that are gone."""
    target, written = Path(output) / "crates" / name, set()
    for path in crates.source_files(name):
        to = (target.parent / path).with_suffix(".rs")
        write(to, crates.erased(name, path, known, registry))
        written.add(to)
        if crates.added_to(path).exists():
            module = target.parent / crates.module_added(path)
            write(module, crates.added_to(path).read_text())
            written.add(module)
    for stale in set((target / "src").rglob("*.rs")) - written:
        stale.unlink()
    write(target / "Cargo.toml", manifest(name, known[name], registry))
    write(target / "README.md", readme(name))
    write(target / "LICENSE", (crates.ROOT / "LICENSE").read_text())

#!/usr/bin/env python3
"""Holds crates.txt, the map of the crates, to the sources, and docs/MAP.md's picture of the layers to crates.txt.

    map.py            checks: every crate stands below its heading with a line that says what it holds, behind the crates that it
                      depends on; it depends on just those that its files name; docs/MAP.md shows the picture made from it, and the
                      columns `crate` of its tables and README.md's name crates alone
    map.py --write    writes the dependencies and the picture
"""
import re
import sys
from pathlib import Path

ROOT = Path(__file__).resolve().parent.parent
KIT = {"check", "bytes"}
LINE = re.compile(r"^(\w+)( staticlib)?:([^#]*)(?:#\s*(inner: )?(.*))?$")
# What a source names of the standard library, whose parts may be called as a library of the kit, as `io`.
STD = re.compile(r"^\s*use std\b[^;]*;|\bstd(?:::\w+)+", re.M)
PATH = re.compile(r"\bRattle\.(\w+)\.")
# A crate that only passes on a value of another crate's type does not name that crate, and depends on it all the same.
PASSED_ON = {
    "portal": {"setup"},
    "portal_sheets": {"vertex_set"},
    "portal_scores": {"scores"},
    "demands": {"scores"},
}
BEGIN, END = "<!-- the map: written by scripts/map.py from crates.txt -->\n", "<!-- end of the map -->\n"


def read_map():
    """The layers of crates.txt: heading, and of each crate its name, its dependencies, whether it is inner, and what it holds."""
    layers = []
    for line in (ROOT / "crates.txt").read_text(encoding="utf-8").splitlines():
        found = LINE.match(line)
        if line.startswith("# == "):
            layers.append((line[5:].strip(), []))
        elif found and layers:
            layers[-1][1].append((found[1], found[3].split(), bool(found[4]), (found[5] or "").strip()))
        elif found:
            sys.exit(f"map: {found[1]} stands below no heading")
    return layers


def named_by(crate, names):
    """The crates that a crate's files name."""
    used = set(PASSED_ON.get(crate, ()))
    # and not in out/, which `rt` makes
    for path in sorted(path for folder in ("src", "specs", "proofs") for path in (ROOT / "crates" / crate / folder).rglob("*")):
        if path.suffix == ".antt":
            used |= set(PATH.findall(path.read_text(encoding="utf-8")))
        elif path.suffix == ".rt":
            text = re.sub(r"//.*", "", path.read_text(encoding="utf-8"))
            of_std = set(re.findall(r"\b[a-z]\w*\b", " ".join(re.findall(r"^\s*use (std\b[^;]*);", text, re.M))))
            used |= set(PATH.findall(text)) | set(re.findall(r"\b(\w+)::", STD.sub("", text))) - of_std
    return used & (set(names) | KIT) - {crate}


def picture(layers):
    """The layers, the uppermost first, as a text for docs/MAP.md. A dot marks an inner crate."""
    width = max(len(name) for _, crates in layers for name, *_ in crates) + 2
    lines = []
    for heading, crates in reversed(layers):
        lines += ["", f"    {heading}"] + [f"      {'.' if inner else ' '} {name:<{width}}{what}" for name, _, inner, what in reversed(crates)]
    return "\n".join(lines[1:]) + "\n"


def faults_of(layers):
    """What is wrong with the map."""
    names = [name for _, crates in layers for name, *_ in crates]
    faults, above = [], set()
    for _, crates in layers:
        for name, deps, _, what in crates:
            used = named_by(name, names)
            faults += [f"{name} names {dep} and does not depend on it" for dep in sorted(used - set(deps))]
            faults += [f"{name} depends on {dep} and does not name it" for dep in deps if dep not in used]
            faults += [f"{name} stands above {dep}, on which it depends" for dep in deps if dep in names and dep not in above]
            faults += [f"{name}: nothing says what it holds"] * (not what)
            above.add(name)
    faults += [f"crates/{path.name} is not on the map" for path in sorted((ROOT / "crates").iterdir()) if path.name not in names]
    return faults


def strangers(readme, names):
    """What the columns `crate` of a page's tables have in backquotes that is no crate: a table ends with the first line that is no row."""
    column, found = None, []
    for line in readme.splitlines():
        cells = [cell.strip() for cell in line.split("|")] if line.startswith("|") else []
        if "crate" in cells:
            column = cells.index("crate")
        elif not cells:
            column = None
        elif column is not None:
            found += [name for name in re.findall(r"`([^`]+)`", cells[column]) if name not in names]
    return found


def with_picture(readme, layers):
    """The page with the picture between its two marks."""
    before, _, rest = readme.partition(BEGIN)
    _, mark, after = rest.partition(END)
    if not mark:
        sys.exit("map: docs/MAP.md has no place for the picture")
    return before + BEGIN + "\n" + picture(layers) + "\n" + END + after


def write(layers):
    """Writes the dependencies that the sources name, in the map's order, and the picture."""
    names = [name for _, crates in layers for name, *_ in crates]
    lines = (ROOT / "crates.txt").read_text(encoding="utf-8").splitlines()
    for at, line in enumerate(lines):
        found = LINE.match(line)
        if found:
            used = named_by(found[1], names)
            deps = [name for name in names if name in used] + sorted(used & KIT)
            lines[at] = " ".join([f"{found[1]}{found[2] or ''}:", *deps]) + f"  # {found[4] or ''}{(found[5] or '').strip()}".rstrip()
    (ROOT / "crates.txt").write_text("\n".join(lines) + "\n", encoding="utf-8")
    page = ROOT / "docs" / "MAP.md"
    page.write_text(with_picture(page.read_text(encoding="utf-8"), layers), encoding="utf-8")


def main(words):
    if "--write" in words:
        write(read_map())
    layers = read_map()
    pages = {name: (ROOT / name).read_text(encoding="utf-8") for name in ("README.md", "docs/MAP.md")}
    names = {name for _, crates in layers for name, *_ in crates}
    faults = faults_of(layers) + ["docs/MAP.md's picture is not that of crates.txt"] * (with_picture(pages["docs/MAP.md"], layers) != pages["docs/MAP.md"])
    faults += [f"{page} has {name} in a column of crates, and there is no such crate" for page, text in pages.items() for name in strangers(text, names)]
    for fault in faults:
        print(f"map: {fault}")
    print(f"map: {sum(len(crates) for _, crates in layers)} crates in {len(layers)} layers, {len(faults)} faults")
    return 1 if faults else 0


if __name__ == "__main__":
    sys.exit(main(sys.argv[1:]))

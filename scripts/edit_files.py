"""Edits that are written by hand: crates/NAME/must-fail/*.edit, which the gate tries, and crates/NAME/mutations/*.edit, which mutate.py tries.

An edit is one or more replacements: a line `file: ` holds for the pairs of lines `old: ` and `new: ` behind it, and an old text stands
just once in its file. So reads `rt must-fail` them, and so does this, for those that `rt` does not try.
"""
from pathlib import Path


class BadEdit(Exception):
    """An edit that cannot be made, and why."""


def replacements(path):
    """The replacements of an edit: file, old text, new text."""
    file = old = ""
    found = []
    for line in path.read_text(encoding="utf-8").splitlines():
        if line.startswith("file: "):
            file = line[6:]
        elif line.startswith("old: "):
            old = line[5:]
        elif line.startswith("new:"):
            found.append((file, old, line[4:].removeprefix(" ")))
            old = ""
    return found


def edited(path, crate):
    """The texts of the files that an edit changes, with all of its replacements made, by their names in the folder of a crate."""
    texts = {}
    for file, old, new in replacements(path):
        home = Path(crate) / file
        if not file or not home.is_file():
            raise BadEdit(f"there is no file {file}")
        text = texts.get(file) or home.read_text(encoding="utf-8")
        if not old or text.count(old) != 1:
            raise BadEdit(f"the old text stands {text.count(old) if old else 0} times in {file}: {old.strip()}")
        texts[file] = text.replace(old, new)
    if not texts:
        raise BadEdit("it has no replacement")
    return texts

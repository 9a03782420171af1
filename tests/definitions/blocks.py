"""The data files of alterations by hand: a comment on top, an empty line, then blocks. A block is a line `file name`, and below it, deeper, for each
alteration lines `old: text`, `new: text`, `seen: example`; or a line `none: why there is none`."""
import pathlib
import re

HERE = pathlib.Path(__file__).resolve().parent
ROOT = HERE.parents[1]
KEYS = ["old", "new", "none", "seen"]


def read(path):
    """The alterations, each with its file and name."""
    found = []
    for line in path.read_text().split("\n"):
        if not line.startswith(" "):
            file, name = line.split() if line and not line.startswith("#") else ("", "")
            continue
        key, text = line[2:].split(": ", 1)
        assert key in KEYS and file, line
        if key in ("old", "none"):
            found.append({"file": file, "name": name})
        found[-1][key] = text
    return found


def write(path, found):
    top = path.read_text().split("\n\n")[0]
    parts, last = [], None
    for b in found:
        if (b["file"], b["name"]) != last:
            parts.append(f"{b['file']} {b['name']}")
            last = (b["file"], b["name"])
        parts[-1] += "".join(f"\n  {k}: {b[k]}" for k in KEYS if k in b)
    path.write_text(top + "\n\n" + "\n".join(parts) + "\n")


def source(file):
    crate, name = file.split("/")
    return ROOT / "crates" / crate / "specs" / f"{name}.antt"


def definition(text, name):
    """The place of a definition in a file: from its head up to the next empty line (comments within it included)."""
    m = re.search(rf"^(?:unfoldable pub|abbrev pub|pub record|pub data|pub) {re.escape(name)}(?=[ \n])(?:.*\n)(?:.+\n)*", text, re.M)
    assert m, f"no definition {name}"
    return m.start(), m.end()


def replaced(text, name, old, new):
    """The text with `old`, which stands in the definition once, replaced by `new`; a `⏎` stands for a line's end."""
    start, end = definition(text, name)
    body = text[start:end]
    old, new = old.replace("⏎", "\n"), new.replace("⏎", "\n")
    assert body.count(old) == 1, f"{name}: {body.count(old)} times: {old}"
    return text[:start] + body.replace(old, new) + text[end:]


def altered(block):
    return replaced(source(block["file"]).read_text(), block["name"], block["old"], block["new"])

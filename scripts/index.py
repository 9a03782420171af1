#!/usr/bin/env python3
"""Checks docs/INDEX.md, and the line counts in docs/TRUST.md, against the tree, and the defined names against each other.

`index.py --write` first puts the rows of docs/TRUST.md's list of what must be believed right. scripts/belief.py checks that list: line
counts and texts are the files' own, a file stands behind those that it uses, and the statements above the list cite each definition in it.

What stands in backquotes in the index is a path, or a name directly behind a path or behind another of its names: the file
defines it, or the directory has an edit of that name. The folder of a function's proof (crates/NAME/proofs/FUNCTION) need not be there, since the
prover finds some proofs by itself: then the crate's sources have that function. Every row of a table names a path, and every public function of a crate
that is offered (crates.txt, no comment with the word `inner`) stands in the index. And a defined name means one thing, whether
it must be believed or is an inner one: no two crates have a definition of that name. Else the exit status is 1.
"""
import re
import sys
from pathlib import Path

import belief

ROOT = Path(__file__).resolve().parent.parent
FEWEST = {"files": 100, "names": 250, "public functions": 40, "line counts": 20, "defined names": 1000}
DEFINES = {
    ".antt": r"^\s*(?:(?:abbrev|unfoldable) (?:pub )?|pub (?:record |data )?){}(?=[ \n])",
    ".rt": r'^\s*(?:pub )?(?:extern "C" )?(?:fn|struct|enum) {}\b',
    ".rs": r"^\s*(?:pub )?fn {}\b",
    ".h": r"^\w[\w ]* {}\(",
    ".py": r"^def {}\b",
}


def read(path):
    return (ROOT / path).read_text(encoding="utf-8")


def defines(path, name):
    if (ROOT / path).is_dir():
        return (ROOT / path / f"{name}.edit").is_file()
    text = read(path) if (ROOT / path).is_file() else ""
    return re.search(DEFINES.get(Path(path).suffix, "(?!)").format(re.escape(name)), text, re.M) is not None


def is_there(path):
    """Is there such a path? The folder of a proof stands for it where the prover needs nothing in it, and the crate has the function."""
    proof = re.fullmatch(r"crates/(\w+)/proofs/(?:\w+/)*\+?(\w+)", path)
    sources = ROOT.glob(f"crates/{proof[1]}/src/**/*.rt") if proof else ()
    return (ROOT / path).exists() or any(re.search(rf"\bfn {proof[2]}\b", source.read_text(encoding="utf-8")) for source in sources)


def two_meanings():
    """The public names that the definitions of two crates share, with the files, and how many names there are."""
    places = {}
    for file in sorted(str(p.relative_to(ROOT / "crates")) for p in ROOT.glob("crates/*/specs/**/*.antt")):
        for name in re.findall(r"^(?:(?:abbrev|unfoldable) )?pub (?!mod |use )(?:record |data )?([^\s:({]+)", read(f"crates/{file}"), re.M):
            places.setdefault(name, {}).setdefault(file.split("/")[0], file)
    return [f"{name} means two things: {' and '.join(by.values())}" for name, by in sorted(places.items()) if len(by) > 1], len(places)


index, faults, files, names, path, end = read("docs/INDEX.md"), [], set(), set(), "", 0
for found in re.finditer(r"`([^`\n]*)`", index):
    token, directly, end = found.group(1), index[end : found.start()] in (" ", "\n"), found.end()
    if "/" in token or "." in token:
        files.add(path := token)
    else:
        names.add((path if directly else "", token))
faults += [f"{path} is not there" for path in sorted(files) if not is_there(path)]
faults += [f"{name} is not in {path or 'any file'}" for path, name in sorted(names) if not defines(path, name)]
rows = re.findall(r"^\|(?!-)(?!.*\n\|-).*", index, re.M)
faults += [f"no path in the row {row}" for row in rows if not re.search(r"`[^`]*/[^`]*`", row)]
calls = []
for crate in re.findall(r"^(\w+)(?: staticlib)?:(?!.*#.*\binner\b)", read("crates.txt"), re.M):
    for source in sorted(ROOT.glob(f"crates/{crate}/src/*.rt")):
        place = str(source.relative_to(ROOT))
        calls += [(place, call) for call in re.findall(r'^\s*pub (?:extern "C" )?fn (\w+)', read(place), re.M)]
faults += [f"{call} of {place} is not in the index" for place, call in calls if (place, call) not in names]
if "--write" in sys.argv:
    belief.write()
counts = belief.listed()
faults += belief.faults()
# What must be believed is told from inner definitions by its place: TRUST.md lists just the files outside of the modules Inner, but for
# those of the worked examples, which are what the definitions are held to.
believed = {str(p.relative_to(ROOT / "crates")) for p in ROOT.glob("crates/*/specs/*.antt") if p.stem not in ("Lib", "Inner")}
believed -= {file for file in believed if file.startswith("worked_examples/")}
faults += [f"docs/TRUST.md does not list {file}" for file in sorted(believed - set(counts))]
faults += [f"docs/TRUST.md lists {file}, which is inner" for file in counts if file not in believed]
# None of them cites an inner one, but for the statement that the printed parts are the whole report, as TRUST.md says.
citing = {file for file in believed if "specs.Inner" in read(f"crates/{file}")} - {"report_writer/specs/Whole.antt"}
faults += [f"{file} rests on an inner definition" for file in sorted(citing)]
twice, defined_names = two_meanings()
faults += twice
numbers = dict(zip(FEWEST, (len(files), len(names), len(calls), len(counts), defined_names)))
faults += [f"only {numbers[what]} {what}" for what in FEWEST if numbers[what] < FEWEST[what]]
print(*(f"index: {fault}\n" for fault in faults), sep="", end="")
print("index:", ", ".join(f"{n} {what}" for what, n in numbers.items()) + f", {len(faults)} faults")
sys.exit(1 if faults else 0)

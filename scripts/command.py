#!/usr/bin/env python3
"""Holds what is said of the command together: help, manual page, completion, sources and pages.

Each command of the help has its synopsis in man/gemzuleg.1 and a paragraph there, stands in the completion with its options, and is
one that the sources take, with the same words; the sentences of `explain` begin as the header's do; docs/SHEET.md has a section for each
number that a file can get; docs/COURSE.md names each command; no line of the command's sources has `unsafe`, `unwrap()`, `expect(` or
`panic!`, and no function there has more than 40 lines. Else the exit status is 1.
"""
import re
import sys
from pathlib import Path

ROOT = Path(__file__).resolve().parent.parent
# Numbers that no file, line or pair of files can get: they are of calls that the command does not make so.
NOT_OF_FILES = {12, 13, 14, 15, 16, 18, 19, 20, 21, 24, 25, 26}


def read(path):
    return (ROOT / path).read_text(encoding="utf-8")


def plain(line):
    """A line of the manual page without its roff."""
    return re.sub(r"\\f[BIR]", "", line).replace(r"\-", "-")


faults = []
help_text = read("rust/gemzuleg/src/help.txt")
manual = read("man/gemzuleg.1")
completion = read("rust/gemzuleg/gemzuleg.bash")
sources = {path.name: path.read_text(encoding="utf-8") for path in sorted((ROOT / "rust/gemzuleg/src").glob("*.rs"))}

# the synopses
usages = [re.split(r" {2,}", line.strip())[0] for line in help_text.splitlines() if line.startswith("  gemzuleg ")]
synopsis = re.search(r"^\.SH SYNOPSIS\n\.nf\n(.*?)^\.fi", manual, re.M | re.S).group(1)
shown = [plain(line) for line in synopsis.splitlines()]
faults += [f"the help has '{one}', the manual page '{other}'" for one, other in zip(usages, shown) if one != other]
faults += ["help and manual page have not as many commands"] * (len(usages) != len(shown))
names = [usage.split()[1] for usage in usages]
faults += [f"man/gemzuleg.1: no paragraph on {name}" for name in names if f".TP\n.B {name}\n" not in manual]

# what the sources take: `shape("list", 1, 3, "SHEET [ACCOUNT [WAY]]")`, with options before it
taken = {}
for options, name, words in re.findall(r'(Shape \{[^}]*?\.\.)?shape\(\s*"(\w+)",\s*\d+,\s*(?:\d+|ANY),\s*"([^"]*)"', sources["arguments.rs"], re.S):
    taken[name] = (words, re.findall(r'"(--\w+)"', options))
faults += [f"the help has {names}, the sources {list(taken)}"] * (names != list(taken))
for usage, name in zip(usages, names):
    words, options = taken.get(name, ("", []))
    said = re.findall(r"--\w+", usage)
    faults += [f"{name}: the help has {said}, the sources {options}"] * (said != options)
    bare = re.sub(r"\[--[^]]*\] ?", "", usage.split(" ", 2)[2])
    faults += [f"{name}: the help has '{bare}', the sources '{words}'"] * (bare != words)
    offered = re.search(rf"^        {name}\)(?: \[|\n            \[).*?_gemzuleg_words '([^']*)'", completion, re.M)
    faults += [f"{name}: the completion does not offer {options}"] * ((offered.group(1).split() if offered else []) != options)

# the completion's first word
first = re.search(r"_gemzuleg_words '([^']*--help --version)'", completion).group(1).split()
faults += [f"the completion offers {first}"] * (first != [*names, "--help", "--version"])

# sentences, in the header, in `explain` and in docs/SHEET.md
header = dict(re.findall(r'^    case (PORTAL_\w+): return "(.*)";$', read("include/portal.h"), re.M))
numbers = {name: int(number) for name, number in re.findall(r"^    (PORTAL_\w+) = (\d+)", read("include/portal.h"), re.M)}
told = {int(number): text for number, text in re.findall(r'^        (\d+) =>\s*\{?\s*"(.*)"', sources["words.rs"], re.M)}
told |= {int(number): text for number, text in re.findall(r'^        (\d+) => \{\n\s*"(.*)"\n', sources["words.rs"], re.M)}
for name, sentence in header.items():
    number = numbers[name]
    faults += [f"{number}: the header says '{sentence}', explain '{told.get(number)}'"] * (number > 0 and not told.get(number, "").startswith(sentence))
last = int(re.search(r"const LAST: u64 = (\d+);", sources["words.rs"]).group(1))
faults += [f"explain ends with {last}"] * (last != max(numbers.values()) or f"{{1..{last}}}" not in completion)
page = read("docs/SHEET.md") if (ROOT / "docs/SHEET.md").is_file() else ""
sections = {int(number) for number in re.findall(r"^### (\d+)\b", page, re.M)}
faults += [f"docs/SHEET.md: no section on {number}" for number in sorted(set(range(1, last + 1)) - NOT_OF_FILES - sections)]
course = read("docs/COURSE.md") if (ROOT / "docs/COURSE.md").is_file() else ""
faults += [f"docs/COURSE.md does not name 'gemzuleg {name}'" for name in names if f"gemzuleg {name}" not in course]

# what may not stand in the sources
for name, source in sources.items():
    code = re.sub(r"//.*", "", source)
    faults += [f"{name} has {word}" for word in ("unsafe", ".unwrap()", ".expect(", "panic!", "todo!", "unreachable!") if word in code]

    for indent, function, body in re.findall(r"^( *)(?:pub )?fn (\w+)(.*?\n)\1\}$", source, re.M | re.S):
        faults += [f"{name}: {function} has {body.count(chr(10)) + 1} lines"] * (body.count("\n") + 1 > 40)

print(*(f"command: {fault}\n" for fault in faults), sep="", end="")
print(f"command: {len(names)} commands, {last} numbers, {len(faults)} faults")
sys.exit(1 if faults else 0)

#!/usr/bin/env python3
"""Brings the repository's own names to the spelling of today's Rattle: words in snake case where they were in lower camel case.

A word is renamed where some .antt file of crates/ writes it outside of a comment, each part between dashes for itself: setupOf
becomes setup_of, withRecord-length becomes with_record-length. Types, modules, constructors, functions of src/, exported names
and strings keep theirs. It ran once, right after port.py (docs/PORT.md); --map prints old and new names, --check looks for names
that would fall together, and neither writes anything."""
import glob, os, re, sys
top = os.path.dirname(os.path.dirname(os.path.abspath(__file__)))
os.chdir(top)
WORD = r"[A-Za-z0-9_'\-₀-₉ℕℤμ∷≡≤<+*◌^²↔∈⊎]"
TOKEN = re.compile(r"(?<!" + WORD + r")([a-z]" + WORD + r"*)")
HUMP = re.compile(r"[a-z0-9][A-Z]")
PROSE = {"iPhone", "macOS"}

def snake(part):
    if not re.match(r"[a-z]", part) or not HUMP.search(part):
        return part
    part = re.sub(r"([A-Z]+)([A-Z][a-z])", lambda m: m.group(1) + "_" + m.group(2), part)
    return re.sub(r"([a-z0-9])([A-Z])", lambda m: m.group(1) + "_" + m.group(2), part).lower()

def respelled(word):
    return "-".join(snake(p) for p in word.split("-"))

STRING = re.compile(r'(b?"(?:[^"\\]|\\.)*")')

# Lemmas that would fall together with the definition that they are about.
LEMMAS = {w: w + "_lem" for w in ("passes_of", "counts_of", "way_on", "set_told", "not_back")}

def strip_comment(line):
    line = STRING.sub('""', line)
    return line.split("--", 1)[0] if re.match(r"\s*--", line) or " -- " in line else line

def antt_files():
    return sorted(glob.glob("crates/*/specs/**/*.antt", recursive=True) + glob.glob("crates/*/proofs/**/*.antt", recursive=True))

def names():
    found = {}
    for f in antt_files():
        for line in open(f):
            for m in TOKEN.finditer(strip_comment(line)):
                w = m.group(1)
                n = respelled(w)
                if n != w and w not in PROSE:
                    found[w] = n
    return found

def turn(text, table):
    return TOKEN.sub(lambda m: table.get(m.group(1), m.group(1)), text)

def turn_code(text, table):
    # strings and byte strings keep their letters
    return "\n".join("".join(p if i % 2 else turn(p, table) for i, p in enumerate(STRING.split(line))) for line in text.split("\n"))

def turn_antt(text, table):
    return turn_code(text, {**LEMMAS, **table})

def turn_ticked(text, table):
    # names stand between backticks in prose
    return re.sub(r"(```.*?```|`[^`\n]*`)", lambda m: turn(m.group(1), table), text, flags=re.S)

def main():
    table = names()
    if "--map" in sys.argv:
        for w in sorted(table):
            print(w, table[w])
        return
    if "--check" in sys.argv:
        olds = set(table)
        for f in antt_files():
            words = set()
            for line in open(f):
                words |= {m.group(1) for m in TOKEN.finditer(strip_comment(line))}
            new = {}
            for w in words:
                new.setdefault(table.get(w, w), set()).add(w)
            for n, ws in sorted(new.items()):
                if len(ws) > 1:
                    print(f, n, *sorted(ws))
        return
    changed = 0
    jobs = [(f, turn_antt) for f in antt_files()]
    jobs += [(f, turn_code) for f in sorted(glob.glob("crates/*/src/**/*.rt", recursive=True))]
    jobs += [(f, turn_code) for f in sorted(glob.glob("crates/*/must-fail/*.edit"))]
    jobs += [(f, turn_ticked) for f in sorted(glob.glob("*.md") + glob.glob("docs/**/*.md", recursive=True) + glob.glob("records/*.md"))]
    jobs += [(f, turn) for f in sorted(glob.glob("tests/definitions/*") + ["scripts/survivors.txt"]) if os.path.isfile(f)]
    for f, how in jobs:
        text = open(f).read()
        new = how(text, table)
        if new != text:
            open(f, "w").write(new)
            changed += 1
    print(f"respell: {len(table)} names, {changed} files")

main()

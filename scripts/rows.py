#!/usr/bin/env python3
"""Checks that rows are written straight into the bytes that go out, with none built elsewhere and copied (document 02, point 7).

The crates of the program `report` that write rows, and all crates below them, have no byte array: none that a function makes, no field, no
constant and no answer, and no memory from an allocator. The program has two, named below, and one more, for the words of a failed read or
write. Of the library they use what is named below, and nothing else. So there is no byte array to build a row in, or its digits, names and
sums, and to copy them from. Byte strings are no such place: they are constants, and rows have their fixed words from them. Where rows are written, arrays of words and of structs are named below too, by function, so that no row is packed
into words; and no function reads from the bytes that are lent to it for writing, so that no row is built behind its place and moved. A struct may hold
such bytes in a field that no other crate reaches; then the same holds of the field. Pooling is not looked at, which writes a sheet and no report. The exit status is 1 where something of this does not hold. `rows.py FOLDER` looks at another
copy of the repository.
"""
import re
import sys
from collections import Counter
from pathlib import Path

from contracts import functions

WHOLE = "report"
# All crates of that program that stand on one of these write rows, and these two: one puts bytes into a lent buffer, one hands bytes to the system.
GROUND = {"writing", "streams"}
# The byte arrays that there are, by crate, function and name: what is read, the bytes that go out, and an error's words. Each is made once.
OWN = {("report", "main", "sheet"), ("report", "print_report", "out"), ("streams", "fail", "text")}
# The arrays of words and of structs that functions make where rows are written, by crate, function and name (empty where it has none): tables,
# lists and figures, and no bytes. Each is made once.
PERMITTED = {
    ("report", "print_report", "opening"),
    ("report", "print_report", "lockout"),
    ("report", "print_report", "list"),
    ("report_facts", "below_all", "r"),
    ("report_facts", "name_places", "from"),
    ("report_facts", "name_places", "to"),
    *(("report_writer", "no_facts", field) for field in ("starts", "losses", "scores", "risks", "below", "from", "to")),
}
# What is used of the library, each by a line of its own: none of it gives a byte array. The one array by a closure is of numbers of sets.
LIBRARY = {"use std::io;", "use std::io::Write;", "use std::io::{ErrorKind, Read, Write};", "use std::marker::PhantomData;", "std::array::from_fn(|v| 1 << v)"}
# The method of the library that writes to bytes lent for writing, which is how a file or the standard input is read.
READ = ".read"
# What allocates is passed an allocator.
HEAP = re.compile(r"\b(?:alloc|Global)\b")
# A type of byte arrays, or one that may be one: of signed bytes, or of a parameter.
TYPE = re.compile(r"\[\s*(?:[ui]8|[A-Z])\s*;")
# Another name for a type could hide such an array. These two are of scores, and the type of what an iterator gives is no array where it is a word.
ALIAS = re.compile(r"^\s*(?:pub\s+)?type\b(?! Item = (?:[ui](?:16|32|64|128|size)|bool);$)")
ALIASES = {"pub type SecurityScore = Score<Security>;", "pub type RecoverabilityScore = Score<Recoverability>;"}
WORDS = re.compile(r"(?:[ui](?:16|32|64|128|size)|bool|[A-Z]\w+)")
# Bytes lent for writing, as a parameter's type.
LENT = re.compile(r"&\s*(?:'\w+\s+)?mut\s*\[\s*(?:u8|[A-Z])\s*\]")
# What is declared, and the fields of a struct that hold such bytes.
DECLARED = re.compile(r"\b(struct|enum)\s+(\w+)[^;{(]*(\{[^}]*\}|\([^;]*;)")
HELD = re.compile(rf"^\s*(pub\b.*?)?\b(\w+)\s*:\s*{LENT.pattern}\s*,?\s*$", re.M)
# A byte string by value.
COPIED = re.compile(r'\*\s*b""')
LITERAL = re.compile(r"""//[^\n]*|/\*.*?\*/|b"(?:[^"\\]|\\.)*"|b'(?:[^'\\]|\\.)*'""", re.S)
CLAUSE = re.compile(r"^\s*(requires|ensures|ghost|#!?\[tactic)\b")
# Bodies that the check has to tell apart, with how many byte arrays each makes: so it is seen in every run that it can fail.
BODIES = {
    "let mut digits = [0u8; 20];": 1,
    "let mut line = [0; 300];": 1,
    "let line = [b' '; 16];": 1,
    "let line = [end; 16];": 1,
    "let line = [fields::LF; 16];": 1,
    "let n = 0u8; let line = [n; 300];": 1,
    "let n = n as u8; let line = [n; 300];": 1,
    "match way { Way::By(n) => { let line = [n; 300]; } }": 1,
    "let row = Row { m: 0 }; let line = [m; 300];": 1,
    "let lines = [[0u8; 30]; 10];": 1,
    "let digits = [48 + (n % 10) as u8, LF];": 1,
    'let word = *b"refused";': 1,
    "put_text(&[48, 49], out, at);": 1,
    "// the lab's row\nlet line = [0u8; 300]; put_byte(b'x', out, at);": 1,
    'put_text(b"//", out, at); let line = [0u8; 300];': 1,
    "// let line = [0u8; 300];": 0,
    "out[at] = text[i]; put_text(&text[a..e], out, at);": 0,
    'put_field(b"refused", end, out, at);': 0,
    "let mut sums = [0u64; 64]; let one = [n; 4]; let all = [[0u64; 4]; 4];": 0,
    "let sums: [u64; 64] = [0u64; 64];": 0,
    "let none = SecurityScore::of(0); let scores = [none; 64];": 0,
    "let mut vertices = [rows::UNUSED; 64];": 0,
    "let mut r = [0; 64]; r": 1,
}
# A program that has no fault, by crates: what each depends on, and its source.
PROGRAM = {
    "ground": ("", "pub fn least(n: u64) -> u64 {\n    n\n}"),
    "beside": ("", "pub fn copy() {\n    let line = [0u8; 300];\n}"),
    "writing": (
        "",
        "pub struct Pen<'a> {\n    out: &'a mut [u8],\n    at: usize,\n}\n"
        "impl<'a> Pen<'a> {\n    pub fn on(out: &'a mut [u8]) -> Pen<'a> {\n        Pen { out, at: 0 }\n    }\n"
        "    pub fn put_next(&mut self, b: u8) {\n        put_byte(b, self.out, self.at);\n    }\n}\n"
        "pub fn put_byte(b: u8, out: &mut [u8], at: usize) {\n    out[at] = b;\n}",
    ),
    "pool": ("writing", "pub fn colours() {\n    let digits = [0u8; 256];\n}"),
    "report_rows": ("ground writing", "pub fn put_row(out: &mut [u8]) {\n    writing::put_byte(ground::least(1) as u8, out, 0);\n}"),
    "streams": (
        "",
        "use std::io::{ErrorKind, Read, Write};\npub fn read_once<R: Read>(r: &mut R, b: &mut [u8]) {\n    let n = r.read(&mut b[1..]);\n}\n"
        "pub fn fail<W: Write>(w: &mut W) {\n    let mut text = [0u8; 9];\n}",
    ),
    "report": (
        "report_rows streams",
        "fn print_report() {\n    let mut out = [0u8; 65536];\n}\nfn main() {\n    let mut sheet = [0u8; 9];\n}",
    ),
}
# Changes of it, by crate, line before and lines after, each with how many faults there then are.
CHANGES = [
    ("writing", "    out[at] = b;\n}", "    out[at] = b;\n}\n\fpub fn first(pen: &Pen) -> u8 {\n    pen.out[0]\n}", 1),
    ("writing", "    out[at] = b;\n}", "    out[at] = b;\n}\n\fpub fn last(pen: &mut Pen, b: u8) {\n    pen.out[0] = b;\n}", 0),
    ("ground", "    n", "    let mut line = [0u8; 300]; n", 1),
    ("ground", "-> u64", "-> [u8; 20]", 1),
    ("ground", "pub fn", "struct Line {\n    bytes: [u8; 300],\n}\npub fn", 1),
    ("ground", "pub fn", "struct Line<T> {\n    items: [T; 300],\n}\npub fn", 1),
    ("ground", "pub fn", "type Line = u8;\npub fn", 1),
    ("ground", "pub fn", "    type Item = usize;\npub fn", 0),
    ("ground", "pub fn", "    type Item = Line;\npub fn", 1),
    ("ground", "pub fn", "fn all() -> [u64; 9] {\n    let mut r = [0; 9];\n    r\n}\npub fn", 0),
    ("ground", "pub fn", "fn all() -> [u64; 9] {\n    let mut r = [0; 9];\n    let w = [0u64; 9];\n    w\n}\npub fn", 1),
    ("ground", "    n", "    let w = std::array::from_fn(|v| v as u8); n", 1),
    ("beside", "300", "301", 0),
    ("pool", "256", "257", 0),
    ("report_rows", "pub fn", "const BLANK: [u8; 2] = [32, 32];\npub fn", 1),
    ("report_rows", "{\n", "{\n    let mut line = [0u8; 65536];\n", 1),
    ("report", "    let mut out = [0u8; 65536];", "    let mut out = [0u8; 65536];\n    let mut sheet = [0u8; 65536];", 1),
    ("report", "    let mut out = [0u8; 65536];", "    let mut out = [0u8; 65536];\n    let mut out = [0u8; 65536];", 1),
    ("report", "    let mut sheet = [0u8; 9];", "    let mut sheet = [0u8; 9];\n    let mut sheet = [0u8; 9];", 1),
    ("report", "    let mut sheet = [0u8; 9];", "", 1),
    ("report", "fn print_report() {", "use std::io::Cursor;\nfn print_report() {", 1),
    ("report", "fn print_report() {", "use std::io as ready;\nfn print_report() {", 1),
    ("report", "fn print_report() {", "use std::io::Write;\nfn print_report() {", 0),
    ("report", "fn print_report() {", "use std::io;\nfn print_report() {\n    let n = io::copy(a, b);", 1),
    ("report", "fn print_report() {", 'fn print_report() {\n    let line = std::str::from_utf8(b"row");', 1),
    ("report", "fn print_report() {", "fn print_report(alloc: Global) {\n    let line = Vec::new(alloc);", 2),
    ("report_rows", "{\n", "{\n    let line = Vec::new(rt.alloc());\n", 1),
    ("streams", "r.read(", "shown(", 1),
    ("streams", "r.read(", "read(", 1),
    ("report_rows", "{\n", "{\n    let mut words = [0u64; 40];\n", 1),
    ("report_rows", "{\n", "{\n    let row = Row { words: [0; 40] };\n", 1),
    ("ground", "    n", "    let mut words = [0u64; 40]; n", 0),
    ("report_rows", "ground::least(1) as u8", "out[9]", 1),
    ("report_rows", "{\n", "{\n    let free = out;\n", 1),
    ("report_rows", "pub fn", "fn put<T>(self, out: &mut [T], at: usize) {\n    out[at..].copy_from_slice(items);\n}\nfn put_all(out: &mut [u8]) {\n    row.put(out, 0);\n}\npub fn", 0),
    ("report_rows", "pub fn", "fn put<T>(out: &mut [T], at: usize) {\n    out[at..].copy_from_slice(&out[..at]);\n}\npub fn", 1),
    ("report_rows", "pub fn", "fn put<T>(out: &mut [T], at: usize) {\n    out.copy_within(at..at + 9, 0);\n}\npub fn", 1),
    ("report_rows", "{\n", "{\n    shown(&out[9..]);\n", 1),
    ("writing", "out[at] = b;", "if out[at] == b { out[at] = b; }", 1),
    ("writing", "out[at] = b;", "out[at] = out[at + 1];", 1),
    ("writing", "put_byte(b, self.out, self.at);", "self.out[self.at] = b;", 0),
    ("writing", "put_byte(b, self.out, self.at);", "if self.at < self.out.len() { self.out[self.at] = b; }", 0),
    ("writing", "put_byte(b, self.out, self.at);", "self.out[self.at] = self.out[0];", 1),
    ("writing", "put_byte(b, self.out, self.at);", "shown(self.out);", 1),
    ("writing", "put_byte(b, self.out, self.at);", "let Pen { out, at } = self;", 1),
    ("writing", "    out: &'a", "    pub out: &'a", 2),
    ("writing", "Pen { out, at: 0 }", "Row { out, at: 0 }", 1),
    ("writing", "impl", "struct Row<'a>(&'a mut [u8]);\nimpl", 1),
    ("writing", "impl", "enum Row<'a> {\n    Kept(&'a mut [u8]),\n}\nimpl", 1),
]
# What each crate of that program depends on.
TRIED = {crate: set(used.split()) for crate, (used, _) in PROGRAM.items()}


def read_map(root):
    """What each crate depends on, from the ground up."""
    found = {}
    for line in (root / "crates.txt").read_text(encoding="utf-8").splitlines():
        name, colon, rest = line.partition("#")[0].partition(":")
        if colon:
            found[name.split()[0]] = set(rest.split())
    return found


def plain(text):
    """The source without comments, with empty byte strings, and with numbers for single bytes; its lines stay where they are."""
    kept = {"/": "", 'b"': 'b""', "b'": "0u8"}

    def short(found):
        mark = found.group()
        return kept["/" if mark[0] == "/" else mark[:2]] + "\n" * mark.count("\n")

    return LITERAL.sub(short, text)


def bindings(name, head, body):
    """Of each place that binds the name: the type that stands there, what it is made from, or neither where it can't be told."""
    word = re.escape(name)
    for found in re.finditer(rf"[(,]\s*(?:mut\s+)?{word}\s*:\s*([^,)]+)", head):
        yield found.group(1).strip(), "", body
    for found in re.finditer(r"\blet\s+([^=;]*)=([^;]*);", body):
        bound, colon, kind = found.group(1).partition(":")
        if re.fullmatch(rf"(?:mut\s+)?{word}\s*", bound):
            yield kind.strip() if colon else "", found.group(2).strip(), body.replace(found.group(), "")
        elif re.search(rf"\b{word}\b", bound):
            yield "", "", body
    for found in re.finditer(rf"\b{word}\b[^;{{}}]*=>", body):
        yield "", "", body


def is_byte(first, head, body, constants):
    """Is an array with this first element one of bytes? Where that can't be told, it is taken for one."""
    first = first.strip()
    kind = re.search(r"\bas (\w+)$", first) or re.fullmatch(r"[\d_]+?([ui](?:8|16|32|64|128|size))", first)
    if kind:
        return not WORDS.fullmatch(kind.group(1))
    # An array in an array is looked at by itself, and so is a type that is told.
    if first in ("true", "false") or first.startswith("[") or re.fullmatch(r"[ui]\w+|bool", first) and WORDS.fullmatch(first):
        return False
    if re.match(r"[A-Z]\w*(::\w+)?\(", first):
        return False
    name = first.split("::")[-1]
    if name in constants:
        return not all(map(WORDS.fullmatch, constants[name]))
    found = list(bindings(first, head, body)) if re.fullmatch(r"\w+", first) else []
    if not found:
        return True
    return any(not WORDS.fullmatch(kind) if kind else not made or is_byte(made, head, rest, constants) for kind, made, rest in found)


def element(text):
    """The first element of an array of which this is the text behind its bracket."""
    depth = 0
    for at, mark in enumerate(text):
        if depth == 0 and mark in ";,]":
            return text[:at]
        depth += (mark in "([{") - (mark in ")]}")
    return text


def made(body):
    """Yields the place, the text before it, the first element and the field of each array that a body makes; no field where it is none of a struct."""
    for found in re.finditer(r"\[", body):
        before, first = body[: found.start()].rstrip(), element(body[found.end() :])
        word = re.search(r"(\w*)$", before).group(1)
        index = word and word not in ("return", "in", "mut", "else", "match", "if", "while") or before.endswith((")", "]"))
        field = re.search(r"[{,]\s*(\w+)\s*:$", before)
        # The type of a variable, and that of an array's elements, make none.
        if not index and not re.search(r"\blet\s+(?:mut\s+)?\w+\s*:\s*\[*$", before) and not re.fullmatch(r"[ui]\d+|[ui]size|bool", first.strip()):
            yield found.start(), before, first, field.group(1) if field else ""


def is_answer(name, head, body):
    """Is the variable what the function hands back, and that an array of words?"""
    kind = re.search(r"->\s*\[\s*(\w+)\s*;", head)
    return bool(kind and name and WORDS.fullmatch(kind.group(1)) and re.search(rf"[;}}]\s*{name}\s*}}\s*$", body))


def arrays(head, body, constants):
    """Yields the place and the name of each byte array that a body makes; the name is empty where it has none."""
    for place, before, first, field in made(body):
        # A field of a struct has its type where the struct is declared.
        if not field and not is_answer(name_of(before), head, body) and is_byte(first, head, body, constants):
            yield place, name_of(before)
    for found in COPIED.finditer(body):
        yield found.start(), name_of(body[: found.start()].rstrip())


def lent_for_writing(head):
    """The parameters that are bytes lent for writing, or may be: of a parameter's type."""
    return re.findall(rf"\b(\w+)\s*:\s*{LENT.pattern}", head)


def holders(text):
    """Yields the place and the name of each struct of a source that holds bytes lent for writing, and the field; no field where others may reach them."""
    for found in DECLARED.finditer(text):
        fields = list(HELD.finditer(found.group(3))) if found.group(1) == "struct" else []
        if LENT.search(found.group(3)) and len(fields) != len(LENT.findall(found.group(3))):
            yield found.start(), found.group(2), ""
        for field in fields:
            yield found.start(), found.group(2), "" if field.group(1) else field.group(2)


def calls(body):
    """Yields the name, behind a dot where it is a method's, and the arguments with their places, of each call in a body."""
    for found in re.finditer(r"(\.?(?:\w+::)*[a-z_]\w*)\(", body):
        depth, at, start, args = 0, found.end(), found.end(), []
        while at < len(body) and depth >= 0:
            if depth == 0 and body[at] in ",)":
                args.append((start, body[start:at].strip()))
                start = at + 1
            depth += (body[at] in "([{") - (body[at] in ")]}")
            at += 1
        yield found.group(1), args


def lends_on(body, name, signatures):
    """The places at which these bytes are handed on to a function that is lent them for writing too."""
    whole = re.compile(rf"{name}|&mut {name}\[.*\]", re.S)
    for called, args in calls(body):
        key = called.lstrip(".")
        kinds = signatures.get(key if key in signatures else key.split("::")[-1], set())
        for at, (start, arg) in enumerate(args):
            if whole.fullmatch(arg) and (called == READ or kinds and all(len(k) > at and LENT.search(k[at]) for k in kinds)):
                yield start + re.search(name, body[start:]).start()


def is_kept(body, found, held):
    """Does this use of a name give the bytes to a struct of the same source that holds them?"""
    for struct, field in held:
        kept = re.compile(rf"(?<!let )\b{struct}\s*\{{(?:[^{{}}]*,)?\s*(?:{field}\s*:\s*)?$")
        if found.group() == field and kept.search(body[: found.start()]) and re.match(r"\s*[,}]", body[found.end() :]):
            return True
    return False


def reads_back(head, body, signatures, held):
    """Yields the place of each use of bytes lent for writing that is no write, no length, no lending on and no keeping; `held` are such fields of the crate."""
    lent = lent_for_writing(head)
    names = [rf"(?<![.\w]){name}\b" for name in lent]
    names += [rf"(?<!\w)(?:\w+\.)+{field}\b" for _, field in held]
    for name in names:
        fine = set(lends_on(body, name, signatures))
        for found in re.finditer(name, body):
            behind = body[found.end() :]
            stored = re.match(r"\[[^\[\]]*(?:\[[^\]]*\][^\[\]]*)*\](?:\s*=(?!=)|\.copy_from_slice\()", behind)
            if not stored and not behind.startswith(".len()") and found.start() not in fine and not is_kept(body, found, held):
                yield found.start()
    # A field that is reached in another way than behind a name and a dot.
    for _, field in held:
        for found in re.finditer(rf"(?<!\w){field}\b", body):
            if not (field in lent and body[found.start() - 1] != ".") and not re.search(r"\w\.$", body[: found.start()]):
                yield found.start()


def name_of(before):
    """The local variable that gets what stands behind this text."""
    named = re.search(r"\blet (?:mut )?(\w+)[^;={]*=$", before)
    return named.group(1) if named else ""


def line_faults(lines):
    """The faults that a line shows by itself: types, memory from an allocator, and what is used of the library."""
    for number, line in enumerate(lines, 1):
        if CLAUSE.match(line):
            continue
        if TYPE.search(line):
            yield number, "a type of byte arrays"
        if ALIAS.match(line) and line.strip() not in ALIASES:
            yield number, "another name for a type"
        if HEAP.search(line):
            yield number, "memory from an allocator"
        if re.search(r"\bstd\b", line) and line.strip() not in LIBRARY:
            yield number, f"{line.strip()}, of which it is not known what it gives"
        for found in re.finditer(r"(?<!::)\bio::(?!(?:Error|Result)\b)\w+", line):
            if line.strip() not in LIBRARY:
                yield number, f"{found[0]}, of which it is not known what it gives"


def held_faults(text):
    """The faults of what holds bytes lent for writing."""
    for place, name, field in holders(text):
        if not field:
            yield 1 + text.count("\n", 0, place), f"{name} holds bytes that are lent for writing, and others may reach them"


def faults_of(crate, text, constants, seen, signatures, held):
    """The faults of a source without comments; the arrays that are named above go to `seen`. Where rows are written `signatures` are known. `held` are the fields of
    the crate's structs, in whichever of its sources, that hold bytes lent for writing: a module reaches those of the modules above it."""
    lines = text.split("\n")
    yield from line_faults(lines)
    yield from held_faults(text)
    for start, _, name, head, _ in functions(lines):
        first = start + head.count("\n")
        depth, last = 0, first - 1
        while depth > 0 or last < first:
            depth += lines[last].count("{") - lines[last].count("}")
            last += 1
        body = "{" + "\n".join(lines[first - 1 : last]).partition("{")[2]
        clean = re.sub(r"\s*(requires|ensures)\b.*", "", head)
        bytes_at = dict(arrays(clean, body, constants))
        for place, own in bytes_at.items():
            seen[crate, name, own] += 1
            if (crate, name, own) not in OWN:
                yield first + body.count("\n", 0, place), f"{name} makes a byte array"
        if signatures:
            yield from row_faults(crate, name, clean, body, seen, signatures, first, bytes_at, held)


def row_faults(crate, name, head, body, seen, signatures, first, bytes_at, held):
    """The faults of a function where rows are written: another array, or bytes that are read where they are lent for writing."""
    for place, before, _, field in made(body):
        own = crate, name, field or name_of(before)
        if place in bytes_at:
            continue
        seen[own] += 1
        if own not in PERMITTED:
            yield first + body.count("\n", 0, place), f"{name} makes an array that is not named"
    for place in reads_back(head, body, signatures, held):
        yield first + body.count("\n", 0, place), f"{name} reads from bytes that are lent for writing"


def signatures_of(texts):
    """Of each function's name, and of its crate's and its own, the kinds of its parameters, one tuple for each function of that name."""
    found = {}
    for crate, text in texts:
        for _, _, name, head, _ in functions(text.split("\n")):
            inside = re.sub(r"\s+", " ", head.partition("(")[2].partition(")")[0])
            # The value that a method is called on stands before its arguments.
            kinds = tuple(part.partition(":")[2].strip() for part in inside.split(",") if part.strip() and not re.fullmatch(r"\s*(?:&|mut |\s)*self\s*", part))
            for key in (name, f"{crate}::{name}"):
                found.setdefault(key, set()).add(kinds)
    return found


def below(crates, needs):
    """All crates on which these stand, these too."""
    found = set(crates)
    for crate in reversed(needs):
        found |= needs[crate] & set(needs) if crate in found else set()
    return found


def check(needs, sources):
    """The crates that write rows, those below them, and the faults of a program: of each crate what it depends on and its sources, by path."""
    whole, writers = below({WHOLE}, needs), set(GROUND)
    for crate, used in needs.items():
        writers |= {crate} if crate in whole and used & writers else set()
    looked_in = below(writers, needs)
    looked_at = [(crate, path, plain(text)) for crate in needs if crate in looked_in for path, text in sources[crate].items()]
    constants, seen, faults = {}, Counter(), []
    for _, _, text in looked_at:
        for name, kind in re.findall(r"\bconst (\w+)\s*:\s*([^=]+?)\s*=", text):
            constants.setdefault(name, set()).add(kind)
    signatures = signatures_of((crate, text) for crate, _, text in looked_at)
    for crate, path, text in looked_at:
        held = [(name, field) for other, _, whole in looked_at if other == crate for _, name, field in holders(whole) if field]
        found = faults_of(crate, text, constants, seen, signatures if crate in writers else None, held)
        faults += [f"{path}:{line}: {fault}" for line, fault in found]
    for crate, name, own in sorted(OWN | {named for named in PERMITTED if named[0] in needs and needs is not TRIED}):
        if seen[crate, name, own] != 1:
            faults.append(f"{crate}: {name} makes the array {own} {seen[crate, name, own]} times and not once")
    faults += [f"{crate}: no such crate" for crate in sorted({WHOLE, *GROUND} - set(needs))]
    return writers, looked_in - writers, faults


def trials():
    """The bodies and the changes of a program that are not told apart."""
    head = "fn put_number(n: u64, end: u8, out: &mut [u8], at: usize) -> usize"
    constants = {"LF": {"u8"}, "UNUSED": {"Vertex"}}
    for body, many in BODIES.items():
        found = len(list(arrays(head, plain(body), constants)))
        if found != many:
            yield f"{body} makes {found} byte arrays and not {many}, says the check"
    for crate, old, new, many in [("report", "out", "out", 0), *CHANGES]:
        # What stands behind a form feed is another source of the crate.
        whole = {name: text.replace(old, new, 1) if name == crate else text for name, (_, text) in PROGRAM.items()}
        sources = {name: {f"{name} {at}": part for at, part in enumerate(text.split("\f"))} for name, text in whole.items()}
        found = check(TRIED, sources)[2]
        if len(found) != many or old not in PROGRAM[crate][1]:
            yield f"{crate} with {new!r} for {old!r} has {len(found)} faults and not {many}, says the check"


def main():
    root = Path(sys.argv[1]).resolve() if len(sys.argv) > 1 else Path(__file__).resolve().parent.parent
    needs, sources = read_map(root), {}
    for crate in needs:
        paths = sorted((root / "crates" / crate / "src").rglob("*.rt"))
        sources[crate] = {str(path.relative_to(root)): path.read_text(encoding="utf-8") for path in paths}
    writers, below, faults = check(needs, sources)
    faults += trials()
    for fault in faults:
        print(fault)
    print(f"rows: {len(writers)} crates that write rows, {len(below)} below them, {len(faults)} faults")
    return 1 if faults else 0


if __name__ == "__main__":
    sys.exit(main())

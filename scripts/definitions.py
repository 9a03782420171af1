#!/usr/bin/env python3
"""Prints every definition that must be believed, in reading order, as one text: `make definitions`.

    definitions.py                   all of them
    definitions.py --demand 3        what demand 3 rests on (1, 2, 3)
    definitions.py --call NAME       what the contract of a call rests on, of Rattle or of C
    definitions.py --point 9         what the statements on a point of document 02 rest on

The files, their parts and their order are those of docs/TRUST.md, and a name that a file uses stands in an earlier one. Lines that only
bring names in are left out. What the definitions cannot say of themselves is added: how the signs are read, and, before the first file
that names it, each type of the code, with the types of its fields. What a statement rests on goes by the names in it: an upper bound.
Statements that are proved, and that no definition is made of, stand behind the definitions: they need not be believed.
"""
import itertools
import re
import signal
import sys
import textwrap

import belief
from belief import ROOT, declaration, first_sentence, header, parts, read, source, types, with_parts
from contracts import functions

WIDTH = 140
RULE = "=" * WIDTH
LEGEND = """\
How to read it
    f : A → B → C   f makes a C of an A and a B; where C is Type 0, f is a statement about them. Behind -- and // stands a comment
    ℕ, Bool         the numbers from 0 on; true and false. a - b is 0 where b is larger; a / b and a % b are quotient and remainder
    a ≡ b           they are equal. P × Q: both hold. P ⊎ Q: one of them does. Unit always holds, ⊥ never; P → ⊥: P does not hold
    (x : A) → P     P holds for every x of A. (x : A) × P: there is an x of A, and P holds of it. λ x. e: what makes e of x
    [], x ∷ l       the empty list; x, and behind it the list l. l ++ m: one behind the other. length l: how many elements
    get_or l i d    element i of l, counted from 0, and d where there is none. take n l, drop n l: the first n, the others
    cond b x y      x where b is true, else y. eqb, ltb, leb: are two numbers equal, is the first less, is it at most the second?
    ones n          how many bits of n are 1. bit_and, bit_or: bit by bit. suc n: the number after n
    r.name          the part `name` of r. .0 and .1 are the first and the second part, so s.0 is the number that a VertexSet s is
    x'              a name of its own, beside x: mostly what a lent place holds afterwards, where x is what it held before
    record          all of its parts: it holds where the conditions do, for some values of the parts that are none. data: one case of several
    abbrev, unfoldable, pub   define a name by equations, and let other files use it; which of the two matters to proofs alone
    map f l         f of each element of l. replicate n x: n times x. set l i x: l with x at place i. max a b: the larger one. a && b, a || b: both, one of them
    Option A        Some a, for an a of A, or None. Result A E: Ok a, or Err e for an e of E
    struct, enum, type   types of the code: numbers of any width are ℕ here, an array is a list, and a case may have a short name before it"""


def paragraphs(file):
    """The paragraphs of a file behind its first comment, without `use` lines: each with the names that it defines."""
    lines = read(file).splitlines()[len(header(file)) :]
    text = "\n".join(line for line in lines if not line.startswith(("use ", "pub mod "))).strip()
    for paragraph in re.split(r"\n\n+", text):
        yield paragraph, set(belief.antt.texts(paragraph))


def is_statement(file, name):
    """Is it a closed statement, of which theorems are proved?"""
    return re.match(rf"(?:abbrev|unfoldable) pub {re.escape(name)} : Type 0$", belief.definitions(file)[name].split("\n")[0])


def wanted_text(file, wanted, statements):
    """The paragraphs of a file with wanted definitions, or with statements; headings between them stay where something follows."""
    shown, heading = [], None
    for paragraph, names in paragraphs(file):
        if not names:
            heading = paragraph
        elif any((file, name) in wanted and bool(is_statement(file, name)) == statements for name in names):
            shown += [heading] * bool(heading and not statements) + [paragraph]
            heading = None
    return "\n\n".join(shown)


def block(number, file, told, wanted):
    """A file as it is printed: heading, first comment, the types that are new with it, definitions."""
    text = wanted_text(file, wanted, False)
    if not text:
        return ""
    head = "\n".join(header(file))
    before = f"\n\n{RULE}\n{number}. crates/{file}\n\n{head}\n{RULE}\n\n"
    for path, new in itertools.groupby(with_parts(types(file), told), lambda one: source(*one[:2])):
        before += f"From the code, {path.relative_to(ROOT)}:\n\n" + "\n\n".join(declaration(path, name) for _, _, name in new) + "\n\n"
    return before + text


def resting_on(roots):
    """These definitions and all that they name, directly or through others."""
    found, todo = set(), set(roots)
    while todo:
        one = todo.pop()
        if one not in found:
            found.add(one)
            todo |= belief.cites(*one)
    return found


def named(words):
    """The listed definitions that have one of these names."""
    return {(file, name) for file in belief.listed() for name in belief.definitions(file) if name in words}


def contract_of(call):
    """The names in the contract of a function of the code."""
    for path in sorted((ROOT / "crates").glob("*/src/*.rt")):
        for _, public, name, head, _ in functions(path.read_text(encoding="utf-8").split("\n")):
            if public and name == call:
                return set(re.findall(r"[\w'-]+", head.partition("ensures")[2]))
    sys.exit(f"definitions: no call {call}")


def roots_of(words):
    """What the words on the command line ask for: all, or what something rests on."""
    if not words:
        return {(file, name) for file in belief.listed() for name in belief.definitions(file)}
    if len(words) != 2 or words[0] not in ("--demand", "--call", "--point"):
        sys.exit(__doc__)
    if words[0] == "--demand":
        found = named({f"Demand{words[1]}"})
    elif words[0] == "--call":
        found = named(contract_of(words[1]))
    else:
        rows = [line for line in belief.TRUST.read_text(encoding="utf-8").splitlines() if line.startswith(f"| {words[1]}: ")]
        found = named(set(re.findall(r"`(\w+)`", " ".join(rows))))
    return found or sys.exit(f"definitions: nothing is known of {words[1]}")


def main(words):
    wanted, numbered, number, told = resting_on(roots_of(words)), [], 0, set()
    for heading, files in parts():
        shown = [file for file in files if any(one[0] == file for one in wanted)]
        numbered.append((heading, list(enumerate(shown, number + 1))))
        number += len(shown)
    numbered = [(heading, files) for heading, files in numbered if files]
    lines = sum(wanted_text(file, wanted, False).count("\n") + 1 for _, files in numbered for _, file in files)
    what = f"what {words[0][2:]} {words[1]} rests on" if words else "the definitions that the statements of docs/TRUST.md cite"
    print(f"What must be believed: {what}, in reading order. {lines} lines of definitions with their comments, in {number} files.\n")
    print(LEGEND)
    for heading, files in numbered:
        print(f"\n{heading}", *(textwrap.fill(f"{n:>4}. {file}: {first_sentence(file)}", WIDTH, subsequent_indent=" " * 6) for n, file in files), sep="\n")
    for heading, files in numbered:
        print(f"\n\n\n{RULE}\n{heading.upper()}", end="")
        print(*(block(n, file, told, wanted) for n, file in files), sep="")
    proved = [(n, file, wanted_text(file, wanted, True)) for _, files in numbered for n, file in files]
    if any(text for _, _, text in proved):
        print(f"\n\n\n{RULE}\nSTATEMENTS THAT ARE PROVED. They are made of the definitions above, and need not be believed.\n{RULE}")
        print(*(f"\n{n}. crates/{file}\n\n{text}\n" for n, file, text in proved if text), sep="")


if __name__ == "__main__":
    signal.signal(signal.SIGPIPE, signal.SIG_DFL)  # a pager that is left early is no error
    main(sys.argv[1:])

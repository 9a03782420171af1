#!/usr/bin/env python3
"""Checks what the contracts of all crates have.

Every public function and method says something of its result (`ensures`). A crate whose line in crates.txt has no comment
with the word `inner` is offered to callers: none of its public functions asks something of them (`requires`), and none has an inner
definition in its contract, which a caller would then have to believe; and its contract has the one shape: `Fulfils`, `Told`, `Decides` or `Asks`,
or a name that is short for one of these, but for the few of OTHERS, whose reasons stand in docs/DECISIONS.md. A body has at most 40 lines. The proof of a loop says the loop's
invariant in plain words: by a comment line right above `invariant-loop-..` in its Invariants.antt (or above `Inv-loop` in a Proof.antt, which walks the code by hand), or by the
file's first comment, which then has the word `invariant`.
Of every edit that is to be refused the old texts stand just once in their files: one that does not fit is refused for nothing. The exit
status is 1 where something of this does not hold.
"""
import re
import sys
from pathlib import Path

from edit_files import BadEdit, edited

ROOT = Path(__file__).resolve().parent.parent
LONGEST = 40
LITERAL = re.compile(r"""b"(?:[^"\\]|\\.)*"|b'(?:[^'\\]|\\.)*'""")
HEAD = re.compile(r'^\s*(?:pub\(crate\)\s+)?(pub\s+)?(?:extern\s+"C"\s+)?fn\s+(\w+)')
INNER = re.compile(r"^ghost use Rattle\.\w+\.specs\.Inner[\w.]*\.\{([^}]*)\};", re.M)
# A call's contract has one of these, or a name that a definition makes short for one of them.
SHAPES = {"Fulfils", "Told", "Decides", "Asks"}
SHORT = re.compile(r"^abbrev pub (\w+) :.*\n(?:.*\n)*?\1\b[^\n]*=\s*(\w+)\b", re.M)
# Contracts of another shape: a crate, or a function of it. docs/DECISIONS.md says why.
OTHERS = {"vertex_set", "setup", "scores", "demands", "formed::row_sizes", "answers::demand_three", "sheet::read_sheet", "sheet::name_of"} | {
    "portal_sheets::portal_read",
    "portal_sheets::portal_version",
    "portal_c::portal_read",
    "portal_c::portal_version",
}
INVARIANT = re.compile(r"^(?:abbrev\s+|unfoldable\s+)?(?:pub\s+)?(?:Inv-loop|invariant-loop)\S*\s+:")
WORDS = re.compile(r"^--\s+[\w`]")


def inner_crates():
    """The crates whose public functions may have a `requires`."""
    inner = set()
    for line in (ROOT / "crates.txt").read_text(encoding="utf-8").splitlines():
        code, _, comment = line.partition("#")
        if ":" in code and re.search(r"\binner\b", comment):
            inner.add(code.split()[0].rstrip(":"))
    return inner


def lines_of(text):
    """The lines of a source without its byte strings, which may have braces."""
    return LITERAL.sub(lambda found: "\n" * found.group().count("\n"), text).split("\n")


def functions(lines):
    """Yields (line number, public, name, head, lines of the body) of each function.

    The head runs to the line that opens the body. `rt fmt` puts that brace on a line of its own where there are clauses,
    and at the end of the signature's line where there are none.
    """
    at = 0
    while at < len(lines):
        found = HEAD.match(lines[at])
        if not found:
            at += 1
            continue
        start, clause = at, 0
        while True:
            code = lines[at].split("//")[0]
            if clause > 0 or re.match(r"^\s*(requires|ensures)\b", code):
                clause += code.count("{") - code.count("}")
            elif code.rstrip().endswith(("{", "}", ";")):
                break
            at += 1
        head, first, depth = "\n".join(lines[start : at + 1]), at, 0
        while True:
            code = lines[at].split("//")[0]
            depth += code.count("{") - code.count("}")
            at += 1
            if depth <= 0:
                break
        yield start + 1, bool(found.group(1)), found.group(2), head, max(at - first - 2, 0)


def inner_names(text):
    """The inner definitions that a source brings in."""
    return {name.strip() for names in INNER.findall(text) for name in names.split(",")}


def named_in_contract(head, names):
    """Those of the names that the clauses of a function's head have."""
    clauses = re.split(r"^\s*(?:requires|ensures)\b", head, maxsplit=1, flags=re.M)[1:]
    return sorted(names & set(re.findall(r"[\w'-]+", " ".join(clauses))))


def shapes():
    """The names that say a contract of the one shape."""
    found = set(SHAPES)
    for path in sorted(ROOT.glob("crates/*/specs/*.antt")):
        found |= {name for name, head in SHORT.findall(path.read_text(encoding="utf-8")) if head in SHAPES}
    return found


def edit_faults():
    """The edits that cannot be made."""
    faults, count = [], 0
    for path in sorted([*ROOT.glob("crates/*/must-fail/*.edit"), *ROOT.glob("crates/*/mutations/*.edit")]):
        count += 1
        try:
            edited(path, path.parent.parent)
        except BadEdit as why:
            faults.append(f"{path.relative_to(ROOT)}: {why}")
    return faults, count


def invariants(lines):
    """Yields (line number, whether a comment says it in words) of each loop's invariant in a proof."""
    head = ""
    for line in lines:
        if not line.startswith("--"):
            break
        head += line
    for at, line in enumerate(lines):
        if INVARIANT.match(line):
            yield at + 1, "invariant" in head or at > 0 and bool(WORDS.match(lines[at - 1]))


def main():
    inner, shaped, unused = inner_crates(), shapes(), set(OTHERS)
    faults, public_count, count = [], 0, 0
    for path in sorted(ROOT.glob("crates/*/src/**/*.rt")):
        crate, text = path.relative_to(ROOT).parts[1], path.read_text(encoding="utf-8")
        hidden = set() if crate in inner else inner_names(text)
        for line, public, name, head, length in functions(lines_of(text)):
            count += 1
            public_count += public
            place = f"{path.relative_to(ROOT)}:{line}: {name}"
            if public and not re.search(r"^\s*ensures\b", head, re.M):
                faults.append(f"{place}: a public function without an `ensures`")
            if public and crate not in inner and re.search(r"^\s*requires\b", head, re.M):
                faults.append(f"{place}: a `requires` in a crate that is offered")
            if public:
                faults += [f"{place}: its contract has the inner definition {one}" for one in named_in_contract(head, hidden)]
            if public and crate not in inner and not named_in_contract(head, shaped):
                unused -= {crate, f"{crate}::{name}"}
                if not OTHERS & {crate, f"{crate}::{name}"}:
                    faults.append(f"{place}: its contract is no Fulfils, Told, Decides or Asks")
            if length > LONGEST:
                faults.append(f"{place}: {length} lines")
    faults += [f"scripts/contracts.py: {one} needs no exception" for one in sorted(unused)]
    loops = 0
    for path in sorted([*ROOT.glob("crates/*/proofs/**/Invariants.antt"), *ROOT.glob("crates/*/proofs/**/Proof.antt")]):
        for line, said in invariants(path.read_text(encoding="utf-8").split("\n")):
            loops += 1
            if not said:
                faults.append(f"{path.relative_to(ROOT)}:{line}: no line says the loop's invariant")
    found, edits = edit_faults()
    faults += found
    for fault in faults:
        print(fault)
    print(f"contracts: {count} functions, {public_count} public, {loops} loops, {edits} edits, {len(faults)} faults")
    if 0 in (count, loops, edits):
        print("contracts: no function was found, or no loop, or no edit")
    return 1 if faults or 0 in (count, loops, edits) else 0


if __name__ == "__main__":
    sys.exit(main())

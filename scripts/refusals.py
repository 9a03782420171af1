#!/usr/bin/env python3
"""Tells of each must-fail edit that `rt ci` tried why it was refused, from what it printed: refusals.py LOG.

An edit shows that a contract rules a wrong program out only where a fact no longer holds. One that is refused because the proof no longer fits
the code's shape (a name that is gone, another number of arguments), or by a limit of the prover, shows nothing. The exit status is 1 where there is
one of these, or an edit without a line. Lines of LOG may have a number before them, as in build/gate.log.
"""
import re
import sys
from pathlib import Path

LINE = re.compile(r"^(?:\d+ )?rt: must-fail (\w+)/(\S+)\.edit: (.*)$", re.M)
# What `rt ci` says of an edit that the prover refused: as such, or with a remark, and behind it the first error.
REFUSED = re.compile(r"refused, as it must be(?: \((.*?)\))?(?:: (.*))?$")
# What the first error says where the proof does not fit the code.
SHAPE = re.compile(
    r"can be named from here|is not in scope|expected (?:type )?`(?:goal\.|\S*Need-)|takes \d+ argument|unknown name|has no (?:field|`)"
    r"|this pattern needs a function|parse error|unexpected token"
)
# Lines that the check has to tell apart: so it is seen in every run that it can fail.
TRIALS = {
    "refused, as it must be: a.antt:3:5: error: nothing called `same-length-2` can be named from here": True,
    "refused, as it must be: a.antt:3:5: error: record `Then` has no field `left`": True,
    "refused, as it must be (only because a proof file names what the edit took away, so this says little of the contract: change a value): a": True,
    "refused, as it must be (only by a limit of the prover, which gave no verdict, so this says less of the contract): a.antt:3:5: error": True,
    "refused, as it must be": True,
    "BAD EDIT: an 'old:' text is in src/lib.rt 0 times, and not once": True,
    "NOT REFUSED: the crate is still proved with this edit": True,
    "NOT TRIED: its check was killed": True,
    "refused, as it must be: a.antt:3:5: error: `omega` found no proof": False,
    "refused, as it must be: note: src/lib.rt:14:1: it is not proved that what the function ensures holds when it returns": False,
}


def fault(said):
    """Why the edit shows nothing of a contract, or nothing."""
    found = REFUSED.match(said)
    if not found:
        return said
    remark, error = found.groups()
    if remark:
        return f"refused {remark}"
    if not error:
        return "refused without an error"
    return f"refused by the proof's shape: {error}" if SHAPE.search(error) else ""


def main(log):
    faults = [f"{said!r} is not told apart" for said, is_fault in TRIALS.items() if bool(fault(said)) != is_fault]
    root = Path(__file__).resolve().parent.parent
    tried = {f"{crate}/{edit}": said for crate, edit, said in LINE.findall(log)}
    there = {f"{path.parent.parent.name}/{path.stem}" for path in root.glob("crates/*/must-fail/*.edit")}
    faults += [f"{name}: no line" for name in sorted(there - set(tried))]
    faults += [f"{name}: {fault(said)[:200]}" for name, said in sorted(tried.items()) if fault(said)]
    for one in faults:
        print(one)
    print(f"refusals: {len(tried)} edits, {len(faults)} faults")
    return 1 if faults else 0


if __name__ == "__main__":
    if len(sys.argv) != 2:
        sys.exit("usage: refusals.py LOG")
    sys.exit(main(Path(sys.argv[1]).read_text(encoding="utf-8", errors="replace")))

"""Has the prover compute the examples of Examples.txt on the definitions as they are: what Python answers of them, the prover does.

Words choose files and names of computed.txt: of their alterations too the prover says whether the example fails (`.` chooses all, some five seconds each).
"""
import re
import sys

import blocks
import scratch

DATA = blocks.HERE / "computed.txt"
TEXT = (blocks.HERE / "Examples.txt").read_text()


def only(name):
    """The file of examples with this one alone."""
    head, *rest = re.split(r"^(?=pub )", TEXT, flags=re.M)
    return head + "".join(r for r in rest if r.split()[1] == name)


def failing(examples, altered=None):
    """The examples that do not compute, and errors that are about something else."""
    out, status = scratch.checked("computed", altered, examples)
    names, other = [], []
    for m in re.finditer(r"^(\S+\.antt):\d+:\d+: error: (?:`([^`]+)`: )?(.*)$", out, re.M):
        wrong_value = m[1].endswith("/Examples.antt") and m[2] and ("the two types" in m[3] or "expected type" in m[3])
        (names if wrong_value else other).append(m[2] if wrong_value else m[0])
    if status and not names and not other:
        other.append(out[-500:])
    return names, other


def main(chosen=()):
    """How much is wrong: examples that the prover does not compute, alterations that it does not notice."""
    names, other = failing(TEXT)
    bad, tried = len(names) + len(other), 0
    if bad:
        print("the definitions as they are:", names, other)
    for b in blocks.read(DATA):
        if "old" in b and any(c == "." or c in f"{b['file']} {b['name']}" for c in chosen):
            name = b["seen"].removeprefix("computed ")
            names, other = failing(only(name), {b["file"]: blocks.altered(b)})
            fine = name in names and not other
            bad, tried = bad + (not fine), tried + 1
            print(f"{'noticed' if fine else 'NOT NOTICED'} {b['file']} {b['name']}: {' '.join(names)} {' '.join(other)[:600]}", flush=True)
    print(f"computed: {TEXT.count(chr(10) + 'pub ')} examples by the prover, {tried} alterations, {bad} faults", flush=True)
    return bad


if __name__ == "__main__":
    sys.exit(1 if main(sys.argv[1:]) else 0)

#!/usr/bin/env python3
"""Records the gate's time by crate: gate_times.py reads build/gate.log, which `make test` has left, and writes records/gate-times.txt.

`rt ci` proves crates side by side and prints no times. So the log has before each line the second at which it came, counted from the gate's
beginning, and the record has of each crate, the last one first, the second at which it was proved (with its tests, if it has any), and how many
must-fail edits it has; the edits' own lines come together at the end. A log of a gate that did not pass, in which not every crate and edit is
found, or of a run that took proofs or edits from an earlier one, is refused.

    gate_times.py                      writes the record
    gate_times.py --stamp BEGAN FILE   copies standard input to standard output, and to the end of FILE with the seconds since BEGAN
"""
import re
import sys
import time
from pathlib import Path

ROOT = Path(__file__).resolve().parent.parent
LOG = ROOT / "build" / "gate.log"
RECORD = ROOT / "records" / "gate-times.txt"


def stamp(began, path):
    """Copies the lines as they come."""
    sys.stdin.reconfigure(encoding="utf-8", errors="replace")
    sys.stdout.reconfigure(encoding="utf-8")
    with open(path, "a", encoding="utf-8") as log:
        for line in sys.stdin:
            print(line, end="", flush=True)
            print(f"{int(time.time()) - began} {line}", end="", file=log, flush=True)


def times(log):
    """Of each crate: the second at which it was proved, and its edits."""
    crates = {name: [int(second), 0] for second, name in re.findall(r"^(\d+) rt: (\w+)(?:: its tests are)? proved$", log, re.M)}
    for name in re.findall(r"^\d+ rt: must-fail (\w+)/\S+: refused, as it must be", log, re.M):
        crates[name][1] += 1
    return crates


def main(log):
    took = re.search(r"^\d+ test: took (\d+) minutes on (\d+) cores, (\S+)$", log, re.M)
    verdict = re.search(r"^\d+ (\d+) passed, 0 failed\n\Z", log, re.M)
    if not took or not verdict:
        sys.exit("gate_times: this is not the log of a gate that passed")
    if "every proof and must-fail edit was done in this run" not in log:
        sys.exit("gate_times: some proofs or edits of this run are kept from earlier ones")
    crates = times(log)
    found = len(crates) + sum(edits for _, edits in crates.values())
    if found != int(verdict.group(1)):
        sys.exit(f"gate_times: {found} crates and edits found, but {verdict.group(1)} passed")
    minutes, cores, date = took.groups()
    kit = (ROOT / "kit.txt").read_text(encoding="utf-8").split()[0]
    lines = [f"kit {kit}", f"date {date}", f"cores {cores}", f"minutes {minutes}", "", "crate proved-at-second edits"]
    lines += [f"{name} {second} {edits}" for name, (second, edits) in sorted(crates.items(), key=lambda crate: -crate[1][0])]
    RECORD.write_text("\n".join(lines) + "\n", encoding="utf-8")
    print(f"gate_times: {len(crates)} crates to records/gate-times.txt")


if __name__ == "__main__":
    if len(sys.argv) == 4 and sys.argv[1] == "--stamp":
        sys.exit(stamp(int(sys.argv[2]), sys.argv[3]))
    if len(sys.argv) != 1:
        sys.exit("usage: gate_times.py  |  gate_times.py --stamp BEGAN FILE")
    main(LOG.read_text(encoding="utf-8", errors="replace"))

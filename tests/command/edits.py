#!/usr/bin/env python3
"""Makes each small edit of edits.txt in a copy of the command, builds it, and sees that a test notices: edits.py [FIRST [LAST]].

The tests are those of the gate: the pages (walk.py), faults.py, and then course days for some seconds. An edit that does not compile is a
fault of the list. What came out is kept in build/command-edits.json, from run to run, and goes to records/command-edits.md, where an edit that
was not made yet says so. The exit status is 1 where an edit is not noticed, or a named one is.
"""
import datetime
import json
import os
import re
import shutil
import subprocess
import sys
import tempfile
from pathlib import Path

ROOT = Path(__file__).resolve().parent.parent.parent
LIST = ROOT / "tests/command/edits.txt"
KEPT = ROOT / "build/command-edits.json"
SEED, SECONDS = "20261117", "12"


def edits():
    """Each edit: file, old, new, and whether it is a named one that nothing notices."""
    text, _, named = LIST.read_text(encoding="utf-8").partition("\nnamed:\n")
    for part, is_named in ((text, False), (named, True)):
        for file, old, new in re.findall(r"^== (\S+)\n- (.*)\n\+ (.*)$", part, re.M):
            yield file, old, new, is_named


def run(command, **more):
    return subprocess.run(command, stdout=subprocess.PIPE, stderr=subprocess.STDOUT, check=False, **more)


def build(room):
    """Builds the copy, and puts it beside the proved programs. What it does is tried, not how fast."""
    quick = {"CARGO_TARGET_DIR": str(room / "cargo"), "CARGO_PROFILE_RELEASE_OPT_LEVEL": "1", "CARGO_PROFILE_RELEASE_CODEGEN_UNITS": "8"}
    done = run(["cargo", "build", "--release", "--quiet", "-p", "gemzuleg"], cwd=room / "rust", env=os.environ | quick)
    if done.returncode:
        return done.stdout.decode()
    shutil.copy(room / "cargo/release/gemzuleg", room / "bin")
    return ""


def noticed(room):
    """The first test that notices, and nothing where none does."""
    tests = [
        ("walk", ["python3", "tests/command/walk.py"]),
        ("faults", ["python3", "tests/command/faults.py"]),
        ("day", [str(room / "day"), "fuzz", SEED, SECONDS]),
    ]
    for name, command in tests:
        if run(command, cwd=room, env=os.environ | {"GEMZULEG": str(room / "bin")}).returncode:
            return name
    return None


def main(first, last):
    room = Path(tempfile.mkdtemp(prefix="edits."))
    faults, found = [], []
    try:
        # The tests too: the tree may be worked on meanwhile.
        for part in ("rust", "docs", "examples", "tests/command"):
            shutil.copytree(ROOT / part, room / part)
        (room / "build").symlink_to(ROOT / "build")
        (room / "bin").mkdir()
        shutil.copy(ROOT / "build/cargo/release/day", room)
        for program in ("report", "pool"):
            shutil.copy(ROOT / "build/bin" / program, room / "bin")
        if build(room) or noticed(room):
            sys.exit("edits: the command itself does not pass; make gemzuleg, and cargo build --release -p day in tests")
        for number, (file, old, new, named) in list(enumerate(edits(), 1))[first - 1 : last]:
            path = room / "rust/gemzuleg/src" / file
            source = path.read_text(encoding="utf-8")
            if source.count(old) != 1:
                faults.append(f"{number}: {file} has {source.count(old)} times {old!r}")
                continue
            path.write_text(source.replace(old, new), encoding="utf-8")
            broken = build(room)
            test = None if broken else noticed(room)
            path.write_text(source, encoding="utf-8")
            if broken:
                faults.append(f"{number}: {file}: {new!r} does not compile\n{broken}")
            elif named == bool(test):
                faults.append(f"{number}: {file}: {new!r} is {'noticed' if test else 'not noticed'}")
            else:
                keep(file, old, new, test or "named")
            found.append(test or "named")
            print(f"edits: {number} {file}: {test or 'nothing notices'}", flush=True)
    finally:
        shutil.rmtree(room)
    print(*(f"edits: {fault}\n" for fault in faults), sep="", end="")
    print(f"edits: {len(found)} made, {len(faults)} faults")
    record()
    return 1 if faults else 0


def kept():
    return {tuple(row[:3]): row[3] for row in json.loads(KEPT.read_text(encoding="utf-8"))} if KEPT.is_file() else {}


def keep(*row):
    rows = kept() | {row[:3]: row[3]}
    KEPT.write_text(json.dumps([[*key, test] for key, test in rows.items()]), encoding="utf-8")


def record():
    rows = kept()
    wanted = [(file, old, new) for file, old, new, _ in edits()]
    tests = [rows.get(edit, "not made yet") for edit in wanted]
    walk, faults, day, named, later = (tests.count(test) for test in ("walk", "faults", "day", "named", "not made yet"))
    commit = run(["git", "rev-parse", "--short", "HEAD"], cwd=ROOT).stdout.decode().strip()
    lines = [
        "# Small edits of the command",
        "",
        f"{datetime.date.today()}, at {commit}. `python3 tests/command/edits.py` made {len(tests) - later} small edits of `rust/gemzuleg` one by one, built",
        f"the command and ran the tests: the pages noticed {walk}, `faults.py` {faults} more, course days {day} more. {named} are noticed by nothing:",
        "checks of the command's own work, which hold whatever is asked." + f" {later} were not made yet." * (later > 0),
        "",
        "| | file | edit | noticed by |",
        "|---|---|---|---|",
    ]
    cell = lambda text: "`" + text.strip().replace("|", "\\|") + "`"
    lines += [f"| {n} | {file} | {cell(old)} becomes {cell(new)} | {test} |" for n, ((file, old, new), test) in enumerate(zip(wanted, tests), 1)]
    (ROOT / "records/command-edits.md").write_text("\n".join(lines) + "\n", encoding="utf-8")


if __name__ == "__main__":
    given = [int(word) for word in sys.argv[1:]]
    sys.exit(main(given[0] if given else 1, given[1] if len(given) > 1 else None))

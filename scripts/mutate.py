#!/usr/bin/env python3
"""Mutation testing of the proved code: edits one operand at a time, and sees that the prover refuses each edit.

    python3 scripts/mutate.py                    all crates whose sources, or those of crates below them, have changed since they were tried
    python3 scripts/mutate.py bases              this crate
    python3 scripts/mutate.py --written [bases]  of all such crates, or of this one, the edits in the folder `mutations` alone
    python3 scripts/mutate.py --count            nothing: the record's head is written anew

The crates are copied to a folder of its own outside the tree, where `rt ci` would find them, so that nothing of the project is changed. records/mutation.md is both the record that is
read and the one that is written. The exit status is 1 where an edit was not refused and scripts/survivors.txt does not say why, and
where a written edit did not reach the prover, so that nothing was refused.
"""
import datetime
import hashlib
import os
import re
import shutil
import signal
import subprocess
import sys
import tempfile
import time
from dataclasses import dataclass, field
from pathlib import Path

from edit_files import BadEdit, edited, replacements
from edits import ROOT, all_edits, functions_of, next_edit, shapes_of

# Counts as a part of every crate's sources: a new number has all crates tried again.
RULES = "1"
WANTED = 3
MOST_TRIES = 14
TOGETHER = 16
SECONDS = 240
SCRATCH = Path(tempfile.gettempdir()) / f"gemzuleg-mutate-{hashlib.sha256(str(ROOT).encode()).hexdigest()[:8]}"
RECORD = ROOT / "records" / "mutation.md"
NOTES = ROOT / "scripts" / "survivors.txt"
# A program of test cases, and what serves the tests alone.
LEFT_OUT = set()
# The first error of a proof that only does not fit the code's shape any more; no fact is said not to hold.
SHAPE = re.compile(r"can be named from here|is not in scope|expected (?:type )?`(?:goal\.|\S*Need-)|takes \d+ argument|unknown name|has no (?:field )?`")
# A proof that goes through the function's code statement by statement has this among its imports.
WALKED = re.compile(r"^use denote\.Triple\.Walked\b", re.M)
ERROR = re.compile(r"^(?:\./)?((?:src|specs|proofs)/\S+?):(\d+):(\d+): error(.*)$", re.M)


@dataclass
class Trial:
    """A function under test: what is left to try, and what came of what was tried."""

    function: object
    left: list
    results: list = field(default_factory=list)
    shaped: list = field(default_factory=list)
    tries: int = 0
    edit: object = None

    def wants(self):
        """Is another edit to be tried? None of a function whose proof is a walk: that any of them is refused tells nothing."""
        wanted = 1 if self.function.constant else 0 if is_walked(self.function) else WANTED
        return len(self.results) < wanted and bool(self.left) and self.tries < MOST_TRIES

    def choose(self):
        """Takes the next edit to try."""
        self.edit = next_edit(self.function, self.left, [edit for edit, _, _ in self.results + self.shaped])
        self.left.remove(self.edit)
        self.tries += 1


@dataclass
class Section:
    """What the record has of a crate: the sum of the sources on which all of its edits were tried, the date, and its rows. `again` has
    sum and date of a later run of the written edits alone. A sum is empty where there was no such run."""

    total: str = ""
    date: str = ""
    rows: list = field(default_factory=list)
    again: tuple = ("", "")

    def is_of(self, total, alone):
        """Were the crate's edits, or the written ones alone, tried on the sources with this sum?"""
        return self.total == total or alone and self.again[0] == total


def dependencies():
    """The crates of crates.txt with the crates that each depends on."""
    table = {}
    for line in (ROOT / "crates.txt").read_text(encoding="utf-8").splitlines():
        code = line.partition("#")[0]
        if ":" in code:
            name, _, names = code.partition(":")
            table[name.split()[0]] = names.split()
    return table


def below(crate, table):
    """The crates of the project that a crate reaches."""
    reached, todo = set(), list(table[crate])
    while todo:
        name = todo.pop()
        if name in table and name not in reached:
            reached.add(name)
            todo += table[name]
    return sorted(reached)


def sum_of(crate, table):
    """A sum of a crate's files, and of the code and definitions of the crates below it."""
    digest = hashlib.sha256(RULES.encode())
    for name, parts in [(crate, ("src", "specs", "proofs"))] + [(name, ("src", "specs")) for name in below(crate, table)]:
        for part in parts:
            for path in sorted((ROOT / "crates" / name / part).rglob("*")):
                if path.suffix in (".rt", ".antt"):
                    digest.update(f"{path.relative_to(ROOT)}\n".encode() + path.read_bytes())
    for path in written_edits(crate):
        digest.update(path.read_bytes())
    return digest.hexdigest()[:12]


def written_edits(crate):
    """The edits of a crate that are written by hand and that the gate does not try."""
    return sorted((ROOT / "crates" / crate / "mutations").glob("*.edit"))


def lay_out(crate, table):
    """Copies the crate and those below it to the scratch folder. What is proved of those, `rt` takes from where it was proved."""
    SCRATCH.mkdir(parents=True, exist_ok=True)
    laid = [*below(crate, table), crate]
    (SCRATCH / "crates.txt").write_text("".join(f"{name}: {' '.join(table[name])}\n" for name in laid))
    for name in laid:
        home = SCRATCH / "crates" / name
        shutil.rmtree(home, ignore_errors=True)
        shutil.copytree(ROOT / "crates" / name, home, ignore=shutil.ignore_patterns("must-fail", "mutations", "out"))


def run_check(crate, seconds=SECONDS):
    """What `rt check` says of the crate in the scratch folder; nothing where it takes too long."""
    with subprocess.Popen(
        ["rt", "check"],
        cwd=SCRATCH / "crates" / crate,
        stdin=subprocess.DEVNULL,
        stdout=subprocess.PIPE,
        stderr=subprocess.STDOUT,
        text=True,
        start_new_session=True,
    ) as process:
        try:
            return process.communicate(timeout=seconds)[0]
        except subprocess.TimeoutExpired:
            os.killpg(process.pid, signal.SIGKILL)
            process.communicate()
            return ""


def lay_edits(crate, edits):
    """Puts the crate's code in the scratch folder with these edits, and what was checked of it without any."""
    for path in sorted((ROOT / "crates" / crate / "src").rglob("*.rt")):
        text = path.read_text(encoding="utf-8")
        for edit in sorted(edits, key=lambda e: -e.start):
            if edit.path == path:
                text = text[: edit.start] + edit.new + text[edit.end :]
        (SCRATCH / path.relative_to(ROOT)).write_text(text, encoding="utf-8")
    checked = SCRATCH / "crates" / crate / "out" / "incremental"
    shutil.rmtree(checked, ignore_errors=True)
    shutil.copytree(SCRATCH / "pristine" / crate, checked)


def start_crate(crate, table):
    """Checks the crate as it is, and keeps what was checked."""
    lay_out(crate, table)
    shutil.rmtree(SCRATCH / "said" / crate, ignore_errors=True)
    said = run_check(crate, None)
    if not (re.findall(r"^logic=.*", said, re.M) or [""])[-1].startswith("logic=proved"):
        sys.exit(f"mutate: {crate} is not proved as it is\n{said[-2000:]}")
    pristine = SCRATCH / "pristine" / crate
    shutil.rmtree(pristine, ignore_errors=True)
    shutil.copytree(SCRATCH / "crates" / crate / "out" / "incremental", pristine)


def calls_of(items):
    """For each function the functions of the crate that it reaches, itself among them."""
    names = {item.name.split("::")[-1]: [] for item in items}
    for item in items:
        names[item.name.split("::")[-1]].append(item.name)
    direct = {}
    for item in items:
        words = set(re.findall(r"\w+", item.path.read_text(encoding="utf-8")[item.start : item.end]))
        direct[item.name] = {full for word in words & set(names) for full in names[word]} | {item.name}
    reached = dict(direct)
    for _ in items:
        reached = {name: set().union(*(reached[other] for other in others)) for name, others in reached.items()}
    return reached


def proof_homes(function):
    """Where the proof of a function stands, or of one that calls itself; nowhere where the prover finds it by itself."""
    folder, _, last = function.name.replace("::", "/").rpartition("/")
    return [f"proofs/{folder}/{name}/".replace("//", "/") for name in (last, f"+{last}")]


def proof_files(function):
    """The files with what was written of the function's proof, if there are any."""
    names = ("Proof.antt", "Invariants.antt", "Answers.antt")
    homes = [ROOT / "crates" / function.crate / home / name for home in proof_homes(function) for name in names]
    return [home for home in homes if home.is_file()]


def has_proof(function):
    """Is there a file with the function's proof?"""
    return bool(proof_files(function))


def is_walked(function):
    """Is the function's proof a walk of its code, which fits no other code, whatever it means?"""
    return not function.constant and any(WALKED.search(file.read_text(encoding="utf-8")) for file in proof_files(function))


def pick_batch(trials, reached):
    """Trials that can run at once. A constant is tried alone, and so that each function's own errors can be told from those of
    the functions that it reaches, a function without a proof file runs with none of them."""
    if trials[0].function.constant:
        return trials[:1]
    batch = []
    for trial in trials:
        own = trial.function
        mixed = [
            (own if t.function.name in reached[own.name] else t.function)
            for t in batch
            if t.function.name in reached[own.name] or own.name in reached[t.function.name]
        ]
        if not own.constant and all(has_proof(function) for function in mixed):
            batch.append(trial)
        if len(batch) == TOGETHER:
            break
    return batch


def own_verdict(said, trial):
    """proved, refused, or called: not proved, where that may be only since a function that it calls is not.

    Where a callee is not proved, the proof as a whole is not admitted, and says so. Its parts are checked all the same, against the
    callee's contract: an error in one of them is the function's own."""
    crate, name = trial.function.crate, trial.function.name
    if trial.function.constant:
        return "refused" if re.search(r"^logic=not-proved", said, re.M) else "proved"
    found = re.search(rf"^fn {crate}::{re.escape(name)}: (.*)$", said, re.M)
    if not found:
        return "unknown"
    if found.group(1).startswith("proved"):
        return "proved"
    if found.group(1).startswith("could not tell"):
        return "unknown"
    if "; it calls " not in found.group(1):
        return "refused"
    return "refused" if own_errors(said, trial.function) else "called"


def own_errors(said, function):
    """The errors in the function's proof file that are not about another part that was not admitted."""
    found = [error for error in ERROR.finditer(said) if error.group(1).startswith(tuple(proof_homes(function)))]
    return [error for error in found if "was not admitted" not in error.group(4)]


def first_error(said, trial):
    """The place of the first error about the function, and whether it is only about the proof's shape. A function without a proof
    file has none: there the prover's `search` finds no proof."""
    function = trial.function
    errors = list(ERROR.finditer(said)) if function.constant else own_errors(said, function)
    if errors:
        return f"{errors[0].group(1)}:{errors[0].group(2)}", bool(SHAPE.search(errors[0].group(4)))
    return ("no place" if has_proof(function) else "search"), False


def settle(said, trial, alone):
    """Records what the run says of a trial's edit; False where it is to be tried again alone."""
    verdict = own_verdict(said, trial)
    if verdict in ("proved", "called") and not alone:
        return False
    if verdict in ("refused", "called"):
        place, shaped = first_error(said, trial)
        (trial.shaped if shaped else trial.results).append((trial.edit, "refused", place))
    elif verdict == "proved":
        trial.results.append((trial.edit, "survived", ""))
    return True


def drop_rejected(said, batch):
    """The trials whose edit the front end rejects, by the lines of its errors."""
    places = {(found.group(1), int(found.group(2))) for found in ERROR.finditer(said) if found.group(1).startswith("src/")}

    def has(function, file, line):
        return file == f"src/{function.path.name}" and function.first <= line <= function.last

    return [t for t in batch if any(has(t.function, file, line) for file, line in places)]


def keep_said(crate, said):
    """Keeps what the prover said in the scratch folder, for whoever wants to know why it refused."""
    folder = SCRATCH / "said" / crate
    folder.mkdir(parents=True, exist_ok=True)
    (folder / f"{len(list(folder.iterdir())):03}.txt").write_text(said, encoding="utf-8")


def run_batch(crate, batch):
    """Tries the chosen edit of each trial, and chooses another where the front end rejects one."""
    while batch:
        lay_edits(crate, [t.edit for t in batch])
        began = time.time()
        said = run_check(crate)
        keep_said(crate, said)
        if re.search(r"^logic=", said, re.M):
            again = [t for t in batch if not settle(said, t, len(batch) == 1)]
            print(f"mutate: {crate}: {len(batch)} edits, {time.time() - began:.1f} s, {len(again)} to be tried alone", flush=True)
            for trial in again:
                run_batch(crate, [trial])
            return
        rejected = drop_rejected(said, batch)
        if not rejected and len(batch) > 1:
            for trial in batch:
                run_batch(crate, [trial])
            return
        for trial in rejected or batch:
            if trial.wants():
                trial.choose()
            else:
                batch = [t for t in batch if t is not trial]


def has_functions(crate):
    """Has the crate code of its own? The others have definitions and theorems, of which written edits tell."""
    return any(not item.constant for item in items_of(crate))


def try_functions(crate, shapes):
    """Tries the edits of a crate's functions and constants; of a crate without functions none."""
    items = items_of(crate) if has_functions(crate) else []
    reached = calls_of(items)
    trials = [Trial(item, all_edits(item, shapes)) for item in items]
    waiting = [t for t in trials if t.wants()]
    while waiting:
        batch = pick_batch(waiting, reached)
        for trial in batch:
            trial.choose()
        run_batch(crate, batch)
        waiting = [t for t in trials if t.wants()]
    for trial in trials:
        spare = WANTED - len(trial.results)
        trial.results += [(edit, "refused by shape", place) for edit, _, place in trial.shaped[: max(spare, 0)]]
    return trials


def verdict_of(said):
    """What a run says of a written edit: refused, survived, or rejected, where the prover did not get to see it."""
    if re.search(r"^logic=not-proved", said, re.M):
        return "refused"
    return "survived" if re.search(r"^logic=", said, re.M) else "rejected"


def try_written(crate):
    """Tries the edits that are written by hand, one by one; gives their rows."""
    rows, home = [], SCRATCH / "crates" / crate
    for path in written_edits(crate):
        lay_edits(crate, [])
        try:
            texts = edited(path, home)
        except BadEdit as why:
            sys.exit(f"mutate: {path.relative_to(ROOT)}: {why}")
        # what lies in src/ is laid anew for each edit, what lies in specs/ is not
        before = {file: (home / file).read_text(encoding="utf-8") for file in texts}
        for file, text in texts.items():
            (home / file).write_text(text, encoding="utf-8")
        said = run_check(crate)
        for file, text in before.items():
            (home / file).write_text(text, encoding="utf-8")
        keep_said(crate, said)
        old, new = ("; ".join(code(pair[at].strip()) for pair in replacements(path)) for at in (1, 2))
        places = [f"{error.group(1)}:{error.group(2)}" for error in ERROR.finditer(said)]
        rows.append([f"edit {path.stem}", "-", old, new, verdict_of(said), places[0] if places else "-"])
    return rows


def code(text):
    """A text as code in a table's cell."""
    return "`" + text.replace("|", "\\|") + "`"


def rows_of(trials):
    """The rows of a crate's table."""
    rows = []
    for trial in trials:
        name = ("const " if trial.function.constant else "") + trial.function.name
        for edit, result, place in sorted(trial.results, key=lambda r: r[0].start):
            rows.append([name, str(edit.line), code(edit.before), code(edit.after), result, place])
        if not trial.results:
            rows.append([name, "-", "-", "-", "walked" if is_walked(trial.function) else "no edit", "-"])
    return rows


def read_record():
    """The sections of the record, by crate."""
    sections, section = {}, None
    for line in RECORD.read_text(encoding="utf-8").splitlines() if RECORD.is_file() else []:
        found = re.fullmatch(r"### (\w+)", line)
        if found:
            section = sections[found.group(1)] = Section()
        elif line.startswith("## "):
            section = None
        tried, again = re.fullmatch(r"Sources (\w+), (\S+)\.", line), re.fullmatch(r"Written edits alone: sources (\w+), (\S+)\.", line)
        if section and tried:
            section.total, section.date = tried.groups()
        if section and again:
            section.again = again.groups()
        if section and line.startswith("| ") and not line.startswith("| function |"):
            section.rows.append([cell.strip() for cell in re.split(r"(?<!\\)\|", line)[1:-1]])
    return sections


def read_notes():
    """What is said of survivors: lines `CRATE FUNCTION: WHY`, or `CRATE FUNCTION: AFTER => WHY` of one edit."""
    notes = {}
    for line in NOTES.read_text(encoding="utf-8").splitlines() if NOTES.is_file() else []:
        found = re.fullmatch(r"(\w+) ((?:const |edit )?\w+(?:::\w+)*): (?:`(.*)` => )?(.*)", line)
        if found and not line.startswith("#"):
            notes[(found.group(1), found.group(2), found.group(3))] = found.group(4)
    return notes


def note_of(notes, crate, row):
    """What is said of an edit that was not refused, or nothing; of one that did not reach the prover nothing can be said."""
    if row[4] == "rejected":
        return ""
    after = row[3].strip("`").replace("\\|", "|")
    return notes.get((crate, row[0], after)) or notes.get((crate, row[0], None)) or ""


def items_of(crate):
    """The functions and constants of a crate."""
    return [item for path in sorted((ROOT / "crates" / crate / "src").rglob("*.rt")) for item in functions_of(crate, path)]


def untried(sections, order):
    """The crates that have functions or written edits and were never tried whole."""
    never = [crate for crate in order if crate not in sections or not sections[crate].total]
    return [crate for crate in never if has_functions(crate) or written_edits(crate)]


def unseen(sections):
    """How many edits written by hand have no row."""
    return sum(f"edit {path.stem}" not in {row[0] for row in sections.get(crate, Section()).rows} for crate in dependencies() for path in written_edits(crate))


def was_tried(row):
    """Is the row that of an edit, and not of a function of which none was made?"""
    return row[4] not in ("no edit", "walked")


def few_of(sections):
    """The functions with fewer edits than wanted, by crate, but for those that are walked."""
    few = []
    for crate, section in sections.items():
        rows = section.rows
        names = list(dict.fromkeys(row[0] for row in rows if not row[0].startswith(("const ", "edit ")) and row[4] != "walked"))
        short = [(name, sum(row[0] == name and was_tried(row) for row in rows)) for name in names]
        short = [f"`{name}` {count}" for name, count in short if count < WANTED]
        if short:
            few.append(f"- `{crate}`: {', '.join(short)}")
    return few


HEAD = """# Mutation testing: the record

Written by `scripts/mutate.py` (`make mutate`); docs/TESTING.md says what is done and what it shows. {date}: {functions} functions and
{constants} constants of {crates} crates, {edits} edits, {written} of them written by hand, {refused} refused ({shape} of them by shape), {survived} not. {walked} functions
are walked: their proofs go through the code statement by statement, so that any edit is refused by shape, whatever it means, and tells
nothing. None of them is tried; they decide nothing, and what they call does.

Sections of before 2026-11-26 were made with the kit before the present one, rattle-kit-5b-plain; names and signs are in today's spelling since.

"Where" is the place of the first error about the edited function, or `search` where it has no proof file and the prover finds no proof by
itself. A crate is tried again when its own files, or the code or definitions of a crate below it, have changed: the sum beside its name
tells; "moved" says that its functions were tried in the crates that became its modules. A second sum is that of a later run of the
written edits alone (`mutate.py --written`). Not tried yet: {untried}. Of {older} crates the sources, or those of crates below them, have
changed since they were tried whole, and {unseen} of the edits written by hand have no row yet; `make mutate` tries both.
"""


def not_refused(sections, notes):
    """The edits that were not refused, each with what is said of it: survivors, and those that did not reach the prover."""
    rows = [(crate, row) for crate, section in sections.items() for row in section.rows]
    return [(crate, row, note_of(notes, crate, row)) for crate, row in rows if row[4] in ("survived", "rejected")]


def write_record(sections, order, notes):
    """Writes the record; gives the edits that were not refused and of which nothing is said."""
    sections = {crate: sections[crate] for crate in order if crate in sections}
    everything = [(crate, row) for crate, section in sections.items() for row in section.rows]
    tried = [row for _, row in everything if was_tried(row)]
    left = not_refused(sections, notes)
    items = {(crate, row[0]) for crate, row in everything}
    counts = {
        "date": max((date for section in sections.values() for date in (section.date, section.again[1])), default="-"),
        "functions": sum(not name.startswith(("const ", "edit ")) for _, name in items),
        "constants": sum(name.startswith("const ") for _, name in items),
        "crates": len(sections),
        "edits": len(tried),
        "written": sum(row[0].startswith("edit ") for row in tried),
        "refused": sum(row[4].startswith("refused") for row in tried),
        "survived": len(left),
        "older": sum(section.total != sum_of(crate, dependencies()) for crate, section in sections.items()),
        "unseen": unseen(sections),
        "untried": ", ".join(f"`{crate}`" for crate in untried(sections, order)) or "none",
        "shape": sum(row[4] == "refused by shape" for row in tried),
        "walked": sum(row[4] == "walked" for _, row in everything),
    }
    lines = [HEAD.format(**counts), "## Not refused", "", "| crate | function | before | after | why |", "|---|---|---|---|---|"]
    lines += [f"| {crate} | {row[0]} | {row[2]} | {row[3]} | {note or '**open**: ' + row[4]} |" for crate, row, note in left]
    lines += ["", "## Functions with fewer than three edits", "", "They have no other operand that can be changed and stays well typed.", ""]
    lines += few_of(sections) + ["", "## All edits", ""]
    for crate, section in sections.items():
        lines += [f"### {crate}", ""]
        lines += [f"Sources {section.total}, {section.date}.", ""] * bool(section.total)
        lines += [f"Written edits alone: sources {section.again[0]}, {section.again[1]}.", ""] * bool(section.again[0])
        lines += ["| function | line | before | after | result | where |", "|---|---|---|---|---|---|"]
        lines += ["| " + " | ".join(row) + " |" for row in section.rows] + [""]
    RECORD.write_text("\n".join(lines).rstrip() + "\n", encoding="utf-8")
    return [(crate, row) for crate, row, note in left if not note]


def try_crate(crate, table, shapes, total, alone):
    """Tries a crate's edits, or the written ones alone; gives its section of the record. Rows of edits that are not tried stay."""
    start_crate(crate, table)
    today = datetime.date.today().isoformat()
    if alone and has_functions(crate):
        before = read_record().get(crate, Section())
        kept = [row for row in before.rows if not row[0].startswith("edit ")]
        return Section(before.total, before.date, kept + try_written(crate), (total, today))
    return Section(total, today, rows_of(try_functions(crate, shapes)) + try_written(crate))


def main(words):
    table = dependencies()
    order = [name for name in table if name not in LEFT_OUT]
    alone, asked = "--written" in words, [name for name in words if name and not name.startswith("--")]
    unknown = [name for name in asked if name not in order]
    if unknown:
        sys.exit(f"mutate: no such crate: {' '.join(unknown)}")
    shapes = shapes_of(order)
    for crate in [] if "--count" in words else asked or order:
        total = sum_of(crate, table)
        done = not asked and read_record().get(crate, Section()).is_of(total, alone)
        if done or not (written_edits(crate) or has_functions(crate) and not alone):
            continue
        began = time.time()
        section = try_crate(crate, table, shapes, total, alone)
        sections = read_record()
        sections[crate] = section
        write_record(sections, order, read_notes())
        tried = [row for row in section.rows if was_tried(row) and (row[0].startswith("edit ") or not alone)]
        left = sum(not row[4].startswith("refused") for row in tried)
        print(f"mutate: {crate}: {len(tried)} edits, {left} not refused, {time.time() - began:.0f} s", flush=True)
    left = write_record(read_record(), order, read_notes())
    for crate, row in left:
        print(f"mutate: {crate}: {row[0]}, {row[3]}: " + ("nothing is said of it" if row[4] == "survived" else "it did not reach the prover"))
    print(f"mutate: {len(left)} edits were not refused and nothing is said of them")
    return 1 if left else 0


if __name__ == "__main__":
    sys.exit(main(sys.argv[1:]))

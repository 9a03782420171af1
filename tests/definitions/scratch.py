"""The definitions alone, in one scratch crate: copies of the specs, the types of the sources, and examples that are computed by `refl`.

No law stands between a definition and an example here, so an altered definition is refused by the prover exactly where an example no longer
computes. The crate is written to a folder of its own outside the tree, where `rt ci` would find it.
"""
import hashlib
import pathlib
import re
import subprocess
import tempfile

ROOT = pathlib.Path(__file__).resolve().parents[2]
FOLDER = pathlib.Path(tempfile.gettempdir()) / f"gemzuleg-definitions-{hashlib.sha256(str(ROOT).encode()).hexdigest()[:8]}"
NO_EXAMPLES = "-- No examples.\nuse Rattle.std.specs.Prelude.{◌≡◌, refl}\n\n"

# The files with executable definitions, and what they stand on, in order.
FILES = """
vertex_set/Set vertex_set/Order
setup/Bounds setup/Setup setup/Calls
derivations/Derivation derivations/Access derivations/Lockout derivations/Both derivations/Passes derivations/Way
formed/WellFormed questions/Asks questions/Contract questions/Questions questions/Told living/Calls
scores/Never bases/Base bases/Score bases/Marks
access/Answers quick_yes/Answers answers/Answers
antichains/Antichains forecasts/Forecast forecasts/Answers cut_sets/Cuts cut_sets/Answers
attackers/Attackers attackers/Answers
multisets/Multisets multisets/Meaning multiset_scores/Scores multiset_scores/Answers
next_sets/Next next_sets/Answers next_sets/Walks
records/Records register/Calls register/Afternoon
sheet_format/Text sheet_format/Fields sheet_format/Rows sheet_format/Stated sheet_format/Questions sheet_format/Read sheet_format/Names sheet_format/Meaning
pool_format/Rows pool_format/Call pool_format/Meaning pool/Printed
findings/Findings findings/Answers
reference/Tests reference/Closures reference/Bases
report_text/Rows report_text/Report report_text/Unmixed
report_facts/Texts report_writer/Rest
portal_words/Words portal_sheets/Reading
worked_examples/Sheets worked_examples/Table
""".split()

# Crates whose types the definitions use, and types of theirs that no definition uses.
TYPES = "vertex_set setup living scores access quick_yes answers forecasts cut_sets attackers multiset_scores next_sets records sheet_format pool_format findings report_facts report_writer handin_format portal_register demands".split()
UNUSED = {"Names", "Task", "Pass", "Turn"}


def types_of(crate):
    """The structs and enums of a crate's sources, without functions and comments."""
    text = "\n".join(path.read_text() for path in sorted((ROOT / "crates" / crate / "src").glob("*.rt")))
    found = re.finditer(r"^pub (?:struct|enum) (\w+)(?:\([^)]*\);| \{\n(?:.*\n)*?\})", text, re.M)
    return [re.sub(r"\s*//.*", "", m[0]).replace("setup::", "") for m in found if m[1] not in UNUSED]


def renamed(text):
    """A file's text with every project module named as one of the scratch crate."""
    text = re.sub(r"Rattle\.(?!std\.)\w+\.specs\.declared\.(?:[a-z]\w*\.)?", "Rattle.defs.specs.declared.", text)
    text = re.sub(r"Rattle\.(?!std\.)(\w+)\.specs\.Inner\.(\w+)", r"Rattle.defs.specs.\1_Inner_\2", text)
    return re.sub(r"Rattle\.(?!std\.|defs\.)(\w+)\.specs\.(\w+)", r"Rattle.defs.specs.\1_\2", text)


def names_of(kind, text):
    """The names of the definitions of one kind (unfoldable, abbrev) of a file."""
    return re.findall(rf"^{kind} pub (\S+)", text, re.M)


def examples_file(text):
    """The file of examples: statements, to each of which the proof by computation is added."""
    unfolded = {f: names_of("unfoldable", (ROOT / "crates" / f.split("/")[0] / "specs" / (f.split("/")[1] + ".antt")).read_text()) for f in FILES}
    uses = "".join(f"use Rattle.{f.split('/')[0]}.specs.{f.split('/')[1]}.{{{', '.join(n)}}}\n" for f, n in unfolded.items() if n)
    every = " ".join(n for ns in unfolded.values() for n in ns)
    head, *rest = re.split(r"^(?=pub )", text, flags=re.M)
    first = head.rindex("\n", 0, head.index("\n\n")) + 1
    out = [head[:first] + uses + "use Rattle.std.specs.Int.Count.{ones}\n" + head[first:].rstrip() + "\n"]
    for part in rest:
        name = part.split()[1]
        # a comment that stands behind the statement belongs to the next one
        lines = part.split("\n")
        end = next(i for i in range(1, len(lines) + 1) if i == len(lines) or not lines[i].startswith(" "))
        by = "refl"
        if lines[end - 1].startswith("  -- by: "):
            end, by = end - 1, lines[end - 1][9:]
            del lines[end]
        out.append("\n".join(lines[:end]) + f"\nunfolding {every} ones\n{name} = {by}\n" + "\n".join(lines[end:]).rstrip())
    return "\n".join(out) + "\n"


def write(folder, altered, examples, more=()):
    """Writes the crate; `altered` maps a file (crate/Name) to its text in place of the project's; `more` are files behind the others."""
    altered = altered or {}
    crate_folder = FOLDER / folder / "crates" / "defs"
    specs = crate_folder / "specs"
    proofs = crate_folder / "proofs"
    for d in (specs, proofs, crate_folder / "src"):
        d.mkdir(parents=True, exist_ok=True)
    types = "\n\n".join(t for c in TYPES for t in types_of(c))
    (crate_folder / "src" / "lib.rt").write_text(f"// The types that the definitions use.\n#![tactic(auto)]\n\n{types}\n")
    (FOLDER / folder / "crates.txt").write_text("defs:\n")
    names = {f: f.replace("/", "_") for f in [*FILES, *more]}
    for left in set(specs.glob("*.antt")) - {specs / f"{name}.antt" for name in names.values()}:
        left.unlink()
    for f, name in names.items():
        text = altered.get(f) or (ROOT / "crates" / f.replace("/", "/specs/", 1)).with_suffix(".antt").read_text()
        (specs / f"{name}.antt").write_text(renamed(text))
    (specs / "Lib.antt").write_text("".join(f"pub mod {name}\n" for name in names.values()))
    (proofs / "Examples.antt").write_text(renamed(examples_file(examples)))
    (proofs / "Lib.antt").write_text("pub mod Examples\n")
    return crate_folder


def checked(folder, altered, examples, more=()):
    """What the prover says of that crate, and its status."""
    run = subprocess.run(["rt", "check"], cwd=write(folder, altered, examples, more), stdin=subprocess.DEVNULL, capture_output=True, text=True)
    return run.stdout + run.stderr, run.returncode

"""The believed files, read, with each name as what it is: a case of a data type or an enum has a `·` before it, and a definition none."""
import functools
import pathlib
import re
import sys

ROOT = pathlib.Path(__file__).resolve().parents[2]
sys.path.append(str(ROOT / "scripts"))
import antt
import belief

# The cases of std's data types: they are matched and made as those of the believed files are.
STD_CASES = {"None", "Some", "Ok", "Err"}
USE = re.compile(r"use ([^{ ]+?)\.?(?:\{(.*)\})?(?: as (\S+))?$")
# What report_writer/Whole cites of the report's steps, with the same types: nothing is known at a place, and of a step only what it wrote and what it left.
AT = """-- What is known at a place of the report: nothing, here.
use Rattle.std.specs.Prelude.{◌≡◌, List, ◌++◌, ℕ, take, drop}
use Rattle.setup.specs.declared.Setup.{Setup}
use Rattle.sheet_format.specs.Read.{read_sheet}
use Rattle.sheet_format.specs.Names.{name_of}
use Rattle.report_facts.specs.declared.Facts.{Facts}
use Rattle.report_writer.specs.declared.steps.Cursor.{Cursor}
use Rattle.report_writer.specs.declared.steps.Step.{Step}
use Rattle.report_writer.specs.Rest.{rest_of}

abbrev pub KnownAt : List ℕ → Setup → Facts → List ℕ → List ℕ → List ℕ → Cursor → Type 0
KnownAt sheet s f opening lockout list c = Unit {0}

abbrev pub left_at : List ℕ → Cursor → List ℕ
left_at sheet c = rest_of (name_of sheet) (read_sheet sheet).setup c

abbrev pub StepTaken : List ℕ → Facts → List ℕ → List ℕ → List ℕ → Cursor → List ℕ → ℕ → List ℕ → List ℕ → Step → Type 0
StepTaken sheet f opening lockout list c entry at list' exit r = left_at sheet c ≡ drop at (take r.at exit) ++ left_at sheet r.cursor
"""
BEFORE = {"report_writer/Whole": ("report_writer/Inner/Steps", AT)}


def listed():
    """The files, as `setup/Setup`."""
    return [file.replace("/specs/", "/").removesuffix(".antt") for file in belief.listed()]


def source(file):
    return (ROOT / "crates" / file.replace("/", "/specs/", 1)).with_suffix(".antt")


@functools.cache
def parsed(file):
    """The file as it is."""
    return antt.read(AT, file) if file == "report_writer/Inner/Steps" else antt.read(source(file).read_text(encoding="utf-8"), str(source(file).relative_to(ROOT)))


@functools.cache
def names():
    """The names of all believed definitions."""
    return {name for file in listed() for name in parsed(file)[1]}


@functools.cache
def types():
    """The types of the code that the files name: for a struct its fields, for an enum and a struct around one value none."""
    told, found = set(), {}
    for file in belief.listed():
        for crate, module, name in belief.with_parts(belief.types(file), told):
            text = re.sub(r"\s*//.*", "", belief.declaration(belief.source(crate, module), name))
            found[type_name(name)] = re.findall(r"^\s+(?:pub )?(\w+): ", text, re.M) if "pub struct" in text else []
    return found


def type_name(name):
    """A type of the code that has the name of a definition gets another."""
    return f"{name}Struct" if name in names() else name


def cases(found):
    return {case for d in found.values() if d["kind"] == "data" for case, _ in d["fields"]}


def meanings(uses, found, prefix=""):
    """What a name of the file stands for, and what a name before a point does. Names of files that are not believed get a prefix."""
    here, prefixes = {name: prefix + name for name in found} | {case: f"·{case}" for case in cases(found)}, {}
    for use in uses:
        path, brought, alias = USE.match(use).groups()
        module = re.match(r"Rattle\.(\w+)\.specs\.(.*)", path)
        if not module or module[1] == "std":
            here |= {word: f"·{word}" for word in re.split(r",\s*", brought or "") if word in STD_CASES}
            continue
        variants, declared = "TheVariants" in path, ".declared." in path
        if alias:
            prefixes[alias] = "·" if variants else ""
        for word in re.split(r",\s*", brought) if brought else []:
            name, _, local = word.partition(" as ")
            if module[1] == "worked_examples":
                here[local or name] = prefix + name
            elif variants or (not declared and name in cases(parsed(f"{module[1]}/{module[2].replace('.', '/')}")[1])):
                here[local or name] = f"·{name}"
            else:
                here[local or name] = type_name(name) if declared else name
    return here, prefixes


def renamed(e, here, prefixes, bound=frozenset()):
    """The expression with each name as what it stands for."""
    again = lambda x, more=(): renamed(x, here, prefixes, bound | set(more))
    k = e[0]
    if k == "var":
        before, point, name = e[1].partition(".")
        if point and before in prefixes:
            return ("var", prefixes[before] + name)
        return e if e[1] in bound else ("var", here.get(e[1], e[1]))
    if k in ("pi", "sigma", "let"):
        return (k, e[1], again(e[2]), again(e[3], [e[1]]), *e[4:])
    if k == "lam":
        return (k, e[1], again(e[2], e[1]))
    if k == "rec":
        return (k, [(n, again(x)) for n, x in e[1]])
    if k == "named":
        return (k, e[1], again(e[2]))
    return tuple(again(x) if isinstance(x, tuple) else [again(y) for y in x] if isinstance(x, list) else x for x in e)


def resolved(uses, found, prefix=""):
    """The definitions of a file, with their names resolved."""
    here, prefixes = meanings(uses, found, prefix)
    again = lambda e, bound=(): renamed(e, here, prefixes, frozenset(bound))
    heads = {p[1] if p[0] == "var" else p[1][1] for d in found.values() if d["kind"] == "fun" for ps, _ in d["clauses"] for p in ps if p[0] in ("var", "app")}
    made = {}
    for name, d in found.items():
        if d["kind"] == "fun":
            clauses = [([again(p) for p in ps], again(b, set().union(*map(bound_in, ps)) - set(here))) for ps, b in d["clauses"]]
            made[prefix + name] = {**d, "name": prefix + name, "type": again(d["type"]), "clauses": clauses}
        else:
            bound = {n for n, _, _ in d["params"]} | ({n for n, _ in d["fields"]} if d["kind"] == "record" else set())
            matched = bool(heads & {case for case, _ in d["fields"]})
            made[prefix + name] = {**d, "name": prefix + name, "matched": matched, "params": [(n, again(a, bound), i) for n, a, i in d["params"]]}
            made[prefix + name]["fields"] = [(n, again(a, bound)) for n, a in d["fields"]]
    return made


def bound_in(pattern):
    """The variables of a pattern."""
    if pattern[0] == "var":
        return {pattern[1]}
    parts = pattern[2] if pattern[0] == "app" else pattern[2:4] if pattern[0] == "op" else [pattern[2]] if pattern[0] == "named" else []
    return set().union(*map(bound_in, parts))

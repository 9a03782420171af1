"""The files that must be believed, as docs/TRUST.md lists them: by part, in reading order, with what each says of itself.

scripts/definitions.py prints these files, scripts/index.py holds the list to them, and tests/definitions asks examples of them; what a
definition is, scripts/antt.py reads for all three. The text of a file's row is the first sentence of the file's own first comment, so that
there is one place where it is written.
"""
import functools
import re
from pathlib import Path

import antt

ROOT = Path(__file__).resolve().parent.parent
TRUST = ROOT / "docs" / "TRUST.md"
PART = re.compile(r"^\| \*\*(.+)\*\* \| \| \|$")
ROW = re.compile(r"^\| `([\w/]+\.antt)` \| \d+ \| .* \|$")
USED = re.compile(r"^use Rattle\.(?!std\.)(\w+)\.specs\.([\w.]+)", re.M)
BROUGHT = re.compile(r"^use Rattle\.(?!std\.)(\w+)\.specs\.(\w+)\.\{(.*)\}", re.M)
BRINGS = re.compile(r"^use (\w+)(?:::(\w+))?::(?:([A-Z]\w*)|\{([^{}]*)\});", re.M)
SENTENCE = re.compile(r"(.*?\.)(?= |$)")


def read(file):
    """The text of a listed file, as `setup/specs/Setup.antt`."""
    return (ROOT / "crates" / file).read_text(encoding="utf-8")


def is_there(file):
    return (ROOT / "crates" / file).is_file()


def parts():
    """The headings of the list with their files."""
    found = []
    for line in TRUST.read_text(encoding="utf-8").splitlines():
        part, row = PART.match(line), ROW.match(line)
        if part:
            found.append((part[1], []))
        elif row:
            found[-1][1].append(row[1])
    return found


def listed():
    """The files of the list, in its order."""
    return [file for _, files in parts() for file in files]


def header(file):
    """The comment at a file's top, as one line for each line of it."""
    lines = read(file).splitlines()
    return [line[2:].strip() for line in lines[: next((n for n, line in enumerate(lines) if not line.startswith("--")), len(lines))]]


def first_sentence(file):
    """The first sentence of a file's first comment."""
    found = SENTENCE.match(" ".join(header(file)))
    return found[1] if found else ""


def row_of(file):
    """The row that the list should have for a file: its lines, and what it says of itself."""
    return f"| `{file}` | {read(file).count(chr(10))} | {first_sentence(file)} |"


def rewritten(text):
    """The text of docs/TRUST.md with the rows of the list as they should be."""
    lines = text.split("\n")
    for at, line in enumerate(lines):
        row = ROW.match(line)
        if row and is_there(row[1]):
            lines[at] = row_of(row[1])
    return "\n".join(lines)


def write():
    """Puts line counts and texts of the list right."""
    TRUST.write_text(rewritten(TRUST.read_text(encoding="utf-8")), encoding="utf-8")


def uses(file):
    """The files outside of the modules Inner whose definitions a file's `use` lines name."""
    paths = [(crate, path.split(".")[0]) for crate, path in USED.findall(read(file))]
    return {f"{crate}/specs/{module}.antt" for crate, module in paths if module not in ("declared", "Inner")}


def types(file):
    """The types of the code that a file's `use` lines name: crate, module of its source, name."""
    found = []
    for crate, path in USED.findall(read(file)):
        names = [name for name in path.split(".") if name not in ("", "TheVariants")]
        if names[0] == "declared":
            found.append((crate, names[1] if len(names) > 2 else "lib", names[-1]))
    return list(dict.fromkeys(found))


def declaration(path, name):
    """A struct, an enum or another name of one in a source file, with the comment above it."""
    found = re.search(rf"^(?://.*\n|#\[.*\n)*pub (?:struct|enum|type) {name}\b(?:.*;$| \{{\n(?:.*\n)*?\}}$)", path.read_text(encoding="utf-8"), re.M)
    if not found:
        raise SystemExit(f"no type {name} in {path.relative_to(ROOT)}")
    return found[0]


def source(crate, module):
    return ROOT / "crates" / crate / "src" / f"{module}.rt"


def brought(text):
    """The types that a source's `use` lines bring in, one by one or several between braces: crate, module or nothing, name."""
    for home, part, one, several in BRINGS.findall(text):
        for word in re.findall(r"\b[A-Z]\w*", one or several):
            yield home, part, word


def named_in(crate, module, name):
    """The types of the project that a type's fields name: those of its own source file, and those that the file brings in."""
    path = source(crate, module)
    text = path.read_text(encoding="utf-8")
    words = re.findall(r"\b[A-Z]\w*", re.sub(r"//.*", "", declaration(path, name)))
    here = {word: (crate, module, word) for word in re.findall(r"^pub (?:struct|enum|type) (\w+)", text, re.M)}
    for home, part, word in re.findall(r"\b(\w+)(?:::(\w+))?::([A-Z]\w*)", declaration(path, name)) + list(brought(text)):
        if home != "std":
            here[word] = (crate if home == "crate" else home, part or "lib", word)
    return [here[word] for word in dict.fromkeys(words) if word in here and word != name]


def with_parts(wanted, told):
    """The wanted types that are not told yet, each behind the types of its fields; they are told then."""
    found = []
    for one in wanted:
        if one not in told:
            told.add(one)
            found += with_parts(named_in(*one), told) + [one]
    return found


@functools.cache
def definitions(file):
    """The definitions of a file, each with its text, without comments."""
    return antt.texts(read(file))


def owner(file, name):
    """The definition of a file that has the name: itself, or as a field or a case of its own."""
    for definition, text in definitions(file).items():
        if name == definition or re.search(rf"^\s+(?:pub )?{re.escape(name)} :", text, re.M):
            return (file, definition)
    return None


@functools.cache
def functions_of_the_code():
    """The names of all functions of the sources."""
    texts = (path.read_text(encoding="utf-8") for path in sorted(ROOT.glob("crates/*/src/**/*.rt")))
    return {name for text in texts for name in re.findall(r"\bfn (\w+)", text)}


def statements():
    """Of each row under "What is proved": the files that its statement names, and the other names there, but for functions of the code that have
    the name of no definition in these files."""
    text = TRUST.read_text(encoding="utf-8").partition("\n## What is proved\n")[2].partition("\n## ")[0]
    for line in text.split("\n"):
        cells = line.split(" | ")
        words = re.findall(r"`([^`]+)`", cells[1]) if line.startswith("| ") and len(cells) == 3 else []
        if words:
            files = [word for word in words if "/" in word]
            is_defined = lambda word: any(owner(file, word) for file in files if file.endswith(".antt") and is_there(file))
            yield files, [word for word in words if "/" not in word and (is_defined(word) or word not in functions_of_the_code())]


def cites(file, definition):
    """The definitions that a definition names: of its own file, and of those whose names the file brings in."""
    homes = {name: file for name in definitions(file)}
    for crate, module, names in BROUGHT.findall(read(file)):
        homes.update((name, f"{crate}/specs/{module}.antt") for name in re.split(r",\s*", names))
    words = re.findall(r"[\w'-]+", definitions(file)[definition])
    return {owner(homes[word], word) for word in words if is_there(homes.get(word, ""))} - {None}


def uncited(roots):
    """The listed definitions that none of these cites, directly or through others."""
    left, todo = {(file, name) for file in listed() for name in definitions(file)}, set(roots)
    while todo:
        one = todo.pop()
        if one in left:
            left.remove(one)
            todo |= cites(*one)
    return sorted(left)


def statement_faults():
    """What is wrong between statements and list: a name that is in none of its row's files, a definition that no statement cites."""
    found, roots = [], set()
    for files, names in statements():
        for name in names:
            homes = {owner(file, name) for file in files if is_there(file)} - {None}
            found += [f"docs/TRUST.md: {name} is in none of {' '.join(files)}"] * (not homes)
            roots |= homes
    return found + [f"docs/TRUST.md lists {file}, and no statement there cites its {name}" for file, name in uncited(roots)]


def not_read(file):
    """Why the file cannot be read as definitions, if so: what is asked of examples is made from what is read."""
    try:
        antt.read(read(file), f"crates/{file}")
    except antt.Refused as e:
        return [str(e)]
    return []


def faults():
    """What is wrong with the list: a file that is not there or not read, a row that is not the file's own, a file before one that it uses."""
    found, above = [], set()
    text = TRUST.read_text(encoding="utf-8").split("\n")
    for file in listed():
        if not is_there(file):
            found.append(f"docs/TRUST.md lists {file}, which is not there")
            continue
        if row_of(file) not in text:
            found.append(f"docs/TRUST.md: the row of {file} is not its line count and first sentence (index.py --write puts it right)")
        found += not_read(file)
        if not first_sentence(file):
            found.append(f"{file} does not begin with a sentence that says what it holds")
        found += [f"docs/TRUST.md lists {file} before {used}, which it uses" for used in sorted(uses(file) - above) if used != file]
        above.add(file)
    return found or statement_faults()

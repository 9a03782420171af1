#!/usr/bin/env python3
"""Holds include/portal.h to the sources and to the documents.

Every function that the static library portal_c exports has its prototype, with the same names and the types that C has for them, in
order; it has the head and the contract, word for word, of the call of its name in the portal's other crates, which it hands on to; every struct that is handed back has its fields, here and in rust/portal; the version, the places of a setup's words, the blank, never,
the most items and colours, the largest value, sheet and name, the bytes of a pooled sheet, the longest list, the number of kinds and the places of a bag are the sources', and the manual pages have the version; the refusals' names and sentences are those of docs/TERMS.md and of man/portal.3; README.md and man/portal.3 name every call, and above
each prototype stands a comment. Else the exit status is 1.
"""
import re
import sys
from pathlib import Path

ROOT = Path(__file__).resolve().parent.parent
FEWEST = {"calls": 35, "structs": 22, "refusals": 27}
SLICES = {"&[u8]": "const uint8_t *", "&mut [u8]": "uint8_t *", "&[u64]": "const uint64_t *", "&mut [u64]": "uint64_t *",
          "&mut [Record]": "struct portal_record *"}
SCALARS = {"u64": "uint64_t", "u8": "uint8_t", "bool": "bool", "usize": "size_t"}


def read(path):
    return (ROOT / path).read_text(encoding="utf-8")


def snake(name):
    """SetupScore is setup_score in C."""
    return re.sub(r"(?<!^)(?=[A-Z])", "_", name).lower()


def struct(name):
    """ClosureResult is struct portal_closure_result in C. Registered, of a crate below the portal's, is a result of two calls."""
    return "portal_" + snake({"Registered": "RegisterResult"}.get(name, name))


def parts(text):
    return [part.strip() for part in text.split(",") if part.strip()]


def calls_of(source):
    """Each exported function as C has it: name, type of the result, and types and names of the parameters, None for a count's."""
    for name, given, result in re.findall(r'^#\[unsafe\(no_mangle\)\]\npub extern "C" fn (\w+)\(([^)]*)\) -> (\w+)', source, re.M):
        wanted = []
        for parameter in parts(given):
            word, kind = (part.strip() for part in parameter.split(":"))
            if kind in SLICES:
                wanted += [(SLICES[kind], word), ("size_t", None)]
            else:
                wanted.append((SCALARS[kind], word))
        yield name, SCALARS.get(result) or f"struct {struct(result)}", wanted


def exports_of(source):
    """Each such function's text up to its body, and the body, by its name."""
    found = re.findall(r'^#\[unsafe\(no_mangle\)\]\n(pub extern "C" fn (\w+)\(.*?\n)\{\n(.*?)^\}', source, re.M | re.S)
    return {name: (head, body.strip()) for head, name, body in found}


def structs_of(source):
    for name, fields in re.findall(r"^#\[repr\(C\)\]\n(?:#\[[^\n]*\]\n)*pub struct (\w+) \{\n(.*?)^\}", source, re.M | re.S):
        pairs = (field.split(":") for field in parts(fields))
        yield struct(name), [(SCALARS[kind.strip()], word.strip().removeprefix("pub ")) for word, kind in pairs]


def declared(text):
    """A C declaration's type and name."""
    return re.fullmatch(r"((?:const |struct )?\w+ \*?)(\w+)", text).groups()


def prototypes(header):
    """Each prototype of the header, its comments taken out."""
    for result, name, given in re.findall(r"^(uint64_t|bool|struct \w+) (\w+)\(([^)]*)\);", header, re.M):
        yield name, (result, [] if given == "void" else [declared(" ".join(part.split())) for part in parts(given)])


def agree(wanted, found):
    """Are the types the same, in order, and the names of all but the counts?"""
    kinds = [kind.strip() for kind, _ in wanted] == [kind.strip() for kind, _ in found]
    return kinds and all(word in (None, other) for (_, word), (_, other) in zip(wanted, found))


def constant(source, name):
    return int(re.search(rf"^(?:pub )?const {name}: \w+ = ([\w]+);", source, re.M).group(1).replace("_", ""), 0)


def macro(header, name):
    return re.search(rf"^#define {name}(?:\([^)]*\))? (.*)$", header, re.M).group(1)


text = read("include/portal.h")
header = re.sub(r"/\*.*?\*/", "", text, flags=re.S)
sources = {path.parts[-3]: "".join(part.read_text(encoding="utf-8") for part in sorted(path.parent.glob("*.rt")))
           for path in sorted(ROOT.glob("crates/portal*/src/lib.rt"))}
faults = []

# calls
exporting = sources.pop("portal_c")
offered = {name: (result, given) for name, result, given in calls_of(exporting)}
handed_on = {(crate, name): head for crate, source in sources.items() for name, (head, _) in exports_of(source).items()}
for name, (head, body) in exports_of(exporting).items():
    crate = body.partition("::")[0]
    words = re.findall(r"(\w+):", head.partition("(")[2].partition(")")[0])
    if handed_on.pop((crate, name), "") != head:
        faults.append(f"{name} of portal_c has not the head and contract of {crate}::{name}")
    faults += [f"{name} of portal_c does more than to call {crate}::{name}"] * (body != f"{crate}::{name}({', '.join(words)})")
faults += [f"portal_c does not export {name} of {crate}" for crate, name in handed_on]
shown = dict(prototypes(header))
readme, manual = read("README.md"), read("man/portal.3")
for name in sorted(offered.keys() | shown.keys()):
    if name not in shown or name not in offered:
        faults.append(f"{name} is {'not in the header' if name in offered else 'in the header and in no crate'}")
    elif shown[name][0] != offered[name][0] or not agree(offered[name][1], shown[name][1]):
        faults.append(f"{name}: the source has {offered[name]}, the header {shown[name]}")
    elif not re.search(rf"\*/\n(?:uint64_t|bool|struct \w+) {name}\(", text):
        faults.append(f"{name}: no comment above it")
    faults += [f"{name} is not in {where}" for where, page in (("README.md", readme), ("man/portal.3", manual)) if not re.search(rf"\b{name}\b", page)]

# structs; none has the name of a call, so that C++ needs no `struct` in front
made = {name: fields for source in [*sources.values(), read("crates/records/src/lib.rt")] for name, fields in structs_of(source)}
laid = {
    name: [declared(" ".join(field.split())) for field in fields.split(";") if field.strip()]
    for name, fields in re.findall(r"^struct (\w+) \{\n(.*?)^\};", header, re.M | re.S)
}
for name in sorted(made.keys() | laid.keys()):
    fields = [(kind.strip(), word) for kind, word in laid.get(name, [])]
    if made.get(name) != fields:
        faults.append(f"struct {name}: the source has {made.get(name)}, the header {fields}")

faults += [f"struct {name} has the name of a call" for name in sorted(laid.keys() & shown.keys())]

# the same structs in Rust
wrapped = {
    f"portal_{snake(name)}": ["number", *re.findall(r"^        (\w+),$", fields, re.M)]
    for name, fields in re.findall(r"^    (\w+) \{\n(.*?)^    \}$", read("rust/portal/src/results.rs"), re.M | re.S)
}
plain = re.findall(r"^pub struct (\w+) \{\n(.*?)^\}", read("rust/portal/src/results.rs"), re.M | re.S)
wrapped |= {struct(name): re.findall(r"^    pub (\w+):", fields, re.M) for name, fields in plain}
for name, fields in made.items():
    if wrapped.get(name) != [word for _, word in fields]:
        faults.append(f"struct {name}: the source has {fields}, rust/portal {wrapped.get(name)}")

# constants
words, reading = sources["portal_words"], sources["portal_sheets"]
places = {"PORTAL_ROW": constant(words, "GRAPH"), "PORTAL_RECOVERY": constant(words, "RECOVERY")}
faults += [f"{name} does not begin at {at}" for name, at in places.items() if macro(header, name) != f"({at} + 8 * (v) + (c))"]
held, opened = (constant(words, name) for name in ("HELD", "OPENED"))
faults += [f"PORTAL_{name} is not {at}" for name, at in (("HELD", held), ("OPENED", opened)) if macro(header, f"PORTAL_{name}") != str(at)]
told = dict(re.findall(r"^      (\w+) = .*word_at words \(1 \+ 4 \* v((?: \+ \d)?)\)", read("crates/portal_words/specs/Words.antt"), re.M))
for field in ("kind", "start", "loss", "rank"):
    at = 1 + int(told[field].removeprefix(" + ") or 0)
    faults += [f"PORTAL_{field.upper()} does not begin at {at}"] * (macro(header, f"PORTAL_{field.upper()}") != f"({at} + 4 * (v))")
bounds = {
    "PORTAL_MAX_ITEMS": ("vertex_set", "VERTICES"),
    "PORTAL_COLOURS": ("successors", "COLOURS"),
    "PORTAL_MAX_SHEET": ("setup", "MAX_BYTES"),
    "PORTAL_MAX_NAME": ("sheet_fields", "NAME_BYTES"),
    "PORTAL_MAX_LIST": ("antichains", "MOST_SETS"),
    "PORTAL_KINDS": ("attackers", "KINDS"),
    "PORTAL_BAG_PLACES": ("multisets", "MOST_VALUES"),
    "PORTAL_MAX_HANDED": ("handin_lines", "MAX_HANDED"),
    "PORTAL_SET_BYTES": ("handins", "SET_BYTES"),
}
for name, (crate, bound) in bounds.items():
    source = "".join(part.read_text(encoding="utf-8") for part in sorted(ROOT.glob(f"crates/{crate}/src/*.rt")))
    faults += [f"{name} is another number"] * (macro(header, name) != str(constant(source, bound)))
largest = constant(read("crates/setup/src/lib.rt"), "MAX_VALUE")
faults += ["PORTAL_MAX_VALUE is another number"] * (macro(header, "PORTAL_MAX_VALUE") != f"UINT64_C({largest})")
faults += ["man/report.1 has another largest value"] * (f"0 to {largest:,}" not in read("man/report.1"))
never = constant(read("crates/scores/src/lib.rt"), "NEVER")
faults += ["PORTAL_NEVER is another number"] * (macro(header, "PORTAL_NEVER") != f"(UINT64_C(1) << {never.bit_length() - 1})" or never.bit_count() != 1)
longest = re.search(r"^longest_sheet = (\d+)$", read("crates/sheet_format/specs/Meaning.antt"), re.M).group(1)
for name in ("POOL_BYTES", "SAVE_BYTES"):
    faults += [f"PORTAL_{name} is another number"] * (macro(header, f"PORTAL_{name}") != longest)
    faults += [f"rust/portal has another number as {name}"] * (str(constant(read("rust/portal/src/lib.rs"), name)) != longest)
# The opened set is the last word.
stated = re.search(r"^setup_words = (\d+)$", read("crates/portal_words/specs/Words.antt"), re.M).group(1)
lengths = {macro(header, "PORTAL_SETUP_WORDS"), str(opened + 1), stated}
faults += [f"a setup has {' and '.join(sorted(lengths))} words"] * (len(lengths) != 1)
faults += ["PORTAL_VERSION is another number"] * (macro(header, "PORTAL_VERSION") != str(constant(reading, "VERSION")))
major, minor, patch = (constant(reading, "VERSION") // unit % 100 for unit in (10_000, 100, 1))
pages = ("man/portal.3", "man/report.1", "man/pool.1", "man/gemzuleg.1", "man/gemzuleg.5")
faults += [f"{page} is for another version" for page in pages if f'"Gemzuleg {major}.{minor}.{patch}"\n' not in read(page)]
faults += ["rust/portal is for another version"] * (f"pub const VERSION: u64 = {constant(reading, 'VERSION')};" not in read("rust/portal/src/lib.rs"))
faults += ["PORTAL_BLANK is another number"] * (macro(header, "PORTAL_BLANK") != "UINT64_MAX" or constant(words, "BLANK") != 2**64 - 1)

# refusals
numbers = re.findall(r"^    (PORTAL_\w+) = (\d+)", re.search(r"^enum portal_number \{\n(.*?)^\};", header, re.M | re.S).group(1), re.M)
sentences = dict(re.findall(r'^    case (PORTAL_\w+): return "(.*)";$', header, re.M))
named = [(int(number), name, sentences.pop(name, None)) for name, number in numbers if number != "0"]
listed = [(int(number), name, sentence) for number, name, sentence in re.findall(r"^\| (\d+) \| `(PORTAL_\w+)` \| (.*?) \|$", read("docs/TERMS.md"), re.M)]
paged = [(int(number), name, sentence) for number, name, sentence in re.findall(r"^\.B (\d+) (PORTAL_\w+)\n(.*)$", manual, re.M)]
for where, page in (("docs/TERMS.md", listed), ("man/portal.3", paged)):
    faults += [f"refusals: the header has {one}, {where} {other}" for one, other in zip(named, page) if one != other]
    faults += [f"the header and {where} have not as many refusals"] * (len(named) != len(page))
faults += [f"{name} is no refusal" for name in sentences if name != "PORTAL_ANSWERED"]
faults += ["refusals are not in rising order"] * ([number for number, _, _ in named] != sorted({number for number, _, _ in named}))

counts = dict(zip(FEWEST, (len(offered), len(made), len(named))))
faults += [f"only {counts[what]} {what}" for what in FEWEST if counts[what] < FEWEST[what]]
print(*(f"header: {fault}\n" for fault in faults), sep="", end="")
print("header:", ", ".join(f"{n} {what}" for what, n in counts.items()) + f", {len(faults)} faults")
sys.exit(1 if faults else 0)

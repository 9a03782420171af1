"""Finds small edits of the code: one operand, operator or number by another.

Contracts, types, patterns and comments are left alone. The source tells enough of the types to choose an operand of the same
kind; where it does not, the front end refuses the edit and another one takes its place. Which edits are tried, and in which
order, follows from the source alone.
"""
import hashlib
import re
from dataclasses import dataclass, field
from pathlib import Path

from contracts import functions, lines_of

ROOT = Path(__file__).resolve().parent.parent
WIDTH = 64
TOKEN = re.compile(
    r"""(?P<skip>\s+|//[^\n]*)
    |(?P<text>b"(?:[^"\\]|\\.)*")
    |(?P<byte>b'(?:[^'\\]|\\.)*')
    |(?P<number>0x[0-9A-Fa-f_]+|[0-9][0-9_]*)(?P<suffix>[ui](?:8|16|32|64|size))?
    |(?P<word>[A-Za-z_]\w*)
    |(?P<mark>\.\.|=>|->|::|<=|>=|==|!=|&&|\|\||[-+*/%&|^]=|<<|>>|.)""",
    re.X | re.S,
)
SIBLINGS = {
    "<": "<=", "<=": "<", ">": ">=", ">=": ">", "==": "!=", "!=": "==",
    "+": "-", "-": "+", "*": "+", "/": "*", "%": "/", "|": "&", "<<": ">>", ">>": "<<",
    "+=": "-=", "-=": "+=", "|=": "&=", "&=": "|=", "&&": "||", "||": "&&",
}  # fmt: skip
COMPARISONS = {"<", "<=", ">", ">=", "==", "!="}
NOTHING = {"u8": "0", "u32": "0", "u64": "0", "usize": "0", "bool": "false", "VertexSet": "VertexSet(0)"}
# Edits of these kinds are tried where the better kinds are used up.
LATE = {"text": 1, "nothing": 1, "target": 2, "not": 3, "length": 4}


@dataclass(frozen=True)
class Token:
    kind: str
    text: str
    start: int
    end: int
    suffix: str = ""


@dataclass(frozen=True)
class Edit:
    """The text from start to end of a file becomes `new`."""

    path: Path
    start: int
    end: int
    new: str
    kind: str
    line: int
    before: str
    after: str


@dataclass
class Function:
    """A function, or a constant (`constant`), with the part of its file that may be edited. Its name starts with its module's."""

    crate: str
    name: str
    path: Path
    start: int
    end: int
    first: int
    last: int
    params: list = field(default_factory=list)
    result: str = ""
    constant: bool = False


@dataclass
class Shapes:
    """What all crates declare: fields by struct, cases by enum, results by function, types and values of constants by name."""

    structs: dict = field(default_factory=dict)
    enums: dict = field(default_factory=dict)
    results: dict = field(default_factory=dict)
    constants: dict = field(default_factory=dict)


def tokens(text, start=0):
    """The tokens of a text that stands at `start` of its file."""
    found = []
    for match in TOKEN.finditer(text):
        kind = "number" if match.lastgroup == "suffix" else match.lastgroup
        if kind != "skip":
            found.append(Token(kind, match.group(kind), start + match.start(), start + match.end(), match.group("suffix") or ""))
    return found


def split_list(text):
    """The parts of a text between the commas that stand in no bracket."""
    parts, depth, part = [], 0, ""
    for char in text:
        depth += (char in "([{") - (char in ")]}")
        if char == "," and depth == 0:
            parts.append(part.strip())
            part = ""
        else:
            part += char
    return [p for p in [*parts, part.strip()] if p]


def same_spacing(text):
    """A type, with its spaces made alike."""
    return re.sub(r"\s+", " ", text).strip()


def parameters(head, owner):
    """The (name, type) of each parameter of a function's head, and the type of its result."""
    at = head.index("(")
    depth, end = 0, at
    for end in range(at, len(head)):
        depth += (head[end] == "(") - (head[end] == ")")
        if depth == 0:
            break
    params = []
    for part in split_list(head[at + 1 : end]):
        name, _, kind = part.partition(":")
        params.append((name.strip(), same_spacing(kind) or owner))
    result = re.match(r"\s*->\s*([^\n{]+)", head[end + 1 :])
    return params, same_spacing(result.group(1)) if result else ""


def functions_of(crate, path):
    """The functions and the constants of a file, in its order."""
    text = path.read_text(encoding="utf-8")
    lines = text.split("\n")
    offsets = [0]
    for line in lines:
        offsets.append(offsets[-1] + len(line) + 1)
    owners, owner = [], ""
    for line in lines:
        found = re.match(r"impl\s+(\w+)", line)
        owner = found.group(1) if found else "" if line.startswith("}") else owner
        owners.append(owner)
    module = "" if path.stem in ("lib", "main") else f"{path.stem}::"
    items = []
    for line, _, name, head, length in functions(lines_of(text)):
        first = line + head.count("\n")
        own = owners[line - 1]
        params, result = parameters(head, own)
        full = module + (f"{own}::{name}" if own else name)
        items.append(Function(crate, full, path, offsets[first], offsets[first + length], first + 1, first + length, params, result))
    for found in re.finditer(r"^(?:pub )?const (\w+): ([^=]+) =(.*?);$", text, re.M | re.S):
        start, end = found.span(3)
        first, last = text.count("\n", 0, start) + 1, text.count("\n", 0, end) + 1
        items.append(Function(crate, module + found.group(1), path, start, end, first, last, [], found.group(2), True))
    return items


def shapes_of(crates):
    """What the sources of these crates declare."""
    shapes = Shapes()
    for crate in crates:
        for path in sorted((ROOT / "crates" / crate / "src").rglob("*.rt")):
            text = re.sub(r"//[^\n]*", "", path.read_text(encoding="utf-8"))
            for name, body in re.findall(r"struct (\w+) \{([^}]*)\}", text):
                fields = [part.replace("pub ", "").partition(":") for part in split_list(body)]
                shapes.structs[name] = [(n.strip(), same_spacing(t)) for n, _, t in fields]
            for name, body in re.findall(r"enum (\w+) \{([^}]*)\}", text):
                shapes.enums[name] = [part.partition("(")[::2] for part in split_list(body)]
            for item in functions_of(crate, path):
                name = item.name.removeprefix(f"{path.stem}::")
                if item.constant:
                    value = re.fullmatch(r"\s*([0-9][0-9A-Fa-fx_]*)\s*", path.read_text(encoding="utf-8")[item.start : item.end])
                    shapes.constants[name] = (item.result, value and int(value.group(1).replace("_", ""), 0), crate)
                else:
                    shapes.results[name] = item.result
    return shapes


def element(kind):
    """The type of an element of a list type."""
    found = re.search(r"\[(\w+)", kind or "")
    return found.group(1) if found else None


def type_of(words, known, shapes):
    """The type of an expression, given as the texts of its tokens, or None where it is not plain."""
    first = words[0] if words else ""
    behind = words[1] if len(words) > 1 else ""
    if "as" in words:
        return words[words.index("as") + 1]
    if any(w in COMPARISONS for w in words) or first in ("true", "false", "!"):
        return "bool"
    if first in shapes.structs or (behind == "(" and first[:1].isupper()):
        return first
    if behind == "::":
        return shapes.results.get(words[2], shapes.results.get(f"{first}::{words[2]}")) or (first if first in shapes.enums else None)
    if behind == "(":
        return shapes.results.get(first)
    if behind == "." and len(words) > 2:
        owner = known.get(first, "")
        inner = dict(shapes.structs.get(owner, [])).get(words[2]) or shapes.results.get(f"{owner}::{words[2]}")
        return element(inner) if words[3:4] == ["["] else inner
    if behind == "[":
        return element(known.get(first))
    return known.get(first)


def locals_of(function, toks, shapes):
    """The type of each local variable, and the place from which on it is known."""
    known = dict(function.params)
    places = {name: function.start for name in known}
    for at, tok in enumerate(toks):
        if tok.text == "for" and toks[at + 2].text == "in":
            known[toks[at + 1].text], places[toks[at + 1].text] = "usize", toks[at + 2].start
        if tok.text != "let":
            continue
        at += 2 if toks[at + 1].text == "mut" else 1
        name, end = toks[at].text, at
        while end < len(toks) and toks[end].text not in ("=", ";"):
            end += 1
        stop, depth = end + 1, 0
        while stop < len(toks) and (toks[stop].text != ";" or depth):
            depth += (toks[stop].text in "([{") - (toks[stop].text in ")]}")
            stop += 1
        words = [t.text for t in toks[end + 1 : stop]]
        if end > at + 1 and toks[at + 1].text == ":":
            known[name] = "".join(t.text for t in toks[at + 2 : end])
        elif words[:1] == ["["]:
            known[name] = f"[{toks[end + 2].suffix or type_of(words[1:], known, shapes)}; {words[-2]}]"
        elif toks[end + 1].kind == "number":
            known[name] = toks[end + 1].suffix or "usize"
        else:
            known[name] = type_of(words, known, shapes)
        places[name] = toks[min(stop, len(toks) - 1)].start
    return known, places


def is_pattern(toks, at):
    """Is the case at this token one that is matched, and not one that is made?"""
    if any(t.text == "let" and toks[k - 1].text == "if" for k, t in enumerate(toks[max(at - 4, 0) : at], max(at - 4, 0))):
        return True
    end = at + 1
    if end < len(toks) and toks[end].text == "(":
        while end < len(toks) and toks[end].text != ")":
            end += 1
        end += 1
    return end < len(toks) and toks[end].text == "=>"


def number_edits(tok, in_length):
    """A number by the next one, and by the one before it."""
    value = int(tok.text.replace("_", ""), 0)
    for other in (value + 1, value - 1):
        if 0 <= other < 2**64:
            text = str(other)
            if tok.text.startswith("0x"):
                digits = f"{other:0{len(tok.text.replace('_', '')) - 2}X}"
                text = "0x" + "_".join(digits[k : k + 4] for k in range(0, len(digits), 4)) if "_" in tok.text else "0x" + digits
            yield text + tok.suffix, "length" if in_length else "number"


def byte_edits(tok):
    """A byte, or the last letter of a text, by the next one."""
    if tok.kind == "byte" and len(tok.text) == 4:
        yield f"b'{chr(ord(tok.text[2]) + 1)}'", "number"
    if tok.kind == "text":
        at = max((k for k, c in enumerate(tok.text) if c.isalnum() and tok.text[k - 1] != "\\" and k > 0), default=0)
        if at:
            yield tok.text[:at] + chr(ord(tok.text[at]) + 1) + tok.text[at + 1 :], "text"


def mark_edits(toks, at):
    """An operator by its sibling, and a negation by none."""
    tok, last = toks[at], toks[at - 1] if at else None
    joins = last is not None and (last.kind in ("word", "number", "byte") or last.text in (")", "]"))
    joins = joins and last.text not in ("return", "in", "if", "while", "match")
    if tok.text == "&" and joins:
        yield "|", "operator"
    elif tok.text in SIBLINGS and joins:
        yield SIBLINGS[tok.text], "compare" if tok.text in COMPARISONS else "operator"
    elif tok.text == "!":
        yield "", "not"


def case_edits(toks, at, shapes):
    """A case of an enum by another one with the same values."""
    cases = shapes.enums.get(toks[at - 2].text, [])
    own = dict(cases).get(toks[at].text)
    if own is not None and not is_pattern(toks, at):
        for case, values in cases:
            if values == own and case != toks[at].text:
                yield case, "case"


def field_edits(toks, at, known, shapes):
    """A field by another one of the same type."""
    owner = known.get(toks[at - 2].text)
    for name, fields in shapes.structs.items():
        own = dict(fields).get(toks[at].text)
        if own is not None and (name == owner or owner not in shapes.structs):
            for other, kind in fields:
                if kind == own and other != toks[at].text:
                    yield other, "field"


def constant_edits(tok, crate, shapes):
    """A constant by another one of its crate, and by the next number."""
    kind, value, home = shapes.constants[tok.text]
    if value is not None:
        yield str(value + 1), "number"
    for other, (other_kind, _, other_home) in shapes.constants.items():
        if other != tok.text and other_kind == kind and home == other_home == crate:
            yield other, "variable"


def variable_edits(toks, at, known, places, imported):
    """A variable by another one of its type, and by nothing: 0, false or the empty set."""
    tok, last = toks[at], toks[at - 1].text if at else "{"
    behind = toks[at + 1].text if at + 1 < len(toks) else "}"
    short = last in ("{", ",") and behind in (",", "}") and in_record(toks, at)
    lead = f"{tok.text}: " if short else ""
    kind = known[tok.text]
    late = "target" if behind in ("=", "+=", "-=") or (last == "mut" and toks[at - 2].text == "&") else "variable"
    for other, other_kind in known.items():
        if other != tok.text and kind and other_kind == kind and places[other] <= tok.start:
            yield lead + other, late
    if kind in NOTHING and late == "variable" and behind not in (".", "[") and (kind != "VertexSet" or imported):
        yield lead + NOTHING[kind], "nothing"


def in_record(toks, at):
    """Does the token stand in the braces of a record that is made?"""
    depth = 0
    for k in range(at - 1, -1, -1):
        depth += (toks[k].text in ("}", ")", "]")) - (toks[k].text in ("{", "(", "["))
        if depth < 0:
            return toks[k].text == "{" and k > 0 and toks[k - 1].kind == "word" and toks[k - 1].text[:1].isupper()
    return False


def word_edits(toks, at, function, known, places, shapes, imported):
    """The edits of a word, by what stands around it."""
    tok = toks[at]
    last = toks[at - 1].text if at else "{"
    behind = toks[at + 1].text if at + 1 < len(toks) else "}"
    if tok.text in ("true", "false"):
        yield "false" if tok.text == "true" else "true", "truth"
    elif last == "::":
        yield from case_edits(toks, at, shapes)
    elif behind in ("(", "::", "!") or last in ("let", "for", "as") or (last == "mut" and toks[at - 2].text == "let"):
        return
    elif behind == ":" or (last == ":" and tok.text not in known and tok.text not in shapes.constants):
        return
    elif last == ".":
        yield from field_edits(toks, at, known, shapes)
    elif tok.text in known:
        yield from variable_edits(toks, at, known, places, imported)
    elif tok.text in shapes.constants:
        yield from constant_edits(tok, function.crate, shapes)


def edits_at(toks, at, function, known, places, shapes, imported):
    """The edits of one token: the new text and the edit's kind."""
    tok = toks[at]
    if tok.kind == "number" and not (at and toks[at - 1].text == "."):
        in_length = 1 < at < len(toks) - 1 and toks[at - 1].text == ";" and toks[at + 1].text == "]"
        yield from number_edits(tok, in_length)
    elif tok.kind in ("byte", "text"):
        yield from byte_edits(tok)
    elif tok.kind == "mark":
        yield from mark_edits(toks, at)
    elif tok.kind == "word":
        yield from word_edits(toks, at, function, known, places, shapes, imported)
        if at and toks[at - 1].text in ("if", "while") and tok.text != "let":
            rest = [t.text for t in toks[at : at + 40]]
            if "{" in rest and not any(w in COMPARISONS or w in ("&&", "||") for w in rest[: rest.index("{")]):
                yield "!" + tok.text, "not"


def short_line(line, at, end):
    """A line's text, and where it is long the part of it around an edit."""
    lead = len(line) - len(line.lstrip())
    if len(line.strip()) <= WIDTH:
        return line.strip()
    begin = max(lead, min(at - WIDTH // 3, len(line) - WIDTH))
    stop = max(begin + WIDTH, end + 8)
    return ("…" if begin > lead else "") + line[begin:stop].strip() + ("…" if stop < len(line) else "")


def all_edits(function, shapes):
    """Every edit of a function, in the order of its code."""
    text = function.path.read_text(encoding="utf-8")
    toks = tokens(text[function.start : function.end], function.start)
    known, places = locals_of(function, toks, shapes)
    imported = "VertexSet" in text
    found = []
    for at, tok in enumerate(toks):
        for new, kind in dict(edits_at(toks, at, function, known, places, shapes, imported)).items():
            begin = text.rfind("\n", 0, tok.start) + 1
            stop = text.find("\n", tok.start)
            old_line = text[begin:stop]
            new_line = text[begin : tok.start] + new + text[tok.end : stop]
            before = short_line(old_line, tok.start - begin, tok.end - begin)
            after = short_line(new_line, tok.start - begin, tok.start - begin + len(new))
            line = text.count("\n", 0, tok.start) + 1
            found.append(Edit(function.path, tok.start, tok.end, new, kind, line, before, after))
    return found


def order_key(function, edit):
    """A number that spreads the choice over the function, and is the same in every run."""
    return hashlib.sha256(f"{function.crate} {function.name} {edit.before} {edit.after}".encode()).hexdigest()


def next_edit(function, left, taken):
    """The edit to try next: on a line, and of a kind, that has had the fewest; better kinds first."""

    def key(edit):
        on_line = sum(t.line == edit.line for t in taken)
        of_kind = sum(t.kind == edit.kind for t in taken)
        at_place = sum(t.start == edit.start for t in taken)
        return (LATE.get(edit.kind, 0), at_place, on_line, of_kind, order_key(function, edit))

    return min(left, key=key)

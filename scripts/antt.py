"""Reads definitions (.antt): a parser for the part of the language that the believed files use.

scripts/belief.py and scripts/definitions.py take their definitions from here, and so does tests/definitions, which makes Python of them: what is
printed is what is asked. A construct that is not known here is refused, with its file and line.

An expression is a tuple whose first entry says what it is: ("var", name), ("num", n), ("str", text), ("app", head, arguments), ("proj", e, field),
("op", sign, left, right), ("arr", a, b), ("pi", name, a, b, implicit), ("sigma", name, a, b), ("lam", names, e), ("let", name, value, e),
("rec", [(field, e)]); among arguments also ("named", name, e).
"""
import re

TOKEN = re.compile(r'"(?:[^"\\]|\\.)*"|[(){};]|λ|[^\s(){};λ]+')
COMMENT = re.compile(r"(?:^|(?<=\s))--(?=\s|-|$).*")
# how tightly an operator binds, and whether to the right (r), to the left (l) or not at all (n)
LEVELS = {"⊎": (2, "r"), "×": (2, "r"), "≡": (4, "n"), "<": (4, "n"), "≤": (4, "n"), "||": (4.5, "r"), "&&": (4.6, "r"), "∷": (5, "r"), "++": (5, "r")}
LEVELS |= {"+": (6, "l"), "-": (6, "l"), "*": (7, "l"), "/": (7, "l"), "%": (7, "l"), "^": (8, "r")}
STOP = {")", "}", ";", "→", "=", ":", "in"} | set(LEVELS)
HEAD = re.compile(r"^(?:(?:unfoldable|abbrev) (?:pub )?|pub )(?:(record|data) )?([^\s:(]+)(?=[\s:(]|$)")


class Refused(Exception):
    """A construct that is not known, with its place."""


def tokens(lines):
    """The tokens of numbered lines, each with its line's number. A `.field` that does not stand right behind a bracket gets a blank before it."""
    found = []
    for number, line in lines:
        for m in TOKEN.finditer(line):
            loose = m[0].startswith(".") and len(m[0]) > 1 and line[: m.start()][-1:] != ")"
            found.append((" " + m[0] if loose else m[0], number))
    return found


class Parser:
    """Of the tokens of an item. `aliases` are the names before a point that stand for a module, as `way` in `way.Steps`; others are projected."""

    def __init__(self, found, file, aliases=()):
        self.t, self.i, self.file, self.aliases = found, 0, file, aliases

    def peek(self):
        return self.t[self.i][0] if self.i < len(self.t) else None

    def refuse(self, what):
        line = self.t[min(self.i, len(self.t) - 1)][1] if self.t else "?"
        raise Refused(f"{self.file}:{line}: {what} before `{' '.join(t for t, _ in self.t[self.i:self.i + 6])}`")

    def next(self, want=None):
        x = self.peek()
        if x is None or (want and x != want):
            self.refuse(f"{want or 'more'} expected")
        self.i += 1
        return x

    def over(self):
        if self.peek() is not None:
            self.refuse("not known")

    def binder(self):
        """At `(x y : A)` or `{x : A}`: names, type, and whether it is implicit; elsewhere nothing, and it stays there."""
        if self.peek() not in ("(", "{"):
            return None
        j = self.i + 1
        while j < len(self.t) and self.t[j][0] not in STOP | {"(", "{"}:
            j += 1
        if j == self.i + 1 or j >= len(self.t) or self.t[j][0] != ":":
            return None
        opened = self.next()
        names = [t for t, _ in self.t[self.i:j]]
        self.i = j + 1
        a = self.expr()
        self.next(")" if opened == "(" else "}")
        return names, a, opened == "{"

    def telescope(self):
        found = []
        while b := self.binder():
            found.append(b)
        return found

    def expr(self):
        """With → at the top: binders before it are ∀, and one binder before × is ∃."""
        if self.peek() == "let":
            return self.let()
        at = self.i
        bs = self.telescope()
        if bs and self.peek() == "→":
            self.next()
            body = self.expr()
            for names, a, implicit in reversed(bs):
                for n in reversed(names):
                    body = ("pi", n, a, body, implicit)
            return body
        self.i = at
        left = self.ops(0)
        if self.peek() == "→":
            self.next()
            return ("arr", left, self.expr())
        return left

    def let(self):
        self.next("let")
        name = self.next()
        if self.peek() == ":":
            self.next()
            self.expr()
        self.next("=")
        value = self.expr()
        self.next("in")
        return ("let", name, value, self.expr())

    def ops(self, least):
        at = self.i
        b = self.binder()
        if b and self.peek() == "×":
            self.next()
            body = self.ops(2)
            for n in reversed(b[0]):
                body = ("sigma", n, b[1], body)
            return body
        self.i = at
        left = self.application()
        while (o := self.peek()) in LEVELS and LEVELS[o][0] >= least:
            level, side = LEVELS[o]
            self.next()
            right = self.ops(level if side == "r" else level + 0.01)
            if right[0] == "op" and len(right) == 4 and (side == "n" == LEVELS[right[1]][1] or {o, right[1]} == {"×", "⊎"}):
                self.refuse(f"{o} beside {right[1]} without brackets")
            left = ("op", o, left, right)
            if side == "n" and self.peek() in LEVELS and LEVELS[self.peek()][0] == level:
                self.refuse(f"{o} beside {self.peek()} without brackets")
        return left

    def application(self):
        head, args = self.atom(), []
        while (x := self.peek()) is not None and x not in STOP:
            if x == "{":
                args += self.implicit()
            else:
                args.append(self.atom())
        return ("app", head, args) if args else head

    def implicit(self):
        """`{0}` and `{ℓ}` say a level, and nothing here; `{A = B}` names an argument."""
        self.next("{")
        name = self.next()
        if self.peek() == "=":
            self.next()
            found = [("named", name, self.expr())]
        else:
            found = [] if name.isdigit() or name == "ℓ" else [("named", name, ("var", name))]
        self.next("}")
        return found

    def atom(self):
        x = self.next()
        if x == "(":
            e = self.expr()
            self.next(")")
            # a projection is written tight: `f x.field` hands on the field of x, and `(f x).field` is the field of `f x`
            if (self.peek() or "").startswith(".") and len(self.peek()) > 1:
                return self.projected(e, self.next()[1:])
            return e + ("bracket",) if e[0] == "op" and len(e) == 4 else e
        if x == "λ":
            return self.lam()
        if x == "record" and self.peek() == "{":
            return self.record()
        if x.startswith('"'):
            return ("str", x[1:-1])
        if x.isdigit():
            return ("num", int(x))
        if x in STOP or x in ("{", "let", "λ") or x.lstrip().startswith("."):
            self.i -= 1
            self.refuse("not known")
        before, point, behind = x.partition(".")
        return self.projected(("var", before), behind) if point and before not in self.aliases else ("var", x)

    def projected(self, e, fields):
        """A field of an expression, or as `graph.rows` a field of its field."""
        for field in fields.split("."):
            if not field:
                self.i -= 1
                self.refuse("not known")
            e = ("proj", e, field)
        return e

    def lam(self):
        names = []
        while not (names and names[-1].endswith(".")):
            b = self.binder()
            names += b[0] if b else [self.next()]
            if b and self.peek() == ".":
                names.append(self.next())
        last = names.pop()[:-1]
        return ("lam", names + ([last] if last else []), self.expr())

    def record(self):
        self.next("{")
        fields = []
        while self.peek() != "}":
            n = self.next()
            self.next("=")
            fields.append((n, self.expr()))
            if self.peek() == ";":
                self.next()
        self.next("}")
        return ("rec", fields)


def pieces(text):
    """The text's items without comments: a line at the margin with the deeper lines behind it, each line with its number."""
    found = []
    for number, line in enumerate(text.split("\n"), 1):
        line = COMMENT.sub("", line).rstrip()
        if line and line[0] != " ":
            found.append([(number, line)])
        elif line:
            found[-1].append((number, line))
    return found


def texts(text):
    """Each definition of a file, by its name, with its text: head and clauses, without comments."""
    found = {}
    name = None
    for lines in pieces(text):
        head = HEAD.match(lines[0][1])
        if head:
            name = head[2]
        if name and not lines[0][1].startswith(("use ", "pub mod ")):
            found[name] = found.get(name, "") + "".join(line + "\n" for _, line in lines)
    return found


def fields_of(lines, file, aliases):
    """The fields of a record, or the cases of a data type: what is indented deeper belongs to the field above it."""
    found = []
    for number, line in lines:
        if re.match(r"  \S", line):
            found.append([(number, line)])
        else:
            found[-1].append((number, line))
    fields = []
    for field in found:
        p = Parser(tokens(field), file, aliases)
        if p.peek() == "pub":
            p.next()
        names = [p.next()]
        p.next(":")
        fields.append((names[0], p.expr()))
        p.over()
    return fields


def typed(kind, name, lines, file, aliases):
    """A record or a data type: parameters, result, fields or cases."""
    at = next((i for i, (_, line) in enumerate(lines) if re.search(r"\bwhere\s*$", line)), None)
    if at is None:
        raise Refused(f"{file}:{lines[0][0]}: {name} has no `where` at a line's end")
    p = Parser(tokens(lines[:at + 1])[3:-1], file, aliases)
    params = [(n, a, implicit) for names, a, implicit in p.telescope() for n in names]
    p.next(":")
    result = p.expr()
    p.over()
    return {"kind": kind, "name": name, "params": params, "result": result, "fields": fields_of(lines[at + 1:], file, aliases)}


def clause(lines, file, found, aliases):
    """A clause `name patterns = body` of a function whose head came before."""
    p = Parser(tokens(lines), file, aliases)
    name = p.next()
    if name not in found or found[name]["kind"] != "fun":
        p.refuse(f"a clause of {name} without a head")
    patterns = []
    while p.peek() not in ("=", None):
        patterns += p.implicit() if p.peek() == "{" else [p.atom()]
    p.next("=")
    body = p.expr()
    p.over()
    found[name]["clauses"].append((patterns, body))


def read(text, file="text", statements=False):
    """The `use` lines of a file, and its definitions by their names, in order. A head without a clause is refused, or is a statement."""
    uses, found, aliases = [], {}, set()
    for lines in pieces(text):
        first = lines[0][1]
        head = HEAD.match(first)
        if first.startswith("use "):
            uses.append(" ".join(line.strip() for _, line in lines))
            aliases |= set(re.findall(r"^use [^{}]+ as (\S+)$", uses[-1]))
        elif first.startswith("pub mod "):
            continue
        elif head and head[1]:
            found[head[2]] = typed(head[1], head[2], lines, file, aliases)
        elif head:
            p = Parser(tokens(lines), file, aliases)
            while p.next() != head[2]:
                pass
            if p.peek() == "{":
                p.implicit()
            p.next(":")
            found[head[2]] = {"kind": "fun", "name": head[2], "type": p.expr(), "clauses": []}
            p.over()
        else:
            clause(lines, file, found, aliases)
    for name, d in found.items():
        if d["kind"] == "fun" and not d["clauses"]:
            if not statements:
                raise Refused(f"{file}: {name} has no clause")
            found[name] = {**d, "type": ("app", ("var", "Type"), [("num", 0)]), "clauses": [([], d["type"])], "statement": True}
    return uses, found

"""Makes Python of definitions. A statement becomes a function that answers True or False; a quantifier runs over the range that ranges.py gives it.

→ is `not .. or`, → ⊥ is `not`, × and the fields of a record are `and`, ⊎ is `or`, Unit is True. Each condition is asked as soon as its variables
are there, which says the same. A variable that an equation gives has that one candidate, and the equation is asked nevertheless. Clauses are tried
in their order. A type that is handed on as a value is a range. What is not known is refused.
"""
import ast
import keyword
import re

import files  # noqa: F401, for the place of antt
from antt import Refused

OPS = {"<": "<", "≤": "<=", "+": "+", "*": "*", "^": "**", "/": "//", "%": "%", "++": "+", "≡": "==", "⊎": "or", "||": "or", "&&": "and"}
BUILTIN = {"length": ("_len({})", 1), "ones": ("({}).bit_count()", 1), "get_or": ("_getD({}, {}, {})", 3), "replicate": ("(({1},) * {0})", 2), "take": ("{1}[:{0}]", 2)}
BUILTIN |= {"drop": ("{1}[{0}:]", 2), "map": ("_map({}, {})", 2), "eqb": ("({} == {})", 2), "ltb": ("({} < {})", 2), "leb": ("({} <= {})", 2), "max": ("_max({}, {})", 2)}
BUILTIN |= {"min": ("_min({}, {})", 2), "suc": ("({} + 1)", 1), "cond": ("({1} if {0} else {2})", 3), "not": ("(not {})", 1), "bit_and": ("({} & {})", 2)}
BUILTIN |= {"◌≤◌": ("({} <= {})", 2), "bit_or": ("({} | {})", 2), "set": ("_set({}, {}, {})", 3), "code": ("{}", 1)}
SIMPLE = {"[]": "()", "⊥": "False", "Unit": "True", "true": "True", "false": "False", "zero": "0"}
# Fields and parameters of type Type 0: those that are a type, over which a variable may run, and those that are a statement.
TYPE_FIELDS, STATEMENT_FIELDS = {"Step", "Answer", "Value", "Name"}, {"Yes"}
RESERVED = {"set", "list", "sum", "max", "min", "all", "any", "len", "map", "given", "world", "cache", "next", "slice"}


def py(name):
    name = name.replace("'", "1").replace("₀", "0").replace("-", "_").replace("·", "_")
    return name + "_" if keyword.iskeyword(name) or name in RESERVED else name


def head(e):
    return head(e[1]) if e[0] == "app" else e[1] if e[0] == "var" else None


def parts_of(e):
    """The expressions directly below an expression."""
    k = e[0]
    if k in ("app",):
        return [e[1], *e[2]]
    if k in ("proj", "lam"):
        return [e[2] if k == "lam" else e[1]]
    if k in ("op", "pi", "sigma", "let", "arr"):
        return [x for x in e[1:] if isinstance(x, tuple)]
    if k == "named":
        return [e[2]]
    return [x for _, x in e[1]] if k == "rec" else []


def free(e):
    """The free variables of an expression, globals included."""
    k = e[0]
    if k == "var":
        return {e[1]}
    if k in ("pi", "sigma", "let"):
        return free(e[2]) | (free(e[3]) - {e[1]})
    found = set().union(*map(free, parts_of(e)))
    return found - set(e[1]) if k == "lam" else found


def names_in(text):
    """The names of a Python expression."""
    return {node.id for node in ast.walk(ast.parse(text, mode="eval")) if isinstance(node, ast.Name)}


def telescope(a):
    """The arguments of a type, each with its name if it has one, and its result."""
    found = []
    while a[0] in ("arr", "pi"):
        found.append((None, a[1], False) if a[0] == "arr" else (a[1], a[2], a[4]))
        a = a[2] if a[0] == "arr" else a[3]
    return found, a


class Translator:
    def __init__(self, ranges, types):
        """`types` are those of the code, as files.py reads them."""
        self.R, self.defs, self.arity, self.implicit = ranges, {}, {}, {}
        self.heavy, self.looking, self.alias = set(), set(), {}
        self.data = {"ℕ", "Bool", "List", "Option", "Result", "String", "Char", "Type"} | set(types)
        self.records = {}
        for name, fields in types.items():
            if fields:
                self.known_record(name, fields)
        self.used = set()

    def known_record(self, name, fields):
        key = frozenset(fields)
        if self.records.get(key, name) != name:
            self.records[key] = ""
        else:
            self.records[key] = name

    # ---- what is known of the definitions

    def take(self, found):
        for d in found.values():
            self.defs[d["name"]] = d
            {"fun": self.take_function, "record": self.take_record, "data": self.take_data}[d["kind"]](d)

    def take_function(self, d):
        arguments, last = telescope(d["type"])
        first = d["clauses"][0][0]
        d["implicit"] = [p[1] for p in first if p[0] == "named"]
        d["clauses"] = [([p for p in ps if p[0] != "named"], b) for ps, b in d["clauses"]]
        d["prop"] = head(last) == "Type" or (last[0] == "var" and last[1] in self.alias and self.alias[last[1]][0] == "arr")
        d["constant"] = not first
        if d["prop"] and d["type"] == last and d["constant"] and self.is_data(d["clauses"][0][1], set()):
            self.alias[d["name"]] = d["clauses"][0][1]
            self.data.add(d["name"])
            return
        many = sum(not implicit for _, _, implicit in arguments)
        more = [("var", f"more{i}") for i in range(many - len(d["clauses"][0][0]))] if d["prop"] else []
        if more:
            d["clauses"] = [(p + more, ("app", b[1], b[2] + more) if b[0] == "app" else ("app", b, more)) for p, b in d["clauses"]]
        self.implicit[d["name"]] = d["implicit"]
        self.arity[d["name"]] = len(d["implicit"]) + len(d["clauses"][0][0])

    def take_record(self, d):
        here = {n for n, _, implicit in d["params"] if implicit}
        d.setdefault("data", all(self.is_data(a, here) for _, a in d["fields"]))
        if d["data"]:
            self.data.add(d["name"])
            self.known_record(d["name"], [n for n, _ in d["fields"]])
        # the types over which a variable runs; an altered definition keeps those that it had
        d.setdefault("implicit", [n for n, _, implicit in d["params"] if implicit and any(self.runs_over(n, a) for _, a in d["fields"])])
        self.implicit[d["name"]] = d["implicit"]
        self.arity[d["name"]] = len(d["implicit"]) + sum(not implicit for _, _, implicit in d["params"])

    def runs_over(self, n, e):
        """Does a variable of the expression run over the type n?"""
        return (e[0] in ("pi", "sigma") and n in free(e[2])) or any(self.runs_over(n, x) for x in parts_of(e))

    def take_data(self, d):
        """A data type whose cases a clause takes apart, or one without conditions, is data; others are statements by cases."""
        d["implicit"] = []
        indexed = d["result"][0] in ("arr", "pi")
        d["data"] = not indexed and (not d["params"] or d.get("matched", False))
        if d["data"]:
            self.data.add(d["name"])
        self.implicit[d["name"]] = []
        self.arity[d["name"]] = len(d["params"]) + indexed

    def is_data(self, a, here):
        """Is it a type of values, and not a statement? `here` are the types that are parameters."""
        if a[0] in ("arr", "pi"):
            return self.is_data(telescope(a)[1], here)
        if a[0] == "proj":
            if a[2] not in TYPE_FIELDS | STATEMENT_FIELDS:
                raise Refused(f"is the field {a[2]} a type or a statement?")
            return a[2] in TYPE_FIELDS
        if a[0] == "op" and a[1] == "×":
            return self.is_data(a[2], here) and self.is_data(a[3], here)
        return head(a) in self.data | TYPE_FIELDS or head(a) in here

    # ---- ranges

    def entry(self, name):
        """The table's entry for a variable or a type of the present definition, by its field if there is one for that."""
        table = self.R.RANGES.get(self.current, {})
        for key in (f"{self.field}/{name}", name):
            if key in table:
                self.used.add((self.current, key))
                return table[key]
        return None

    def joint(self, x, pending):
        """An entry for several variables together, of which x is one and all are still to come."""
        for key in self.R.RANGES.get(self.current, {}):
            field, _, names = key.rpartition("/")
            if " " in names and x in names.split() and field in ("", self.field) and set(names.split()) <= pending:
                self.used.add((self.current, key))
                return names.split(), self.R.RANGES[self.current][key]
        return None

    def range_of(self, name, a, scope):
        found = self.entry(name)
        if found is None and a[0] == "proj":
            return f"{self.E(a, scope)}()"
        if found is None and a[0] == "var" and a[1] in scope:
            return f"{scope[a[1]]}()"
        if found is None:
            key = (self.show(a), name) if (self.show(a), name) in self.R.BY_NAME else (self.show(a), "")
            found = self.R.BY_NAME.get(key)
        if found is None:
            raise Refused(f"{self.current}: no range for {name} : {self.show(a)}" + (f" in {self.field}" if self.field else ""))
        return found

    def show(self, a):
        return a[1] if a[0] == "var" else a[0] if a[0] != "app" else " ".join(self.show(x) if x[0] == "var" else f"({self.show(x)})" for x in (a[1], *a[2]))

    def as_range(self, text, scope, what):
        """A range as a value: told apart by the values of the definition's variables that it names."""
        self.looked |= "given." in text
        kept = sorted(names_in(text) & set(scope.values()))
        return f"_Lam({self.current + '.' + what!r}, ({''.join(n + ', ' for n in kept)}), 0, lambda: {text}, {'given.' in text})"

    # ---- statements

    def forall(self, e, scope):
        """Variables and conditions, and what then holds."""
        variables, conditions = [], []
        while e[0] in ("pi", "arr"):
            if e[0] == "pi" and self.is_data(e[2], self.here):
                if any(v[0] == e[1] for v in variables):
                    raise Refused(f"{self.current}: {e[1]} is bound twice")
                variables.append((e[1], e[2]))
            else:
                conditions.append(e[2] if e[0] == "pi" else e[1])
            e = e[3] if e[0] == "pi" else e[2]
        if variables and conditions and e == ("var", "⊥"):
            # what must not hold is what is said, under the other conditions
            e = ("arr", conditions.pop(), e)
        return self.nest(variables, conditions, e, scope, True, self.place(variables))

    def exists(self, e, scope):
        variables, parts = [], []
        while e[0] == "sigma" or (e[0] == "op" and e[1] == "×"):
            if e[0] == "sigma" and self.is_data(e[2], self.here):
                variables.append((e[1], e[2]))
            else:
                parts.append(e[2])
            e = e[3]
        return self.nest(variables, parts + [e], None, scope, False, self.place(variables))

    def place(self, variables):
        """The name of a quantifier, by which it is told whether it was reached."""
        return f"{self.current}: {self.field + ' ' if self.field else ''}{' '.join(n for n, _ in variables)}" if variables else None

    def nest(self, variables, parts, last, scope, universal, place):
        """∀: not part or ..; ∃: part and ... Parts whose variables are all there stand outside of the later variables' loops."""
        names = {n for n, _ in variables}
        now = [p for p in parts if not free(p) & names]
        if now:
            later = self.nest(variables, [p for p in parts if free(p) & names], last, scope, universal, place)
            if universal:
                return "(" + " or ".join([self.negated(p, scope) for p in now] + [later]) + ")"
            if later == "True":
                return "(" + " and ".join(self.E(p, scope) for p in now) + ")"
            return "(" + " and ".join([self.E(p, scope) for p in now] + [later]) + ")"
        if not variables:
            if place and self.counted:
                self.places.append(place)
            end = self.E(last, scope) if last is not None else "True"
            return f"(_hit({place!r}) and {end})" if place and self.counted else end
        together, text = self.next_range(variables, parts, scope, names)
        inner = self.nest([v for v in variables if v[0] not in together], parts, last, {**scope, **{y: py(y) for y in together}}, universal, place)
        return f"{'_all' if universal else '_any'}({inner} for {', '.join(py(y) for y in together)} in {text})"

    def next_range(self, variables, parts, scope, names):
        """The variables that come next, and their range: the first whose range names none that is still to come."""
        for exact in (True, False):
            for x, a in variables:
                group = self.joint(x, names)
                if exact:
                    single = None if group else self.one_point(x, parts, scope, names)
                    if single:
                        return [x], single
                    continue
                together, text = group if group else ([x], self.range_of(x, a, scope))
                if not names_in(text) & {py(n) for n in names - set(together)}:
                    self.looked |= "given." in text
                    return together, text
        raise Refused(f"{self.current}: the ranges of {' '.join(sorted(names))} name each other")

    def one_point(self, x, parts, scope, names):
        """The only candidate of x, where a part is an equation that has it: l ≡ .. ∷ x ∷ .. ∷ [], or e ≡ x."""
        for p in parts:
            for a, b in ((p[2], p[3]), (p[3], p[2])) if p[0] == "op" and p[1] == "≡" else ():
                if free(a) & names:
                    continue
                if b == ("var", x):
                    return f"({self.E(a, scope)},)"
                places, tail = [], b
                while tail[0] == "op" and tail[1] == "∷":
                    places.append(tail[2])
                    tail = tail[3]
                if tail == ("var", "[]") and ("var", x) in places:
                    return f"_at({self.E(a, scope)}, {places.index(('var', x))}, {len(places)})"
        return None

    def negated(self, e, scope):
        return self.E(e[1], scope) if e[0] == "arr" and e[2] == ("var", "⊥") else f"(not {self.E(e, scope)})"

    # ---- expressions

    def E(self, e, scope):
        k = e[0]
        if k == "op" and e[1] != "×":
            return self.operation(e, scope)
        how = {"num": self.of_number, "str": self.of_text, "pi": self.forall, "arr": self.forall, "sigma": self.exists, "op": self.exists, "proj": self.projection}
        how |= {"lam": self.lam, "rec": self.record_value, "let": self.let, "var": self.application, "app": self.application}
        if k not in how:
            raise Refused(f"{self.current}: {k}")
        return how[k](e, scope)

    def of_number(self, e, scope):
        return str(e[1])

    def of_text(self, e, scope):
        return repr(tuple(e[1].encode()))

    def operation(self, e, scope):
        if e[1] == "/" and e[3][0] == "op" and e[3][1:3] == ("^", ("num", 2)):
            return f"({self.E(e[2], scope)} >> {self.E(e[3][3], scope)})"
        o, a, b = e[1], self.E(e[2], scope), self.E(e[3], scope)
        if o == "∷":
            return f"({a},)" if b == "()" else f"({a}, *{b})"
        return f"_less({a}, {b})" if o == "-" else f"({a} {OPS[o]} {b})"

    def projection(self, e, scope):
        of, field = self.E(e[1], scope), e[2]
        if field == "0":
            return of
        return f"{of}.{self.field_name(field)}()" if field in STATEMENT_FIELDS else f"{of}.{self.field_name(field)}"

    def field_name(self, field):
        return "source" if field == "from" else py(field)

    def closed(self, arguments, e, scope, more=""):
        """A function as a value: of the arguments, with what it has from outside."""
        inner = {**scope, **{n: py(n) for n in arguments}}
        kept = sorted({re.match(r"\w+", scope[n])[0] for n in free(e) if n in scope and n not in arguments})
        before, self.looked = self.looked, False
        self.count += 1
        place = f"{self.current}.{self.count}"
        body = self.E(e, inner)
        looks, self.looked = self.looked, before or self.looked
        return f"_Lam({place!r}, ({''.join(n + ', ' for n in kept)}), {len(arguments)}, lambda {', '.join(py(n) for n in arguments)}: {body}, {looks})"

    def lam(self, e, scope):
        return self.closed(e[1], e[2], scope)

    def let(self, e, scope):
        return f"(lambda {py(e[1])}: {self.E(e[3], {**scope, e[1]: py(e[1]) + '()'})})(_Later(lambda: {self.E(e[2], scope)}))"

    def record_value(self, e, scope):
        names = [n for n, _ in e[1]]
        if names == ["0"]:
            return self.E(e[1][0][1], scope)
        name = self.records.get(frozenset(names))
        if self.current in self.R.RECORDS:
            self.used.add((self.current, "record"))
            name = self.R.RECORDS[self.current]
        if not name:
            raise Refused(f"{self.current}: {'no record' if name is None else 'more than one record'} with the fields {' '.join(names)}")
        return f"{py(name)}({', '.join(self.field_name(n) + '=' + self.field_value(n, x, scope) for n, x in e[1])})"

    def field_value(self, field, e, scope):
        if field in STATEMENT_FIELDS:
            return self.closed([], e, scope)
        if field in TYPE_FIELDS and not (e[0] == "var" and e[1] in scope):
            text = self.entry(field)
            if text is None:
                raise Refused(f"{self.current}: no range for the type {field}")
            return self.as_range(text, scope, field)
        return self.E(e, scope)

    def application(self, e, scope):
        f, args = (e[1], e[2]) if e[0] == "app" else (e, [])
        named = {x[1]: x[2] for x in args if x[0] == "named"}
        args = [self.E(x, scope) for x in args if x[0] != "named"]
        if f[0] != "var":
            return f"{self.E(f, scope)}({', '.join(args)})"
        n = f[1]
        if n in scope:
            return f"{scope[n]}({', '.join(args)})" if args else scope[n]
        if n in SIMPLE:
            return SIMPLE[n]
        if n.startswith("·"):
            return self.case_value(n[1:], args)
        if n in self.arity:
            return self.applied(n, args, scope, named)
        if n in BUILTIN:
            return self.builtin(n, args)
        raise Refused(f"{self.current}: unknown name {n}")

    def case_value(self, n, args):
        if n == "None":
            return "None"
        if n == "Some":
            return args[0]
        return f"({n!r}, {', '.join(args)})" if args else repr(n)

    def builtin(self, n, args):
        text, arity = BUILTIN[n]
        if len(args) >= arity:
            return text.format(*args[:arity]) + (f"({', '.join(args[arity:])})" if args[arity:] else "")
        more = [f"_{i}" for i in range(arity - len(args))]
        return f"_Lam({n!r}, ({''.join(a + ', ' for a in args)}), {len(more)}, lambda {', '.join(more)}: {text.format(*args, *more)})"

    def applied(self, n, args, scope, named):
        """A definition with arguments; those that are types and are not written are ranges, which the definition that uses it has entries for."""
        self.looked |= n in self.looking
        types = []
        for t in self.implicit[n]:
            if t in named and named[t][0] == "var" and named[t][1] in scope:
                types.append(scope[named[t][1]])
                continue
            text = self.entry(f"{n}.{t}")
            if text is None:
                raise Refused(f"{self.current}: no range for the type {n}.{t}")
            types.append(self.as_range(text, scope, f"{n}.{t}"))
        args, arity, f = types + args, self.arity[n], py(n)
        if arity == 0:
            return f"{f}({', '.join(args)})" if self.is_prop(n) or args else f
        if len(args) < arity:
            return f"_Part({f}, {arity}, ({''.join(a + ', ' for a in args)}))" if args or arity > 1 else f
        return f"{f}({', '.join(args[:arity])})" + (f"({', '.join(args[arity:])})" if args[arity:] else "")

    def is_prop(self, n):
        d = self.defs[n]
        return d["prop"] if d["kind"] == "fun" else not d["data"]

    # ---- patterns

    def match(self, pattern, place, tests, scope):
        k, n = pattern[0], pattern[1]
        if k == "num":
            tests.append(f"{place} == {n}")
        elif (k == "op" and n == "∷") or (k == "app" and n == ("var", "string.◌∷◌")):
            first, rest = pattern[2:4] if k == "op" else pattern[2]
            tests.append(f"{place}")
            self.match(first, f"{place}[0]", tests, scope)
            self.match(rest, f"{place}[1:]", tests, scope)
        elif k == "var" and n in ("[]", "zero", "true", "false", "string.[]"):
            tests.append({"zero": f"{place} == 0", "true": place}.get(n, f"not {place}"))
        elif k == "app" and n == ("var", "suc"):
            tests.append(f"{place} > 0")
            self.match(pattern[2][0], f"({place} - 1)", tests, scope)
        elif k in ("app", "var") and (head(pattern) or "").startswith("·"):
            self.match_case(head(pattern)[1:], pattern[2] if k == "app" else [], place, tests, scope)
        elif k == "var":
            scope[n] = place
        else:
            raise Refused(f"{self.current}: pattern {pattern}")

    def match_case(self, case, args, place, tests, scope):
        if case in ("None", "Some"):
            tests.append(f"{place} is {'not ' if args else ''}None")
            for p in args:
                self.match(p, place, tests, scope)
            return
        tests.append(f"{place}[0] == {case!r}" if args else f"{place} == {case!r}")
        for i, p in enumerate(args, 1):
            self.match(p, f"{place}[{i}]", tests, scope)

    # ---- definitions

    def definition(self, d, counted=False):
        """The Python text of a definition."""
        self.current, self.field, self.count, self.looked, self.counted, self.places = d["name"], "", 0, False, counted, []
        # the types that are parameters; an explicit parameter of type Type 0 is a statement
        self.here = {n for n, _, implicit in d.get("params", ()) if implicit} | set(d.get("implicit", ()))
        name = py(d["name"])
        if d["name"] in self.alias:
            return ""
        if d["kind"] == "fun":
            if d["constant"] and not d["prop"]:
                return f"{name} = {self.E(d['clauses'][0][1], {})}\n"
            return self.function(d, name)
        if d["kind"] == "data":
            return self.cases(d, name)
        if d["data"]:
            return f"{name} = _record({name!r}, {' '.join(self.field_name(n) for n, _ in d['fields'])!r})\n"
        return self.statement(d, name)

    def statement(self, d, name):
        """A record whose fields are conditions, with values that are looked for: there are such values, and all conditions hold."""
        parameters = d["implicit"] + [n for n, _, implicit in d["params"] if not implicit]
        scope = {n: py(n) for n in parameters}
        variables = [(n, a) for n, a in d["fields"] if self.is_data(a, self.here)]
        parts = [("field", n, a) for n, a in d["fields"] if not self.is_data(a, self.here)]
        return self.finished(d, name, [py(n) for n in parameters], f"    return {self.fields(variables, parts, scope)}\n")

    def fields(self, variables, parts, scope):
        """Like `nest`, with the name of each field known while it is translated."""
        if not variables:
            return self.conjunction(parts, scope)
        place = self.place(variables)
        names = {n for n, _ in variables}
        now = [p for p in parts if not free(p[2]) & names]
        if now:
            return f"({self.conjunction(now, scope)} and {self.fields(variables, [p for p in parts if p not in now], scope)})"
        together, text = self.next_range(variables, [a for _, _, a in parts], scope, names)
        inner = {**scope, **{y: py(y) for y in together}}
        left = [v for v in variables if v[0] not in together]
        body = self.fields(left, parts, inner)
        if not left and self.counted:
            self.places.append(place)
            body = f"(_hit({place!r}) and {body})"
        return f"_any({body} for {', '.join(py(y) for y in together)} in {text})"

    def conjunction(self, parts, scope):
        found = []
        for _, field, a in parts:
            self.field = field
            found.append(self.E(a, scope))
            self.field = ""
        return "(" + " and ".join(found) + ")" if found else "True"

    def function(self, d, name):
        first = d["clauses"][0][0]
        named = lambda i, p: p[0] == "var" and not p[1].startswith("·") and p[1] not in SIMPLE and p[1] != "string.[]" and all(c[0][i] == p for c in d["clauses"])
        names = [py(p[1]) if named(i, p) else f"_{i}" for i, p in enumerate(first)]
        body, types = "", {n: py(n) for n in d["implicit"]}
        tests = []
        for patterns, e in d["clauses"]:
            tests, scope = [], {}
            for p, place in zip(patterns, names):
                self.match(p, place, tests, scope)
            text = "".join(f"{py(n)} = {place}; " for n, place in scope.items() if place != py(n))
            answer = self.E(e, {**types, **{n: py(n) for n in scope}})
            body += f"    if {' and '.join(tests)}:\n        {text}return {answer}\n" if tests else f"    {text}return {answer}\n"
        if tests:
            body += f"    raise ValueError({name!r})\n"
        return self.finished(d, name, [*types.values(), *names], body)

    def is_heavy(self, d):
        """Does it run over a range, or use what does? Then its answers are kept."""
        bodies = [b for _, b in d["clauses"]] if d["kind"] == "fun" else [a for _, a in d["fields"]]
        runs = lambda e: e[0] in ("pi", "sigma") or any(runs(x) for x in parts_of(e))
        own = any(runs(b) for b in bodies) or (d["kind"] == "record" and any(self.is_data(a, set()) for _, a in d["fields"] if a[0] != "proj"))
        return own or any(n in self.heavy for b in bodies for n in free(b))

    def finished(self, d, name, parameters, body):
        if self.looked:
            self.looking.add(d["name"])
        heavy = self.is_prop(d["name"]) and self.is_heavy(d)
        if heavy:
            self.heavy.add(d["name"])
        kept = (heavy or d["name"] in self.R.KEPT) and parameters
        text = f"def {name}({', '.join(parameters)}):\n{self.noted(d)}{body}"
        return f"@_kept({self.looked})\n{text}" if kept else text + (f"{name}.looks = True\n" if self.looked else "")

    def noted(self, d):
        return f"    _used.add({d['name']!r})\n" if self.counted else ""

    def cases(self, d, name):
        """A data type: the functions that make its cases, where it has parameters as a range; or a statement by cases."""
        if not d["data"]:
            return self.inductive(d, name)
        if not d["params"]:
            return ""
        scope, found = {n: py(n) for n, _, _ in d["params"]}, []
        for case, a in d["fields"]:
            self.field = case
            arguments, _ = telescope(a)
            variables = [(n, t) for n, t, _ in arguments if n and self.is_data(t, self.here)]
            inner = {**scope, **{n: py(n) for n, _ in variables}}
            loops = " ".join(f"for {py(n)} in {self.range_of(n, t, inner)}" for n, t in variables)
            tests = " and ".join(self.E(t, inner) for n, t, _ in arguments if not (n and self.is_data(t, self.here)))
            found.append(f"[({case!r}, {', '.join(py(n) for n, _ in variables)}, True) {loops} if {tests or 'True'}]")
            self.field = ""
        return f"def {name}({', '.join(scope.values())}):\n{self.noted(d)}    return {' + '.join(found)}\n"

    def inductive(self, d, name):
        """A statement by cases that may rest on itself: the least one."""
        indexed = d["result"][0] in ("arr", "pi")
        parameters = [py(n) for n, _, _ in d["params"]] + (["_x"] if indexed else [])
        found = []
        for case, a in d["fields"]:
            self.field = case
            arguments, last = telescope(a)
            scope = {m: py(m) for m, _, _ in d["params"]} | ({"_x": "_x"} if indexed else {})
            variables = [(n, t) for n, t, _ in arguments if n and self.is_data(t, self.here)]
            parts = [t for n, t, _ in arguments if not (n and self.is_data(t, self.here))]
            if indexed:
                parts = [("op", "≡", ("var", "_x"), last[2][-1]), *parts]
            found.append(self.nest(variables, parts, None, scope, False, self.place(variables)))
            self.field = ""
        key = ", ".join([repr(name), "given.number", *parameters])
        self.heavy.add(d["name"])
        if self.looked:
            self.looking.add(d["name"])
        text = f"def {name}({', '.join(parameters)}):\n{self.noted(d)}    return _least(({key}), lambda: {' or '.join(found)})\n"
        return text + (f"{name}.looks = True\n" if self.looked else "")

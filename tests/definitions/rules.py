"""Alterations by rule: of each definition every one that a rule makes. < and ≤, × and ⊎, true and false are exchanged, and so are their sisters that
compute; a condition, a negation or a field is dropped; a number is one higher; two arguments of one type, or the sides of an operator, change places.
Head lines, types of values and patterns stay as they are, so that the altered definition is one. A law holds of everything, which is proved, and so does
what follows from it by its form alone; such alterations of laws are not made, since no example could notice them. Where by its form a law says more than
before, and no example notices it, the law could perhaps say more, which is no fault of it."""
import files
import translate

SISTERS = {"<": "≤", "≤": "<", "×": "⊎", "⊎": "×", "&&": "||", "||": "&&"}
WORDS = {"true": "false", "false": "true", "ltb": "leb", "leb": "ltb"}
SIDES = {"<", "≤", "-", "++"}
BOTTOM = ("var", "⊥")
MORE = ", so that the law says more"
# The types of the arguments of what the definitions do not define.
GIVEN = {"eqb": ["ℕ", "ℕ"], "ltb": ["ℕ", "ℕ"], "leb": ["ℕ", "ℕ"], "take": ["ℕ", "List"], "drop": ["ℕ", "List"], "cond": ["Bool", "A", "A"], "min": ["ℕ", "ℕ"], "max": ["ℕ", "ℕ"]}
GIVEN = {name: [("var", t) for t in types] for name, types in GIVEN.items()}
# With their arguments exchanged these say the same.
# Arguments that are only compared with each other.
COMPARED = {"IsEdge": {(0, 3), (1, 4), (2, 5)}, "OnlyHolding": {(0, 1)}, "Begun": {(2, 4), (3, 5)}, "PoolRefusal": {(1, 2)}}
# Laws with arguments, which are proved of all of them, or of all that a law in the same file names.
# No field of a law is dropped: what is left would be proved as well, so that no example can tell. `Duality` without `forecast` is such a one: `transversals`
# fixes the list, whose sets lie within what is counted and none within another, so that the forecast bounds them.
LAWS = set("Duality QuickAgrees NoEasierRoute Meaning ReportMeaning UnmixedPrints PoolingLaw RenamesLowest RegisterAfter Demand1 Demand2 Demand3Reached".split())
SYMMETRIC = set("eqb min max bit_and bit_or Iff Full question3 is_meeting Agree Meets SameMultiset SameName SameEdge SameAttempt same_text same_edge same_three".split())


def show(e, tight=False):
    """An expression as it is written."""
    k = e[0]
    if k == "var":
        return e[1].removeprefix("·")
    if k in ("num", "str"):
        return str(e[1]) if k == "num" else f'"{e[1]}"'
    if k == "rec":
        return "record { " + "; ".join(f"{n} = {show(x)}" for n, x in e[1]) + " }"
    if k == "named":
        return f"{{{e[1]} = {show(e[2])}}}"
    if k == "proj":
        text = f"{show(e[1], e[1][0] not in ('app', 'proj'))} .{e[2]}"
    elif k == "app":
        text = " ".join([show(e[1], True), *(show(x, True) for x in e[2])]) + (" {0}" if e[1] == ("var", "Unit") else "")
    elif k == "op":
        text = f"{show(e[2], e[2][0] != 'app')} {e[1]} {show(e[3], e[3][0] != 'app' and (e[3][0] != 'op' or e[3][1] != e[1] or e[1] not in '×⊎∷'))}"
    elif k == "arr":
        text = f"{show(e[1], e[1][0] in ('arr', 'pi'))} → {show(e[2])}"
    elif k in ("pi", "sigma"):
        text = f"({e[1]} : {show(e[2])}) {'→' if k == 'pi' else '×'} {show(e[3], k == 'sigma' and e[3][0] in ('arr', 'pi'))}"
    else:
        text = f"λ {' '.join(e[1])}. {show(e[2])}" if k == "lam" else f"let {e[1]} = {show(e[2])} in {show(e[3])}"
    return f"({text})" if tight else text


class Rules:
    def __init__(self, t):
        self.t = t

    def is_law(self, name):
        return name in LAWS or (self.t.is_prop(name) and not self.t.arity[name])

    def arguments(self, f):
        """The types of a definition's arguments, as far as they are known."""
        if f[0] != "var":
            return []
        if f[1] in GIVEN or f[1] in SYMMETRIC:
            return [] if f[1] in SYMMETRIC else GIVEN[f[1]]
        d = self.t.defs.get(f[1])
        if d is None:
            return []
        return [a for _, a, implicit in (translate.telescope(d["type"])[0] if d["kind"] == "fun" else d["params"]) if not implicit]

    def here(self, e, sign):
        """What the rules make of the expression itself, and whether a law then says more by its form. `sign` is 1 where what follows from the expression
        makes a law weaker, -1 where it makes it stronger, and 0 where it is not known, or where there is no law."""
        k = e[0]
        if k == "num":
            yield ("num", e[1] + 1), False
        if k == "var" and e[1] in WORDS:
            yield ("var", WORDS[e[1]]), False
        if k == "op" and e[1] in SISTERS and not (e[1] == "×" and self.t.is_data(e, set())):
            weaker = {"<": 1, "×": 1, "≤": -1, "⊎": -1}.get(e[1], 0) * sign
            if weaker != 1:
                yield ("op", SISTERS[e[1]], *e[2:]), weaker == -1
        if k == "op" and (e[1] == "&&" or (e[1] == "×" and sign != 1)):
            yield e[2], sign == -1
            yield e[3], sign == -1
        if k == "op" and e[1] in SIDES and e[2] != e[3]:
            yield ("op", e[1], e[3], e[2], *e[4:]), False
        if k == "arr" and (e[2] == BOTTOM or sign != -1):
            yield (e[1], False) if e[2] == BOTTOM else (e[2], sign == 1)
        if k == "app":
            yield from ((new, False) for new in self.exchanged(e))

    def exchanged(self, e):
        """An application with two arguments of one type exchanged."""
        types, args = self.arguments(e[1]), e[2]
        if any(x[0] == "named" for x in args):
            return
        for i in range(min(len(args), len(types))):
            for j in range(i + 1, min(len(args), len(types))):
                if types[i] == types[j] and args[i] != args[j] and (i, j) not in COMPARED.get(head(e[1]), ()):
                    yield ("app", e[1], [*args[:i], args[j], *args[i + 1:j], args[i], *args[j + 1:]])

    def within(self, e, sign=0):
        """All alterations of an expression, each with what is altered, what it becomes, and whether a law then says more."""
        for new, more in self.here(e, sign):
            yield new, e, new, more
        k = e[0]
        if k == "app":
            yield from self.placed(e[1], lambda x: ("app", x, e[2]) if x[0] != "app" else e)
            for i, arg in enumerate(e[2]):
                if head_is_type(e):
                    continue
                yield from self.placed(arg, lambda x, i=i: ("app", e[1], [*e[2][:i], x, *e[2][i + 1:]]))
        elif k in ("proj", "lam", "named"):
            at = 1 if k == "proj" else 2
            yield from self.placed(e[at], lambda x: (*e[:at], x, *e[at + 1:]))
        elif k == "rec":
            for i, (n, value) in enumerate(e[1]):
                yield from self.placed(value, lambda x, i=i, n=n: ("rec", [*e[1][:i], (n, x), *e[1][i + 1:]]))
        elif k in ("op", "arr", "let", "sigma", "pi"):
            for at in {"op": (2, 3), "arr": (1, 2), "let": (2, 3), "sigma": (3,), "pi": (3,)}[k]:
                below = 0 if k == "let" or (k == "op" and e[1] not in "×⊎") else -sign if k == "arr" and at == 1 else sign
                if k == "op" and e[1] in "<≤" and e[at][0] == "num" and sign:
                    # a bound one higher: behind the sign it says less, before it more
                    if (at == 2) == (sign == 1):
                        yield (*e[:at], ("num", e[at][1] + 1), *e[at + 1:]), e[at], ("num", e[at][1] + 1), True
                    continue
                yield from self.placed(e[at], lambda x, at=at: (*e[:at], x, *e[at + 1:]), below)
            if k in ("pi", "sigma") and not self.t.is_data(e[2], self.types):
                yield from self.placed(e[2], lambda x: (*e[:2], x, *e[3:]), sign if k == "sigma" else -sign)

    def placed(self, e, put, sign=0):
        for new, old, now, more in self.within(e, sign):
            yield put(new), old, now, more

    def of(self, d):
        """All alterations of a definition: a sentence, and the altered definition."""
        self.types = {n for n, _, implicit in d.get("params", ()) if implicit}
        sign = int(self.is_law(d["name"]))
        if d["kind"] == "fun":
            for i, (patterns, body) in enumerate(d["clauses"]):
                for new, old, now, more in self.within(body, sign):
                    yield f"`{show(old)}` to `{show(now)}`" + (f" in clause {i + 1}" if len(d["clauses"]) > 1 else "") + MORE * more, {**d, "clauses": [*d["clauses"][:i], (patterns, new), *d["clauses"][i + 1:]]}
        elif not self.t.defs[d["name"]]["data"]:
            yield from self.of_fields(d, sign)

    def of_fields(self, d, sign):
        for i, (name, a) in enumerate(d["fields"]):
            if d["kind"] == "record" and self.t.is_data(a, self.types):
                continue
            put = lambda x, i=i, name=name: {**d, "fields": [*d["fields"][:i], (name, x), *d["fields"][i + 1:]]}
            for new, old, now, more in self.within(a, sign):
                if d["kind"] == "record" or translate.telescope(new)[1] == translate.telescope(a)[1]:
                    yield f"`{show(old)}` to `{show(now)}` in {name}" + MORE * more, put(new)
            if len(d["fields"]) > 1 and not sign:
                yield f"{name} dropped", {**d, "fields": [*d["fields"][:i], *d["fields"][i + 1:]]}


def head(e):
    return e[1] if e[0] == "var" else None


def head_is_type(e):
    """A level, as in Type 0, is no number."""
    return e[1] in (("var", "Type"), ("var", "Unit"))


def alterations(made, file):
    """Those of a file: name, sentence, the altered definition with its names resolved. The same twice is one."""
    rules = Rules(made.t)
    for name, d in files.resolved(*files.parsed(file)).items():
        if name in made.t.alias:
            continue
        seen = set()
        for sentence, new in rules.of(d):
            if repr(new) not in seen and repr(new) != repr(d):
                seen.add(repr(new))
                yield name, sentence, new


if __name__ == "__main__":
    import collections

    import made

    D = made.definitions()
    counts = collections.Counter()
    for file in files.listed():
        for name, sentence, new in alterations(D, file):
            counts[file] += 1
    print(counts, sum(counts.values()))

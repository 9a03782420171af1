"""The definitions in Python, made of the believed files. `python3 tests/definitions/made.py` says what is refused, and with names prints them."""
import contextlib
import functools
import pathlib
import sys

import files
import antt
import ranges
import translate

HERE = pathlib.Path(__file__).resolve().parent
PRELUDE = compile((HERE / "prelude.py").read_text(), "prelude.py", "exec")
EXAMPLES = HERE / "Examples.txt"
WORLDS = compile((HERE / "definitions.py").read_text(), "definitions.py", "exec")
# lists are taken apart by recursion, and a sheet may have 16,384 bytes
sys.setrecursionlimit(80000)


def order():
    """The files, each behind what it uses."""
    return [x for file in files.listed() for x in ([files.BEFORE[file][0], file] if file in files.BEFORE else [file])]


FLAT = {int, bool, str}


def plain(x):
    """With tuples for lists, through and through."""
    if type(x) in (list, tuple, range):
        return tuple(x) if set(map(type, x)) <= FLAT else tuple(map(plain, x))
    if isinstance(x, tuple) and not getattr(x, "is_plain", False):
        x = type(x)(*map(plain, x))
        x.is_plain = True
    return x


class Definitions:
    """All definitions, in one namespace with what they stand on."""

    def __init__(self):
        self.t, self.names, self.texts, self.places, self.refused = translate.Translator(ranges, files.types()), {"__name__": "definitions"}, {}, set(), []
        exec(PRELUDE, self.names)
        for name, fields in files.types().items():
            if fields:
                self.names[name] = self.names["_record"](name, [self.t.field_name(f) for f in fields])
        exec(WORLDS, self.names)
        for file in order():
            self.take(file)
        self.equations = self.take_equations()
        self.names["Setup"].__new__.__defaults__ = (0, 0)
        self.known = {k: frozenset(x) if isinstance(x, set) else dict(x) for k, x in self.state().items()}

    def state(self):
        """What the translator knows, and an alteration may change for a while."""
        return {k: getattr(self.t, k) for k in ("defs", "arity", "implicit", "heavy", "looking")}

    def take(self, file):
        self.take_all(file, files.resolved(*files.parsed(file)))

    def take_all(self, file, found):
        self.t.take(found)
        for name, d in found.items():
            for case, a in d["fields"] if d["kind"] == "data" else ():
                self.names.setdefault(translate.py(case), (lambda *args, case=case: (case, *args)) if translate.telescope(a)[0] else case)
            try:
                self.texts[name] = self.t.definition(d, counted=True)
                self.places |= set(self.t.places)
                exec(self.texts[name], self.names)
            except antt.Refused as e:
                self.refused.append(f"{file}: {e}")

    def take_equations(self):
        """The examples that are computed, of Examples.txt: the names of the functions that ask them."""
        found = []
        for file, read in (("worked_examples/Sheets", files.parsed("worked_examples/Sheets")), (EXAMPLES.name, antt.read(EXAMPLES.read_text(), EXAMPLES.name, statements=True))):
            these = files.resolved(*read, prefix="example·")
            self.take_all(file, these)
            found += [name for name, d in these.items() if d.get("statement")]
        return found

    def unused(self):
        """Entries of the table that no definition has a variable for."""
        entries = [(name, key) for name, table in ranges.RANGES.items() for key in table] + [(name, "record") for name in ranges.RECORDS]
        return [f"{name}: {key}" for name, key in entries if (name, key) not in self.t.used]

    def is_value(self, name):
        d = self.t.defs[name]
        return d["kind"] == "fun" and d["constant"] and not d["prop"] and bool(self.texts[name])

    @functools.cached_property
    def cited(self):
        """The names in each definition."""
        bodies = lambda d: [b for _, b in d["clauses"]] if d["kind"] == "fun" else [a for _, a in d["fields"]]
        return {name: set().union(*map(translate.free, bodies(self.t.defs[name]))) for name in self.texts}

    @functools.cache
    def constants(self, changed):
        """The values that rest on a definition, in their order."""
        on, found = {changed}, []
        for name in self.texts:
            if self.cited[name] & on:
                on.add(name)
                found += [name] if self.is_value(name) else []
        return found

    @functools.cache
    def users(self, name):
        """The definitions whose use is that of a name: itself, and those that name a value which rests on it, or is it."""
        values = {*self.constants(name), *([name] if self.is_value(name) else [])}
        return {n for n in self.texts if n == name or self.cited[n] & values}

    def changed(self, file, text):
        """The definitions that are others in another text of a file."""
        here, new = pristine(file), files.resolved(*antt.read(text, file))
        found = {name: new[name] for name in here if new.get(name) != here[name]}
        if list(new) != list(here) or not found:
            raise antt.Refused(f"{file}: no definition is altered, or one is gone")
        return found

    @contextlib.contextmanager
    def replaced(self, new, counted=False):
        """The definitions with these in place of those of their names; where it is counted, the quantifiers that are to be reached."""
        before, places = {}, set()
        try:
            for name, d in new.items():
                places |= self.alter(name, d, before, counted)
            self.names["cache"].clear()
            self.names["_reached"].clear()
            yield places
        finally:
            self.names.update(before)
            self.names["cache"].clear()
            for k, x in self.known.items():
                state = getattr(self.t, k)
                state.clear()
                state.update(x)

    def alter(self, name, d, before, counted):
        if d["kind"] == "record":
            d["data"], d["implicit"] = self.t.defs[name]["data"], self.t.defs[name]["implicit"]
        self.t.take({name: d})
        text = self.t.definition(d, counted)
        places = set(self.t.places)
        if self.t.looking != self.known["looking"]:
            # what rests on it may now hang on what is looked among as well
            self.t.looking |= set(self.t.defs)
        again = self.constants(name)
        for n in [name, *again]:
            before.setdefault(translate.py(n), self.names.get(translate.py(n)))
        exec(text, self.names)
        for n in again:
            exec(self.texts[n], self.names)
        return places


class Asked:
    """What examples ask: each definition by its name, with lists handed in as tuples."""

    def __init__(self, made):
        self._made, self._kept = made, {}

    def __getattr__(self, name):
        found = self._made.names[translate.py(name)]
        self._made.names["_used"].add(name)
        return functools.partial(self._asked, name) if callable(found) else found

    def _asked(self, name, *args):
        # looked up when it is called, since it may be altered by then
        found, args, arity = self._made.names[translate.py(name)], tuple(map(plain, args)), self._made.t.arity.get(name, 0)
        return self._made.names["_Part"](found, arity, args) if len(args) < arity else found(*args)

    def among(self, **looked):
        """A question, asked with these to look among. The same list is the same range again."""
        for x in looked.values():
            self._kept.setdefault(id(x), (x, plain(x)))
        looked = {k: self._kept[id(x)][1] for k, x in looked.items()}
        return lambda question: self._made.names["looking"](looked, question)


@functools.cache
def pristine(file):
    return files.resolved(*files.parsed(file))


@functools.cache
def definitions():
    """The definitions as they are."""
    return Definitions()


if __name__ == "__main__":
    made = definitions()
    for name in sys.argv[1:]:
        print(made.texts[name])
    print(*made.refused, *("unused entry " + u for u in made.unused()), f"{len(made.texts)} definitions, {len(made.refused)} refused, {len(made.unused())} unused entries", sep="\n")
    sys.exit(1 if made.refused or made.unused() else 0)

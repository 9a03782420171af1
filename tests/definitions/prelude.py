"""What translated definitions stand on. A list is a tuple; a set of vertices is a number; a blank value is None; a case of a data type or an enum is
its name, with its arguments in a tuple behind it. A function with some of its arguments, and a λ, can be told apart by what they were made of, so
that answers can be kept."""
from collections import namedtuple

_all, _any, _len, _max, _min, _map_, _sum = all, any, len, max, min, map, sum
cache = {}
# Which quantifiers were reached with candidates that pass their conditions.
_reached = set()
# Which definitions were used, but for values.
_used = set()


def _hit(place):
    _reached.add(place)
    return True


class Looked:
    """What the example hands in to look among; `number` tells one choice from another."""

    def __init__(self):
        self.__dict__["number"] = 0

    def __getattr__(self, name):
        raise LookupError(f"the example does not say among which {name} is looked")


given = Looked()


class _Kept(tuple):
    """A tuple that keeps its hash: setups and graphs are asked for it often."""
    def __hash__(self):
        try:
            return self._hash
        except AttributeError:
            self._hash = tuple.__hash__(self)
            return self._hash


def _record(name, fields):
    """A class of tuples with named fields that keep their hash."""
    base = namedtuple(name, fields)
    made = type(name, (base,), {"__hash__": _Kept.__hash__})
    made._replace = lambda self, **parts: made(**{**dict(zip(base._fields, self)), **parts})
    return made


class _Keyed:
    """Equal where what it was made of is equal."""
    def __hash__(self):
        return self.hash

    def __eq__(self, other):
        return self is other or (isinstance(other, _Keyed) and self.hash == other.hash and self.key == other.key)


def _looks(f):
    """The number of what is looked among, where the function's answer may hang on it."""
    return given.number if getattr(f, "looks", False) else None


class _Part(_Keyed):
    """A function with some of its arguments."""
    def __init__(self, f, arity, args):
        self.f, self.arity, self.args = f, arity, args
        self.key = (f, args, _looks(f))
        self.hash = hash(self.key)

    def __call__(self, *more):
        args = self.args + more
        if _len(args) == self.arity:
            return self.f(*args)
        return _Part(self.f, self.arity, args) if _len(args) < self.arity else self.f(*args[:self.arity])(*args[self.arity:])


class _Lam(_Keyed):
    """A λ, a range, or a statement that is not asked yet: by its place, and by the values that it has from outside."""
    def __init__(self, place, values, arity, f, looks=False):
        self.arity, self.f = arity, f
        self.key = (place, values, given.number if looks else None)
        self.hash = hash(self.key)

    def __call__(self, *args):
        if _len(args) == self.arity:
            return self.f(*args)
        return _Part(self, self.arity, args) if _len(args) < self.arity else self.f(*args[:self.arity])(*args[self.arity:])


class _Later:
    """The value of a `let`, worked out when it is first used."""
    def __init__(self, f):
        self.f = f

    def __call__(self):
        if self.f is not None:
            self.value, self.f = self.f(), None
        return self.value


def _kept(looks):
    """Answers are kept, for each choice of what is looked among where they may hang on it."""
    def made(f):
        def g(*args):
            key = (f, args, given.number) if looks else (f, args)
            try:
                return cache[key]
            except KeyError:
                answer = cache[key] = f(*args)
                return answer
        g.looks, g.__name__ = looks, f.__name__
        return g
    return made


class _Round:
    """Of a statement by cases that may rest on itself: what is known to hold, and what was asked in this round."""
    holds, asked = set(), None


def _least(key, cases):
    """The least such statement: it holds of what is found by rounds, in each of which what is not found yet does not hold, until one finds nothing."""
    if _Round.asked is not None:
        if key not in _Round.holds and key not in _Round.asked:
            _Round.asked.add(key)
            if cases():
                _Round.holds.add(key)
        return key in _Round.holds
    if key not in cache:
        many = -1
        while many < _len(_Round.holds):
            many, _Round.asked = _len(_Round.holds), set()
            try:
                _least(key, cases)
            finally:
                _Round.asked = None
        cache[key] = key in _Round.holds
        _Round.holds = set()
    return cache[key]


def _getD(l, i, d):
    return l[i] if i < _len(l) else d


def _set(l, i, x):
    return l[:i] + (x,) + l[i + 1:] if i < _len(l) else l


def _at(l, i, many):
    """The element at a place of a list that has so many: the only candidate."""
    return (l[i],) if _len(l) == many else ()


def _map(f, l):
    return tuple(f(x) for x in l)


def _less(a, b):
    return a - b if b < a else 0

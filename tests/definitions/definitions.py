"""What the definitions are asked of: worlds, and the generators that ranges.py names. No definition stands here; made.py runs this file in one
namespace with the definitions that it makes. A generator decides only where is looked, and not what is said."""
import itertools


class World:
    """What quantifiers range over: vertices, colours, sets of vertices, and lists of sets; records, and attempts."""

    def __init__(self, vertices, colours, sets, lists, records=(), attempts=()):
        self.vertices, self.colours, self.sets, self.lists = vertices, colours, sets, lists
        # of the class register: a time for each call of the longest list of calls, and no more
        self.records, self.attempts, self.times = records, attempts, range(7)


world = World(range(8), range(9), range(64), ())


def enter(w):
    """Examples of one world stand together, so that what was found out is kept until the next."""
    global world
    if w is not world:
        cache.clear()
    world = w


choices = {}


def looking(ranges, question):
    """Asks with these to look among, beside what is looked among already."""
    before = dict(given.__dict__)
    now = {**before, **ranges}
    del now["number"]
    key = tuple(sorted((name, id(x)) for name, x in now.items()))
    # what is looked among is kept, so that no other gets the same number
    number, _ = choices.setdefault(key, (len(choices) + 1, now))
    given.__dict__.update(now, number=number)
    try:
        return question()
    finally:
        given.__dict__.clear()
        given.__dict__.update(before)


# The numbers that may be kinds: the six, and two more.
KINDS = range(8)


def steps():
    return [Step(v, c) for v in world.vertices for c in world.colours]


def lists_of_steps(r, held):
    """All runs in which no step stands twice, of at most as many steps as there are vertices: others add nothing. Each list is a run that one
    step more was put behind."""
    key = ("runs", r, tuple(held(v) for v in world.vertices))
    if key not in cache:
        found, last = [], [()]
        while last and len(last[0]) <= len(world.vertices):
            found += last
            last = [d + (e,) for d in last for e in r.Step() if e not in d and Run(r, held, d + (e,))]
        cache[key] = found
    return cache[key]


def ways(g, target, set_):
    """The lists of steps among which a way is looked for: those that access derivations are made of."""
    return lists_of_steps(access(g), _Part(Member, 2, (set_,)))


def lists_of_marks(loss, s, g, target, handed, earlier=(), before=()):
    """All lists of marks as long as the handed-in list of which each begins with marks that fit."""
    if not handed:
        return [before]
    fits = [m for m in ("Repeated", "Shut", "Loose", "Right") if CountsAs(loss, s, g, target, earlier, handed[0], m)] or ["Repeated"]
    return [l for m in fits for l in lists_of_marks(loss, s, g, target, handed[1:], (handed[0], *earlier), (*before, m))]


def graphs(s):
    """The graphs among which that without recovery is looked for."""
    key = ("graphs", s)
    if key not in cache:
        cache[key] = [less_recovery(s), less_marked(s), s.graph, s.recovery, empty_graph]
    return cache[key]


def scores(s, loss):
    """The numbers among which scores are looked for."""
    key = ("scores", s, loss)
    if key not in cache:
        cache[key] = sorted({sum_of(loss, s, x) for x in world.sets} | {never})
    return cache[key]


def places(lines):
    """The places among which one is looked for: those to which the lines lead."""
    found = [start]
    for line in lines:
        found.append(next_(found[-1], line))
    return found


def functions(places, values):
    """Functions on numbers, tried on the first places, that which leaves them as they are first; elsewhere 0."""
    every = itertools.chain([tuple(range(places))], itertools.product(range(values), repeat=places))
    return (_Lam("function", t, 1, lambda i, t=t: t[i] if i < len(t) else 0) for t in every)


def variables():
    return [("vertex", v) for v in world.vertices] + [("coloured", v, c) for v in world.vertices for c in world.colours]


def assignments(k, x):
    """Assignments of the variables that clauses have or that are asked for; the others matter to nothing, and are false."""
    used = sorted({k.head(n) for n in k.Name()} | {y for n in k.Name() for y in variables() if k.Body(n, y)} | {x})
    for m in range(2 ** len(used)):
        true = frozenset(y for i, y in enumerate(used) if m >> i & 1)
        yield _Lam("assignment", (true,), 1, lambda y, true=true: y in true)

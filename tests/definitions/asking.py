"""Asks the examples of the definitions, as they are and altered."""
import collections
import multiprocessing
import signal
import time

import examples
import ranges
import rules
from made import antt

Example = collections.namedtuple("Example", "name world group expected used seconds")
# How long an example may take of an altered definition, and all of them together.
ONE, ALL = 5, 20
SLOW = 1.5


class Late(BaseException):
    """It takes too long."""


def late(*_):
    raise Late


signal.signal(signal.SIGALRM, late)
D = examples.THE
WORLDS = examples.worlds(D)


def answer(question, seconds=0):
    """The answer, or as a text why there is none."""
    try:
        signal.setitimer(signal.ITIMER_REAL, seconds)
        try:
            return bool(question())
        except Exception as e:
            return f"{type(e).__name__}: {e}"
        finally:
            signal.setitimer(signal.ITIMER_REAL, 0)
    except Late:
        return "late"


def groups():
    return [(world, group) for world, many in examples.GROUPS.items() for group in many]


def wrong():
    """Of the definitions as they are: what is refused, the examples that have another answer, quantifiers that none reaches, and how many examples there are."""
    found, names = [*D._made.refused, *(f"ranges.py has an entry that is not used: {u}" for u in D._made.unused())], []
    for world, group in groups():
        D.enter(WORLDS[world])
        for name, question, expected in group(D):
            names.append(name)
            if (seen := answer(question)) != expected:
                found.append(f"{name}: {seen}")
    found += [f"two examples have the name {name}" for name, many in collections.Counter(names).items() if many > 1]
    missed = {place for place in D._made.places if not place.startswith("example·")} - D._made.names["_reached"]
    found += [f"no example reaches {place}" for place in sorted(missed - set(ranges.NEVER))]
    found += [f"ranges.py has a reason why nothing reaches {place}, and an example does" for place in sorted(set(ranges.NEVER) - missed)]
    return found, len(names)


def measured(at):
    """The examples of a group, each asked alone: which definitions it uses, and how long it takes."""
    world, group = groups()[at]
    found, names = [], D._made.names
    D.enter(WORLDS[world])
    for name, question, expected in group(D):
        names["cache"].clear()
        names["_used"].clear()
        began = time.time()
        answer(question)
        found.append(Example(name, world, at, expected, frozenset(names["_used"]), time.time() - began))
    return found


EVERY = []


def measure():
    """All examples, measured, before any process is started that asks them."""
    with pool() as many:
        EVERY[:] = [e for found in many.imap_unordered(measured, range(len(groups()))) for e in found]


def list_all():
    """All examples, by their names alone."""
    EVERY[:] = [Example(name, world, at, expected, frozenset(), 0) for at, (world, group) in enumerate(groups()) for name, _, expected in group(D)]


def of_name(name):
    """The examples that use a definition, the fastest first. A law is asked of slow ones, which use half of all definitions, only where there are no others."""
    users = D._made.users(name)
    found = sorted((e for e in EVERY if e.used & users), key=lambda e: e.seconds)
    return [e for e in found if e.seconds < SLOW or not RULES.is_law(name)] or found


def noticing(candidates, new, first=(), one=ONE):
    """The first example with another answer, with the definitions replaced by these; else how many had none. A law is also noticed to be another one
    where no candidate passes its conditions any more."""
    began, none, asked = time.time(), 0, {}
    value = any(not D._made.t.is_prop(n) for n in new)
    law = all(RULES.is_law(n) for n in new)
    with D._made.replaced(new, law) as places:
        for e in sorted(candidates, key=lambda e: e.name not in first):
            if time.time() - began > ALL:
                return None, f"late after {round(ALL)} s"
            D.enter(WORLDS[e.world])
            if e.group not in asked:
                questions = QUESTIONS.get(e.group) if not value else None
                try:
                    asked[e.group] = questions or {name: question for name, question, _ in groups()[e.group][1](D)}
                except Exception:
                    asked[e.group] = {}
                if not value:
                    QUESTIONS[e.group] = asked[e.group]
            seen = answer(asked[e.group][e.name], one) if e.name in asked[e.group] else "no question"
            if seen == (not e.expected):
                return e.name, ""
            none += isinstance(seen, str)
        missed = sorted(places - D._made.names["_reached"]) if candidates else []
    if missed:
        return f"nothing passes the conditions of {missed[0]}", ""
    return None, f"{len(candidates)} asked, {none} of them without an answer"


QUESTIONS, RULES = {}, rules.Rules(D._made.t)


def by_rule(task):
    """The alterations by rule of one definition: for each its sentence, and the example that notices it or what else is to be said."""
    file, name = task
    candidates, first, found = of_name(name), [], []
    for n, sentence, new in rules.alterations(D._made, file):
        if n != name:
            continue
        try:
            seen, why = noticing(candidates, {name: new}, first)
        except antt.Refused as e:
            seen, why = "", f"refused: {e}"
        if seen:
            first.insert(0, seen)
        found.append((sentence, seen, why))
    return file, name, found


def pool():
    return multiprocessing.Pool(2)

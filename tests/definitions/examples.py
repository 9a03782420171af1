"""Examples for the declarative definitions: what is asked, and whether it holds. B1 to B12 are document 01's; a name that begins with `not` is a
wrong answer. The setups are read from sheets."""
import itertools
from collections import namedtuple

from made import Asked, definitions, plain

THE = Asked(definitions())
Attempt, Doc, EdgeRow, Graph, ItemRow, Made, Record, Registered, Rows, Setup, Step, Vertex, Pooled = (
    getattr(THE, n) for n in "Attempt Doc EdgeRow Graph ItemRow Made Record Registered Rows Setup Step Vertex Pooled".split()
)
Account, Credential, empty_graph, never, unused_vertex = "Account", "Credential", THE.empty_graph, THE.never, THE.unused_vertex
less_recovery, pooled, read_sheet, setup_of = THE.less_recovery, THE.pooled, THE.read_sheet, THE.setup_of

# The refusals by their numbers.
REFUSALS = "TooLong NoText Header Fields Form NameUsed Bound NameUnknown EdgeTwice NoRows NoEdgePart NoSetup NoItem Outside Short KindsLength".split()
REFUSALS += "NoKind NoColour EdgeThere NoEdge Stranger Disagree PoolBound PoolShort Overfull AllUsed NoRecord".split()
NO = dict(enumerate(REFUSALS, 1))


def render(d):
    return list(THE.render(d))


def words_of(s):
    return list(THE.words_of(s))


def text(lines):
    return [b for line in lines for b in line.encode() + b"\n"]


H1, H2 = "name kind start loss rank", "from to colour rec"
BENCH = [H1, "ordpw c 1 2 0", "mailpw c 1 1 0", "token c 3 2 0", "mail a - - 1", "order a - - 3", "", H2]
BENCH += ["mailpw mail 0 0", "ordpw order 0 0", "token order 0 0", "mail order 1 1"]
RING = [H1, "pwd_backup c 1 - 0", "pwd_manager c 1 - 0", "device c 1 - 0", "seed c 1 - 0", "code c - - 0", "acc_backup a - - 0", "", H2]
RING += ["device code 0 0", "seed code 1 0", "pwd_backup acc_backup 0 0", "code acc_backup 0 0", "acc_backup pwd_manager 0 0"]
RING += ["acc_backup seed 0 0", "pwd_manager pwd_backup 0 0"]


def read(lines):
    r = read_sheet(text(lines))
    assert r.number == 0, (r.number, r.line)
    return r.setup


bench, ring = read(BENCH), read(RING)
alone = read([H1, "only a 5 - 0", "", H2])
closed = read([H1, "only a - - 0", "", H2])
loop = read([H1, "only a - 4 0", "", H2, "only only 0 0"])
pair = read([H1, "p a - 1 0", "q a - 1 0", "", H2, "p q 0 0", "q p 0 0"])
chain = read([H1, "p c 1 1 0", "q c 1 1 0", "t a - - 0", "", H2, "p q 0 0", "q t 0 0"])
# two colours, of which the second is recovery, and an item that is ranked above; zero is a value
SPARE = [H1, "pw c 0 0 0", "key c 2 1 0", "acc a - - 1", "", H2, "pw acc 0 0", "key acc 2 1"]
spare = read(SPARE)
# document 02's point 3: one of two edges of a colour is marked; and the same colour, unmarked, of another item
MIXED = [H1, "finger c 9 - 0", "phone c 1 3 0", "letter c 5 1 0", "mail a - - 1", "", H2, "finger mail 0 0", "phone mail 1 0", "letter mail 1 1"]
mixed, other = read(MIXED), read(MIXED + ["phone finger 1 0"])
# the same recovery beside a password that can be lost: of use, though the marked edge alone would make it idle
useful = read([H1, "password c 1 2 0", *MIXED[2:6], H2, "password mail 0 0", *MIXED[8:]])
MAIL, ORDER = 3, 4
# two of 1, or one of 2, of which there are two, or one of 3: the bags {2}, {2}, {3} and {1, 1}
BAGS = [H1, "p c 1 - 0", "q c 1 - 0", "k c 2 9 0", "r c 2 - 0", "u c 3 - 0", "t a - - 0", "", H2, "p t 0 0", "q t 0 0", "k t 1 0", "r t 2 0", "u t 3 0"]
bags = read(BAGS)


# Attempts at order: both opening sets, one of them with a loose one, none; the lockout sets. A student of the same number at another target, or way.
BOTH, ONE, NONE = (Attempt(7, ORDER, False, handed) for handed in ((2, 5), (2, 6), ()))
LOCKS, ELSEWHERE, ANOTHER = Attempt(7, ORDER, True, (3, 6)), Attempt(7, MAIL, False, (2,)), Attempt(8, ORDER, False, (2, 5))
ATTEMPTS = [BOTH, ONE, NONE, LOCKS, ELSEWHERE, ANOTHER]
R_BOTH, R_ONE, R_NONE = Record(7, 4, 0, 2, 0, 0, 0, 0), Record(7, 4, 0, 1, 0, 0, 1, 1), Record(7, 4, 0, 0, 0, 0, 0, 2)
R_LOCKS, R_ELSEWHERE, R_ANOTHER = Record(7, 4, 1, 2, 0, 0, 0, 0), Record(7, 3, 0, 1, 0, 0, 0, 0), Record(8, 4, 0, 2, 0, 0, 0, 0)
R_ANY, R_MIXED = Record(9, 9, 7, 9, 9, 9, 9, 9), Record(7, 4, 0, 1, 1, 1, 1, 1)
RECORDS = [R_BOTH, R_ONE, R_NONE, R_LOCKS, R_ELSEWHERE, R_ANOTHER, R_ANY, R_MIXED, R_ONE._replace(shut=1, loose=0), R_BOTH._replace(right=1)]


def lists_over(pool, most=2):
    """All lists of up to `most` sets of the pool, repeats and every order included."""
    return [list(l) for n in range(most + 1) for l in itertools.product(pool, repeat=n)]


def worlds(D):
    return {
        "far": D.World([0, 1, 2, 3, 4, 5, 6, 7, 62, 63, 64, 65], range(10), range(16), []),
        "rows": D.World(range(8), range(9), range(16), []),
        "bench": D.World(range(6), range(3), range(64), lists_over([1, 2, 3, 5, 6, 7]), RECORDS, ATTEMPTS),
        "bags": D.World(range(7), range(5), range(64), lists_over([3, 4, 8, 16])),
        "ring": D.World(range(6), range(2), range(16), [[5, 6, 9, 10], [5, 6, 10, 9], [5, 6, 9], [5, 6, 9, 10, 12]]),
        "one": D.World(range(3), range(3), range(8), lists_over([0, 1, 2, 3])),
        "sums": D.World(range(16), range(2), [0, 1, 2**13, 2**14 - 1, 2**15 - 1], []),
        "pool": D.World(range(4), range(4), range(8), []),
        "spare": D.World([0, 1, 2, 3, 64], range(4), range(16), lists_over([0, 1, 2, 3])),
    }


def with_row(g, v, c, n):
    rows = list(g.rows)
    needs = list(rows[v].needs)
    needs[c] = n
    rows[v] = Rows(tuple(needs))
    return Graph(tuple(rows))


# document 01's sheet with the mail password held; then with the order password needed beside it for mail, which shuts mail and order
TAKEN = bench._replace(held=2, opened=26)
TRAPPED = TAKEN._replace(graph=with_row(bench.graph, MAIL, 0, 3), opened=2)
# a recovery edge less, and one item more held
LESS = bench._replace(graph=with_row(bench.graph, ORDER, 1, 0), recovery=with_row(bench.recovery, ORDER, 1, 0))


def with_vertex(s, v, x):
    return s._replace(vertices=s.vertices[:v] + (x,) + s.vertices[v + 1:])


def all_items(n, **parts):
    x = Vertex(Credential, None, None, 0)
    return Setup(64, tuple(x._replace(**parts) if i < n else x for i in range(64)), empty_graph, empty_graph)


def many_edges(n):
    needs = [2 ** max(0, min(8, n - 8 * i)) - 1 for i in range(64 * 8)]
    return all_items(0)._replace(graph=Graph(tuple(Rows(tuple(needs[8 * v:8 * v + 8])) for v in range(64))))


def item(name, start=None, loss=None, rank=0, kind=Credential):
    return ItemRow(list(name.encode()), kind, start, loss, rank)


def edge(source, to, colour=0, rec=False):
    return EdgeRow(list(source.encode()), list(to.encode()), colour, rec)


DOC = Doc([item("pw", 10), item("box", rank=9, kind=Account)], [edge("pw", "box", 2, True), edge("box", "box", 2), edge("pw", "box", 7)])
# two labs that are pooled, with the item g in both
LABS = [
    Doc([item("a", 1), item("g", rank=1, kind=Account)], [edge("a", "g", 1)]),
    Doc([item("g", rank=1, kind=Account), item("h", 2)], [edge("h", "g", 1, True), edge("g", "h", 3)]),
]
REFUSED = {
    "refused 2": ([], 2, 0),
    "refused 2, no LF": (text(BENCH)[:-1], 2, 0),
    "refused 3": (text(["name"]), 3, 1),
    "refused 4": (text([H1, "a c - -"]), 4, 2),
    "refused 5": (text([H1, "a c 00 - 0"]), 5, 2),
    "refused 6": (text([H1, "a c - - 0", "a c - - 0"]), 6, 3),
    "refused 6 and not 7 below": (text([H1, "a c - - 0", "a c - - 0", "b"]), 6, 3),
    "refused 10": (text([H1, ""]), 10, 2),
    "refused 8": (text([H1, "a c - - 0", "", H2, "b a 0 0"]), 8, 5),
    "refused 9": (text([H1, "a c - - 0", "", H2, "a a 0 0", "a a 0 1"]), 9, 6),
    "refused 11": (text([H1, "a c - - 0", ""]), 11, 4),
    "refused 1": ([10] * 16385, 1, 0),
}
TEXTS = [t for t, q, k in REFUSED.values()] + [text(BENCH), render(DOC)]
NUMBERS, LINES = range(13), range(8)
LENT = [90, 91, 92, 93, 94]


def one_item(**parts):
    return Doc([item("a", **parts)], [])


def loops(*edges):
    return Doc([item("a")], list(edges))


def items_with(count, starts, losses):
    return Doc([item(f"i{n}", 0 if n < starts else None, 0 if n < losses else None) for n in range(count)], [])


EIGHT = [item(f"i{n}") for n in range(8)]
MANY = [edge(f"i{f}", f"i{v}", c) for v in range(5) for c in range(8) for f in range(8)]
ROWS = [
    ("two rows", DOC, True),
    ("one row", one_item(), True),
    ("a name twice", Doc([item("a"), item("a")], []), False),
    ("no row", Doc([], []), False),
    ("a name in capitals", Doc([item("A")], []), False),
    ("start 4,000,000,001", one_item(start=4000000001), False),
    ("loss 4,000,000,001", one_item(loss=4000000001), False),
    ("rank 10", one_item(rank=10), False),
    ("an edge from nowhere", loops(edge("b", "a")), False),
    ("an edge to nowhere", loops(edge("a", "b")), False),
    ("colour 8", loops(edge("a", "a", 8)), False),
    ("an edge twice", loops(edge("a", "a"), edge("a", "a", 0, True)), False),
    ("two colours", loops(edge("a", "a"), edge("a", "a", 1)), True),
    ("64 items, 14 and 14", items_with(64, 14, 14), True),
    ("65 items", items_with(65, 0, 0), False),
    ("15 starts", items_with(64, 15, 0), False),
    ("15 losses", items_with(64, 0, 15), False),
    ("256 edges", Doc(EIGHT, MANY[:256]), True),
    ("257 edges", Doc(EIGHT, MANY[:257]), False),
    ("the longest name, highest values", Doc([item("a" * 16, 4000000000, 4000000000, 9)] + EIGHT, MANY[:1]), True),
]
DOCS = [d for n, d, ok in ROWS]
SAME_NAMES = Doc([item("a"), item("a", 1)], [edge("a", "a")])
LONG = [f"{n:016d}" for n in range(64)]
LONG_NAMES = Doc([item(n) for n in LONG], [edge(LONG[f], LONG[v], c) for v in range(4) for c in range(8) for f in range(8)])
LONGEST = LONG_NAMES._replace(items=[item(n, *[4000000000 if i < 14 else None] * 2) for i, n in enumerate(LONG)])
RANK_10 = with_vertex(bench, 0, Vertex(Credential, 1, 2, 10))


G = bench.graph
WAY = [Step(MAIL, 0), Step(ORDER, 1)]
EMPTY = setup_of(Doc([], []))


def ended(D, number, values, *lent):
    """What a call hands back: its number, its values, and the lent lists as they then are."""
    return D.ends(D.Reply(number, values), list(lent))


# Whether a number, values and, where a list is lent, the list as it was and as it is are as the call's contract says.


def closure_call(D, s, set_, n, v):
    return D.Fulfils(D.closure_call(s, set_), ended(D, n, v))


def lost_call(D, s, set_, n, v):
    return D.Fulfils(D.lost_call(s, set_), ended(D, n, v))


def way_call(D, s, target, set_, n, v, a, x, b, y):
    return D.Fulfils(D.way_call(s, target, set_, a, b), ended(D, n, v, x, y))


def quick_call(D, s, target, set_, n, v):
    return D.Fulfils(D.quick_call(s, target, set_), ended(D, n, v))


def bases_call(D, s, target, n, v, a, x):
    return D.Fulfils(D.bases_call(s, target, a), ended(D, n, v, x))


def score_call(D, loss, s, target, n, v):
    return D.Fulfils(D.score_call(loss, s, target), ended(D, n, v))


def marks_call(D, loss, s, target, handed, n, v):
    return D.Fulfils(D.marks_call(loss, s, target, handed), ended(D, n, v))


def backdoor_call(D, s, v, n, values):
    return D.Fulfils(D.backdoor_call(s, v), ended(D, n, values))


def idle_call(D, s, v, n, values):
    return D.Fulfils(D.ineffective_call(s, v), ended(D, n, values))


def pair_call(D, s, v, w, n, values):
    return D.Fulfils(D.inconsistent_call(s, v, w), ended(D, n, values))


def forecast_call(D, s, target, n, v):
    return D.Fulfils(D.forecast_call(s, target), ended(D, n, v))


def cuts_call(D, s, target, n, v, a, x):
    return D.Fulfils(D.cuts_call(s, target, a), ended(D, n, v, x))


def kinds_call(D, s, target, kinds, n, v):
    return D.Fulfils(D.attacker_call(s, target, kinds), ended(D, n, v))


def next_call(D, s, target, last, n, v):
    return D.Fulfils(D.next_call(s, target, last), ended(D, n, v))


def bags_call(D, s, target, n, v, a, x, b, y):
    return D.Fulfils(D.bags_call(s, target, a, b), ended(D, n, v, x, y))


def living_call(D, call, s, n, t):
    return D.CallOf(call, s, D.Redrawing(n, t))


def of_sets(D):
    """Sets of vertices, and their order."""
    return [
        ("set: 5 has 0 and 2", lambda: D.Member(5, 0) and D.Member(5, 2), True),
        ("set: 5 has not 1", lambda: D.Member(5, 1), False),
        ("set: item 63", lambda: D.Member(2**63, 63), True),
        ("within: 5 in 7", lambda: D.Within(5, 7), True),
        ("not within: 7 in 5", lambda: D.Within(7, 5), False),
        ("within: itself", lambda: D.Within(5, 5), True),
        ("not properly: itself", lambda: D.ProperlyWithin(5, 5), False),
        ("properly: 4 in 5", lambda: D.ProperlyWithin(4, 5), True),
        ("not properly: 2 in 5", lambda: D.ProperlyWithin(2, 5), False),
        ("meets: 6 and 12", lambda: D.Meets(6, 12), True),
        ("not meets: 6 and 9", lambda: D.Meets(6, 9), False),
        ("decides: yes", lambda: D.Decides(True, True), True),
        ("not decides: yes of what is not", lambda: D.Decides(False, True), False),
        ("not decides: no of what is", lambda: D.Decides(True, False), False),
        ("iff: both", lambda: D.Iff(True, True), True),
        ("not iff: only the first", lambda: D.Iff(True, False), False),
        ("not iff: only the second", lambda: D.Iff(False, True), False),
        ("inserted: 3 into 5", lambda: D.Inserted(5, 3, 13), True),
        ("inserted: 63 into 5", lambda: D.Inserted(5, 63, 2**63 + 5), True),
        ("not inserted: 63 into 5 changes nothing", lambda: D.Inserted(5, 63, 5), False),
        ("not inserted: 3 into 5 is 8", lambda: D.Inserted(5, 3, 8), False),
        ("inserted: 64 changes nothing", lambda: D.Inserted(5, 64, 5), True),
        ("not inserted: 64 into 5", lambda: D.Inserted(5, 64, 2**64 + 5), False),
        ("below: 3", lambda: D.Below(3, 7), True),
        ("not below: 3 is 15", lambda: D.Below(3, 15), False),
        ("below: 66", lambda: D.Below(66, 2**64 - 1), True),
        ("listed: the second of two", lambda: D.Listed([4, 7], 7), True),
        ("not listed", lambda: D.Listed([4, 7], 5), False),
        ("before: fewer vertices", lambda: D.Before(4, 3), True),
        ("not before: by number only", lambda: D.Before(3, 4), False),
        ("before: the smaller number", lambda: D.Before(3, 5), True),
        ("not before: itself", lambda: D.Before(3, 3), False),
        ("ordered: 4, 3, 5", lambda: D.Ordered([4, 3, 5]), True),
        ("not ordered: 3, 4", lambda: D.Ordered([3, 4]), False),
        ("not ordered: 4, 5, 3", lambda: D.Ordered([4, 5, 3]), False),
        ("not ordered: twice", lambda: D.Ordered([4, 4]), False),
        ("rising", lambda: D.Rising([0, 2, 3]), True),
        ("not rising", lambda: D.Rising([0, 3, 1]), False),
        ("not rising: twice", lambda: D.Rising([0, 2, 2]), False),
        ("not rising: the last below the first", lambda: D.Rising([1, 2, 0]), False),
    ]


def of_setups(D):
    """Reading a setup."""
    return [
        ("edge: mail, order, 1", lambda: D.Edge(G, 3, 4, 1), True),
        ("not edge: order, mail, 1", lambda: D.Edge(G, 4, 3, 1), False),
        ("initial: token", lambda: D.Chosen(False, bench, 2), True),
        ("initial: zero is a value", lambda: D.Chosen(False, spare, 0), True),
        ("not initial: mail", lambda: D.Chosen(False, bench, 3), False),
        ("losable: loop's item", lambda: D.Chosen(True, loop, 0), True),
        ("not initial: loop's item", lambda: D.Chosen(False, loop, 0), False),
        ("shaped: bench", lambda: D.Shaped(bench), True),
        ("not shaped: 63 vertices", lambda: D.Shaped(bench._replace(vertices=bench.vertices[:63])), False),
        ("not shaped: 63 places", lambda: D.ShapedGraph(Graph(G.rows[:63])), False),
        ("not shaped: 7 colours at 63", lambda: D.ShapedGraph(Graph(G.rows[:63] + (Rows((0,) * 7),))), False),
        ("not shaped: a graph of 63 places", lambda: D.Shaped(bench._replace(graph=Graph(G.rows[:63]))), False),
        ("not shaped: recovery of 63 places", lambda: D.Shaped(bench._replace(recovery=Graph(G.rows[:63]))), False),
        ("without recovery: bench", lambda: D.WithoutRecovery(bench, less_recovery(bench)), True),
        ("not without recovery: the graph itself", lambda: D.WithoutRecovery(bench, G), False),
        ("not without recovery: no edge", lambda: D.WithoutRecovery(bench, empty_graph), False),
        ("not without recovery: 63 places", lambda: D.WithoutRecovery(bench, Graph(less_recovery(bench).rows[:63])), False),
        ("initial set: bench", lambda: D.ChosenSet(False, bench, 7), True),
        ("not initial set: three others", lambda: D.ChosenSet(False, bench, 11), False),
        ("not initial set: bench less one", lambda: D.ChosenSet(False, bench, 3), False),
        ("not initial set: with item 70", lambda: D.ChosenSet(False, bench, 7 + 2**70), False),
    ]


def of_well_formed(D):
    """Well formed setups, and one that is not for each clause."""
    return [
        ("in range: 4,000,000,000", lambda: D.InRange(4000000000), True),
        ("not in range: 4,000,000,001", lambda: D.InRange(4000000001), False),
        ("in range: a blank", lambda: D.InRange(None), True),
        ("vertex: rank 9", lambda: D.ValidVertex(Vertex(Account, 0, 4000000000, 9)), True),
        ("not vertex: rank 10", lambda: D.ValidVertex(Vertex(Account, 0, 0, 10)), False),
        ("not vertex: start 4,000,000,001", lambda: D.ValidVertex(Vertex(Account, 4000000001, 0, 0)), False),
        ("not vertex: loss 4,000,000,001", lambda: D.ValidVertex(Vertex(Account, 0, 4000000001, 0)), False),
        ("well formed: bench", lambda: D.WellFormed(bench), True),
        ("well formed: 64 items", lambda: D.WellFormed(all_items(0)), True),
        ("well formed: 256 edges", lambda: D.WellFormed(many_edges(256)), True),
        ("well formed: 14 initial", lambda: D.WellFormed(all_items(14, start=0)), True),
        ("well formed: 14 losable", lambda: D.WellFormed(all_items(14, loss=0)), True),
        ("not well formed: 63 vertices", lambda: D.WellFormed(bench._replace(vertices=bench.vertices[:63])), False),
        ("not well formed: no item", lambda: D.WellFormed(EMPTY), False),
        ("not well formed: 65 items", lambda: D.WellFormed(all_items(0)._replace(count=65)), False),
        ("not well formed: rank 10", lambda: D.WellFormed(RANK_10), False),
        ("not well formed: rank 1 at 5, the first place not in use", lambda: D.WellFormed(with_vertex(bench, 5, unused_vertex._replace(rank=1))), False),
        ("not well formed: an edge to 5", lambda: D.WellFormed(bench._replace(graph=with_row(G, 5, 0, 1))), False),
        ("not well formed: rank 1 at 63", lambda: D.WellFormed(with_vertex(bench, 63, unused_vertex._replace(rank=1))), False),
        ("not well formed: an edge from 5", lambda: D.WellFormed(bench._replace(graph=with_row(G, 4, 0, 37))), False),
        ("not well formed: an edge to 63", lambda: D.WellFormed(bench._replace(graph=with_row(G, 63, 0, 1))), False),
        ("not well formed: recovery alone", lambda: D.WellFormed(bench._replace(recovery=with_row(bench.recovery, 3, 1, 2))), False),
        ("not well formed: 257 edges", lambda: D.WellFormed(many_edges(257)), False),
        ("not well formed: 15 initial", lambda: D.WellFormed(all_items(15, start=0)), False),
        ("not well formed: 15 losable", lambda: D.WellFormed(all_items(15, loss=0)), False),
    ]


def of_parts(D):
    """Refusals, question 14, values, full marks."""
    return [
        ("inside: order", lambda: D.Inside(bench, 16), True),
        ("not inside: item 5", lambda: D.Inside(bench, 32), False),
        ("not inside: item 63", lambda: D.Inside(bench, 2**63 + 1), False),
        ("once: 4, 3", lambda: D.Once([4, 3]), True),
        ("not once: 4, 3, 4", lambda: D.Once([4, 3, 4]), False),
        ("not once: 3, 4, 4", lambda: D.Once([3, 4, 4]), False),
        ("lists exactly: 1, 2", lambda: D.ListsExactly(lambda x: x in (2, 1), [1, 2]), True),
        ("not lists exactly: one too many", lambda: D.ListsExactly(lambda x: x == 1, [1, 2]), False),
        ("not lists exactly: one missing", lambda: D.ListsExactly(lambda x: x in (2, 1), [1]), False),
        ("not lists exactly: in another order", lambda: D.ListsExactly(lambda x: x in (2, 1), [2, 1]), False),
        ("smallest: 3 of 3 and 7", lambda: D.Smallest(lambda x: x in (3, 7), 3), True),
        ("not smallest: 7 of 3 and 7", lambda: D.Smallest(lambda x: x in (3, 7), 7), False),
        ("not smallest: without the property", lambda: D.Smallest(lambda x: x in (3, 7), 1), False),
        ("full: all zero", lambda: D.Full(0, 0, 0, 0), True),
        ("points: of a blank", lambda: D.points(None) == 0, True),
        ("sum over: item 64 is none", lambda: D.sum_over(lambda v: 1, 2**64 + 2**63) == 1, True),
        ("question 1: 16,384 bytes, and one more", lambda: D.question1([10] * 16384) and not D.question1([10] * 16385), True),
    ]


def of_derivations(D):
    """Runs, derivations, closures."""
    held = lambda x: lambda i: D.Member(x, i)
    return [
        ("run: mail, order", lambda: D.Run(D.access(G), held(2), WAY), True),
        ("not run: order, mail", lambda: D.Run(D.access(G), held(2), WAY[::-1]), False),
        ("run: none", lambda: D.Run(D.access(G), held(2), []), True),
        ("adds: order", lambda: D.Adds(D.access(G), WAY, ORDER), True),
        ("not adds: mailpw", lambda: D.Adds(D.access(G), WAY, 1), False),
        ("with: order added", lambda: D.With(held(2), ORDER)(ORDER) and D.With(held(2), ORDER)(1), True),
        ("not with: mail", lambda: D.With(held(2), ORDER)(MAIL), False),
        ("derivation: a held vertex", lambda: D.Derivation(D.access(G), held(16), ORDER), True),
        ("opens: mail from mailpw", lambda: D.Opens(G, held(2), Step(MAIL, 0)), True),
        ("not opens: an empty colour", lambda: D.Opens(G, held(2), Step(MAIL, 1)), False),
        ("not opens: half a colour", lambda: D.Opens(G, held(1), Step(ORDER, 0)), False),
        ("lost: one of ordpw, token", lambda: D.SomeLost(held(1), 5), True),
        ("not lost: neither of ordpw, token", lambda: D.SomeLost(held(2), 5), False),
        ("shuts: order without ordpw, mail", lambda: D.Shuts(G, held(9), ORDER), True),
        ("not shuts: order by one colour", lambda: D.Shuts(G, held(1), ORDER), False),
        ("not shuts: token, which has no colour", lambda: D.Shuts(G, held(63), 2), False),
        ("access: order from mailpw", lambda: D.HasAccess(G, held(2), ORDER), True),
        ("not access: order from token", lambda: D.HasAccess(G, held(4), ORDER), False),
        ("B1", lambda: D.AccessFrom(G, 0, 0), True),
        ("not B1: all", lambda: D.AccessFrom(G, 0, 31), False),
        ("B2", lambda: D.AccessFrom(G, 2, 26), True),
        ("not B2: the set handed back", lambda: D.AccessFrom(G, 2, 2), False),
        ("not B2: with ordpw", lambda: D.AccessFrom(G, 2, 27), False),
        ("lost set of ordpw, mailpw", lambda: D.LockoutFrom(G, 3, 27), True),
        ("not lost set: the set itself", lambda: D.LockoutFrom(G, 3, 3), False),
    ]


def of_passes(D):
    """Passes."""
    held = lambda x: lambda i: D.Member(x, i)
    a = D.access(G)
    return [
        ("allows: mail from mailpw", lambda: D.Allows(a, held(2), MAIL), True),
        ("not allows: order from token", lambda: D.Allows(a, held(4), ORDER), False),
        ("not allows: order from mailpw, though not mail", lambda: D.Allows(a, held(2), ORDER), False),
        ("pass: mailpw, mail", lambda: D.Pass(a, 2, 10), True),
        ("not pass: order too, which mail opens", lambda: D.Pass(a, 2, 26), False),
        ("not pass: one of two", lambda: D.Pass(a, 7, 15), False),
        ("not pass: what is added alone", lambda: D.Pass(a, 2, 8), False),
        ("pass: of losses", lambda: D.Pass(D.lockout(G), 3, 11), True),
        ("passes: 1 from nothing", lambda: D.Passes(a, 1, 0, 0), True),
        ("not passes: 0 from nothing", lambda: D.Passes(a, 0, 0, 0), False),
        ("passes: 3 from mailpw", lambda: D.Passes(a, 3, 2, 26), True),
        ("not passes: 2 from mailpw", lambda: D.Passes(a, 2, 2, 26), False),
        ("not passes: 4 from mailpw", lambda: D.Passes(a, 4, 2, 26), False),
        ("not passes: 3 from mailpw, to mail", lambda: D.Passes(a, 3, 2, 10), False),
        ("passes: 2 where two come together", lambda: D.Passes(a, 2, 7, 31), True),
        ("not passes: 3 where two come together", lambda: D.Passes(a, 3, 7, 31), False),
        ("counted: 3 from mailpw", lambda: D.IsClosure(bench, 2, D.CountedClosure(26, 3)), True),
        ("not counted: 2 from mailpw", lambda: D.IsClosure(bench, 2, D.CountedClosure(26, 2)), False),
        ("counted: 1 from all", lambda: D.IsClosure(bench, 31, D.CountedClosure(31, 1)), True),
    ]


def of_ways(D):
    """Ways in."""
    held = lambda x: lambda i: D.Member(x, i)
    return [
        ("B6", lambda: D.Way(G, ORDER, held(2), WAY), True),
        ("not B6: one step", lambda: D.Way(G, ORDER, held(2), WAY[:1]), False),
        ("not B6: a step too many", lambda: D.Way(G, MAIL, held(2), WAY), False),
        ("way: the lowest of two colours", lambda: D.Way(G, ORDER, held(7), [Step(MAIL, 0), Step(ORDER, 0)]), True),
        ("not way: the higher of two colours", lambda: D.Way(G, ORDER, held(7), [Step(MAIL, 0), Step(ORDER, 1)]), False),
        ("not way: the higher vertex first", lambda: D.Way(G, ORDER, held(7), [Step(ORDER, 0)]), False),
        ("not way: a held vertex again", lambda: D.Way(G, ORDER, held(10), [Step(MAIL, 0), Step(ORDER, 1)]), False),
        ("not way: an empty colour", lambda: D.Way(G, ORDER, held(0), [Step(ORDER, 2)]), False),
    ]


def of_bases(D):
    """Lists."""
    return [
        ("target set: {mailpw, token}", lambda: D.TargetSet(False, bench, G, ORDER, 6), True),
        ("not target set: {token}", lambda: D.TargetSet(False, bench, G, ORDER, 4), False),
        ("not target set: {mail}, no initial vertex", lambda: D.TargetSet(False, bench, G, ORDER, 8), False),
        ("minimal: {ordpw, token}", lambda: D.MinimalSet(False, bench, G, ORDER, 5), True),
        ("not minimal: {mailpw, token}", lambda: D.MinimalSet(False, bench, G, ORDER, 6), False),
        ("B3", lambda: D.Base(False, bench, G, ORDER, [2, 5]), True),
        ("not B3: empty", lambda: D.Base(False, bench, G, ORDER, []), False),
        ("not B3: one set", lambda: D.Base(False, bench, G, ORDER, [2]), False),
        ("not B3: one too many", lambda: D.Base(False, bench, G, ORDER, [2, 5, 7]), False),
        ("not B3: in another order", lambda: D.Base(False, bench, G, ORDER, [5, 2]), False),
        ("B4", lambda: D.Base(True, bench, G, ORDER, [3, 6]), True),
        ("not B4: B3", lambda: D.Base(True, bench, G, ORDER, [2, 5]), False),
    ]


def of_scores(D):
    """Scores."""
    return [
        ("B5, score", lambda: D.Score(False, bench, G, ORDER, 1), True),
        ("B5, risk", lambda: D.Score(True, bench, G, ORDER, 3), True),
        ("not B5: score 0", lambda: D.Score(False, bench, G, ORDER, 0), False),
        ("not B5: score 4", lambda: D.Score(False, bench, G, ORDER, 4), False),
        ("not B5: never", lambda: D.Score(False, bench, G, ORDER, never), False),
        ("not least over: a sum of never", lambda: D.LeastOver(lambda x: x == 1, lambda x: never, never), False),
        ("score over B3", lambda: D.ScoreOver(False, bench, [2, 5], 1), True),
        ("not score over B3: 4", lambda: D.ScoreOver(False, bench, [2, 5], 4), False),
        ("not score over B3: 0", lambda: D.ScoreOver(False, bench, [2, 5], 0), False),
        ("not score over B3: never", lambda: D.ScoreOver(False, bench, [2, 5], never), False),
        ("score over none", lambda: D.ScoreOver(False, bench, [], never), True),
        ("not score over none: 2^62 + 1", lambda: D.ScoreOver(False, bench, [], 2**62 + 1), False),
        ("not score over none: 0", lambda: D.ScoreOver(False, bench, [], 0), False),
    ]


def of_sums(D):
    """Sums of the largest values."""
    return [
        ("sums hold: 14 initial of 4,000,000,000", lambda: D.among(setups=[all_items(14, start=4000000000)])(D.SumsHold), True),
        ("sums hold: 14 losable of 4,000,000,000", lambda: D.among(setups=[all_items(14, loss=4000000000)])(D.SumsHold), True),
        ("sums hold: values of 2^62 are out of range", lambda: D.among(setups=[all_items(14, start=2**62)])(D.SumsHold), True),
    ]


def of_marks(D):
    """Marks."""
    more = zip("right repeated shut loose missing".split(), ((2, 1, 1, 1, 0), (1, 2, 1, 1, 1), (1, 1, 2, 1, 1), (1, 1, 1, 2, 1), (1, 1, 1, 1, 2)))
    return [
        ("smaller: of {mailpw, token}", lambda: D.SmallerDerives(False, G, ORDER, 6), True),
        ("not smaller: of {mailpw}", lambda: D.SmallerDerives(False, G, ORDER, 2), False),
        ("counts as: repeated", lambda: D.CountsAs(False, bench, G, ORDER, [2], 2, "Repeated"), True),
        ("not counts as: right, where repeated", lambda: D.CountsAs(False, bench, G, ORDER, [2], 2, "Right"), False),
        ("counts as: shut for a vertex outside", lambda: D.CountsAs(False, bench, G, ORDER, [], 10, "Shut"), True),
        ("not counts as: shut, where repeated", lambda: D.CountsAs(False, bench, G, ORDER, [10], 10, "Shut"), False),
        ("not counts as: loose, where repeated", lambda: D.CountsAs(False, bench, G, ORDER, [6], 6, "Loose"), False),
        ("not counts as: loose, where right", lambda: D.CountsAs(False, bench, G, ORDER, [], 2, "Loose"), False),
        ("not counts as: right, where loose", lambda: D.CountsAs(False, bench, G, ORDER, [], 6, "Right"), False),
        ("not counts as: loose, where shut", lambda: D.CountsAs(False, bench, G, ORDER, [], 10, "Loose"), False),
        ("not counts as: shut, where loose", lambda: D.CountsAs(False, bench, G, ORDER, [], 6, "Shut"), False),
        ("marked: B7's marks", lambda: D.MarkedAs(False, bench, G, ORDER, [], [2, 2, 6, 4], ["Right", "Repeated", "Loose", "Shut"]), True),
        ("not marked: a mark too few", lambda: D.MarkedAs(False, bench, G, ORDER, [], [2, 2], ["Right"]), False),
        ("not marked: the second right, too", lambda: D.MarkedAs(False, bench, G, ORDER, [], [2, 2], ["Right", "Right"]), False),
        ("B7", lambda: D.Counts(False, bench, G, ORDER, [2, 2, 6, 4], 1, 1, 1, 1, 1), True),
        ("not B7: 2 right", lambda: D.Counts(False, bench, G, ORDER, [2, 2, 6, 4], 2, 0, 1, 1, 0), False),
        ("not B7: nothing missing", lambda: D.Counts(False, bench, G, ORDER, [2, 2, 6, 4], 1, 1, 1, 1, 0), False),
        *((f"not B7: one more {n}", lambda c=c: D.Counts(False, bench, G, ORDER, [2, 2, 6, 4], *c), False) for n, c in more),
        ("not counts: all right", lambda: D.Counts(False, bench, G, ORDER, [2, 2, 6, 4], 4, 0, 0, 0, 0), False),
        ("counts: loose and shut", lambda: D.Counts(False, bench, G, ORDER, [6, 7, 4], 0, 0, 1, 2, 2), True),
        ("base once: in any order", lambda: D.IsBaseOnce(False, bench, G, ORDER, [5, 2]), True),
        ("not base once: twice", lambda: D.IsBaseOnce(False, bench, G, ORDER, [5, 2, 5]), False),
        ("not base once: one missing", lambda: D.IsBaseOnce(False, bench, G, ORDER, [5]), False),
    ]


def of_set_calls(D):
    """The calls for closure and lost set."""
    return [
        ("call: closure, B2", lambda: closure_call(D, bench, 2, 0, [26, 3]), True),
        ("not call: closure, the set", lambda: closure_call(D, bench, 2, 0, [2, 1]), False),
        ("not call: closure, without its passes", lambda: closure_call(D, bench, 2, 0, [26]), False),
        ("not call: closure, 2 passes", lambda: closure_call(D, bench, 2, 0, [26, 2]), False),
        ("call: closure, 14", lambda: closure_call(D, bench, 32, 14, []), True),
        ("not call: closure, 12 for 14", lambda: closure_call(D, bench, 32, 12, []), False),
        ("call: closure, 12", lambda: closure_call(D, EMPTY, 32, 12, []), True),
        ("not call: closure, 14 before 12", lambda: closure_call(D, EMPTY, 32, 14, []), False),
        ("call: closure of all items, 1 pass", lambda: closure_call(D, bench, 31, 0, [31, 1]), True),
        ("call: lost set", lambda: lost_call(D, bench, 3, 0, [27]), True),
        ("not call: lost set, with passes", lambda: lost_call(D, bench, 3, 0, [27, 3]), False),
        ("call: lost set, 14", lambda: lost_call(D, bench, 32, 14, []), True),
        ("call: lost set, 12", lambda: lost_call(D, EMPTY, 32, 12, []), True),
        ("not call: lost set, 14 before 12", lambda: lost_call(D, EMPTY, 32, 14, []), False),
    ]


def of_way_calls(D):
    """The call for the way in."""
    way = lambda *a: way_call(D, bench, *a)
    return [
        ("written: to the front", lambda: D.written([7, 8], LENT) == (7, 8, 92, 93, 94), True),
        ("call: way, B6", lambda: way(ORDER, 2, 0, [1, 2], [9, 9, 9], [3, 4, 9], [9, 9], [0, 1]), True),
        ("not call: way, items for colours", lambda: way(ORDER, 2, 0, [1, 2], [9, 9, 9], [0, 1, 9], [9, 9], [3, 4]), False),
        ("not call: way, a place behind changed", lambda: way(ORDER, 2, 0, [1, 2], [9, 9, 9], [3, 4, 0], [9, 9], [0, 1]), False),
        ("call: way, 15 for the second list", lambda: way(ORDER, 2, 15, [], [9, 9], [9, 9], [9], [9]), True),
        ("call: way, 15 for the first list", lambda: way(ORDER, 2, 15, [], [9], [9], [9, 9], [9, 9]), True),
        ("not call: way, 15 with equal room", lambda: way(ORDER, 2, 15, [], [9, 9], [9, 9], [9, 9], [9, 9]), False),
        ("not call: way, 15 with a place changed", lambda: way(ORDER, 2, 15, [], [9, 9], [9, 9], [9], [0]), False),
        ("call: way, none where held", lambda: way(ORDER, 16, 0, [1, 0], [], [], [], []), True),
        ("call: way, shut", lambda: way(ORDER, 4, 0, [0], [], [], [], []), True),
        ("not call: way, a refusal without a number for shut", lambda: way(ORDER, 4, 0, [], [], [], [], []), False),
        ("not call: way, shut where open", lambda: way(ORDER, 2, 0, [0], [9, 9], [9, 9], [9, 9], [9, 9]), False),
        ("not call: way, 15 where shut", lambda: way(ORDER, 4, 15, [], [], [], [], []), False),
        ("call: way, 13", lambda: way(5, 2, 13, [], [9], [9], [9], [9]), True),
        ("call: way, 13 before 14", lambda: way(5, 32, 13, [], [9], [9], [9], [9]), True),
        ("not call: way, 14 before 13", lambda: way(5, 32, 14, [], [9], [9], [9], [9]), False),
        ("call: way, 14", lambda: way(ORDER, 32, 14, [], [9], [9], [9], [9]), True),
        ("call: way, 12", lambda: way_call(D, EMPTY, 5, 32, 12, [], [9], [9], [9], [9]), True),
        ("not call: way, 12 with a place changed", lambda: way_call(D, EMPTY, 5, 32, 12, [], [9], [0], [9], [9]), False),
    ]


def of_quick(D):
    """The quick yes: ordpw, mailpw and token open mail and order; mailpw alone opens both, and not ordpw."""
    call = lambda *a: quick_call(D, bench, *a)
    outcomes = [ended(D, 0, [y, h]) for y in (0, 1) for h in (2, 10, 26)] + [ended(D, 0, [r, n]) for r in (2, 26) for n in (1, 2, 3)]
    outcomes += [ended(D, n, []) for n in (12, 13, 14)]
    agrees = lambda s, target, set_: D.among(outcomes=outcomes)(lambda: D.QuickAgrees(s, target, set_))
    return [
        ("held at the stop: mail", lambda: D.HeldAtStop(bench.graph, MAIL, 7, 15), True),
        ("not held at the stop: order too", lambda: D.HeldAtStop(bench.graph, MAIL, 7, 31), False),
        ("not held at the stop: without the set", lambda: D.HeldAtStop(bench.graph, MAIL, 7, 8), False),
        ("held at the stop: a held target", lambda: D.HeldAtStop(bench.graph, ORDER, 16, 16), True),
        ("not held at the stop: a pruned way", lambda: D.HeldAtStop(bench.graph, ORDER, 7, 23), False),
        ("call: quick, mail", lambda: call(MAIL, 7, 0, [1, 15]), True),
        ("not call: quick, the closure on a yes", lambda: call(MAIL, 7, 0, [1, 31]), False),
        ("call: quick, order by mail", lambda: call(ORDER, 2, 0, [1, 26]), True),
        ("not call: quick, no where open", lambda: call(ORDER, 2, 0, [0, 26]), False),
        ("not call: quick, yes with a refusal's number", lambda: call(ORDER, 2, 14, [1, 26]), False),
        ("call: quick, no", lambda: call(0, 2, 0, [0, 26]), True),
        ("not call: quick, no with the set", lambda: call(0, 2, 0, [0, 2]), False),
        ("not call: quick, yes where shut", lambda: call(0, 2, 0, [1, 26]), False),
        ("call: quick, 13", lambda: call(5, 2, 13, []), True),
        ("call: quick, 13 before 14", lambda: call(5, 32, 13, []), True),
        ("not call: quick, 14 before 13", lambda: call(5, 32, 14, []), False),
        ("call: quick, 14", lambda: call(ORDER, 32, 14, []), True),
        ("call: quick, 12", lambda: quick_call(D, EMPTY, 5, 32, 12, []), True),
        ("not call: quick, 13 before 12", lambda: quick_call(D, EMPTY, 5, 32, 13, []), False),
        ("agrees: yes, at mail already", lambda: agrees(bench, MAIL, 2), True),
        ("agrees: no", lambda: agrees(bench, 0, 2), True),
        ("agrees: 14", lambda: agrees(bench, ORDER, 32), True),
        ("agrees: 12", lambda: agrees(EMPTY, 0, 32), True),
        ("agrees: 13 far beyond the count", lambda: agrees(bench, 6, 2), True),
        ("agrees: 13, where the closure answers", lambda: agrees(bench, 5, 2), True),
    ]


def of_base_calls(D):
    """The call for both lists."""
    return [
        ("call: lists, B3 and B4", lambda: bases_call(D, bench, ORDER, 0, [2, 2], LENT, [2, 5, 3, 6, 94]), True),
        ("not call: lists, with a gap", lambda: bases_call(D, bench, ORDER, 0, [2, 2], LENT + [95], [2, 5, 92, 3, 6, 95]), False),
        ("not call: lists, a place behind changed", lambda: bases_call(D, bench, ORDER, 0, [2, 2], LENT, [2, 5, 3, 6, 0]), False),
        ("not call: lists, empty", lambda: bases_call(D, bench, ORDER, 0, [0, 0], LENT, LENT), False),
        ("not call: lists, the other way round", lambda: bases_call(D, bench, ORDER, 0, [2, 2], LENT, [3, 6, 2, 5, 94]), False),
        ("call: lists, equal room", lambda: bases_call(D, bench, ORDER, 0, [2, 2], LENT[:4], [2, 5, 3, 6]), True),
        ("not call: lists, 15 with equal room", lambda: bases_call(D, bench, ORDER, 15, [], LENT[:4], LENT[:4]), False),
        ("call: lists, 15", lambda: bases_call(D, bench, ORDER, 15, [], LENT[:3], LENT[:3]), True),
        ("not call: lists, 15 with a place changed", lambda: bases_call(D, bench, ORDER, 15, [], LENT[:3], [2, 5, 3]), False),
        ("not are bases: one lockout set missing", lambda: D.AreBases(bench, ORDER, D.Bases([2, 5], [3])), False),
        ("call: lists, 13", lambda: bases_call(D, bench, 5, 13, [], [], []), True),
        ("not call: lists, 15 before 13", lambda: bases_call(D, bench, 5, 15, [], [], []), False),
        ("call: lists, 12", lambda: bases_call(D, EMPTY, 5, 12, [], [9], [9]), True),
        ("not call: lists, 13 before 12", lambda: bases_call(D, EMPTY, 5, 13, [], [9], [9]), False),
    ]


def of_score_calls(D):
    """The calls for scores and marks."""
    return [
        ("call: score, B5", lambda: score_call(D, False, bench, ORDER, 0, [1]), True),
        ("call: risk, B5", lambda: score_call(D, True, bench, ORDER, 0, [3]), True),
        ("not call: score, never", lambda: score_call(D, False, bench, ORDER, 0, [never]), False),
        ("is score: order's score and risk", lambda: D.IsScore(False, bench, ORDER, 1) and D.IsScore(True, bench, ORDER, 3), True),
        ("call: score, 13", lambda: score_call(D, False, bench, 5, 13, []), True),
        ("not call: score, 13 inside", lambda: score_call(D, False, bench, ORDER, 13, []), False),
        ("call: score, 12", lambda: score_call(D, False, EMPTY, 0, 12, []), True),
        ("not call: score, 13 before 12", lambda: score_call(D, False, EMPTY, 0, 13, []), False),
        ("call: marks, B7", lambda: marks_call(D, False, bench, ORDER, [2, 2, 6, 4], 0, [1, 1, 1, 1, 1]), True),
        ("call: marks, full", lambda: marks_call(D, False, bench, ORDER, [5, 2], 0, [2, 0, 0, 0, 0]), True),
        ("call: marks, one twice", lambda: marks_call(D, False, bench, ORDER, [2, 2], 0, [1, 1, 0, 0, 1]), True),
        ("call: marks, loose and shut", lambda: marks_call(D, False, bench, ORDER, [6, 7, 4], 0, [0, 0, 1, 2, 2]), True),
        ("not call: marks, full early", lambda: marks_call(D, False, bench, ORDER, [2], 0, [1, 0, 0, 0, 0]), False),
        ("not are marks: 2 right of B7", lambda: D.AreMarks(False, bench, ORDER, [2, 2, 6, 4], D.Marks(2, 0, 1, 1, 0)), False),
        ("call: marks, 13", lambda: marks_call(D, False, bench, 5, [2], 13, []), True),
        ("not call: marks, 13 inside", lambda: marks_call(D, False, bench, ORDER, [2], 13, []), False),
        ("call: marks, 12", lambda: marks_call(D, False, EMPTY, 0, [2], 12, []), True),
        ("not call: marks, 13 before 12", lambda: marks_call(D, False, EMPTY, 0, [2], 13, []), False),
    ]


# Kinds of attacker for the items of the bench: order's sets have two kinds that are not to be compared; a lower and a higher one; with
# entries that are not read.
APART, UNLIKE, UNREAD = [1, 2, 3, 255, 255], [4, 1, 0, 255, 255], [5, 5, 5, 0, 0]


def of_attackers(D):
    """Scores by kinds of attacker for order and mail."""
    asked = [(bench, k, t, r) for k in (APART, UNLIKE) for t in (MAIL, ORDER) for r in (0, 1, 2, 4, 16, 18, 20, 64)] + [(bench, APART, 0, 70)]
    outcomes = [ended(D, n, v) for n, v in ((0, [2]), (0, [20]), (0, [4]), (12, []), (13, []), (16, []), (17, []), (0, []))]
    lists = [APART, [1, 2, 3, 0, 5], [1, 2, 3], [1, 2, 6, 0, 0], UNLIKE]
    six = [6, 0, 0, 0, 0]
    call = lambda *a: lambda: kinds_call(D, *a)
    return [
        ("at most: remote none and local none", lambda: D.KindAtMost(0, 3), True),
        ("at most: itself", lambda: D.KindAtMost(4, 4), True),
        ("not at most: local none and remote expert", lambda: D.KindAtMost(3, 2), False),
        ("not at most: expert and some", lambda: D.KindAtMost(2, 4), False),
        ("weaker: remote none than local none", lambda: D.Weaker(0, 3), True),
        ("not weaker: itself", lambda: D.Weaker(3, 3), False),
        ("of base: ordpw and token", lambda: D.OfBase(bench, APART, ORDER, 4), True),
        ("not of base: all three", lambda: D.OfBase(bench, APART, ORDER, 5), False),
        ("in score: the lower", lambda: D.KindInScore(bench, UNLIKE, ORDER, 1), True),
        ("not in score: the higher", lambda: D.KindInScore(bench, UNLIKE, ORDER, 4), False),
        ("gets in: anybody, where no kinds are told", lambda: D.GetsIn(bench, [], ORDER, 0), True),
        ("attacker: of kinds that are not told", lambda: D.attacker_of([], 3) == 0, True),
        ("largest over: item 64 is none", lambda: D.largest_over(lambda v: v, 2**64 + 2) == 1, True),
        ("gets in: remote expert", lambda: D.GetsIn(bench, APART, ORDER, 2), True),
        ("not gets in: remote with some skill", lambda: D.GetsIn(bench, APART, ORDER, 1), False),
        ("not gets in: by items that do not start", lambda: D.GetsIn(bench, UNREAD, ORDER, 0), False),
        ("at or above: a local expert", lambda: D.AtOrAbove(20, 5), True),
        ("not at or above: a local one without skill", lambda: D.AtOrAbove(20, 3), False),
        ("score by kinds: for order", lambda: D.AttackerScore(bench, APART, ORDER, 20), True),
        ("score by kinds: for mail", lambda: D.AttackerScore(bench, APART, MAIL, 4), True),
        ("score by kinds: the lower", lambda: D.AttackerScore(bench, UNLIKE, ORDER, 2), True),
        ("not score by kinds: both", lambda: D.AttackerScore(bench, UNLIKE, ORDER, 18), False),
        ("not score by kinds: none", lambda: D.AttackerScore(bench, UNLIKE, ORDER, 0), False),
        ("fit: 255 where nothing starts", lambda: D.EntriesFit(bench, APART), True),
        ("not fit: 6", lambda: D.EntriesFit(bench, six), False),
        ("fit: 5 everywhere", lambda: D.EntriesFit(bench, [5] * 5), True),
        ("not fit: 6, where nothing can be lost", lambda: D.EntriesFit(ring, [6] * 6), False),
        ("not agree: where nothing can be lost", lambda: D.AgreeAtInitial(ring, [0] * 6, [1] * 6), False),
        ("score at most: nobody and nobody", lambda: D.KindsAtMost(0, 0), True),
        ("six kinds", lambda: D.among(asked=asked)(D.SixKinds), True),
        ("nobody in", lambda: D.among(asked=asked)(D.NobodyIn), True),
        ("score at most: remote some, and those above", lambda: D.KindsAtMost(2, 20), True),
        ("not score at most: the other way round", lambda: D.KindsAtMost(20, 2), False),
        ("sound: order and mail", lambda: D.among(asked=[(bench, APART, ORDER, MAIL, 20, 4)])(D.KindsSound), True),
        ("call: kinds for order", call(bench, ORDER, APART, 0, [20]), True),
        ("not call: kinds, all who get in", call(bench, ORDER, APART, 0, [52]), False),
        ("call: kinds, 12", call(EMPTY, 0, [], 12, []), True),
        ("call: kinds, 13", call(bench, 5, [], 13, []), True),
        ("call: kinds, 16", call(bench, ORDER, [6, 6], 16, []), True),
        ("not call: kinds, 17 before 16", call(bench, ORDER, [6, 6], 17, []), False),
        ("call: kinds, 17", call(bench, ORDER, six, 17, []), True),
        ("agree: where nothing starts", lambda: D.AgreeAtInitial(bench, APART, [1, 2, 3, 0, 5]), True),
        ("not agree: at token", lambda: D.AgreeAtInitial(bench, APART, [1, 2, 4, 255, 255]), False),
        ("not agree: another length", lambda: D.AgreeAtInitial(bench, APART, [1, 2, 3]), False),
        ("others unread", lambda: D.among(targets=[(bench, ORDER)], kinds=lists, outcomes=outcomes)(D.OthersUnread), True),
    ]


def of_forecasts(D):
    """Forecasts for order, which mailpw reaches through mail and along a recovery edge, and for mail."""
    asked = [(bench, t, c, n) for t in (MAIL, ORDER) for c in range(32) for n in (0, 1, 2, 3)] + [(chain, 2, 3, n) for n in (0, 1, 2, 3)]
    return [
        ("antichain: mailpw, and ordpw with token", lambda: D.Antichain([2, 5]), True),
        ("not antichain: the same twice", lambda: D.Antichain([2, 2]), False),
        ("not antichain: one within the other", lambda: D.Antichain([2, 3]), False),
        ("sperner", lambda: D.Sperner(), True),
        ("ways: none, and 7 of 14", lambda: D.HalfAtBounds(), True),
        ("reaches: mailpw to order", lambda: D.Reaches(bench.graph, ORDER, 1), True),
        ("reaches: order itself", lambda: D.Reaches(bench.graph, ORDER, ORDER), True),
        ("not reaches: order to mailpw", lambda: D.Reaches(bench.graph, 1, ORDER), False),
        ("not reaches: ordpw to mail", lambda: D.Reaches(bench.graph, MAIL, 0), False),
        ("counted: for order", lambda: D.CountedSet(bench, ORDER, 7), True),
        ("not counted: mail, and order itself", lambda: D.CountedSet(bench, ORDER, 31), False),
        ("not counted: by direct needs alone", lambda: D.CountedSet(bench, ORDER, 5), False),
        ("not counted: all starting items for mail", lambda: D.CountedSet(bench, MAIL, 7), False),
        ("forecast: for order", lambda: D.Forecast(bench, ORDER, 7, 3), True),
        ("forecast: for mail", lambda: D.Forecast(bench, MAIL, 2, 1), True),
        ("not forecast: the list's length", lambda: D.Forecast(bench, ORDER, 7, 2), False),
        ("not forecast: more than the ways", lambda: D.Forecast(bench, ORDER, 7, 4), False),
        ("not forecast: of other items", lambda: D.Forecast(bench, ORDER, 5, 2), False),
        ("forecast holds", lambda: D.among(asked=asked)(D.ForecastHolds), True),
        ("longest base", lambda: D.among(setups=[bench])(D.LongestBase), True),
        ("counted once", lambda: D.among(targets=[(bench, ORDER)])(D.CountedOnce), True),
        ("call: forecast for order", lambda: forecast_call(D, bench, ORDER, 0, [3]), True),
        ("not call: forecast of 3432", lambda: forecast_call(D, bench, ORDER, 0, [3432]), False),
        ("call: forecast, 13", lambda: forecast_call(D, bench, 5, 13, []), True),
        ("not call: forecast, 13 inside", lambda: forecast_call(D, bench, ORDER, 13, []), False),
        ("call: forecast, 12", lambda: forecast_call(D, EMPTY, 0, 12, []), True),
        ("not call: forecast, 13 before 12", lambda: forecast_call(D, EMPTY, 0, 13, []), False),
        ("foretold: for order", lambda: D.Foretold(bench, ORDER, 3), True),
        ("not foretold: the list's length", lambda: D.Foretold(bench, ORDER, 2), False),
        ("one answer: forecast for order", lambda: D.OneAnswer(D.forecast_call(bench, ORDER)), True),
    ]


def of_cuts(D):
    """Cut sets of order and mail; the lockout list of order has the same."""
    call = lambda number, values, entry, exit, target=ORDER, s=bench: cuts_call(D, s, target, number, values, entry, exit)
    lent = LENT[:3]
    asked = [(bench, t, l) for t in (MAIL, ORDER) for l in ([2], [3, 6], [2, 5], [3])]
    return [
        ("cut set: ordpw with mailpw", lambda: D.CutSet(bench, ORDER, 3), True),
        ("cut set: all three", lambda: D.CutSet(bench, ORDER, 7), True),
        ("not cut set: mailpw alone", lambda: D.CutSet(bench, ORDER, 2), False),
        ("not cut set: with mail, which is no starting item", lambda: D.CutSet(bench, ORDER, 11), False),
        ("cut list: of order", lambda: D.CutList(bench, ORDER, [3, 6]), True),
        ("cut list: of mail", lambda: D.CutList(bench, MAIL, [2]), True),
        ("not cut list: one that is not smallest", lambda: D.CutList(bench, ORDER, [3, 6, 7]), False),
        ("not cut list: one missing", lambda: D.CutList(bench, ORDER, [3]), False),
        ("meets every: mailpw and ordpw", lambda: D.MeetsEvery(lambda y: y in (2, 5), 3), True),
        ("not meets every: mailpw alone", lambda: D.MeetsEvery(lambda y: y in (2, 5), 2), False),
        ("transversal: mailpw with token", lambda: D.Transversal(bench, [2, 5], 6), True),
        ("not transversal: ordpw with token", lambda: D.Transversal(bench, [2, 5], 5), False),
        ("not transversal: with mail", lambda: D.Transversal(bench, [2, 5], 14), False),
        ("duality: order", lambda: D.Duality(bench, ORDER, [3, 6]), True),
        ("duality: mail", lambda: D.Duality(bench, MAIL, [2]), True),
        ("not duality: one missing", lambda: D.Duality(bench, ORDER, [3]), False),
        ("not duality: no set", lambda: D.Duality(bench, ORDER, []), False),
        ("duality holds", lambda: D.among(asked=asked)(D.DualityHolds), True),
        ("cuts meet base", lambda: D.among(asked=asked)(D.CutsMeetBase), True),
        ("longest cuts", lambda: D.among(asked=asked)(D.LongestCuts), True),
        ("call: cut sets of order", lambda: call(0, [2], lent, [3, 6, 92]), True),
        ("call: cut sets of order, with equal room", lambda: call(0, [2], LENT[:2], [3, 6]), True),
        ("not call: cut sets in another order", lambda: call(0, [2], lent, [6, 3, 92]), False),
        ("not call: cut sets, 15 with equal room", lambda: call(15, [], LENT[:2], LENT[:2]), False),
        ("call: cut sets, 15", lambda: call(15, [], LENT[:1], LENT[:1]), True),
        ("call: cut sets, 13", lambda: call(13, [], lent, lent, 5), True),
        ("not call: cut sets, 13 inside", lambda: call(13, [], lent, lent), False),
        ("call: cut sets, 12", lambda: call(12, [], lent, lent, 0, EMPTY), True),
        ("not call: cut sets, 13 before 12", lambda: call(13, [], lent, lent, 0, EMPTY), False),
        ("not call: cut sets, 15 with a place changed", lambda: call(15, [], LENT[:1], [3]), False),
        ("not call: cut sets, a place behind changed", lambda: call(0, [2], lent, [3, 6, 0]), False),
        ("one answer: cut sets of order", lambda: D.OneAnswer(D.cuts_call(bench, ORDER, LENT[:2])), True),
        ("are cuts: of order", lambda: D.AreCuts(bench, ORDER, [3, 6]), True),
        ("not are cuts: one missing", lambda: D.AreCuts(bench, ORDER, [3]), False),
    ]


def of_few_cuts(D):
    """Cut sets where one opens the next, where two open each other, and where nothing opens the target."""
    return [
        ("duality: alone", lambda: D.Duality(alone, 0, [1]), True),
        ("forecast: of two items", lambda: D.Forecast(chain, 2, 3, 2), True),
        ("cut list: opened again", lambda: D.CutList(chain, 2, [3]), True),
        ("not cut list: the second alone, as if it were taken out", lambda: D.CutList(chain, 2, [2]), False),
        ("duality: opened again", lambda: D.Duality(chain, 2, [3]), True),
        ("cut list: the target too", lambda: D.CutList(chain, 1, [3]), True),
        ("cut list: alone", lambda: D.CutList(alone, 0, [1]), True),
        ("cut list: nothing opens it", lambda: D.CutList(closed, 0, [0]), True),
        ("not cut list: nothing opens it, and no set", lambda: D.CutList(closed, 0, []), False),
        ("duality: nothing opens it", lambda: D.Duality(closed, 0, [0]), True),
        ("call: cut sets where nothing opens it", lambda: cuts_call(D, closed, 0, 0, [1], [90], [0]), True),
        ("call: cut sets where nothing opens it, 15", lambda: cuts_call(D, closed, 0, 15, [], [], []), True),
    ]


def of_bags(D):
    """Document 003's example 10 and more, and the theorems over all lists of up to three small values."""
    lists = [list(l) for n in range(3) for l in itertools.product(range(3), repeat=n)] + [[1, 1, 1], [0, 1, 2], [2, 1, 0]]
    few = [l for l in lists if l.count(0) < 2]
    return [
        ("pairing: {1, 1} and {1, 2}", lambda: D.Pairing([1, 1], [1, 2]), True),
        ("pairing: {1, 2} and {1, 1, 2}", lambda: D.Pairing([1, 2], [1, 1, 2]), True),
        ("pairing: any order", lambda: D.Pairing([1, 2], [2, 1]), True),
        ("not pairing: {1, 2} and {1, 1, 1}", lambda: D.Pairing([1, 2], [1, 1, 1]), False),
        ("not pairing: {1, 1, 1} and {1, 2}", lambda: D.Pairing([1, 1, 1], [1, 2]), False),
        ("not pairing: two partners in one", lambda: D.Pairing([1, 1], [2]), False),
        ("not pairing: 0 is a value", lambda: D.Pairing([3, 0], [4]), False),
        ("pairing: nothing", lambda: D.Pairing([], []), True),
        ("at most: bags", lambda: D.BagAtMost([1], [1, 2]), True),
        ("at most: 14 here, and 14 there", lambda: D.BagAtMost([5] * 14, [5] * 14), True),
        ("values over: item 64 is none", lambda: D.values_over(lambda v: v, 2**64 + 2) == (1,), True),
        ("not at most: 15 there", lambda: D.BagAtMost([], [5] * 15), False),
        ("not at most: 15 here", lambda: D.BagAtMost([5] * 15, []), False),
        ("same multiset: turned", lambda: D.SameMultiset([1, 2, 1], [2, 1, 1]), True),
        ("not same multiset: one more", lambda: D.SameMultiset([1, 2], [1, 1, 2]), False),
        ("fewer: {1} and {2}", lambda: D.Fewer([1], [2]), True),
        ("not fewer: {2} and {1, 1}", lambda: D.Fewer([2], [1, 1]), False),
        ("place by place: {2, 1} and {1, 3, 0}", lambda: D.PlaceByPlace([2, 1], [1, 3, 0]), True),
        ("not place by place: more values", lambda: D.PlaceByPlace([1, 0], [1]), False),
        ("descending", lambda: D.Descending([3, 1, 1, 0]), True),
        ("not descending", lambda: D.Descending([1, 3]), False),
        ("pairing counts", lambda: D.among(lists=lists)(D.PairingCounts), True),
        ("pairing sorts", lambda: D.among(lists=lists)(D.PairingSorts), True),
        ("reflexive", lambda: D.among(lists=lists)(D.Reflexive), True),
        ("transitive", lambda: D.among(lists=few)(D.Transitive), True),
        ("antisymmetric", lambda: D.among(lists=lists)(D.Antisymmetric), True),
        ("order free", lambda: D.among(lists=[[], [0], [1], [0, 1], [1, 0], [1, 1], [5] * 15])(D.OrderFree), True),
        ("one at most answer", lambda: D.among(lists=few)(D.OneAtMostAnswer), True),
        ("arranges", lambda: D.among(lists=lists)(D.Arranges), True),
        ("one arrangement", lambda: D.among(lists=lists)(D.OneArrangement), True),
        ("fourteen places", lambda: D.among(lists=lists + [[5] * 14, [5] * 15])(D.FourteenPlaces), True),
        ("written apart", lambda: D.among(lists=lists)(D.WrittenApart), True),
    ]


def of_bag_scores(D):
    """The bag score of t: {2}, which two sets have, and {1, 1}; {3} is above {2}."""
    t, call = 5, lambda *a, s=bags, target=5: bags_call(D, s, target, *a)
    rows = [2] + [0] * 13 + [1, 1] + [0] * 12
    lent, room = [9] * 29, [7] * 3
    asked = [(bags, t, l) for l in ([4, 3], [8, 3], [3, 4], [4, 8, 3], [4], [])]
    outcomes = [ended(D, n, v, x, y) for n, v, x, y in ((0, [2], rows + [9], [1, 2, 7]), (0, [2], rows + [9], [2, 1, 7]), (0, [3], rows + [9], [1, 2, 7]), (15, [], lent, room))]
    short = [9] * 27
    return [
        ("in score: two of 1", lambda: D.InBagScore(bags, t, 3), True),
        ("in score: the second of 2", lambda: D.InBagScore(bags, t, 8), True),
        ("not in score: 3", lambda: D.InBagScore(bags, t, 16), False),
        ("not in score: no minimal set", lambda: D.InBagScore(bags, t, 12), False),
        ("first in score: the first of 2", lambda: D.FirstInScore(bags, t, 4), True),
        ("not first in score: the second of 2", lambda: D.FirstInScore(bags, t, 8), False),
        ("bag score: t", lambda: D.MultisetScore(bags, t, [4, 3]), True),
        ("not bag score: the second of 2", lambda: D.MultisetScore(bags, t, [8, 3]), False),
        ("not bag score: one missing", lambda: D.MultisetScore(bags, t, [4]), False),
        ("covered", lambda: D.among(asked=asked)(D.Covered), True),
        ("each listed", lambda: D.among(asked=asked)(D.EachListed), True),
        ("bags apart", lambda: D.among(asked=asked)(D.BagsApart), True),
        ("are bags", lambda: D.among(targets=[(bags, t)])(D.AreBags), True),
        ("bags no longer", lambda: D.among(asked=[(bags, t, [4, 3], [4, 8, 16, 3])])(D.NoLonger), True),
        ("longest score", lambda: D.among(asked=asked)(D.LongestScore), True),
        ("forecast enough for bags", lambda: D.among(asked=[(bags, t, 31, 10, [4, 3])])(D.ForecastEnough), True),
        ("score at most: more bags", lambda: D.BagScoreAtMost(bags, [4, 3], [16]), True),
        ("not score at most: a bag above", lambda: D.BagScoreAtMost(bags, [16], [4]), False),
        ("not score at most: none", lambda: D.BagScoreAtMost(bags, [], [16]), False),
        ("call: bags of t", lambda: call(0, [2], lent, rows + [9], room, [1, 2, 7]), True),
        ("not call: lengths of the other", lambda: call(0, [2], lent, rows + [9], room, [2, 1, 7]), False),
        ("call: bags, 15 by the places", lambda: call(15, [], short, short, room, room), True),
        ("call: bags, 15 by the lengths", lambda: call(15, [], lent, lent, [7], [7]), True),
        ("not call: bags, an answer where the lengths have no room", lambda: call(0, [2], lent, rows + [9], [7], [1]), False),
        ("not call: bags, 15 by the lengths and a place changed", lambda: call(15, [], lent, rows + [9], [7], [7]), False),
        ("not call: bags, 15 and a place changed", lambda: call(15, [], short, [1] + short[1:], room, room), False),
        ("not call: bags, 15 and a length changed", lambda: call(15, [], short, short, room, [1, 7, 7]), False),
        ("call: bags, 13", lambda: call(13, [], lent, lent, room, room, target=6), True),
        ("call: bags, 12", lambda: call(12, [], lent, lent, room, room, s=EMPTY), True),
        ("not call: bags, 13 for 12", lambda: call(13, [], lent, lent, room, room, s=EMPTY), False),
        ("not call: bags, a place behind changed", lambda: call(0, [2], lent, rows + [0], room, [1, 2, 7]), False),
        ("places each", lambda: D.among(asked=asked)(D.PlacesEach), True),
        ("one answer: bags of t", lambda: D.OneAnswer(D.bags_call(bags, t, lent, room)), True),
        ("settled: bags of t", lambda: D.among(outcomes=outcomes)(lambda: D.Settles(D.bags_call(bags, t, lent, room), outcomes[0])), True),
        ("settled: bags of t, 15", lambda: D.among(outcomes=outcomes)(lambda: D.Settles(D.bags_call(bags, t, short, room), ended(D, 15, [], short, room))), True),
        ("settled: {1} at most {1, 2}", lambda: D.SettledYesNo(D.BagAtMost([1], [1, 2]), True), True),
        ("not settled: {1, 1} at most {2}", lambda: D.SettledYesNo(D.BagAtMost([1, 1], [2]), True), False),
        ("settled: {1, 1} not at most {2}", lambda: D.SettledYesNo(D.BagAtMost([1, 1], [2]), False), True),
    ]


def of_soundness(D):
    """Document 003's theorems about order and mail: what opens mail opens order, and not the other way round."""
    sets, access = range(32), lambda t: D.ClosedByAccess(G, t)
    asked = [(False, bench, G, a, b) for a in (MAIL, ORDER) for b in (MAIL, ORDER)]
    bases = {MAIL: [2], ORDER: [2, 5]}
    lists = [[], [1], [4], [1, 4], [2]]
    sums = lambda: D.sum_then_least(False, bench)
    # values of sets that fall as the set grows, and a score that is the largest value
    falls = lambda: D.Scheme(lambda: range(99), lambda a, b: a <= b, lambda x: 9 - D.sum_of(False, bench, x), D.least_value)
    falls_with_mail = lambda: D.Scheme(lambda: range(99), lambda a, b: a <= b, lambda x: 0 if x & 8 else 1, D.least_value)
    most = lambda: D.Scheme(lambda: range(99), lambda a, b: a <= b, lambda x: D.sum_of(False, bench, x), lambda l: max(l, default=0))
    both = [(a, b, bases[a], bases[b]) for a in (MAIL, ORDER) for b in (MAIL, ORDER)]
    # with a list that is no base, for each, and with targets of which neither base is at most the other
    both += [(ORDER, MAIL, [7], [2]), (ORDER, MAIL, [2, 5], [0]), (2, ORDER, [4], [2, 5])]
    risks = {MAIL: 1, ORDER: 3}
    held = lambda s: lambda i: D.Member(s, i)
    return [
        ("closed: what mailpw opens", lambda: access(26), True),
        ("not closed: mailpw alone", lambda: access(2), False),
        ("closed: nothing", lambda: access(0), True),
        ("closed by loss: ordpw alone", lambda: D.ClosedByLockout(G, 1), True),
        ("not closed by loss: mailpw alone", lambda: D.ClosedByLockout(G, 2), False),
        ("closed by loss: what ordpw and mailpw lose", lambda: D.ClosedByLockout(G, 27), True),
        ("smallest closed: from mailpw", lambda: D.SmallestClosed(access, 2, 26), True),
        ("not smallest closed: ordpw too", lambda: D.SmallestClosed(access, 2, 27), False),
        ("not smallest closed: without mailpw", lambda: D.SmallestClosed(access, 2, 0), False),
        ("not smallest closed: not closed", lambda: D.SmallestClosed(access, 2, 2), False),
        ("access is smallest", lambda: D.among(asked=[(G, s, t) for s in (0, 2, 4, 5) for t in sets])(D.AccessIsSmallest), True),
        ("lockout is smallest", lambda: D.among(asked=[(G, s, t) for s in (0, 1, 2, 3) for t in sets])(D.LockoutIsSmallest), True),
        ("one closure", lambda: all(D.among(asked=[(loss, G, s)])(D.OneClosure) for loss in (False, True) for s in (0, 2, 5, 26)), True),
        ("chosen only: ordpw and token", lambda: D.ChosenOnly(False, bench, 5), True),
        ("not chosen only: mail", lambda: D.ChosenOnly(False, bench, 8), False),
        ("base at most: order and mail", lambda: D.BaseAtMost(False, bench, G, ORDER, MAIL), True),
        ("not base at most: mail and order", lambda: D.BaseAtMost(False, bench, G, MAIL, ORDER), False),
        ("base at most: risks of mail and order", lambda: D.BaseAtMost(True, bench, G, MAIL, ORDER), True),
        ("each contains: mail's, order's", lambda: D.EachContains([2], [2, 5]), True),
        ("each contains: a larger one", lambda: D.EachContains([3], [2]), True),
        ("not each contains: order's, mail's", lambda: D.EachContains([2, 5], [2]), False),
        ("bases compared", lambda: D.among(asked=[(False, bench, G, a, b, bases[a], bases[b]) for a in bases for b in bases])(D.BasesCompared), True),
        ("target sets compared", lambda: D.among(asked=asked)(D.TargetSetsCompared), True),
        ("minimal within", lambda: D.among(asked=[(False, bench, G, target) for target in (MAIL, ORDER)])(D.MinimalWithin), True),
        ("one base", lambda: D.among(asked=[(False, bench, G, ORDER)])(D.OneBase), True),
        ("among", lambda: D.Among([1, 4], 4), True),
        ("not among", lambda: D.Among([1, 4], 2), False),
        ("each above: 4 above 1", lambda: D.EachAbove(lambda: range(9), lambda a, b: a <= b, [4], [1, 5]), True),
        ("not each above: 1 above 4", lambda: D.EachAbove(lambda: range(9), lambda a, b: a <= b, [1], [4]), False),
        ("grows with sets: sums", lambda: D.GrowsWithSets(sums(), False, bench), True),
        ("grows with sets: of initial vertices alone", lambda: D.GrowsWithSets(falls_with_mail(), False, bench), True),
        ("not grows with sets: what falls", lambda: D.GrowsWithSets(falls(), False, bench), False),
        ("grows with values: the least", lambda: D.among(lists=lists)(lambda: D.GrowsWithValues(sums())), True),
        ("not grows with values: the largest", lambda: D.among(lists=lists)(lambda: D.GrowsWithValues(most())), False),
        ("sound scheme: sums", lambda: D.among(asked=both)(lambda: D.Sound(sums(), False, bench, G)), True),
        ("not sound scheme: the largest", lambda: D.among(asked=both)(lambda: D.Sound(most(), False, bench, G)), False),
        ("conditions suffice", lambda: D.among(schemes=[sums(), falls(), most()], graphs=[(False, bench, G)], asked=both, lists=lists)(D.ConditionsSuffice), True),
        ("least value", lambda: D.least_value([4, 1, 2]) == 1, True),
        ("least value of none", lambda: D.least_value([]) == D.never, True),
        ("sums of start values, and of loss values", lambda: [D.sum_then_least(loss, bench).eval_set(3) for loss in (False, True)] == [2, 3], True),
        ("score is least", lambda: D.among(asked=[(False, bench, G, ORDER, 1, [2, 5]), (True, bench, G, ORDER, 3, [3, 6]), (False, bench, G, 5, D.never, [])])(D.ScoreIsLeast), True),
        ("sum meets both", lambda: D.among(ways=[(False, bench)], lists=lists)(D.SumMeetsBoth), True),
        ("sum then least sound", lambda: D.among(graphs=[(False, bench, G)], asked=both)(D.SumThenLeastSound), True),
        ("score by: order", lambda: D.score_by(sums(), [2, 5]) == 1, True),
        ("scores sound", lambda: D.among(asked=[(True, bench, G, a, b, risks[a], risks[b]) for a in risks for b in risks])(D.ScoresSound), True),
        ("kinds sound by bases", lambda: D.among(asked=[(bench, APART, ORDER, MAIL, 20, 4)])(D.AttackersSound), True),
        ("a colour: mail's first", lambda: D.HasColour(G, MAIL, 0), True),
        ("not a colour: mail's second", lambda: D.HasColour(G, MAIL, 1), False),
        ("concludes: order from mailpw", lambda: D.Concludes(D.access_clauses(G), lambda x: D.variables_of(held(2), x), D.vertex(ORDER)), True),
        ("not concludes: order from token", lambda: D.Concludes(D.access_clauses(G), lambda x: D.variables_of(held(4), x), D.vertex(ORDER)), False),
        ("satisfies: nothing true", lambda: D.Satisfies(D.access_clauses(G), lambda y: False), True),
        ("not satisfies: mailpw alone", lambda: D.Satisfies(D.access_clauses(G), lambda y: y == D.vertex(1)), False),
        ("entails: mail from mailpw", lambda: D.Entails(D.access_clauses(G), lambda x: D.variables_of(held(2), x), D.vertex(MAIL)), True),
        ("not entails: mail from token", lambda: D.Entails(D.access_clauses(G), lambda x: D.variables_of(held(4), x), D.vertex(MAIL)), False),
        ("access by clauses", lambda: all(D.among(asked=[(G, held(s))])(D.AccessByClauses) for s in (0, 1, 2, 4, 5)), True),
        ("lockout by clauses", lambda: all(D.among(asked=[(G, held(s))])(D.LockoutByClauses) for s in (0, 1, 2, 3, 6)), True),
        ("access entailed", lambda: all(D.among(asked=[(G, s, v)])(D.AccessEntailed) for s in (0, 2) for v in (MAIL, ORDER)), True),
        ("lockout entailed", lambda: all(D.among(asked=[(G, s, v)])(D.LockoutEntailed) for s in (3, 5) for v in (MAIL, ORDER)), True),
    ]


def of_sound_bags(D):
    """Document 003's theorem 4, of t and of what opens it."""
    t = 5
    return [("bags sound by bases", lambda: D.among(asked=[(bags, t, b, [4, 3], [x]) for b, x in ((2, 4), (3, 8), (4, 16), (0, 1))])(D.MultisetsSound), True)]


def of_next_sets(D):
    """Order's opening list, {mailpw} and {ordpw, token}, shown set by set; `drawn` has lost the edge from mail, and with it the first set."""
    drawn = bench._replace(graph=with_row(bench.graph, ORDER, 1, 0), recovery=with_row(bench.recovery, ORDER, 1, 0))
    unmarked = bench._replace(recovery=with_row(bench.recovery, ORDER, 1, 0))
    answers = [(0, [1, x]) for x in (2, 3, 5)] + [(0, [0]), (21, []), (13, []), (12, []), (0, [])]
    walks = [(ORDER, last, [s, t], l) for last in (0, 2) for s in (bench, drawn) for t in (bench, drawn) for l in ([2, 5], [5, 2], [5, 5])]
    walks += [(ORDER, last, [s], [x]) for last in (0, 2, 5) for s in (bench, drawn) for x in (2, 5)]
    after = [(ORDER, last, ended(D, n, v)) for last in (0, 2, 5) for n, v in answers]
    return [
        ("of initial: ordpw and token", lambda: D.OfInitial(bench, 5), True),
        ("not of initial: mail", lambda: D.OfInitial(bench, 8), False),
        ("not of initial: beyond the count", lambda: D.OfInitial(bench, 33), False),
        ("next: mailpw first", lambda: D.NextSet(bench, ORDER, 0, 2), True),
        ("next: ordpw and token after mailpw", lambda: D.NextSet(bench, ORDER, 2, 5), True),
        ("next: after token, which is not in the list", lambda: D.NextSet(bench, ORDER, 4, 5), True),
        ("not next: the same again", lambda: D.NextSet(bench, ORDER, 2, 2), False),
        ("not next: the second first", lambda: D.NextSet(bench, ORDER, 0, 5), False),
        ("not next: ordpw and mailpw, which are loose", lambda: D.NextSet(bench, ORDER, 2, 3), False),
        ("no more: after ordpw and token", lambda: D.NoMore(bench, ORDER, 5), True),
        ("not no more: after mailpw", lambda: D.NoMore(bench, ORDER, 2), False),
        ("call: next for order", lambda: next_call(D, bench, ORDER, 0, 0, [1, 2]), True),
        ("call: no more for order", lambda: next_call(D, bench, ORDER, 5, 0, [0]), True),
        ("not call: no more too early", lambda: next_call(D, bench, ORDER, 2, 0, [0]), False),
        ("call: next, 21", lambda: next_call(D, bench, ORDER, 8, 21, []), True),
        ("call: next, 21 beyond the count", lambda: next_call(D, bench, ORDER, 32, 21, []), True),
        ("not call: next, 14 for 21", lambda: next_call(D, bench, ORDER, 32, 14, []), False),
        ("call: next, 13 before 21", lambda: next_call(D, bench, 5, 8, 13, []), True),
        ("call: next, 12", lambda: next_call(D, EMPTY, 0, 8, 12, []), True),
        ("not call: next, 13 before 12", lambda: next_call(D, EMPTY, 0, 8, 13, []), False),
        ("not call: next, 21 before 13", lambda: next_call(D, bench, 5, 8, 21, []), False),
        ("one answer: next for order", lambda: D.OneAnswer(D.next_call(bench, ORDER, 2)), True),
        ("tells: the second set", lambda: D.Tells(bench, ORDER, 2, D.Shown(5)), True),
        ("not tells: no more too early", lambda: D.Tells(bench, ORDER, 2, D.End), False),
        ("is next: the end", lambda: D.IsNext(bench, ORDER, 5, D.End), True),
        ("next values: a set, and the end", lambda: D.next_values(D.Shown(5)) == (1, 5) and D.next_values(D.End) == (0,), True),
        ("walk: order's list", lambda: D.Walk(bench, ORDER, 0, [2, 5]), True),
        ("not walk: the first set alone", lambda: D.Walk(bench, ORDER, 0, [2]), False),
        ("whole walk", lambda: D.among(setups=[bench, drawn])(D.WholeWalk), True),
        ("shown: two sets of one drawing", lambda: D.Showing(ORDER, 0, [bench, bench], [2, 5]), True),
        ("shown: the second set of another drawing", lambda: D.Showing(ORDER, 0, [bench, drawn], [2, 5]), True),
        ("not shown: a set that is not in the list any more", lambda: D.Showing(ORDER, 0, [drawn], [2]), False),
        ("not shown: a set that has come in before the last", lambda: D.Showing(ORDER, 0, [drawn, bench], [5, 2]), False),
        ("shown rise", lambda: D.among(walks=walks)(D.ShownRise), True),
        ("shown end", lambda: D.among(initial=[7], walks=walks)(D.ShownEnd), True),
        ("keep initial: bench and drawn", lambda: D.KeepInitial(7, [bench, drawn]), True),
        ("not keep initial: all items", lambda: D.KeepInitial(31, [bench]), False),
        ("drawing alone: with a mark less", lambda: D.among(drawings=[(bench, unmarked)], asked=after)(D.DrawingAlone), True),
        ("drawing alone: another drawing", lambda: D.among(drawings=[(bench, drawn)], asked=after)(D.DrawingAlone), True),
    ]


def made(kind, x, number, exit, used):
    return Made((kind, x), Registered(number, used), exit)


def afternoon(*calls):
    """The log of calls, which are given from the first one on."""
    return [made(*call) for call in reversed(calls)]


# With places for three records: 7's attempt, another's, 7's again in its place, 7's other way; no place for one at mail; 7 leaves, and comes again.
DAY = [
    ("HandIn", BOTH, 0, [R_BOTH, R_ANY, R_ANY], 1),
    ("HandIn", ANOTHER, 0, [R_BOTH, R_ANOTHER, R_ANY], 2),
    ("HandIn", ONE, 0, [R_ONE, R_ANOTHER, R_ANY], 2),
    ("HandIn", LOCKS, 0, [R_ONE, R_ANOTHER, R_LOCKS], 3),
    ("HandIn", ELSEWHERE, 26, [R_ONE, R_ANOTHER, R_LOCKS], 3),
    ("Withdraw", 7, 0, [R_ANOTHER, R_ANOTHER, R_LOCKS], 1),
]
BACK = ("HandIn", NONE, 0, [R_ANOTHER, R_NONE, R_LOCKS], 2)
SLICE = [R_ANY] * 3
SLICES = [[R_BOTH, R_ANY], [R_ONE, R_ANY], [R_ONE], [R_BOTH, R_ONE], [R_ANY, R_ANY], [R_ANY, R_ONE], [R_ANY, R_MIXED]]
REGISTERS = [(Registered(n, used), x) for n in (0, 12, 13, 25, 26, 27) for used in (0, 1, 2) for x in SLICES]


def of_register(D):
    """The class register on the bench sheet: records, calls, and an afternoon."""
    one, logs = (bench, 1, 7, ORDER, False, (2, 6)), [afternoon(*DAY[:n]) for n in range(7)]
    in_any = lambda number, used, exit, entry, handed=one: D.HandInCall(*handed[:1], used, *handed[2:], Registered(number, exit[0]), entry, exit[1])
    left = lambda used, k, number, back, entry, exit: D.WithdrawCall(used, k, Registered(number, back), entry, exit)
    stands = lambda n: lambda t, x: D.Stands(afternoon(*DAY[:n]), t, x)
    back = afternoon(*DAY, BACK)
    outcomes = [D.with_slice(a, x) for a, x in REGISTERS]
    return [
        ("record: both opening sets", lambda: D.RecordOf(bench, 7, ORDER, False, (2, 5), R_BOTH), True),
        ("record: one right and one loose", lambda: D.RecordOf(bench, 7, ORDER, False, (2, 6), R_ONE), True),
        ("record: lockouts", lambda: D.RecordOf(bench, 7, ORDER, True, (3, 6), R_LOCKS), True),
        ("not record: loose told as shut", lambda: D.RecordOf(bench, 7, ORDER, False, (2, 6), R_ONE._replace(shut=1, loose=0)), False),
        ("not record: another student", lambda: D.RecordOf(bench, 8, ORDER, False, (2, 5), R_BOTH), False),
        ("not record: another target", lambda: D.RecordOf(bench, 7, ORDER, False, (2, 5), R_BOTH._replace(target=3)), False),
        ("not record: the other way", lambda: D.RecordOf(bench, 7, ORDER, False, (2, 5), R_BOTH._replace(way=1)), False),
        ("call: hand-in, behind", lambda: in_any(0, 1, (2, [R_ANY, R_ONE]), [R_ANY, R_BOTH]), True),
        ("call: hand-in, replaced in a full slice", lambda: in_any(0, 1, (1, [R_ONE]), [R_BOTH]), True),
        ("call: hand-in, the first of two", lambda: in_any(0, 2, (2, [R_ONE, R_BOTH]), [R_BOTH, R_BOTH]), True),
        ("not call: hand-in, every match", lambda: in_any(0, 2, (2, [R_ONE, R_ONE]), [R_BOTH, R_BOTH]), False),
        ("not call: hand-in, 26 though one is replaced", lambda: in_any(26, 1, (1, [R_BOTH]), [R_BOTH]), False),
        ("not call: hand-in, the record behind changed", lambda: in_any(0, 1, (1, [R_ONE, R_ONE]), [R_BOTH, R_ANY]), False),
        ("not call: hand-in, the count raised", lambda: in_any(0, 1, (2, [R_ONE, R_ANY]), [R_BOTH, R_ANY]), False),
        ("call: hand-in, 26", lambda: in_any(26, 1, (1, [R_ANY]), [R_ANY]), True),
        ("not call: hand-in, 26 with a place", lambda: in_any(26, 1, (1, [R_ANY, R_ANY]), [R_ANY, R_ANY]), False),
        ("not call: hand-in, 26 and a record left", lambda: in_any(26, 1, (1, [R_ONE]), [R_ANY]), False),
        ("call: hand-in, 25", lambda: in_any(25, 2, (2, [R_ANY]), [R_ANY], (EMPTY, *one[1:])), True),
        ("not call: hand-in, 12 before 25", lambda: in_any(12, 2, (2, [R_ANY]), [R_ANY], (EMPTY, *one[1:])), False),
        ("not call: hand-in, the count lost", lambda: in_any(25, 2, (0, [R_ANY]), [R_ANY]), False),
        ("call: hand-in, 12", lambda: in_any(12, 1, (1, [R_ANY]), [R_ANY], (EMPTY, *one[1:])), True),
        ("call: hand-in, 13", lambda: in_any(13, 1, (1, [R_ANY]), [R_ANY], (bench, 1, 7, 5, False, (2, 6))), True),
        ("call: withdraw", lambda: left(3, 7, 0, 1, [R_ONE, R_ANOTHER, R_LOCKS], [R_ANOTHER, R_ANOTHER, R_LOCKS]), True),
        ("not call: withdraw, freed places cleared", lambda: left(3, 7, 0, 1, [R_ONE, R_ANOTHER, R_LOCKS], [R_ANOTHER, R_ANY, R_ANY]), False),
        ("not call: withdraw, one record alone", lambda: left(3, 7, 0, 2, [R_ONE, R_ANOTHER, R_LOCKS], [R_ANOTHER, R_LOCKS, R_LOCKS]), False),
        ("call: withdraw, 27", lambda: left(1, 8, 27, 1, [R_ONE, R_ANOTHER], [R_ONE, R_ANOTHER]), True),
        ("not call: withdraw, 27 of one who has", lambda: left(2, 8, 27, 2, [R_ONE, R_ANOTHER], [R_ONE, R_ANOTHER]), False),
        ("not call: withdraw, one behind the used ones", lambda: left(1, 8, 0, 0, [R_ONE, R_ANOTHER], [R_ONE, R_ANOTHER]), False),
        ("call: withdraw, 25", lambda: left(2, 7, 25, 2, [R_ONE], [R_ONE]), True),
        ("afternoon", lambda: D.Afternoon(bench, SLICE, back), True),
        ("not afternoon: an earlier call with another record", lambda: D.Afternoon(bench, SLICE, afternoon(("HandIn", BOTH, 0, [R_ONE, R_ANY, R_ANY], 1), ("HandIn", ANOTHER, 0, [R_ONE, R_ANOTHER, R_ANY], 2))), False),
        ("record: one set twice", lambda: D.RecordOf(bench, 7, ORDER, False, (2, 2), Record(7, 4, 0, 1, 1, 0, 0, 1)), True),
        ("not afternoon: from another count", lambda: D.Afternoon(bench, SLICE, afternoon(("HandIn", BOTH, 0, [R_ANY, R_BOTH, R_ANY], 2))), False),
        ("not afternoon: a slice not handed on", lambda: D.Afternoon(bench, SLICE, afternoon(DAY[0], ("HandIn", ANOTHER, 0, [R_ONE, R_ANOTHER, R_ANY], 2))), False),
        ("not afternoon: a withdrawal that hands in", lambda: D.MeetsCall(bench, ("Withdraw", 7), 0, [], Registered(26, 0), []), False),
        ("is hand-in", lambda: D.IsHandIn(("HandIn", ONE), ONE), True),
        ("not is hand-in: another attempt", lambda: D.IsHandIn(("HandIn", ONE), BOTH), False),
        ("is withdrawal", lambda: D.IsWithdrawal(("Withdraw", 7), 7), True),
        ("not is withdrawal: another student", lambda: D.IsWithdrawal(("Withdraw", 7), 8), False),
        ("handed in: at its time", lambda: D.HandedIn(back, 2, ONE), True),
        ("not handed in: at another time", lambda: D.HandedIn(back, 3, ONE), False),
        ("not handed in: refused", lambda: D.HandedIn(back, 4, ELSEWHERE), False),
        ("withdrawn: at its time", lambda: D.Withdrawn(back, 5, 7), True),
        ("not withdrawn: at another time", lambda: D.Withdrawn(back, 4, 7), False),
        ("not withdrawn: refused", lambda: D.Withdrawn(afternoon(("Withdraw", 7, 27, SLICE, 0)), 0, 7), False),
        ("stands: after its withdrawal", lambda: D.Stands(back, 6, NONE), True),
        ("stands: another's", lambda: D.Stands(back, 1, ANOTHER), True),
        ("not stands: withdrawn since", lambda: D.Stands(back, 2, ONE), False),
        ("same attempt", lambda: D.SameAttempt(ONE, BOTH), True),
        ("not same attempt: another student", lambda: D.SameAttempt(ANOTHER, BOTH), False),
        ("not same attempt: another target", lambda: D.SameAttempt(ELSEWHERE, BOTH), False),
        ("not same attempt: the other way", lambda: D.SameAttempt(LOCKS, BOTH), False),
        ("first", lambda: D.First(stands(5), 0, BOTH), True),
        ("not first: the third", lambda: D.First(stands(5), 2, ONE), False),
        ("not first: withdrawn", lambda: D.First(stands(6), 0, BOTH), False),
        ("latest", lambda: D.Latest(stands(5), 2, ONE), True),
        ("not latest: the first", lambda: D.Latest(stands(5), 0, BOTH), False),
        ("not latest: withdrawn", lambda: D.Latest(stands(6), 2, ONE), False),
        ("entry: the latest at the first's time", lambda: D.Entry(bench, stands(5), 0, R_ONE), True),
        ("not entry: the better one", lambda: D.Entry(bench, stands(5), 0, R_BOTH), False),
        ("not entry: at its own time", lambda: D.Entry(bench, stands(5), 2, R_ONE), False),
        ("not entry: of another three", lambda: D.Entry(bench, stands(5), 0, R_ANOTHER), False),
        ("entries", lambda: D.Entries(bench, stands(5), [0, 1, 3], [R_ONE, R_ANOTHER, R_LOCKS]), True),
        ("not entries: one too few", lambda: D.Entries(bench, stands(5), [0, 1], [R_ONE, R_ANOTHER, R_LOCKS]), False),
        ("not entries: one too many", lambda: D.Entries(bench, stands(5), [0, 1, 3], [R_ONE, R_ANOTHER]), False),
        ("is of", lambda: D.IsOf(R_ONE, BOTH), True),
        ("not is of: another student", lambda: D.IsOf(R_ANOTHER, BOTH), False),
        ("not is of: another target", lambda: D.IsOf(R_ELSEWHERE, BOTH), False),
        ("not is of: the other way", lambda: D.IsOf(R_LOCKS, BOTH), False),
        ("held: the second", lambda: D.Held([R_ANOTHER, R_ONE], BOTH), True),
        ("not held", lambda: D.Held([R_ANOTHER], BOTH), False),
        ("holds", lambda: D.RegisterHolds(bench, stands(5), [R_ONE, R_ANOTHER, R_LOCKS]), True),
        ("holds: after the withdrawal", lambda: D.RegisterHolds(bench, stands(6), [R_ANOTHER]), True),
        ("holds: come again, behind", lambda: D.RegisterHolds(bench, lambda t, x: D.Stands(back, t, x), [R_ANOTHER, R_NONE]), True),
        ("not holds: the old place", lambda: D.RegisterHolds(bench, lambda t, x: D.Stands(back, t, x), [R_NONE, R_ANOTHER]), False),
        ("not holds: moved to the end", lambda: D.RegisterHolds(bench, stands(5), [R_ANOTHER, R_ONE, R_LOCKS]), False),
        ("not holds: one left out", lambda: D.RegisterHolds(bench, stands(5), [R_ONE, R_ANOTHER]), False),
        ("not holds: the first kept", lambda: D.RegisterHolds(bench, stands(5), [R_BOTH, R_ANOTHER, R_LOCKS]), False),
        ("register after: the day", lambda: D.RegisterAfter(bench, back, 2, [R_ANOTHER, R_NONE, R_LOCKS]), True),
        ("not register after: the first place again", lambda: D.RegisterAfter(bench, back, 2, [R_ANY, R_ANOTHER, R_NONE]), False),
        ("not register after: a count beyond the slice", lambda: D.RegisterAfter(bench, back, 3, [R_ANOTHER, R_NONE]), False),
        ("register law", lambda: D.among(slices=[(bench, SLICE)], logs=logs + [back])(D.RegisterLaw), True),
        ("hands back: the slice, and the count", lambda: D.hands_back(2, [R_ANY], 25) == D.RegisterOutcome(Registered(25, 2), [R_ANY]), True),
        ("keeps used: one, and what is behind", lambda: D.keeps_used([R_ONE], [R_BOTH, R_ANY]) == D.RegisterOutcome(Registered(0, 1), [R_ONE, R_ANY]), True),
        ("not call: hand-in, 13 before 12", lambda: in_any(13, 1, (1, [R_ANY]), [R_ANY], (EMPTY, *one[1:])), False),
        ("not call: hand-in, 12 where the setup is well formed", lambda: in_any(12, 1, (1, [R_ANY]), [R_ANY]), False),
        ("not call: withdraw, 25 with as many as the slice has", lambda: left(1, 7, 25, 1, [R_ONE], [R_ONE]), False),
        ("not call: withdraw, 27 before 25", lambda: left(2, 8, 27, 2, [R_ONE], [R_ONE]), False),
        ("not call: withdraw, 27 and a record changed", lambda: left(1, 8, 27, 1, [R_ONE, R_ANOTHER], [R_ONE, R_ANY]), False),
        ("enters: behind", lambda: D.Enters(bench, 1, 7, ORDER, False, (2, 6), [R_ANY, R_BOTH], D.with_slice(Registered(0, 2), [R_ANY, R_ONE])), True),
        ("not enters: another record", lambda: D.Enters(bench, 1, 7, ORDER, False, (2, 6), [R_ANY, R_BOTH], D.with_slice(Registered(0, 2), [R_ANY, R_BOTH])), False),
        ("settled: hand-in", lambda: D.among(registers=outcomes)(lambda: D.SettledHandIn(*one, Registered(0, 1), [R_BOTH, R_ANY], [R_ONE, R_ANY])), True),
        ("settled: hand-in, 26", lambda: D.among(registers=outcomes)(lambda: D.SettledHandIn(*one, Registered(26, 1), [R_ANY], [R_ANY])), True),
        ("settled: hand-in, 13", lambda: D.among(registers=outcomes)(lambda: D.SettledHandIn(bench, 1, 7, 5, False, (2,), Registered(13, 1), [R_ANY], [R_ANY])), True),
        ("settled: hand-in, 12", lambda: D.among(registers=outcomes)(lambda: D.SettledHandIn(EMPTY, 1, 7, 5, False, (2,), Registered(12, 1), [R_ANY], [R_ANY])), True),
        ("settled: hand-in, 25", lambda: D.among(registers=outcomes)(lambda: D.SettledHandIn(bench, 2, 7, 5, False, (2,), Registered(25, 2), [R_ANY], [R_ANY])), True),
        ("not settled: hand-in, 27", lambda: D.among(registers=[])(lambda: D.SettledHandIn(*one, Registered(27, 1), [R_ANY], [R_ANY])), False),
        ("not settled: hand-in, the old slice", lambda: D.among(registers=outcomes)(lambda: D.SettledHandIn(*one, Registered(0, 1), [R_BOTH, R_ANY], [R_BOTH, R_ANY])), False),
        ("settled: withdrawal", lambda: D.among(registers=outcomes)(lambda: D.SettledWithdrawal(1, 7, Registered(0, 0), [R_ONE, R_ANY], [R_ONE, R_ANY])), True),
        ("settled: withdrawal, 27", lambda: D.among(registers=outcomes)(lambda: D.SettledWithdrawal(1, 8, Registered(27, 1), [R_ONE, R_ANY], [R_ONE, R_ANY])), True),
        ("settled: withdrawal, 25", lambda: D.among(registers=outcomes)(lambda: D.SettledWithdrawal(3, 7, Registered(25, 3), [R_ONE, R_ANY], [R_ONE, R_ANY])), True),
        ("not settled: withdrawal, 26", lambda: D.among(registers=[])(lambda: D.SettledWithdrawal(1, 8, Registered(26, 1), [R_ONE], [R_ONE])), False),
        ("not settled: withdrawal, 27 of one who has", lambda: D.among(registers=outcomes)(lambda: D.SettledWithdrawal(1, 7, Registered(27, 1), [R_ONE, R_ANY], [R_ONE, R_ANY])), False),
    ]


def of_living(D):
    """Document 01's sheet, redrawn call by call."""
    marked = TRAPPED._replace(recovery=with_row(bench.recovery, MAIL, 0, 1))
    both = bench._replace(held=10, opened=26)
    stale, kept = TAKEN._replace(opened=2), TAKEN._replace(graph=TRAPPED.graph)
    left = LESS._replace(recovery=bench.recovery)
    full = all_items(0)._replace(graph=Graph(tuple(Rows(((15 if v < 64 else 0,) + (0,) * 7)) for v in range(64))))
    edges_, marks_ = lambda d: d.Edges, lambda d: d.Marks
    only = lambda p: [(f, v, c) for f in range(6) for v in range(6) for c in range(3) if p(f, v, c)]
    unmarked = bench._replace(recovery=with_row(bench.recovery, ORDER, 1, 0))
    apart = [("the first stale", stale, bench), ("one item more", bench, bench._replace(count=6)), ("another start", bench, with_vertex(bench, 0, Vertex(Credential, 2, 2, 0))), ("a mark less", bench, unmarked)]
    short = bench._replace(graph=Graph(bench.graph.rows[:63]))
    other = [("another count", bench, bench._replace(count=4)), ("another vertex", bench, RANK_10), ("a graph of 63 places", short, short)]
    IN, ADD, OFF = D.TakeIn(1), D.AddEdge(0, MAIL, 0, False), D.RemoveEdge(MAIL, ORDER, 1)
    setups = [bench, TAKEN, TRAPPED, both, stale, kept, LESS, left, marked]
    answers = [D.Redrawing(n, t) for n in (0, 12, 13) for t in (bench, TAKEN, stale, both)]
    on_way = [*setups, EMPTY]
    runs = [(text(BENCH), calls, numbers) for calls, numbers in (([], []), ([IN], [0]), ([IN, ADD], [0, 0]), ([IN, ADD, ADD], [0, 0, 19]), ([OFF], [0]), ([IN, D.TakeIn(MAIL)], [0, 0]))]
    runs += [(text(BENCH), [IN, D.AddEdge(0, MAIL, 0, True)], [0, 0])]
    words = words_of(bench)
    long = words + [7]
    held, trapped = words_of(TAKEN), words_of(TRAPPED)
    lives = lambda call, n, entry, exit: D.among(setups=setups)(lambda: D.Redrew(call, n, entry, exit))
    five = REFUSED["refused 5"][0]
    none = words_of(EMPTY)
    stays = [(five, [IN, ADD], [12, 12]), (five, [], []), (text(BENCH), [IN], [0]), (text(BENCH), [], [])]
    kind2 = words[:1] + [2] + words[2:]
    lived = [(text(BENCH), 0, 0, [9] * 1284, words + [9], calls, numbers, exit + [9]) for calls, numbers, exit in (([], [], words), ([IN], [0], held), ([IN, ADD, ADD], [0, 0, 19], trapped))]
    lived += [(five, 5, 2, [9] * 1283, none, [IN], [12], none), (text(BENCH), 15, 0, [9], [9], [IN], [12], [9])]
    on_words = [x + [9] for x in (words, held, trapped)] + [none, words, [9], [8]]
    asked = [(("Closure", 2), ended(D, 0, [26, 3])), (("ScoreOf", False, ORDER), ended(D, 0, [1])), (("BothBases", ORDER, []), ended(D, 15, [], [])), (("WayTo", ORDER, 2, [9, 9], [9, 9]), ended(D, 0, [1, 2], [3, 4], [0, 1])), (("NextSet", ORDER, 2), ended(D, 0, [1, 5]))]
    handed = [(0, 7, ORDER, False, [2], Registered(n, 0), [], []) for n in (12, 13, 26)] + [(0, 7, ORDER, False, (2, 5), Registered(0, 1), [R_ANY], [R_BOTH])]
    changes = [(v, n, entry, exit) for v in (1, 2) for n in (0, 13) for entry, exit in ((held, held), (held, words), (words, words))] + [(MAIL, 0, held, words_of(both))]
    return [
        ("holds: the mail password", lambda: D.WellFormed(TAKEN), True),
        ("not well formed: held beyond the count", lambda: D.WellFormed(bench._replace(held=32, opened=32)), False),
        ("not well formed: stale", lambda: D.WellFormed(stale), False),
        ("not well formed: closed, and not opened", lambda: D.WellFormed(bench._replace(opened=24)), False),
        ("drawing: an edge", lambda: D.drawing_of(bench).Edges(1, MAIL, 0) and not D.drawing_of(bench).Marks(1, MAIL, 0), True),
        ("drawing: a mark", lambda: D.drawing_of(bench).Marks(MAIL, ORDER, 1), True),
        ("drawing: held", lambda: D.drawing_of(TAKEN).Held(1) and not D.drawing_of(TAKEN).Held(3), True),
        ("is edge", lambda: D.IsEdge(1, 2, 3, 1, 2, 3), True),
        ("not edge: another end", lambda: D.IsEdge(1, 2, 3, 1, 1, 3), False),
        ("not edge: another beginning", lambda: D.IsEdge(1, 2, 3, 2, 2, 3), False),
        ("not edge: another colour", lambda: D.IsEdge(1, 2, 3, 1, 2, 2), False),
        ("take in: the mail password", lambda: living_call(D, IN, bench, 0, TAKEN), True),
        ("not take in: and opens nothing", lambda: living_call(D, IN, bench, 0, stale), False),
        ("not take in: and what it opens held", lambda: living_call(D, IN, bench, 0, bench._replace(held=26, opened=26)), False),
        ("take in: mail, which is open", lambda: living_call(D, D.TakeIn(MAIL), TAKEN, 0, both), True),
        ("take out: the mail password, and mail stays", lambda: living_call(D, D.TakeOut(1), both, 0, bench._replace(held=8, opened=24)), True),
        ("take out: the only one", lambda: living_call(D, D.TakeOut(1), TAKEN, 0, bench), True),
        ("not take out: stays open", lambda: living_call(D, D.TakeOut(1), TAKEN, 0, TAKEN), False),
        ("take in: 13", lambda: living_call(D, D.TakeIn(5), bench, 13, bench), True),
        ("not take in: 13 for the last item", lambda: living_call(D, D.TakeIn(4), bench, 13, bench), False),
        ("not take in: 13, and another setup", lambda: living_call(D, D.TakeIn(5), bench, 13, TAKEN), False),
        ("take in: 12, and untouched", lambda: living_call(D, IN, stale, 12, stale), True),
        ("not take in: 12, and tidied", lambda: living_call(D, IN, stale, 12, TAKEN), False),
        ("take out: 12", lambda: living_call(D, D.TakeOut(1), stale, 12, stale), True),
        ("add: the trap", lambda: living_call(D, ADD, TAKEN, 0, TRAPPED), True),
        ("not add: goes on from what is open", lambda: living_call(D, ADD, TAKEN, 0, kept), False),
        ("not add: marked", lambda: living_call(D, ADD, TAKEN, 0, marked), False),
        ("add: marked", lambda: living_call(D, D.AddEdge(0, MAIL, 0, True), TAKEN, 0, marked), True),
        ("add: 12", lambda: living_call(D, ADD, stale, 12, stale), True),
        ("add: 13 of the first end", lambda: living_call(D, D.AddEdge(5, MAIL, 0, False), bench, 13, bench), True),
        ("add: 13 of the second end", lambda: living_call(D, D.AddEdge(MAIL, 5, 0, False), bench, 13, bench), True),
        ("add: 13 before 18", lambda: living_call(D, D.AddEdge(MAIL, 5, 8, False), bench, 13, bench), True),
        ("add: 18", lambda: living_call(D, D.AddEdge(0, MAIL, 8, False), bench, 18, bench), True),
        ("not add: 18 for colour 7", lambda: living_call(D, D.AddEdge(0, MAIL, 7, False), bench, 18, bench), False),
        ("add: 19 with the other mark", lambda: living_call(D, D.AddEdge(1, MAIL, 0, True), bench, 19, bench), True),
        ("not add: 20 for 19", lambda: living_call(D, D.AddEdge(1, MAIL, 0, False), bench, 20, bench), False),
        ("not add: 12 for 7", lambda: living_call(D, D.AddEdge(4, 3, 0, False), full, 12, full), False),
        ("add: colour 7", lambda: living_call(D, D.AddEdge(0, MAIL, 7, False), bench, 0, bench._replace(graph=with_row(bench.graph, MAIL, 7, 1))), True),
        ("one answer: add to an item that is not there", lambda: D.among(calls=[D.AddEdge(MAIL, 5, 0, False)], setups=[bench], redrawings=answers)(D.OneLivingAnswer), True),
        ("not remove: unmarked, and 20", lambda: living_call(D, D.RemoveEdge(1, MAIL, 0), bench, 20, bench), False),
        ("add: 7", lambda: living_call(D, D.AddEdge(4, 3, 0, False), full, 7, full), True),
        ("add: 19 before 7", lambda: living_call(D, D.AddEdge(3, 3, 0, False), full, 19, full), True),
        ("not add: 7 with room", lambda: living_call(D, ADD, bench, 7, bench), False),
        ("remove: edge and mark", lambda: living_call(D, OFF, bench, 0, LESS), True),
        ("not remove: the mark stays", lambda: living_call(D, OFF, bench, 0, left), False),
        ("remove: opens", lambda: living_call(D, D.RemoveEdge(0, MAIL, 0), TRAPPED, 0, TAKEN), True),
        ("remove: 20", lambda: living_call(D, D.RemoveEdge(0, MAIL, 0), bench, 20, bench), True),
        ("not remove: 20 where it is", lambda: living_call(D, OFF, bench, 20, bench), False),
        ("remove: 12", lambda: living_call(D, OFF, stale, 12, stale), True),
        ("remove: 13 of the second end", lambda: living_call(D, D.RemoveEdge(MAIL, 5, 0), bench, 13, bench), True),
        ("remove: 18", lambda: living_call(D, D.RemoveEdge(0, MAIL, 8), bench, 18, bench), True),
        ("one answer: take in", lambda: D.among(calls=[IN], setups=[bench], redrawings=answers)(D.OneLivingAnswer), True),
        ("nothing changes", lambda: D.among(setups=[bench, TAKEN, both], redrawings=[D.Redrawing(n, t) for n in (0, 13) for t in (bench, TAKEN, both)])(D.NothingChanges), True),
        ("ran: three calls, the last refused", lambda: D.among(setups=setups)(lambda: D.Ran(bench, [IN, ADD, ADD], [0, 0, 19], TRAPPED)), True),
        ("not ran: another number", lambda: D.among(setups=setups)(lambda: D.Ran(bench, [IN, ADD], [0, 19], TRAPPED)), False),
        ("not ran: a call without a number", lambda: D.among(setups=setups)(lambda: D.Ran(bench, [IN], [], TAKEN)), False),
        ("left by: an accepted call", lambda: D.left_by([ADD], [0], D.drawing_of(bench)).Edges(0, MAIL, 0), True),
        ("not left by: a refused call", lambda: D.left_by([ADD], [19], D.drawing_of(bench)).Edges(0, MAIL, 0), False),
        ("opened always", lambda: D.among(runs=runs, ends=setups, setups=on_way)(D.OpenedAlways), True),
        ("reached: by two calls", lambda: D.among(runs=runs, setups=on_way)(lambda: D.Reached(TRAPPED)), True),
        ("not reached: by a refused sheet", lambda: D.among(runs=stays, setups=on_way)(lambda: D.Reached(EMPTY)), False),
        *((f"not redrawn: {n}", lambda s=s, t=t: D.Redrawn(s, D.drawing_of(s), t), False) for n, s, t in other),
        ("not reached: stale", lambda: D.among(runs=runs, setups=on_way)(lambda: D.Reached(stale)), False),
        ("question 12: setups, sheets and calls", lambda: D.among(setups=setups, runs=runs)(D.Question12), True),
        ("contracts: what is lent", lambda: [D.contract_of(q, bench).lent for q in (("WayTo", ORDER, 2, [9], [8]), ("Bags", ORDER, [9], [8]))] == [((9,), (8,))] * 2, True),
        ("contracts: the way in, and a quick yes", lambda: all(D.Fulfils(D.contract_of(q, bench), o) for q, o in ((asked[3]), (("QuickYes", ORDER, 2), ended(D, 0, [1, 26])))), True),
        ("after: exactly the edge that is added, and its mark", lambda: [only(f(D.after(D.AddEdge(0, MAIL, 2, True), D.drawing_of(EMPTY)))) for f in (edges_, marks_)] == [[(0, MAIL, 2)]] * 2, True),
        ("after: exactly the edge that is removed", lambda: only(edges_(D.after(OFF, D.drawing_of(bench)))) == only(edges_(D.drawing_of(LESS))), True),
        ("after: and its mark", lambda: only(marks_(D.after(OFF, D.drawing_of(bench)))) == [], True),
        *((f"not only holding: {n}", lambda s=s, t=t: D.OnlyHolding(s, t), False) for n, s, t in apart),
        ("only holding: bench and the mail password held", lambda: D.OnlyHolding(bench, TAKEN), True),
        ("not only holding: another graph", lambda: D.OnlyHolding(TAKEN, TRAPPED), False),
        ("not only holding: stale", lambda: D.OnlyHolding(bench, stale), False),
        ("not remove: 13 before 12", lambda: living_call(D, D.RemoveEdge(MAIL, 5, 0), stale, 13, stale), False),
        ("remove: 13 of the first end", lambda: living_call(D, D.RemoveEdge(5, MAIL, 0), bench, 13, bench), True),
        ("remove: 18 before 20", lambda: living_call(D, D.RemoveEdge(0, MAIL, 8), TAKEN, 18, TAKEN), True),
        ("take out: 13", lambda: living_call(D, D.TakeOut(5), bench, 13, bench), True),
        ("not take in: another number", lambda: living_call(D, IN, bench, 13, TAKEN), False),
        ("back: the setup as it was", lambda: D.back(stale, 12) == D.Redrawing(12, stale), True),
        ("handed back: the setup as it then is", lambda: D.handed_back(stale, ("Ok", bench)) == D.Redrawing(0, bench), True),
        ("handed back: a refusal, and the setup as it was", lambda: D.handed_back(stale, ("Err", NO[12])) == D.Redrawing(12, stale), True),
        ("refused stays", lambda: D.among(runs=stays, ends=[EMPTY, bench], setups=on_way)(D.RefusedStays), True),
        ("opened always: a refused text", lambda: D.among(runs=stays, ends=[EMPTY], setups=on_way)(D.OpenedAlways), True),
        ("contracts: order and mail out of rank", lambda: D.Fulfils(D.contract_of(("OutOfRank", ORDER, MAIL), bench), ended(D, 0, [1])), True),
        ("contracts: the next set", lambda: D.Fulfils(D.contract_of(("NextSet", ORDER, 2), bench), ended(D, 0, [1, 5])), True),
        ("contracts: of each request", lambda: [D.numbers(D.contract_of(q, bench)) for q, _ in asked] == [(12, 14), (12, 13), (12, 13, 15), (12, 13, 14, 15), (12, 13, 21)], True),
        ("no heed", lambda: D.among(setups=[bench, TAKEN, TRAPPED], requests=asked, hand_ins=handed)(D.NoHeed), True),
        ("no heed: what only one of two drawings answers", lambda: D.among(setups=[TAKEN, TRAPPED], requests=asked[:1], hand_ins=handed[:1])(D.NoHeed), True),
        ("redrew: take in", lambda: lives(IN, 0, words, held), True),
        ("redrew: take in, with words behind", lambda: lives(IN, 0, long, held + [7]), True),
        ("not redrew: a word behind changed", lambda: lives(IN, 0, long, held + [0]), False),
        ("not redrew: nothing written", lambda: lives(IN, 0, words, words), False),
        ("redrew: add", lambda: lives(ADD, 0, held, trapped), True),
        ("not redrew: another call's answer", lambda: lives(D.TakeOut(1), 0, words, held), False),
        ("redrew: 13, and every word kept", lambda: lives(D.TakeIn(5), 13, words, words), True),
        ("not redrew: 13, and words written", lambda: lives(D.TakeIn(5), 13, words, held), False),
        ("redrew: a word too few is 12", lambda: lives(IN, 12, words[:-1], words[:-1]), True),
        ("not redrew: 15 before 12", lambda: lives(IN, 15, words[:-1], words[:-1]), False),
        ("redrew: a kind of 2 is 12", lambda: lives(IN, 12, kind2, kind2), True),
        ("not redrew: a kind of 2 taken for an account", lambda: lives(IN, 0, kind2, held), False),
        ("no word changes", lambda: D.among(asked=changes, setups=setups)(D.NoWordChanges), True),
        ("made on: three calls, the last refused", lambda: D.among(words=[words, held, trapped], setups=setups)(lambda: D.MadeOn(words, [IN, ADD, ADD], [0, 0, 19], trapped)), True),
        ("not made on: another number", lambda: D.among(words=[words, held, trapped], setups=setups)(lambda: D.MadeOn(words, [IN, ADD], [0, 19], trapped)), False),
        ("not made on: a call without a number", lambda: D.among(words=[words], setups=setups)(lambda: D.MadeOn(words, [IN], [], words)), False),
        ("shows: the mail password held", lambda: D.Shows(bench, D.after(IN, D.drawing_of(bench)), held), True),
        ("not shows: an edge less", lambda: D.Shows(bench, D.drawing_of(bench), words_of(LESS)), False),
        ("not shows: nothing held", lambda: D.Shows(bench, D.drawing_of(bench), held), False),
        ("not shows: stale", lambda: D.Shows(bench, D.after(IN, D.drawing_of(bench)), words_of(stale)), False),
        ("lives in words", lambda: D.among(lived=lived, words=on_words, setups=on_way)(D.LivesInWords), True),
        ("settled call: take in", lambda: D.among(redrawings=answers)(lambda: D.SettledLiving(IN, bench, D.Redrawing(0, TAKEN))), True),
        ("settled call: 13", lambda: D.among(redrawings=answers)(lambda: D.SettledLiving(D.TakeIn(5), bench, D.Redrawing(13, bench))), True),
        ("settled call: 19", lambda: D.among(redrawings=answers)(lambda: D.SettledLiving(D.AddEdge(1, MAIL, 0, True), bench, D.Redrawing(19, bench))), True),
        ("not settled call: 20 of adding", lambda: D.among(redrawings=[])(lambda: D.SettledLiving(ADD, bench, D.Redrawing(20, bench))), False),
        ("not settled call: another number", lambda: D.among(redrawings=answers)(lambda: D.SettledLiving(D.TakeIn(5), bench, D.Redrawing(12, bench))), False),
        ("not settled call: 13, and another setup", lambda: D.among(redrawings=[])(lambda: D.SettledLiving(D.TakeIn(5), bench, D.Redrawing(13, TAKEN))), False),
    ]


def of_findings(D):
    """Findings; `strong` has an account that is ranked above another, and stronger."""
    strong = read([H1, "a c 1 - 0", "b c 5 - 0", "low a - - 1", "high a - - 3", "", H2, "a low 0 0", "b high 0 0"])
    return [
        ("backdoor: order", lambda: backdoor_call(D, bench, ORDER, 0, [1]), True),
        ("not backdoor: order has none", lambda: backdoor_call(D, bench, ORDER, 0, [0]), False),
        ("no backdoor: mail", lambda: backdoor_call(D, bench, MAIL, 0, [0]), True),
        ("not backdoor: mail has one", lambda: backdoor_call(D, bench, MAIL, 0, [1]), False),
        ("idle: mail", lambda: idle_call(D, bench, MAIL, 0, [1]), True),
        ("not idle: mail is not", lambda: idle_call(D, bench, MAIL, 0, [0]), False),
        ("not idle: order is", lambda: idle_call(D, bench, ORDER, 0, [1]), False),
        ("out of rank: order, mail", lambda: pair_call(D, bench, ORDER, MAIL, 0, [1]), True),
        ("not out of rank: order, mail are not", lambda: pair_call(D, bench, ORDER, MAIL, 0, [0]), False),
        ("not out of rank: mail, order", lambda: pair_call(D, bench, MAIL, ORDER, 0, [1]), False),
        ("not out of rank: order, order", lambda: pair_call(D, bench, ORDER, ORDER, 0, [1]), False),
        ("finding: 13 of the second", lambda: pair_call(D, bench, MAIL, 5, 13, []), True),
        ("not finding: 13 where both are there", lambda: pair_call(D, bench, MAIL, ORDER, 13, []), False),
        ("not finding: answered, though the second is not there", lambda: pair_call(D, bench, MAIL, 5, 0, [0]), False),
        ("finding: 13 of a backdoor", lambda: backdoor_call(D, bench, 5, 13, []), True),
        ("finding: 13 of an idle recovery", lambda: idle_call(D, bench, 5, 13, []), True),
        ("finding: 12 of an idle recovery", lambda: idle_call(D, EMPTY, MAIL, 12, []), True),
        ("finding: 12 of a pair", lambda: pair_call(D, EMPTY, MAIL, ORDER, 12, []), True),
        ("finding: 12", lambda: backdoor_call(D, EMPTY, MAIL, 12, []), True),
        ("not finding: 13 before 12", lambda: backdoor_call(D, EMPTY, MAIL, 13, []), False),
        ("compared: order, 1 and 4", lambda: D.Compared(False, bench, ORDER, 1, 4), True),
        ("not compared: order, 1 and 1", lambda: D.Compared(False, bench, ORDER, 1, 1), False),
        ("not compared: order, 4 and 4", lambda: D.Compared(False, bench, ORDER, 4, 4), False),
        ("not backdoor: by mail's scores", lambda: D.Backdoor(bench, MAIL, 1, 1), False),
        ("not a backdoor: by other scores", lambda: D.Backdoor(bench, MAIL, 0, 1), False),
        ("ineffective: mail's risks", lambda: D.IneffectiveRecovery(bench, MAIL, 1, 1), True),
        ("not ineffective: order's risks, the other way round", lambda: D.IneffectiveRecovery(bench, ORDER, 2, 3), False),
        ("not ineffective: by other risks", lambda: D.IneffectiveRecovery(bench, MAIL, 0, 5), False),
        ("not inconsistent: by another score of the lower", lambda: D.Inconsistent(bench, ORDER, MAIL, 1, 5), False),
        ("not out of rank: stronger, whatever the risks are", lambda: D.is_out_of_rank(strong, 3, 2), False),
        ("not inconsistent: stronger", lambda: D.Inconsistent(strong, 3, 2, 5, 1), False),
        ("not ineffective: order's risks", lambda: D.IneffectiveRecovery(bench, ORDER, 3, 2), False),
        ("inconsistent: order and mail", lambda: D.Inconsistent(bench, ORDER, MAIL, 1, 1), True),
        ("not inconsistent: mail and order", lambda: D.Inconsistent(bench, MAIL, ORDER, 1, 1), False),
        ("not inconsistent: by another score", lambda: D.Inconsistent(bench, ORDER, MAIL, 0, 1), False),
    ]


def of_portal(D):
    """The portal's numbers."""
    return [
        ("portal: score 1", lambda: D.PortalCall(False, text(BENCH), ORDER, 1), True),
        ("portal: risk 3", lambda: D.PortalCall(True, text(BENCH), ORDER, 3), True),
        ("not portal: risk 1", lambda: D.PortalCall(True, text(BENCH), ORDER, 1), False),
        ("portal: 13", lambda: D.PortalCall(False, text(BENCH), 5, 2**62 + 13), True),
        ("not portal: 13 alone", lambda: D.PortalCall(False, text(BENCH), 5, 13), False),
        ("portal: refused 5", lambda: D.PortalCall(False, REFUSED["refused 5"][0], 0, 2**62 + 5), True),
        ("not portal: 13 before 5", lambda: D.PortalCall(False, REFUSED["refused 5"][0], 0, 2**62 + 13), False),
        ("decoded: a score", lambda: D.Decoded(text(BENCH), ORDER, 1), True),
        ("decoded: never is an answer", lambda: D.Decoded(text([H1, "only a - - 0", "", H2]), 0, 2**62), True),
        ("not decoded: a score of a refused sheet", lambda: D.Decoded(REFUSED["refused 5"][0], 0, 1), False),
        ("not decoded: never of an item that isn't there", lambda: D.Decoded(text(BENCH), 5, 2**62), False),
        ("not decoded: a refusal of an item that is there", lambda: D.Decoded(text(BENCH), ORDER, 2**62 + 1), False),
        ("decoded: 13", lambda: D.Decoded(text(BENCH), 5, 2**62 + 13), True),
    ]


def of_contracts(D):
    """Questions in their order; and a contract by hand: 7 and 8, written to a lent list."""
    no, yes = lambda n: D.Question(n, lambda: False), lambda n: D.Question(n, lambda: True)
    asks = lambda questions, o: D.Asks(lambda q: q, questions, lambda p: p == 0, o)
    toy = lambda lent, *questions: D.Contract([lent], list(questions), lambda: [(7, 8), (8, 7), (7,)], lambda a: a == (7, 8), lambda a: (len(a),), lambda a: (a,))
    open_ = lambda lent: D.Contract([lent], [], lambda: [(7, 8), (8, 7)], lambda a: True, lambda a: (len(a),), lambda a: (a,))
    tell = lambda *questions: D.telling(lambda: [7], list(questions), lambda a: True, lambda a: (a,))
    loose = D.Contract([LENT[:1]], [], lambda: [(), (7, 8)], lambda a: True, lambda a: (), lambda a: (a,))
    two, one = LENT[:2], LENT[:1]
    right, other, short = ended(D, 0, [2], [7, 8]), ended(D, 0, [2], [8, 7]), ended(D, 15, [], two)
    told = lambda n, f, x, c=toy(two): D.Told(c, n, f, [x])
    results = [(n, f, [x]) for n in (0, 13, 15) for f in ([2, 0], [0, 0], [0, 2], [2]) for x in (two, [7, 8])]
    settled = lambda numbers, call, o, among: D.Settled(lambda: among, lambda p: p, lambda q: q, numbers, call, o)
    return [
        ("asks: no question", lambda: asks([], 0), True),
        ("asks: a no", lambda: asks([yes(12), no(13), no(14)], 13), True),
        ("not asks: a later no", lambda: asks([yes(12), no(13), no(14)], 14), False),
        ("not asks: an end after a no", lambda: asks([no(12)], 0), False),
        ("asks: the end after each yes", lambda: asks([yes(12), yes(13)], 0), True),
        ("not asks: a number after each yes", lambda: asks([yes(12), yes(13)], 13), False),
        ("turned away with 13", lambda: D.TurnedAway(lambda o: o, lambda q: q, [12, 13], 13), True),
        ("not turned away: no number of the call", lambda: D.TurnedAway(lambda o: o, lambda q: q, [12, 13], 14), False),
        ("not turned away: 0", lambda: D.TurnedAway(lambda o: o, lambda q: q, [12, 0], 0), False),
        ("not turned away: something else changed", lambda: D.TurnedAway(lambda o: o[0], lambda q: (q, 1), [12], (12, 2)), False),
        ("settled: an answer", lambda: settled([12], lambda p: p == 0, 0, range(15)), True),
        ("settled: a refusal", lambda: settled([12], lambda p: p == 12, 12, range(15)), True),
        ("not settled: another number", lambda: settled([12], lambda p: p == 13, 13, range(15)), False),
        ("not settled: a contract that leaves it open", lambda: settled([12], lambda p: p in (0, 12), 0, range(15)), False),
        ("gives: the number 0", lambda: D.gives([7]) == D.Reply(0, [7]), True),
        ("refuses: no values", lambda: D.refuses(13) == D.Reply(13, []), True),
        ("ends: the reply, and the lists", lambda: D.ends(D.gives([]), [one]) == D.Outcome(D.gives([]), [one]), True),
        ("turns away: the lists as they were", lambda: D.turns_away([one, two], 13) == ended(D, 13, [], one, two), True),
        ("all written: to the front of each", lambda: D.all_written([LENT, two], [[7], [8, 9]]) == plain([[7] + LENT[1:], [8, 9]]), True),
        ("all written: a list to which nothing is written", lambda: D.all_written([LENT, two], [[7]]) == plain([[7] + LENT[1:], two]), True),
        ("all written: nothing to write", lambda: D.all_written([LENT], []) == plain([LENT]), True),
        ("room: as many places", lambda: D.Room([two, one], [[7, 8], [7]]), True),
        ("not room: one too few in the second", lambda: D.Room([two, one], [[7], [7, 8]]), False),
        ("not room: one too few in the first", lambda: D.Room([one, two], [[7, 8], [7]]), False),
        ("room: nothing to write", lambda: D.Room([one], []), True),
        ("asks 15: no room", lambda: D.asks15([one], [[7, 8]]).number == 15 and not D.asks15([one], [[7, 8]]).Yes(), True),
        ("telling: no list, and nothing written", lambda: tell().lent == () and tell().writes(7) == (), True),
        ("fulfils: the right answer, written", lambda: D.Fulfils(toy(two), right), True),
        ("fulfils: the places behind kept", lambda: D.Fulfils(toy(LENT), ended(D, 0, [2], [7, 8] + LENT[2:])), True),
        ("not fulfils: a place behind changed", lambda: D.Fulfils(toy(LENT), ended(D, 0, [2], [7, 8, 0] + LENT[3:])), False),
        ("not fulfils: another answer", lambda: D.Fulfils(toy(two), other), False),
        ("not fulfils: other values", lambda: D.Fulfils(toy(two), ended(D, 0, [1], [7, 8])), False),
        ("not fulfils: the answer told, and not written", lambda: D.Fulfils(toy(two), ended(D, 0, [2], two)), False),
        ("not fulfils: 15 with equal room", lambda: D.Fulfils(toy(two), short), False),
        ("fulfils: 15", lambda: D.Fulfils(toy(one), ended(D, 15, [], one)), True),
        ("not fulfils: 15 with a value", lambda: D.Fulfils(toy(one), ended(D, 15, [2], one)), False),
        ("not fulfils: 15 with a place changed", lambda: D.Fulfils(toy(one), ended(D, 15, [], [7])), False),
        ("fulfils: a no comes before 15", lambda: D.Fulfils(toy(one, yes(12), no(13)), ended(D, 13, [], one)), True),
        ("not fulfils: 15 before a no", lambda: D.Fulfils(toy(one, yes(12), no(13)), ended(D, 15, [], one)), False),
        ("not fulfils: a no with a place changed", lambda: D.Fulfils(toy(two, no(12)), ended(D, 12, [], [7, 8])), False),
        ("not fulfils: no right answer", lambda: D.Fulfils(D.Contract([two], [], lambda: [(7, 8)], lambda a: False, lambda a: (), lambda a: (a,)), right), False),
        ("numbers: with a lent list", lambda: D.numbers(toy(one, yes(12), yes(13))) == (12, 13, 15), True),
        ("numbers: without one", lambda: D.numbers(tell(yes(12))) == (12,) and D.room_number([]) == () and D.room_number([one]) == (15,), True),
        ("settles: the answer", lambda: D.among(outcomes=[right, other, short])(lambda: D.Settles(toy(two), right)), True),
        ("settles: 15", lambda: D.among(outcomes=[right, other, short])(lambda: D.Settles(toy(one), ended(D, 15, [], one))), True),
        ("not settles: another answer", lambda: D.among(outcomes=[right, other, short])(lambda: D.Settles(toy(two), other)), False),
        ("not settles: 13, which is not asked", lambda: D.among(outcomes=[other])(lambda: D.Settles(toy(two), ended(D, 13, [], two))), False),
        ("not settles: 15 with a place changed", lambda: D.among(outcomes=[])(lambda: D.Settles(toy(one), ended(D, 15, [], [7]))), False),
        ("not settles: two answers", lambda: D.among(outcomes=[right, other])(lambda: D.Settles(open_(two), right)), False),
        ("one answer: by hand", lambda: D.OneAnswer(toy(two)), True),
        ("not one answer: two are right", lambda: D.OneAnswer(open_(two)), False),
        ("told: the value, and a 0 behind it", lambda: told(0, [2, 0], [7, 8]), True),
        ("not told: something behind the value", lambda: told(0, [2, 1], [7, 8]), False),
        ("not told: nothing written", lambda: told(0, [2, 0], two), False),
        ("told: 15, and only 0", lambda: told(15, [0, 0], one, toy(one)), True),
        ("not told: 15, and a value", lambda: told(15, [2, 0], one, toy(one)), False),
        ("told no: 15", lambda: D.ToldNo(toy(one), 15, [0, 0], [one]), True),
        ("not told no: 13", lambda: D.ToldNo(toy(one), 13, [0, 0], [one]), False),
        ("not told no: 0", lambda: D.ToldNo(toy(one, yes(0)), 0, [0, 0], [one]), False),
        ("not told no: a field", lambda: D.ToldNo(toy(one), 15, [0, 1], [one]), False),
        ("not told no: a place changed", lambda: D.ToldNo(toy(one), 15, [0, 0], [[7]]), False),
        ("settled told: the answer", lambda: D.among(told=results)(lambda: D.SettledTold(toy(two), 0, [2, 0], [[7, 8]])), True),
        ("settled told: 15", lambda: D.among(told=results)(lambda: D.SettledTold(toy(one), 15, [0, 0], [one])), True),
        ("not settled told: another struct tells of it", lambda: D.among(told=results)(lambda: D.SettledTold(toy(two), 0, [0, 2], [[7, 8]])), False),
        ("not settled told: another end of the list", lambda: D.among(told=results)(lambda: D.SettledTold(toy(two), 0, [2, 0], [two])), False),
        ("not settled told: 0 and 15 tell of it alike", lambda: D.among(told=[(n, [0, 0], [one]) for n in (0, 15)])(lambda: D.SettledTold(loose, 0, [0, 0], [one])), False),
        ("not settled told: 13", lambda: D.among(told=[])(lambda: D.SettledTold(toy(two), 13, [0, 0], [two])), False),
        ("asks 12, 13, 14: bench", lambda: D.asks12(bench).Yes() and D.asks13(bench, 4).Yes() and D.asks14(bench, 31).Yes(), True),
        ("not asks 12: no item", lambda: D.asks12(EMPTY).Yes(), False),
        ("not asks 13: the count", lambda: D.asks13(bench, 5).Yes(), False),
        ("not asks 14: item 5", lambda: D.asks14(bench, 32).Yes(), False),
        ("refusals: their numbers", lambda: [D.number(refusal) for refusal in REFUSALS] == [*range(1, 28)], True),
        ("replies: closure and lost set", lambda: [D.closure_reply(("Ok", D.Opened(26, 3))), D.closure_reply(("Err", NO[14])), D.lost_reply(("Ok", 10)), D.lost_reply(("Err", NO[12]))] == [D.gives([26, 3]), D.refuses(14), D.gives([10]), D.refuses(12)], True),
        ("replies: way", lambda: [D.way_reply(("Ok", 2)), D.way_reply(("Ok", None)), D.way_reply(("Err", NO[15]))] == [D.gives([1, 2]), D.gives([0]), D.refuses(15)], True),
        ("replies: quick", lambda: [D.quick_reply(("Ok", D.QuickAnswer(True, 26))), D.quick_reply(("Ok", D.QuickAnswer(False, 2))), D.quick_reply(("Err", NO[14]))] == [D.gives([1, 26]), D.gives([0, 2]), D.refuses(14)], True),
        ("replies: lists, score, risk", lambda: [D.bases_reply(("Ok", D.Lengths(2, 3))), D.bases_reply(("Err", NO[15])), D.score_reply(("Ok", 1)), D.score_reply(("Err", NO[13])), D.risk_reply(("Ok", 3)), D.risk_reply(("Err", NO[12]))] == [D.gives([2, 3]), D.refuses(15), D.gives([1]), D.refuses(13), D.gives([3]), D.refuses(12)], True),
        ("replies: marks", lambda: [D.marks_reply(("Ok", D.Marks(1, 2, 3, 4, 5))), D.marks_reply(("Err", NO[13]))] == [D.gives([1, 2, 3, 4, 5]), D.refuses(13)], True),
        ("replies: findings", lambda: [D.finding_reply(("Ok", True)), D.finding_reply(("Ok", False)), D.finding_reply(("Err", NO[13]))] == [D.gives([1]), D.gives([0]), D.refuses(13)], True),
        ("replies: forecast, cut sets, kinds, bags", lambda: [f(("Ok", 9)) for f in (D.forecast_reply, D.cuts_reply, D.attacker_reply, D.bags_reply)] == [D.gives([9])] * 4, True),
        ("replies: their refusals", lambda: [f(("Err", NO[13])) for f in (D.forecast_reply, D.cuts_reply, D.attacker_reply, D.bags_reply)] == [D.refuses(13)] * 4, True),
        ("replies: next", lambda: [D.next_reply(("Ok", 5)), D.next_reply(("Ok", None)), D.next_reply(("Err", NO[21]))] == [D.gives([1, 5]), D.gives([0]), D.refuses(21)], True),
    ]


def of_told(D):
    """What C is told."""
    score = lambda target, n, x: D.Told(D.score_call(False, bench, target), n, x, [])
    way = lambda set_, n, x, a, b: D.Told(D.way_call(bench, ORDER, set_, [9, 9], [8, 8]), n, x, [a, b])
    runs = [(text(BENCH), [], [])]
    return [
        ("told: score 1", lambda: score(ORDER, 0, [1]), True),
        ("not told: another score", lambda: score(ORDER, 0, [3]), False),
        ("not told: no score", lambda: score(ORDER, 0, [0]), False),
        ("not told: score 1 as a refusal's", lambda: score(ORDER, 13, [1]), False),
        ("told: 13, and 0 for the score", lambda: score(5, 13, [0]), True),
        ("not told: 13, and a score", lambda: score(5, 13, [1]), False),
        ("told: way, B6", lambda: way(2, 0, [1, 2], [3, 4], [0, 1]), True),
        ("told: way, shut", lambda: way(4, 0, [0, 0], [9, 9], [8, 8]), True),
        ("not told: way, shut in two steps", lambda: way(4, 0, [0, 2], [9, 9], [8, 8]), False),
        ("check: bench", lambda: D.among(runs=runs, setups=[])(lambda: D.asks_reached(bench).Yes()), True),
        ("not check: no item", lambda: D.among(runs=runs, setups=[])(lambda: D.asks_reached(EMPTY).Yes()), False),
        ("check: 12", lambda: D.asks_reached(EMPTY).number == 12, True),
    ]


def of_words(D):
    """Words that say a setup, and words that say none."""
    words, held = words_of(bench), words_of(TAKEN)
    kind2, last2 = words[:1] + [2] + words[2:], words[:253] + [2] + words[254:]
    rank2, row2 = words[:4] + [2] + words[5:], words[:257] + [6] + words[258:]
    lists = [words, words + [7], words[:-1], [], kind2, last2, rank2, held]
    return [
        ("says: bench", lambda: D.SaysSetup(words) and D.says_setup(words), True),
        ("says: with a word behind", lambda: D.SaysSetup(words + [7]) and D.says_setup(words + [7]), True),
        ("not says: a word too few", lambda: D.SaysSetup(words[:-1]) or D.says_setup(words[:-1]), False),
        ("not says: a kind of 2", lambda: D.SaysSetup(kind2) or D.says_setup(kind2), False),
        ("not says: the last place's kind is 2", lambda: D.SaysSetup(last2) or D.says_setup(last2), False),
        ("says: a rank of 2", lambda: D.SaysSetup(rank2) and D.says_setup(rank2), True),
        ("word at: 0 behind the end", lambda: D.word_at([7], 1) == 0, True),
        ("says: a row of two vertices behind the last kind", lambda: D.SaysSetup(row2) and D.says_setup(row2), True),
        ("kinds said: of the first place", lambda: D.kinds_said(1, [0, 1]), True),
        ("not kinds said: of the second", lambda: D.kinds_said(2, [0, 1, 0, 0, 0, 2]), False),
        ("kinds said: of one place, whatever the second is", lambda: D.kinds_said(1, [0, 1, 0, 0, 0, 2]), True),
        ("places: held and opened", lambda: held[D.held_place] == 2 and held[D.opened_place] == 26, True),
        ("spelt: the mail password held", lambda: D.spelt(held) == TAKEN, True),
        ("setup in words", lambda: D.setup_in(words) == bench and D.setup_in(words_of(EMPTY)) == EMPTY, True),
        ("setup in words: none", lambda: D.setup_in(kind2) == EMPTY and D.setup_in(words[:-1]) == EMPTY, True),
        ("strict", lambda: D.among(words=lists, setups=[bench, TAKEN, EMPTY], rests=[[], [7]])(D.Strict), True),
    ]


def of_readings(D):
    """What C is told of a sheet: its reading, and an item's name."""
    sheet, five = text(BENCH), REFUSED["refused 5"][0]
    words, none = words_of(bench), words_of(EMPTY)
    lent = lambda n: [9] * n
    name = lambda t, i, n, v: D.Fulfils(D.name_call(t, i), ended(D, n, v))
    return [
        ("reading: bench, equal room", lambda: D.ReadingCall(sheet, 0, 0, lent(1283), words), True),
        ("reading: bench, more room", lambda: D.ReadingCall(sheet, 0, 0, lent(1285), words + lent(2)), True),
        ("not reading: a place behind changed", lambda: D.ReadingCall(sheet, 0, 0, lent(1283), words + [9, 0]), False),
        ("not reading: equal room unused", lambda: D.ReadingCall(sheet, 0, 0, lent(1283), lent(1283)), False),
        ("not reading: 15 with equal room", lambda: D.ReadingCall(sheet, 15, 0, lent(1283), words), False),
        ("reading: 15 with a place too few", lambda: D.ReadingCall(sheet, 15, 0, lent(1282), lent(1282)), True),
        ("not reading: a place too few, and 0", lambda: D.ReadingCall(sheet, 0, 0, lent(1282), lent(1282)), False),
        ("not reading: 15 with a place changed", lambda: D.ReadingCall(sheet, 15, 0, lent(1282), words[:1282]), False),
        ("reading: refused 5 in line 2", lambda: D.ReadingCall(five, 5, 2, lent(1283), none), True),
        ("not reading: refused 5 in another line", lambda: D.ReadingCall(five, 5, 3, lent(1283), none), False),
        ("not reading: number for line", lambda: D.ReadingCall(five, 2, 5, lent(1283), none), False),
        ("not reading: refused, and the words as they were", lambda: D.ReadingCall(five, 5, 2, lent(1283), lent(1283)), False),
        ("reading: refused 5 without room", lambda: D.ReadingCall(five, 5, 2, [], []), True),
        ("not reading: 15 before 5", lambda: D.ReadingCall(five, 15, 2, [], []), False),
        ("name: mail at 69", lambda: name(sheet, MAIL, 0, [69, 4]), True),
        ("not name: order's place", lambda: name(sheet, MAIL, 0, [84, 5]), False),
        ("not name: a byte too many", lambda: name(sheet, MAIL, 0, [69, 5]), False),
        ("not name: the size alone", lambda: name(sheet, MAIL, 0, [4]), False),
        ("not name: 13 of an item that is there", lambda: name(sheet, MAIL, 13, []), False),
        ("name: 13", lambda: name(sheet, 5, 13, []), True),
        ("not name: no item, and 0", lambda: name(sheet, 5, 0, [0, 0]), False),
        ("name: refused 5", lambda: name(five, 0, 5, []), True),
        ("not name: 13 before 5", lambda: name(five, 0, 13, []), False),
        ("holds name: mail", lambda: D.HoldsName(sheet, MAIL, D.NamePart(69, 4)), True),
        ("not holds name: another place", lambda: D.HoldsName(sheet, MAIL, D.NamePart(68, 4)), False),
        ("not holds name: the same bytes in the row above", lambda: D.HoldsName(sheet, MAIL, D.NamePart(40, 4)), False),
        ("not holds name: its first bytes", lambda: D.HoldsName(sheet, MAIL, D.NamePart(69, 3)), False),
        ("asks sheet: bench", lambda: D.asks_sheet(sheet).Yes(), True),
        ("asks sheet: its own number", lambda: D.asks_sheet(five).number == 5 and not D.asks_sheet(five).Yes(), True),
        ("read back", lambda: D.among(texts=[sheet, five], numbers=[0, 5, 15], lines=[0, 2], entries=[lent(1283), lent(10)], exits=[lent(1283), lent(10), words, none])(D.ReadBack), True),
    ]


def of_demands(D):
    """What demands 1 and 2 ask of a call: right answers, and wrong ones."""
    outcomes = [ended(D, n, v) for n in (0, 12, 13, 14) for v in ([], [0], [1], [2], [26], [26, 2], [26, 3])]
    lists = [ended(D, n, v, x) for n, v, x in ((0, [2, 2], [2, 5, 3, 6]), (0, [2, 2], [5, 2, 3, 6]), (0, [0, 0], LENT[:4]), (15, [], LENT[:4]), (13, [], LENT[:4]))]
    ways = [ended(D, n, v, x, y) for n, v, x, y in ((0, [1, 2], [3, 4], [0, 1]), (0, [1, 2], [3, 4], [9, 9]), (0, [0], [9, 9], [9, 9]), (15, [], [9, 9], [9, 9]))]
    call = lambda q, o, s=bench: D.among(outcomes=outcomes + lists + ways)(lambda: D.SettledOn(s, D.MadeCall(q, o)))
    docs, runs = [BENCH_DOC, DOC], [(t, [], []) for t in (text(BENCH), render(DOC))]
    on_way = [bench]
    five, over = REFUSED["refused 5"][0], REFUSED["refused 11"][0]
    right = D.accepted(bench)
    unsettled = [("accepted in line 1", right._replace(line=1)), ("12", D.refused(12, 0)), ("refused, and a setup", D.refused(5, 2)._replace(setup=bench))]
    readings = [right, D.accepted(EMPTY), right._replace(line=1), D.refused(5, 2), D.refused(2, 5), D.refused(11, 4)]
    names = [(list(b"ordpw"), 126), (list(b"mail"), 169), (list(b"mail"), 100), ([], 100), ([], 0)]
    numbers = [0, 1, 3, 13, never, never + 12, never + 13, never + 5]
    return [
        ("the sheet's numbers: 1 to 11", lambda: D.sheet_numbers == tuple(range(1, 12)), True),
        ("every: all small", lambda: D.Every(lambda x: x < 3, [1, 2]), True),
        ("not every: the second", lambda: D.Every(lambda x: x < 3, [1, 3]), False),
        ("made: a request, its reply, its lists", lambda: D.made(("Lost", 2), D.gives([10]), [[9]]) == D.MadeCall(("Lost", 2), ended(D, 0, [10], [9])), True),
        ("settled: closure of mailpw", lambda: call(("Closure", 2), ended(D, 0, [26, 3])), True),
        ("settled: closure, 14", lambda: call(("Closure", 32), ended(D, 14, [])), True),
        ("settled: closure, 12", lambda: call(("Closure", 2), ended(D, 12, []), EMPTY), True),
        ("not settled: the set handed back", lambda: call(("Closure", 2), ended(D, 0, [2, 1])), False),
        ("settled: lost set of mailpw", lambda: call(("Lost", 2), ended(D, 0, [10])), True),
        ("settled: backdoor of order", lambda: call(("Backdoor", ORDER), ended(D, 0, [1])), True),
        ("settled: score of order", lambda: call(("ScoreOf", False, ORDER), ended(D, 0, [1])), True),
        ("settled: way from mailpw", lambda: call(("WayTo", ORDER, 2, [9, 9], [9, 9]), ways[0]), True),
        ("settled: lists of order", lambda: call(("BothBases", ORDER, LENT[:4]), lists[0]), True),
        ("not settled: lists in another order", lambda: call(("BothBases", ORDER, LENT[:4]), lists[1]), False),
        ("fulfilled: score of order", lambda: D.FulfilledOn(bench, D.MadeCall(("ScoreOf", False, ORDER), ended(D, 0, [1]))), True),
        ("not fulfilled: the risk", lambda: D.FulfilledOn(bench, D.MadeCall(("ScoreOf", False, ORDER), ended(D, 0, [3]))), False),
        ("settled: question 12 of bench", lambda: D.SettledYesNo(D.among(runs=runs, setups=on_way)(lambda: D.Reached(bench)), True), True),
        ("not settled: question 12 of no item is yes", lambda: D.SettledYesNo(D.among(runs=runs, setups=on_way)(lambda: D.Reached(EMPTY)), True), False),
        ("settled: reading of bench", lambda: D.among(docs=docs, readings=readings)(lambda: D.SettledReading(text(BENCH), right)), True),
        ("settled: reading, refused 5 in line 2", lambda: D.among(docs=docs, readings=readings)(lambda: D.SettledReading(five, D.refused(5, 2))), True),
        ("settled: reading, refused 11 in line 4", lambda: D.among(docs=docs, readings=readings)(lambda: D.SettledReading(over, D.refused(11, 4))), True),
        ("not settled: bench refused", lambda: D.among(docs=docs, readings=readings)(lambda: D.SettledReading(text(BENCH), D.refused(5, 2))), False),
        ("settled: name of mail", lambda: D.among(docs=docs, parts=names)(lambda: D.SettledName(text(BENCH), MAIL, 100, list(b"mail"), 169)), True),
        ("settled: name of no item", lambda: D.among(docs=docs, parts=names)(lambda: D.SettledName(text(BENCH), 5, 100, [], 100)), True),
        ("settled: name in a refused sheet", lambda: D.among(docs=docs, parts=names)(lambda: D.SettledName(five, 0, 100, [], 100)), True),
        ("not settled: the name of another item", lambda: D.among(docs=docs, parts=names)(lambda: D.SettledName(text(BENCH), MAIL, 100, list(b"ordpw"), 126)), False),
        ("not settled: the portal's number, where another is right", lambda: D.among(numbers=numbers)(lambda: D.SettledPortal(False, text(BENCH), ORDER, 3)), False),
        ("settled: the portal's never", lambda: D.among(numbers=[])(lambda: D.SettledPortal(False, text(BENCH), ORDER, never)), True),
        ("not settled: the portal's number with 12", lambda: D.among(numbers=[])(lambda: D.SettledPortal(False, text(BENCH), ORDER, never + 12)), False),
        *((f"not settled: reading, {n}", lambda r=r: D.among(docs=docs, readings=[])(lambda: D.SettledReading(text(BENCH), r)), False) for n, r in unsettled),
        ("named: ordpw", lambda: D.among(docs=docs)(lambda: D.Named(text(BENCH), 0, 100, list(b"ordpw"), 126)), True),
        ("named: no item", lambda: D.among(docs=docs)(lambda: D.Named(text(BENCH), 5, 100, [], 100)), True),
        ("not settled: no part at another place", lambda: D.among(docs=docs, parts=[])(lambda: D.SettledName(five, 0, 100, [], 0)), False),
        ("not settled: the name at another place", lambda: D.among(docs=docs, parts=names)(lambda: D.SettledName(text(BENCH), MAIL, 100, list(b"mail"), 100)), False),
        ("not settled: another name at its place", lambda: D.among(docs=docs, parts=names)(lambda: D.SettledName(text(BENCH), MAIL, 100, list(b"mall"), 169)), False),
        ("not reads: refused, and a setup", lambda: D.among(docs=docs)(lambda: D.Reads(five, D.refused(5, 2)._replace(setup=bench))), False),
        ("not named: other bytes at the name's place", lambda: D.among(docs=docs)(lambda: D.Named(text(BENCH), MAIL, 100, list(b"mall"), 169)), False),
        ("settled: the portal's number for order", lambda: D.among(numbers=numbers)(lambda: D.SettledPortal(False, text(BENCH), ORDER, 1)), True),
        ("settled: the portal's number for no item", lambda: D.among(numbers=numbers)(lambda: D.SettledPortal(False, text(BENCH), 5, never + 13)), True),
        ("settled: the portal's number for refused 5", lambda: D.among(numbers=numbers)(lambda: D.SettledPortal(True, five, 0, never + 5)), True),
        ("demand 3: reached, and 15", lambda: D.among(runs=runs, setups=[bench])(lambda: D.Demand3Reached(bench, ORDER, [D.MadeCall(("BothBases", ORDER, []), ended(D, 15, [], []))])), True),
        ("not demand 3: reached, and 13", lambda: D.among(runs=runs, setups=[bench])(lambda: D.Demand3Reached(bench, ORDER, [D.MadeCall(("ScoreOf", False, ORDER), ended(D, 13, []))])), False),
        ("demand 3: not reached, and 12", lambda: D.among(runs=runs, setups=[bench])(lambda: D.Demand3Reached(EMPTY, ORDER, [D.MadeCall(("ScoreOf", False, ORDER), ended(D, 12, []))])), True),
        ("demand 3: no item, and 13", lambda: D.among(runs=runs, setups=[bench])(lambda: D.Demand3Reached(bench, 5, [D.MadeCall(("ScoreOf", False, 5), ended(D, 13, []))])), True),
    ]


# What the calls of both demands answer, in one row.
Two = namedtuple("Two", "closure lost way quick backdoor idle pair forecast cuts attackers next bags lists formed compared reading score risk")


def answered(D, r):
    """The same as the code has it."""
    sets, findings = D.SetAnswers(r.closure, r.lost, r.way, r.quick), D.FindingAnswers(r.backdoor, r.idle, r.pair, r.formed)
    reading = ("Err", D.SheetRefusal(NO[r.reading.number], r.reading.line)) if r.reading.number else ("Ok", r.reading.setup)
    return D.AnswersStruct(sets, r.lists, findings, D.SheetAnswers(reading, r.score, r.risk), r.forecast, r.cuts, r.attackers, r.next, D.BagAnswers(r.compared, r.bags))


def of_both_demands(D):
    """Demands 1 and 2 whole: of an input that is answered and of ones that are refused, and with one answer replaced."""
    sheet, five, lent, out = text(BENCH), REFUSED["refused 5"][0], [9, 9], LENT[:4]
    three = D.AllAnswers(("Ok", D.Lengths(2, 2)), ("Ok", 1), ("Ok", 3), ("Ok", D.Marks(1, 0, 0, 0, 1)), ("Ok", D.Marks(2, 0, 0, 0, 0)))
    yes = Two(
        *[("Ok", D.Opened(26, 3)), ("Ok", 10), ("Ok", 2), ("Ok", D.QuickAnswer(True, 26)), ("Ok", True), ("Ok", False), ("Ok", True), ("Ok", 3), ("Ok", 2), ("Ok", 20)],
        *[("Ok", 5), ("Ok", 1), three, True, True, D.accepted(bench), 1, 3],
    )
    calls = Two._fields[:12]
    refused = lambda q: {**{n: ("Err", NO[q]) for n in calls}, "lists": D.AllAnswers(*[("Err", NO[q])] * 5)}
    outside = yes._replace(**refused(13), reading=D.refused(5, 2), score=never + 5, risk=never + 5)._replace(closure=("Err", NO[14]), lost=("Err", NO[14]))
    set_outside = yes._replace(risk=1, next=("Err", NO[21]), **{n: ("Err", NO[14]) for n in ("closure", "lost", "way", "quick")})
    malformed = yes._replace(**refused(12), formed=False)
    one_bag = [1] + [0] * 13
    values = ([0], [1], [3], [10], [0, 1], [26, 2], [26, 3], [1, 26], [0, 26], [1, 0, 0, 0, 1], [2, 0, 0, 0, 0], [20], [1, 5])
    outcomes = [ended(D, 0, v) for v in values] + [ended(D, n, []) for n in (0, 12, 13, 14, 21)]
    outcomes += [ended(D, 0, [2, 2], [2, 5, 3, 6]), ended(D, 0, [2, 2], out), ended(D, 0, [2], [3, 6]), ended(D, 0, [2], [6, 3]), ended(D, 15, [], lent)]
    outcomes += [ended(D, 0, [1, 2], [3, 4], [0, 1]), ended(D, 0, [1, 2], [3, 4], lent), ended(D, 0, [1], one_bag, [1]), ended(D, 0, [1], one_bag, [9])]
    readings = [D.accepted(bench), D.accepted(EMPTY), D.refused(5, 2), D.refused(2, 5)]
    registers = [D.with_slice(a, x) for a, x in REGISTERS]
    first, second, both = (render(d) for d in (*LABS, pooled(*LABS)))
    bytes_ = [35] * len(both)
    ends = [(Pooled(0, 0, 0, len(both)), both), (Pooled(24, 0, 0, 0), bytes_)]
    changed = [D.Redrawing(0, TAKEN), D.Redrawing(0, bench), D.Redrawing(13, bench)]
    words, held, none = words_of(bench), words_of(TAKEN), words_of(EMPTY)
    score = lambda n, x: (("ScoreOf", False, ORDER), bench, n, x, [])
    in_words = lambda n, x: (D.TakeIn(1), words, n, [], [x])
    named = lambda n, x: (sheet, MAIL, n, x, [])
    only = text([H1, "only a 5 - 0", "", H2])
    report = THE.Report("Start", None)
    lists, scores, pairs = (list(THE.rest_of(lambda v: THE.name_of(only, v), alone, c)) for c in ("Start", ("Scores", 0), ("Pairs", 0)))
    of_calls = {
        "outcomes": outcomes,
        "readings": readings,
        "docs": [BENCH_DOC, DOC, *LABS],
        "numbers": [0, 1, 3, 13, never, never + 5, never + 13],
        "registers": registers,
        "handed_in": [(bench, 1, 7, ORDER, False, (2, 6), o.answer, [R_BOTH, R_ANY], o.slice_) for o in registers],
        "withdrawn": [(1, 7, o.answer, [R_ONE, R_ANY], o.slice_) for o in registers],
        "pooled": [(first, second, r, bytes_, exit) for r, exit in ends],
        "ends": ends,
        "redrawn": [(D.TakeIn(1), bench, r) for r in changed],
        "redrawings": changed,
        "setups": [bench, TAKEN, EMPTY],
        "runs": [(sheet, [], []), (sheet, [D.TakeIn(1)], [0]), (five, [D.TakeIn(1)], [12])],
    }
    for_c = {
        "called": [score(0, [1]), score(0, [3]), score(13, [0])],
        "changed": [in_words(0, held), in_words(0, words), in_words(13, words)],
        "named": [named(0, [69, 4]), named(0, [4, 69]), named(13, [0, 0])],
        "told": [(n, x, l) for n in (0, 13) for x in ([1], [3], [0], [], [69, 4], [4, 69], [0, 0]) for l in ([], [held], [words])],
        "words": [words, held, none],
        "entries": [(sheet, [9] * 1283)],
        "read": [(n, l, x) for n in (0, 15) for l in (0, 1) for x in ([9] * 1283, words)],
    }
    papers = {
        "begun": [(only, report, [0], [1], [0], [1], ROOM)],
        "parts": [[lists[: -len(scores)], scores], [lists], [scores]],
        "cursors": ["Start", ("Scores", 0), "End"],
        "fills": [*filled(lists, "End"), *filled(scores, "End"), *filled(lists[: -len(scores)], ("Scores", 0))],
        "quick": [(bench, ORDER, 2)],
        "routes": [(bench, less_recovery(bench)), (bench, bench.graph)],
        "compared": [(bench, ORDER, 1, 4), (bench, ORDER, 4, 1)],
        "sheets": [sheet],
        "texts": [sheet, five],
        "lived": [(sheet, 0, 0, [9] * 1283, words, [D.TakeIn(1)], [0], held), (five, 5, 2, [9] * 1283, none, [D.TakeIn(1)], [12], none)],
        "requests": [(("Closure", 2), ended(D, 0, [26, 3])), (("ScoreOf", True, ORDER), ended(D, 0, [3]))],
        "hand_ins": [(0, 7, ORDER, False, [2], Registered(26, 0), [], [])],
        "names": [list(b"g")],
        "labs": [(first, second, both)],
        "slices": [(bench, SLICE)],
        "logs": [afternoon(*DAY)],
    }
    # the setups at which the lists of calls end, where the papers' sentences are asked, and the buffers, where the demands are
    sentences, demands = {**of_lines(), **of_calls, **for_c, **papers, **of_drawings(), "ends": [bench, TAKEN, EMPTY]}, {**of_lines(), **of_calls, **for_c}
    listed = [out, [2, 5, 3, 6], lent, [3, 6], [9] * 14, one_bag, [9], [1]]
    untouched = [lent, lent, lent, lent, out, out, lent, lent, [9] * 14, [9] * 14, [9], [9]]
    no_way, way = [lent, lent, lent, lent, *listed], [lent, [3, 4], lent, [0, 1], *listed]
    order, none_there = (sheet, ORDER, bench, 2, ORDER, MAIL, way), (five, 5, bench, 32, 5, MAIL, untouched)
    inputs = [
        ("order from mailpw", order, yes, True),
        ("a refused sheet, no item, no set", none_there, outside, True),
        ("a set outside", (sheet, MAIL, bench, 32, ORDER, MAIL, no_way), set_outside, True),
        ("a malformed setup", (sheet, ORDER, EMPTY, 2, ORDER, MAIL, untouched), malformed, True),
        ("mail and order the other way round", order, yes._replace(pair=("Ok", False)), False),
        ("the risk for the portal's score", order, yes._replace(score=3), False),
        ("no to question 12", order, yes._replace(formed=False), False),
        ("another line", none_there, outside._replace(reading=D.refused(5, 3)), False),
        ("both kinds and all above them", order, yes._replace(attackers=("Ok", 52)), False),
        ("the list's length for the forecast", order, yes._replace(forecast=("Ok", 2)), False),
        ("no to what mailpw opens", order, yes._replace(quick=("Ok", D.QuickAnswer(False, 26))), False),
        ("one cut set too few", order, yes._replace(cuts=("Ok", 1)), False),
        ("the first set for the next", order, yes._replace(next=("Ok", 2)), False),
        ("no to {2} at most {3, 6}", order, yes._replace(compared=False), False),
        ("one bag too many", order, yes._replace(bags=("Ok", 2)), False),
        ("the score for the risk", order, yes._replace(lists=three._replace(risk=("Ok", 1))), False),
    ]

    def demand(f, a, r):
        sheet_, item_, s, set_, target, other_, lists_ = a
        made_ = D.all_made(set_, target, other_, [2], [3, 6], APART, *lists_, answered(D, r))
        return f(sheet_, item_, s, made_, [2], [3, 6], answered(D, r))

    both_demands = [
        (f"{'' if ok else 'not '}demand {n}: {name}", lambda f=f, a=a, r=r, g=g: D.among(**g)(lambda: demand(f, a, r)), ok)
        for n, f, g in ((1, D.Demand1, demands), (2, D.Demand2, sentences))
        for name, a, r, ok in inputs
    ]
    return both_demands + [("settled for C", lambda: D.among(**demands)(D.SettledForC), True), ("the papers' sentences", lambda: D.among(**sentences)(D.Papers), True)]


def of_ring(D):
    """Document 003's example 5."""
    return [
        ("B8", lambda: D.Base(False, ring, ring.graph, 5, [5, 6, 9, 10]), True),
        ("not B8: one set", lambda: D.Base(False, ring, ring.graph, 5, [5]), False),
        ("B8: closure from device, pwd_manager", lambda: D.AccessFrom(ring.graph, 6, 63), True),
        ("counted: the ring's four", lambda: D.CountedSet(ring, 5, 15), True),
        ("transversal: where nothing can be lost", lambda: D.Transversal(ring, [5], 5), True),
        ("of initial: the ring's four", lambda: D.OfInitial(ring, 15), True),
        ("not keep initial: the second setup's are others", lambda: D.KeepInitial(15, [ring, bench]), False),
        ("keep initial: the ring's four", lambda: D.KeepInitial(15, [ring]), True),
    ]


def of_one(D):
    """One or two items."""
    return [
        ("score by kinds: nobody", lambda: D.AttackerScore(closed, [255], 0, 0), True),
        ("nobody in: where nothing opens it", lambda: D.among(asked=[(closed, [255], 0, r) for r in (0, 1)])(D.NobodyIn), True),
        ("nobody in: not where it opens itself", lambda: D.among(asked=[(alone, [5], 0, 32)])(D.NobodyIn), True),
        ("score by kinds: the target itself", lambda: D.AttackerScore(alone, [5], 0, 32), True),
        ("B9", lambda: D.Score(False, alone, alone.graph, 0, 5), True),
        ("B10", lambda: D.Score(False, closed, closed.graph, 0, 2**62), True),
        ("not B10: 2^62 + 1", lambda: D.Score(False, closed, closed.graph, 0, 2**62 + 1), False),
        ("not B10: 0", lambda: D.Score(False, closed, closed.graph, 0, 0), False),
        ("B11, no opening set", lambda: D.Base(False, loop, loop.graph, 0, []), True),
        ("B11, lockout set", lambda: D.Base(True, loop, loop.graph, 0, [1]), True),
        ("B12", lambda: D.Base(True, pair, pair.graph, 0, [1, 2]), True),
        ("not B12: {p}", lambda: D.Base(True, pair, pair.graph, 0, [1]), False),
        ("portal: never", lambda: D.PortalCall(False, text([H1, "only a - - 0", "", H2]), 0, 2**62), True),
        ("never against never: no backdoor", lambda: backdoor_call(D, closed, 0, 0, [0]), True),
        ("never against never: idle", lambda: idle_call(D, closed, 0, 0, [1]), True),
    ]


def of_spare(D):
    """What executable definitions mean, and some of them alone."""
    joined = read([H1, "a c 1 1 0", "b c 1 1 0", "t a - - 0", "", H2, "a t 0 0", "b t 0 0"])
    line = read([H1, "a c 1 - 0", *(f"{n} a - - 0" for n in "bcde"), "", H2, *(f"{f} {t} 0 0" for f, t in ("ab", "bc", "cd", "de"))])
    return [
        ("meaning: two that are needed together", lambda: D.among(handed=[[3], [1]])(lambda: D.Meaning(joined, joined.graph)), True),
        ("way: four steps, the last item last", lambda: D.way_of(5, line.graph, 4, 1) == tuple(Step(v, 0) for v in (1, 2, 3, 4)), True),
        ("marks from: right, then loose", lambda: D.marks_from([2, 3], [2], [], [2, 3]) == ("Right", "Loose"), True),
        ("lowest: none below 0, none below 2", lambda: (D.lowest(lambda i: False, 0), D.lowest(lambda i: False, 2)) == (0, 2), True),
        ("colour of: 8 where there is none", lambda: D.colour_of(empty_graph.rows[0], 3) == 8, True),
        ("count of: 1 where nothing can be added", lambda: D.count_of(False, 0, empty_graph, 0, 5) == 1, True),
        ("sets up to: of two vertices", lambda: [D.sets_up_to(lambda v: True, 2, k) for k in (0, 2)] == [(0,), (0, 1, 2, 3)], True),
        ("numbers from: 3 and 4", lambda: D.numbers_from(3, 2) == (3, 4), True),
        ("no easier route: useful recovery", lambda: D.NoEasierRoute(useful), True),
        ("meaning: the executable definitions", lambda: D.among(handed=[[1, 2, 1], [3, 4], []])(lambda: D.Meaning(spare, spare.graph)), True),
        ("report meaning", lambda: D.ReportMeaning(spare), True),
        ("graph of: its own, and that without recovery", lambda: D.GraphOf(spare, spare.graph) and D.GraphOf(spare, less_recovery(spare)), True),
        ("not graph of: an edge from beyond the count", lambda: D.GraphOf(spare, with_row(spare.graph, 1, 0, 8)), False),
        ("not graph of: an edge to beyond the count", lambda: D.GraphOf(spare, with_row(spare.graph, 3, 0, 1)), False),
        ("not graph of: 63 places", lambda: D.GraphOf(spare, Graph(spare.graph.rows[:63])), False),
        ("without recovery: a mixed colour", lambda: D.WithoutRecovery(mixed, with_row(mixed.graph, MAIL, 1, 0)), True),
        ("not without recovery: the marked edge alone", lambda: D.WithoutRecovery(mixed, with_row(mixed.graph, MAIL, 1, 2)), False),
        ("not without recovery: all colours of the vertex", lambda: D.WithoutRecovery(mixed, empty_graph), False),
        ("not without recovery: a mixed colour stays", lambda: D.WithoutRecovery(mixed, mixed.graph), False),
        ("without recovery: the colour of another vertex stays", lambda: D.WithoutRecovery(other, with_row(other.graph, MAIL, 1, 0)), True),
        ("no easier route: a mixed colour", lambda: D.NoEasierRoute(mixed), True),
        ("backdoor: a mixed colour", lambda: backdoor_call(D, mixed, MAIL, 0, [1]), True),
        ("not backdoor: a mixed colour has none", lambda: backdoor_call(D, mixed, MAIL, 0, [0]), False),
        ("not idle: recovery by a mixed colour", lambda: idle_call(D, useful, MAIL, 0, [0]), True),
        ("not idle: recovery by a mixed colour is", lambda: idle_call(D, useful, MAIL, 0, [1]), False),
        ("without marked: a mixed colour", lambda: D.WithoutMarked(mixed, with_row(mixed.graph, MAIL, 1, 2)), True),
        ("not without marked: the whole colour", lambda: D.WithoutMarked(mixed, with_row(mixed.graph, MAIL, 1, 0)), False),
        ("not without marked: 63 places", lambda: D.WithoutMarked(mixed, Graph(THE.less_marked(mixed).rows[:63])), False),
        ("graphs without recovery: 64 places", lambda: [len(f(mixed).rows) for f in (D.less_marked, D.less_recovery)] == [64, 64], True),
        ("unmixed: bench", lambda: D.Unmixed(bench), True),
        ("not unmixed: a mixed colour", lambda: D.Unmixed(mixed), False),
        ("unmixed: colours with and without recovery", lambda: D.Unmixed(spare), True),
        ("unmixed prints: a mixed colour", lambda: D.UnmixedPrints(text(MIXED)), True),
        ("unmixed prints: colours with and without recovery", lambda: D.UnmixedPrints(text(SPARE)), True),
        ("unmixed prints: a refused sheet", lambda: D.UnmixedPrints(REFUSED["refused 5"][0]), True),
    ]


def of_rows(D):
    """Rows as data."""
    return [
        ("each: all small", lambda: D.Each(lambda x: x < 3, [1, 2]), True),
        ("not each: the second", lambda: D.Each(lambda x: x < 3, [1, 3]), False),
        ("apart: rising", lambda: D.Apart(lambda x, y: x > y, [1, 2, 3]), True),
        ("not apart: the second and the third", lambda: D.Apart(lambda x, y: x > y, [1, 3, 2]), False),
        ("known: the second name", lambda: D.Known(DOC.items, list(b"box")), True),
        ("not known: another name", lambda: D.Known(DOC.items, list(b"b")), False),
        ("same name", lambda: D.SameName(item("a", 1), item("a", 2)), True),
        ("not same name", lambda: D.SameName(item("a", 1), item("b", 1)), False),
        ("same edge, recovery or not", lambda: D.SameEdge(edge("a", "b", 1), edge("a", "b", 1, True)), True),
        ("not same edge: the other way", lambda: D.SameEdge(edge("a", "b", 1), edge("b", "a", 1)), False),
        ("not same edge: another colour", lambda: D.SameEdge(edge("a", "b", 1), edge("a", "b", 2)), False),
        ("not same edge: another end", lambda: D.SameEdge(edge("a", "b", 1), edge("a", "c", 1)), False),
        ("valid item", lambda: D.ValidItem(item("a", 0, 4000000000, 9)), True),
        ("not valid item: no name", lambda: D.ValidItem(item("")), False),
        ("not valid item: rank 10", lambda: D.ValidItem(item("a", rank=10)), False),
        ("valid edge: colour 7", lambda: D.ValidEdge(DOC.items, edge("pw", "box", 7)), True),
        ("not valid edge: colour 8", lambda: D.ValidEdge(DOC.items, edge("pw", "box", 8)), False),
        ("valid: 64 names of 16 bytes, 256 edges", lambda: D.Valid(LONG_NAMES), True),
    ]


def of_bytes(D):
    """Bytes and fields at their bounds."""
    among = lambda test, bytes_: [b for b in range(256) if test(b)] == sorted(bytes_)
    return [
        ("digits", lambda: among(D.is_digit, b"0123456789"), True),
        ("bytes of a name", lambda: among(D.is_name_byte, b"0123456789_abcdefghijklmnopqrstuvwxyz"), True),
        ("bytes of a text", lambda: among(D.is_text_byte, [10, *range(32, 127)]), True),
        ("not number: nothing", lambda: D.is_number([]), False),
        ("decimal: the last 20 digits", lambda: D.decimal(10**20 + 7) == tuple(b"00000000000000000007"), True),
        ("number in: as many as there are, for a name that is not there", lambda: D.number_in(DOC.items, list(b"zz")) == 2, True),
    ]


def of_stated(D):
    """What rows state."""
    used = with_vertex(bench, 5, Vertex(Account, None, None, 0))
    fields = zip("kind start loss rank".split(), (Vertex(Account, 1, 2, 3), Vertex(Credential, 2, 2, 3), Vertex(Credential, 1, 1, 3), Vertex(Credential, 1, 2, 2)))
    return [
        ("joins: ordpw and order", lambda: D.Joins(BENCH_DOC, 0, ORDER, 0, edge("ordpw", "order")), True),
        ("not joins: a row that is not there", lambda: D.Joins(BENCH_DOC, 0, MAIL, 5, edge("ordpw", "mail", 5)), False),
        ("stated: bench", lambda: D.Stated(BENCH_DOC, bench), True),
        ("not stated: another start", lambda: D.Stated(BENCH_DOC, with_vertex(bench, 0, Vertex(Credential, 2, 2, 0))), False),
        ("not stated: 63 vertices", lambda: D.Stated(BENCH_DOC, bench._replace(vertices=bench.vertices[:63])), False),
        ("not stated: 6 items", lambda: D.Stated(BENCH_DOC, bench._replace(count=6)), False),
        ("not stated: something opened", lambda: D.Stated(BENCH_DOC, bench._replace(opened=24)), False),
        ("has fields", lambda: D.HasFields(item("a", 1, 2, 3), Vertex(Credential, 1, 2, 3)), True),
        *((f"not has fields: another {n}", lambda v=v: D.HasFields(item("a", 1, 2, 3), v), False) for n, v in fields),
        ("not stated: a place in use", lambda: D.Stated(BENCH_DOC, used), False),
        ("not stated: an item held", lambda: D.Stated(BENCH_DOC, bench._replace(held=2)), False),
        ("not stated: an edge more", lambda: D.Stated(BENCH_DOC, bench._replace(graph=with_row(bench.graph, MAIL, 0, 3))), False),
        ("not stated: no recovery edge", lambda: D.Stated(BENCH_DOC, bench._replace(recovery=with_row(bench.recovery, ORDER, 1, 0))), False),
        ("stated by rows", lambda: D.among(docs=[DOC, one_item(), SAME_NAMES])(D.StatedByRows), True),
        ("stated once", lambda: D.among(docs=[BENCH_DOC, DOC], setups=[bench, setup_of(DOC)])(D.StatedUnique), True),
    ]


def of_meaning(D):
    """What reading a sheet means."""
    return [
        ("accepted of valid", lambda: D.among(docs=DOCS)(D.AcceptedOfValid), True),
        ("valid of accepted", lambda: D.among(texts=TEXTS + [render(d) for d in DOCS], docs=DOCS + [BENCH_DOC])(D.ValidOfAccepted), True),
        ("only yeses", lambda: D.OnlyYeses([D.Asked(4, True), D.Asked(5, True)]), True),
        ("not only yeses: the second", lambda: D.OnlyYeses([D.Asked(4, True), D.Asked(5, False)]), False),
        ("first no: 5", lambda: D.FirstNo([D.Asked(4, True), D.Asked(5, False), D.Asked(6, False)], 5), True),
        ("not first no: 6 behind 5", lambda: D.FirstNo([D.Asked(4, True), D.Asked(5, False), D.Asked(6, False)], 6), False),
        ("not first no: 4, a yes", lambda: D.FirstNo([D.Asked(4, True), D.Asked(5, False)], 4), False),
        ("refusal law", lambda: D.among(texts=TEXTS, numbers=NUMBERS, lines=LINES)(D.RefusalLaw), True),
        ("refusal unique", lambda: D.among(texts=TEXTS[:6] + TEXTS[10:11], numbers=NUMBERS, lines=LINES)(D.RefusalUnique), True),
        ("with row, with item: behind the others", lambda: (D.with_row(DOC, MANY[0]).edges[-1], D.with_item(DOC, item("z")).items[-1]) == (MANY[0], item("z")), True),
        ("questions: of an item row, and of an edge row", lambda: [[a.number for a in f(DOC, [])] for f in (D.item_questions, D.edge_questions)] == [[4, 5, 6, 7], [4, 5, 8, 9, 7]], True),
        ("question 11: the second header", lambda: [D.question11(p) for p in ("AtFirstHeader", "AmongItems", "AtSecondHeader", "AmongEdges")] == [False, False, False, True], True),
        ("not too long: 16,384 bytes", lambda: D.TooLong([10] * 16384, 1, 0), False),
        ("not no text: too long", lambda: D.NoText([0] * 16385, 2, 0), False),
        ("not refused 11: bench", lambda: D.NoAtEnd(text(BENCH), 11, 13), False),
        ("not refused 3: too long", lambda: D.NoAtLine([10] * 16385, 3, 1), False),
        ("not refused 3: no text", lambda: D.NoAtLine([110, 1, 10], 3, 1), False),
        ("name begins: mail", lambda: D.NameBegins(text(BENCH), text(BENCH)[:69], list(b"mail"), MAIL), True),
        ("not name begins: other bytes", lambda: D.NameBegins(text(BENCH), text(BENCH)[:69], list(b"mall"), MAIL), False),
        ("not name begins: the same bytes in the row above", lambda: D.NameBegins(text(BENCH), text(BENCH)[:40], list(b"mail"), MAIL), False),
        ("accepted: bench", lambda: D.Accepted(text(BENCH)), True),
        ("not accepted: refused 5", lambda: D.Accepted(REFUSED["refused 5"][0]), False),
        ("refused: with 5 in line 2", lambda: D.among(numbers=NUMBERS, lines=LINES)(lambda: D.Refused(REFUSED["refused 5"][0])), True),
        ("refused: with 11 in line 4", lambda: D.among(numbers=NUMBERS, lines=LINES)(lambda: D.Refused(REFUSED["refused 11"][0])), True),
        ("refused: with 1 in line 0", lambda: D.among(numbers=NUMBERS, lines=LINES)(lambda: D.Refused(REFUSED["refused 1"][0])), True),
        ("not refused: bench", lambda: D.among(numbers=NUMBERS, lines=LINES)(lambda: D.Refused(text(BENCH))), False),
        ("empty setup", lambda: D.EmptySetup(), True),
        ("accepted or refused", lambda: D.among(texts=TEXTS, numbers=NUMBERS, lines=LINES)(D.AcceptedOrRefused), True),
        ("question 12: setups and sheets", lambda: D.among(setups=[bench, setup_of(DOC), EMPTY, RANK_10, TAKEN], texts=TEXTS)(D.Question12Sheets), True),
        ("fresh: nothing is held", lambda: D.among(texts=TEXTS)(D.FreshHoldsNothing), True),
        ("names of rows", lambda: D.among(docs=DOCS)(D.NamesOfRows), True),
        ("name places", lambda: D.among(docs=DOCS)(D.NamePlaces), True),
    ]


def of_written_rows(D):
    """A row of two bytes, 7 and 8, written into a buffer of six from place 2 on."""
    entry = [1, 2, 3, 4, 5, 6]
    wrong = [
        ("a byte late", [1, 2, 3, 7, 8, 6], 4),
        ("a byte early", [1, 7, 8, 4, 5, 6], 4),
        ("its last byte another", [1, 2, 7, 9, 5, 6], 4),
        ("a byte in front changed", [1, 0, 7, 8, 5, 6], 4),
        ("a byte behind changed", [1, 2, 7, 8, 0, 6], 4),
        ("the rest cleared", [1, 2, 7, 8, 0, 0], 4),
        ("counted one short", [1, 2, 7, 8, 5, 6], 3),
        ("counted one more", [1, 2, 7, 8, 5, 6], 5),
        ("counted from the front", [1, 2, 7, 8, 5, 6], 2),
    ]
    full = [1, 2, 3, 4, 7, 8]
    return [
        ("row: written from place 2 on", lambda: D.RowWritten(entry, 2, [7, 8], [1, 2, 7, 8, 5, 6], 4), True),
        ("row: up to the buffer's end", lambda: D.RowWritten(entry, 4, [7, 8], full, 6), True),
        ("row: none, and nothing changed", lambda: D.RowWritten(entry, 3, [], entry, 3), True),
        ("not row: none, and a byte changed", lambda: D.RowWritten(entry, 3, [], [1, 2, 3, 0, 5, 6], 3), False),
        ("not row: a buffer that grew", lambda: D.RowWritten(entry[:4], 4, [7, 8], full, 6), False),
    ] + [("not row: " + name, lambda x=x, r=r: D.RowWritten(entry, 2, [7, 8], x, r), False) for name, x, r in wrong]


# a list with room for any target's sets, as one that keeps its hash
ROOM = THE._made.names["_Kept"]([0] * 2**14)
ROOM.is_plain = True


def filled(p, *cursors):
    """Calls that leave the bytes p in front of a longer buffer, and go on at one of these places."""
    return [([35] * (len(p) + 1), [*p, 35], THE.StepStruct(c, len(p))) for c in cursors]


def of_whole(D):
    """The report of a sheet with one item, in parts; and that of a refused sheet. What is known at a place is left open here."""
    sheet, refused = text([H1, "only a 5 - 0", "", H2]), REFUSED["refused 5"][0]
    name, row = lambda v: THE.name_of(sheet, v), ("Refused", 5, 2)
    lists, scores, pairs = (list(THE.rest_of(name, alone, c)) for c in ("Start", ("Scores", 0), ("Pairs", 0)))
    cut = [lists[: -len(scores)], scores[: -len(pairs)] if pairs else scores, pairs]
    cursors = ["Start", ("Scores", 0), ("Pairs", 0), row, "End"]
    at = lambda c: THE.Report(c, None)
    begun = lambda sheet_, c, *tables: D.Begun(sheet_, at(c), *tables)
    parts = [cut, [lists], cut[:1], cut[1:], [cut[0] + cut[1], cut[2]], [list(b"refused 5 2\n")], []]
    calls = [call for p in {tuple(p): p for ps in [*parts, [cut[0][:-1]]] for p in ps}.values() for call in filled(p, *cursors)]
    to_end = lambda c, ps: D.among(cursors=cursors, fills=calls)(lambda: D.Fills(sheet, None, [5], [6], [0], c, ps))
    fills = lambda p, d, *made_: D.among(fills=made_)(lambda: D.Filled(sheet, None, [5], [6], [0], "Start", p, [0], d))
    starts = [(sheet_, at(c), [0], [1], *kept, room) for sheet_ in (sheet, refused) for c in cursors for kept, room in ((([0], [1]), ROOM), (([0], [1]), [0]), (([0], [2]), ROOM))]
    return [
        ("whole: begun at the start", lambda: begun(sheet, "Start", [0], [1], [5], [6]), True),
        ("not whole: begun in the middle", lambda: begun(sheet, ("Scores", 0), [0], [1], [5], [6]), False),
        ("whole: a refused sheet whose tables are kept", lambda: begun(refused, row, [0], [1], [0], [1]), True),
        ("not whole: a refused sheet whose first table is written", lambda: begun(refused, row, [0], [1], [5], [1]), False),
        ("not whole: a refused sheet whose tables are written", lambda: begun(refused, row, [0], [1], [0], [2]), False),
        ("whole: two parts to the end", lambda: to_end("Start", cut), True),
        ("not whole: one part, and not the end", lambda: to_end("Start", cut[:1]), False),
        ("not whole: another part", lambda: to_end("Start", [cut[0][:-1], *cut[1:]]), False),
        ("whole: texts in one", lambda: D.in_one([[1, 2], [3]]) == (1, 2, 3), True),
        ("filled: all of it", lambda: fills(lists, "End", *filled(lists, "End")), True),
        ("not filled: other bytes in front", lambda: fills(lists[:-1], "End", *filled(lists, "End")), False),
        ("not filled: goes on elsewhere", lambda: fills(cut[0], "End", *filled(cut[0], ("Scores", 0))), False),
        ("not filled: a step that leaves out a row", lambda: fills(cut[0], "End", *filled(cut[0], "End")), False),
        ("whole report", lambda: D.among(begun=starts, parts=parts, cursors=cursors, fills=calls)(D.WholeReport), True),
    ]


def of_full_marks(D):
    """Full marks, less one count at a time."""
    names = ["repeated", "shut", "loose", "missing"]
    return [(f"not full: {n}", lambda i=i: D.Full(*[int(i == j) for j in range(4)]), False) for i, n in enumerate(names)]


def of_demand3(D):
    """Demand 3 of order, and with one answer replaced."""
    right = [ended(D, 0, [2, 2], [2, 5, 3, 6, 94]), ended(D, 0, [1]), ended(D, 0, [3]), ended(D, 0, [1, 0, 0, 0, 1]), ended(D, 0, [2, 0, 0, 0, 0])]
    others = [("score", 1, ended(D, 0, [4])), ("risk", 2, ended(D, 0, [1])), ("list", 0, ended(D, 0, [2, 2], LENT))]
    others += [("openings' marks", 3, ended(D, 0, [1, 0, 0, 0, 0])), ("lockouts' marks", 4, ended(D, 0, [0, 0, 2, 0, 2]))]
    three = lambda *outcomes: D.Demand3(bench, ORDER, LENT, [2], [3, 6], *outcomes)
    wrong = [(f"not demand 3: another {n}", lambda at=at, x=x: three(*right[:at], x, *right[at + 1:]), False) for n, at, x in others]
    return [("demand 3 of order", lambda: three(*right), True)] + wrong


def of_valid_rows(D):
    """Rows at each bound and beyond it."""
    return [(("valid: " if ok else "not valid: ") + n, lambda d=d: D.Valid(d), ok) for n, d, ok in ROWS]


def of_refusals(D):
    """Each refused sheet, and the same with another line and another number."""
    found = []
    for n, (t, q, k) in REFUSED.items():
        found.append((n, lambda t=t, q=q, k=k: D.Refusal(t, q, k), True))
        found.append((f"not {n}: another line", lambda t=t, q=q, k=k: D.Refusal(t, q, k + 1), False))
        found.append((f"not {n}: another number", lambda t=t, q=q, k=k: D.Refusal(t, q + 1, k), False))
    return found


def of_pools(D):
    """Two labs with the item g in both; one with another rank; one with five colours into g. `both` is the first two pooled, by hand."""
    g, none = item("g", rank=1, kind=Account), Doc([item("a", 1), item("g", rank=1, kind=Account)], [])
    first, second = LABS
    ranked, five = Doc([item("g", rank=2, kind=Account)], []), Doc([g], [edge("g", "g", c) for c in range(5)])
    wide, ranked_five = Doc([g], [edge("g", "g", c) for c in range(17)]), five._replace(items=ranked.items)
    docs, names = [first, second, ranked, five], [list(b"a"), list(b"g"), list(b"h")]
    a, b, r, f, n = (render(d) for d in (first, second, ranked, five, none))
    both = text([H1, "a c 1 - 0", "g a - - 1", "h c 2 - 0", "", H2, "a g 1 0", "h g 0 1", "g h 3 0"])
    other = render(pooled(second, first))
    bad = text([H1, "a c - -"])
    lent, end = [35] * (len(both) + 2), both + [35, 35]
    yes, no = Pooled(0, 0, 0, len(both)), lambda q, s=0, k=0: Pooled(q, s, k, 0)
    answers = [(yes, end), (yes, lent), (Pooled(0, 0, 0, len(other)), other + [35, 35]), (no(22), lent), (no(24), lent), (no(4, 2, 2), lent)]
    asked = [(a, b, both), (a, b, b), (a, b, n)]
    loops = lambda *cs: [edge("g", "g", c) for c in cs]
    beyond = [("65 items", Doc([item(f"n{i}") for i in range(65)], [])), ("15 starts", Doc([item(f"n{i}", 1) for i in range(15)], []))]
    beyond += [("15 losses", Doc([item(f"n{i}", None, 1) for i in range(15)], [])), ("257 edges", Doc([g], [edge("g", "g")] * 257)), ("a ninth colour", Doc([g], [edge("g", "g", 8)]))]
    long = [LONGEST, LONGEST._replace(edges=[])]
    z, w = render(Doc([item("z")], [])), render(Doc([g], []))
    # rows that are written as the first sheet is, and as the second is, with a line's end in a name
    odd = [("first", Doc([item("a c 1 - 0\ng", rank=1, kind=Account)], first.edges), second), ("second", first, Doc([item("g a - - 1\nh", 2)], second.edges))]

    printed = lambda first_, second_, out, said, answer, exit: D.among(printed=[(answer, lent, exit)], docs=docs)(lambda: D.Printed(first_, second_, out, said))

    def by_rows(f, d, e):
        t = render(pooled(d, e))
        return D.among(docs=[d, e])(lambda: f(a, b, [35] * len(t), D.with_buffer(Pooled(0, 0, 0, len(t)), t)))

    return [(f"not fits: {what}", lambda d=d: D.Fits(d), False) for what, d in beyond] + [
        ("agree: a storeroom", lambda: D.Agree(first.items, second.items), True),
        ("not agree: another rank", lambda: D.Agree(first.items, ranked.items), False),
        ("fits: both", lambda: D.Fits(pooled(first, second)), True),
        *((f"not call: pooled by rows of the {n} that are not valid", lambda d=d, e=e: by_rows(D.PoolsRows, d, e), False) for n, d, e in odd),
        *((f"not is pooled: by rows of the {n} that are not valid", lambda d=d, e=e: D.among(docs=[d, e])(lambda: D.IsPooled(a, b, render(pooled(d, e)))), False) for n, d, e in odd),
        ("not is pooled: another first sheet", lambda: D.among(docs=docs)(lambda: D.IsPooled(f, b, both)), False),
        ("not is pooled: another second sheet", lambda: D.among(docs=docs)(lambda: D.IsPooled(a, f, both)), False),
        ("not printed: the answer of another call", lambda: printed(a, b, [], text(["pool: refused 0 22 0"]), no(22), lent), False),
        ("not printed: another sheet", lambda: printed(a, b, a, [], yes, end), False),
        ("not printed: refused without a line", lambda: printed(a, bad, [], [], no(4, 2, 2), lent), False),
        ("printed: the second refused in line 3", lambda: printed(a, REFUSED["refused 6"][0], [], text(["pool: refused 2 6 3"]), no(6, 2, 3), lent), True),
        ("not rows of: rows that are not valid", lambda: D.RowsOf(a, odd[0][1]), False),
        ("settled: pool, 23, 24, and the first refused", lambda: all(D.PoolRefusal(r, lent, lent) for r in (no(23), no(24), no(4, 1, 2))), True),
        ("not settled: pool, 22 in a line, or of a sheet", lambda: any(D.PoolRefusal(r, lent, lent) for r in (no(22, 0, 2), no(22, 1, 0))), False),
        ("not settled: pool, neither answer nor refusal", lambda: D.among(docs=docs, ends=[])(lambda: D.SettledPool(a, b, no(12, 1, 2), lent, lent)), False),
        ("not settled: pool, 22 where there is an answer", lambda: D.among(docs=docs, ends=answers)(lambda: D.SettledPool(a, b, no(22), lent, lent)), False),
        ("not settled: pooled, another text", lambda: D.among(docs=docs)(lambda: D.PoolAnswered(a, b, yes, lent, [7] * len(both) + [35, 35])), False),
        ("fits: at each bound", lambda: D.Fits(items_with(64, 14, 14)) and D.Fits(Doc([g], [edge("g", "g", 7)] * 256)), True),
        ("call: pool, the second refused in line 3", lambda: D.among(docs=docs)(lambda: D.PoolCall(a, REFUSED["refused 6"][0], no(6, 2, 3), lent, lent)), True),
        ("call: pooled", lambda: D.among(docs=docs)(lambda: D.PoolCall(a, b, yes, lent, end)), True),
        ("not call: pooled, another length", lambda: D.among(docs=docs)(lambda: D.PoolCall(a, b, Pooled(0, 0, 0, 1), lent, end)), False),
        ("pool answer: the number of bytes", lambda: D.pool_answer(("Ok", 9)) == Pooled(0, 0, 0, 9), True),
        ("pool answer: a refusal with sheet and line", lambda: D.pool_answer(("Err", D.PoolRefusalStruct(NO[5], 2, 3))) == Pooled(5, 2, 3, 0), True),
        ("call: pool, 22", lambda: D.among(docs=docs)(lambda: D.PoolCall(a, r, no(22), lent, lent)), True),
        ("not call: pool, 22 and written", lambda: D.among(docs=docs)(lambda: D.PoolCall(a, r, no(22), lent, end)), False),
        ("call: pool, 22 before 23", lambda: D.among(docs=[five, ranked_five])(lambda: D.PoolCall(f, render(ranked_five), no(22), lent, lent)), True),
        ("call: pool, 23", lambda: D.among(docs=docs)(lambda: D.PoolCall(f, f, no(23), lent, lent)), True),
        ("call: pool, 24", lambda: D.among(docs=docs)(lambda: D.PoolCall(a, b, no(24), lent[:10], lent[:10])), True),
        ("call: pool, the first refused", lambda: D.among(docs=docs)(lambda: D.PoolCall(bad, [], no(4, 1, 2), lent, lent)), True),
        ("call: pool, the second refused", lambda: D.among(docs=docs)(lambda: D.PoolCall(a, bad, no(4, 2, 2), lent, lent)), True),
        ("renames: into an item without edges", lambda: D.RenamesLowest([], five.edges, list(b"g"), 0), True),
        ("renames: 1 and 2 to 0 and 1", lambda: D.RenamesLowest([], loops(1, 2), list(b"g"), 2), True),
        ("renames: past the first sheet's 0", lambda: D.RenamesLowest(loops(0), loops(1), list(b"g"), 1), True),
        ("renaming", lambda: D.among(docs=[*docs, wide], names=names)(D.Renaming), True),
        ("pooled valid", lambda: D.among(docs=docs)(D.PooledValid), True),
        ("enough: the longest names", lambda: D.among(docs=long, labs=[tuple(map(render, (*long, LONGEST)))])(D.AlwaysEnough), True),
        ("is pooled: a storeroom", lambda: D.among(docs=docs)(lambda: D.IsPooled(a, b, both)), True),
        ("not is pooled: ten colours", lambda: D.among(docs=docs)(lambda: D.IsPooled(f, f, render(pooled(five, five)))), False),
        ("not is pooled: another rank", lambda: D.among(docs=docs)(lambda: D.IsPooled(a, r, render(pooled(first, ranked)))), False),
        ("pooled text", lambda: D.among(pooled=[(a, r, *x) for x in [(no(22), lent, lent)]], docs=docs)(D.PooledText) and D.among(pooled=[(a, b, *x) for x in [(yes, lent, end)]], docs=docs)(D.PooledText), True),
        ("same item: g of both", lambda: D.SameItem(a, b, 1, 0), True),
        ("same item: h of both", lambda: D.SameItem(b, both, 1, 2), True),
        ("by name: h of the second", lambda: D.ByName(b, both, lambda i: i == 1)(2), True),
        ("keeps opening: of the second", lambda: D.KeepsOpening(b, both), True),
        ("keeps items: of the second", lambda: D.KeepsItems(b, both), True),
        ("not pooling law: a sheet of no bytes", lambda: D.PoolingLaw([], [], []), False),
        ("not pooling law: the first sheet's item lost", lambda: D.PoolingLaw(z, w, w), False),
        ("not pooling law: the second sheet's item lost", lambda: D.PoolingLaw(w, z, w), False),
        ("not pooling law: the first sheet's edge lost", lambda: D.PoolingLaw(a, n, n), False),
        ("not pooling law: the second sheet's edge lost", lambda: D.PoolingLaw(n, a, n), False),
        ("pooling", lambda: D.among(labs=asked, docs=docs)(D.Pooling), True),
        ("printed: a storeroom", lambda: D.among(printed=[(yes, lent, end)], docs=docs)(lambda: D.Printed(a, b, both, [])), True),
        ("not printed: a sheet and a line", lambda: D.among(printed=[(yes, lent, end)], docs=docs)(lambda: D.Printed(a, b, both, [10])), False),
        ("not printed: 22 and a sheet", lambda: D.among(printed=[(no(22), lent, lent)], docs=docs)(lambda: D.Printed(a, r, both, text(["pool: refused 0 22 0"]))), False),
        ("printed: the second refused", lambda: D.among(printed=[(no(4, 2, 2), lent, lent)], docs=docs)(lambda: D.Printed(a, bad, [], text(["pool: refused 2 4 2"]))), True),
        ("not printed: 24", lambda: D.among(printed=[(no(24), lent[:10], lent[:10])], docs=docs)(lambda: D.Printed(a, b, [], text(["pool: refused 0 24 0"]))), False),
        ("determined: pooled", lambda: D.among(lent=[(a, b, lent)], ends=answers, docs=docs)(D.PoolDetermined), True),
        ("settled: pooled", lambda: D.among(docs=docs, ends=answers)(lambda: D.SettledPool(a, b, yes, lent, end)), True),
        ("settled: pool, 22", lambda: D.among(docs=docs, ends=answers)(lambda: D.SettledPool(a, r, no(22), lent, lent)), True),
        ("not settled: pool, 22 as an answer", lambda: D.among(docs=docs)(lambda: D.PoolAnswered(a, b, no(22)._replace(size=len(both)), lent, end)), False),
        ("not settled: pooled, changed behind", lambda: D.among(docs=docs)(lambda: D.PoolAnswered(a, b, yes, lent, both + [0, 0])), False),
        ("not settled: pooled, with a line", lambda: D.among(docs=docs)(lambda: D.PoolAnswered(a, b, yes._replace(line=1), lent, end)), False),
        ("not settled: pooled, where another buffer meets the contract", lambda: D.among(docs=docs, ends=answers)(lambda: D.SettledPool(a, b, yes, lent, both + [0, 0])), False),
        ("not settled: pool, 22 of a sheet", lambda: D.PoolRefusal(no(22, 1, 2), lent, lent), False),
        ("not settled: pool, 4 of neither sheet", lambda: D.PoolRefusal(no(4), lent, lent), False),
        ("not settled: pool, 22 with a length", lambda: D.PoolRefusal(no(22)._replace(size=1), lent, lent), False),
        ("not call: pool, 23 before 22", lambda: D.among(docs=[five, ranked_five])(lambda: D.PoolCall(f, render(ranked_five), no(23), lent, lent)), False),
        ("not call: pool, 24 with equal room", lambda: D.among(docs=docs)(lambda: D.PoolCall(a, b, no(24), lent[:-2], lent[:-2])), False),
        ("call: pooled, with equal room", lambda: D.among(docs=docs)(lambda: D.PoolCall(a, b, yes, lent[:-2], both)), True),
        ("not call: pooled, changed behind", lambda: D.among(docs=docs)(lambda: D.PoolCall(a, b, yes, lent, both + [0, 0])), False),
        ("not call: pool, the second refused, and the first named", lambda: D.among(docs=docs)(lambda: D.PoolCall(a, bad, no(4, 1, 2), lent, lent)), False),
        ("not settled: pool, 12", lambda: D.PoolRefusal(no(12, 1, 2), lent, lent), False),
        ("settled: pool, the second refused", lambda: D.PoolRefusal(no(4, 2, 2), lent, lent), True),
        ("not settled: pool, 22 and written", lambda: D.PoolRefusal(no(22), lent, end), False),
    ]


def of_saves(D):
    """A lab of two items with three edges, read, redrawn and saved again under its names."""
    a, b = item("a", 1), item("g", rank=1, kind=Account)
    drawn = Doc([a, b], [edge("a", "g", 0), edge("g", "g", 0), edge("a", "g", 1, True)])
    turned, swapped = drawn._replace(edges=drawn.edges[1:] + drawn.edges[:1]), drawn._replace(edges=[drawn.edges[1], drawn.edges[0], drawn.edges[2]])
    other, unmarked = Doc([item("z", 1), b], [edge("z", "g", 0), edge("g", "g", 0), edge("z", "g", 1, True)]), drawn._replace(edges=(*drawn.edges[:2], edge("a", "g", 1)))
    more = Doc([a, b, item("h")], [])
    sheet, first, three = render(turned), render(Doc([a, b], [])), render(more)
    s, small = setup_of(drawn), setup_of(Doc([a], []))
    held = s._replace(held=1, opened=3)
    docs = [drawn, turned, swapped, other, unmarked, more, Doc([a], [])]
    saved = render(drawn)
    lent = [35] * (len(saved) + 2)
    call = lambda n, v, exit, sheet_=sheet, s_=s, out=lent: D.among(docs=docs)(lambda: D.Fulfils(D.save_call(sheet_, s_, out), ended(D, n, v, exit)))
    bad = text([H1, "a c - -"])
    sheets, setups = [sheet, first, three, bad, render(Doc([a], []))], [s, held, small, EMPTY]
    results = [(n, size, exit) for n in (0, 15) for size in (0, len(saved), len(saved) + 1) for exit in (saved + [35, 35], lent)]
    return [
        ("unheld: nothing held, nothing opened", lambda: D.unheld(held) == s, True),
        ("order of edges: target, colour, source", lambda: [D.order_of(drawn.items, e) for e in drawn.edges] == [512, 513, 576], True),
        ("saved rows: in rising order", lambda: D.SavedRows(sheet, s, drawn), True),
        ("saved rows: of a setup with an item held", lambda: D.SavedRows(sheet, held, drawn), True),
        ("saved rows: under the names of a longer sheet", lambda: D.SavedRows(three, s, drawn), True),
        ("not saved rows: not in order", lambda: D.SavedRows(sheet, s, turned), False),
        ("not saved rows: the sources turned", lambda: D.SavedRows(sheet, s, swapped), False),
        ("not saved rows: another name", lambda: D.SavedRows(sheet, s, other), False),
        ("not saved rows: a mark less", lambda: D.SavedRows(sheet, s, unmarked), False),
        ("not saved rows: not valid", lambda: D.SavedRows(bad, EMPTY, Doc([], [])), False),
        ("asks names: of a longer sheet", lambda: D.asks_names(three, s).Yes(), True),
        ("not asks names: of a shorter sheet", lambda: D.asks_names(render(Doc([a], [])), s).Yes(), False),
        ("call: saved", lambda: call(0, [len(saved)], saved + [35, 35]), True),
        ("call: saved, held", lambda: call(0, [len(saved)], saved + [35, 35], s_=held), True),
        ("call: saved, equal room", lambda: call(0, [len(saved)], saved, out=lent[:-2]), True),
        ("not call: saved, another length", lambda: call(0, [len(saved) + 1], saved + [35, 35]), False),
        ("not call: saved, changed behind", lambda: call(0, [len(saved)], saved + [0, 0]), False),
        ("not call: saved as it was read", lambda: call(0, [len(saved)], sheet + [35, 35]), False),
        ("call: save, 15", lambda: call(15, [], lent[:-3], out=lent[:-3]), True),
        ("not call: save, 15 with equal room", lambda: call(15, [], lent[:-2], out=lent[:-2]), False),
        ("not call: save, 15 and written", lambda: call(15, [], saved[:-1], out=lent[:-3]), False),
        ("call: save, 13", lambda: call(13, [], lent, render(Doc([a], []))), True),
        ("not call: save, 13 with as many names", lambda: call(13, [], lent), False),
        ("call: save, 12", lambda: call(12, [], lent, s_=EMPTY), True),
        ("not call: save, 13 before 12", lambda: call(13, [], lent, render(Doc([a], [])), s._replace(opened=1)), False),
        ("call: save, the sheet's number", lambda: call(4, [], lent, bad, EMPTY), True),
        ("not call: save, 12 before the sheet's number", lambda: call(12, [], lent, bad, EMPTY), False),
        ("saved there", lambda: D.among(sheets=sheets, setups=setups, docs=docs)(D.SavedThere), True),
        ("saved: the number of bytes", lambda: D.saved(("Ok", 9)) == D.Saved(0, 9), True),
        ("saved: a refusal", lambda: D.saved(("Err", NO[15])) == D.Saved(15, 0), True),
        ("saved unique", lambda: D.among(sheets=sheets, setups=setups, docs=docs)(D.SavedUnique), True),
        ("sheet of: what is saved", lambda: D.IsSheetOf(sheet, held, saved), True),
        ("not sheet of: other names", lambda: D.IsSheetOf(sheet, s, render(other)), False),
        ("not sheet of: another setup", lambda: D.IsSheetOf(sheet, s, render(unmarked)), False),
        ("not sheet of: no sheet", lambda: D.IsSheetOf(sheet, EMPTY, bad), False),
        ("longest sheet: 64 names of 16 bytes, 14 values of ten digits each, 256 edges", lambda: D.longest_sheet == len(render(LONGEST)), True),
        ("longest sheet: none is longer", lambda: D.among(docs=[LONGEST, LONGEST._replace(edges=LONGEST.edges * 2), drawn])(D.LongestSheet), True),
        ("saved reads", lambda: D.among(sheets=sheets, setups=setups, docs=docs)(D.SavedReads), True),
        ("saved text", lambda: D.among(lent=[(sheet, s, lent), (three, s, lent)], saved=results, docs=docs)(D.SavedText), True),
        ("saved back", lambda: D.among(sheets=[sheet, saved], setups=setups, docs=docs)(D.SavedBack), True),
        ("saved again", lambda: D.among(sheets=sheets, setups=setups, docs=docs)(D.SavedAgain), True),
    ]


# Hand-ins by name, on document 01's sheet. Lines with the number and the field of their first no; sets with number and set.
ORDERED = "7 order open mailpw ordpw+token"
HANDED_LINES = [
    *((line, 0, 0) for line in (ORDERED, "7 order open", "7 order lock -", "4000000000 mail open mailpw", "7 withdraw", "0 withdraw")),
    *(("7 order open\t", 2, 0), ("7 order open\x7f", 2, 0), ("", 4, 1), ("7", 4, 2), ("7 order", 4, 3), ("7  open", 4, 2), ("7 order open  -", 4, 4), ("x order", 4, 3)),
    *(("x order open", 5, 1), ("4000000001 order open", 5, 1), ("x withdraw", 5, 1), ("7 or+der open", 5, 2), ("7 ~ open", 5, 2), ("7 nobody shut", 8, 2), ("7 order shut -", 5, 3)),
    *(("7 order open - token+", 5, 5), ("7 order open nobody -", 8, 4), ("7 order open token token+token", 6, 5), ("7 withdraw open", 8, 2), ("7 open order", 8, 2)),
]
HANDED_SETS = [("-", 0, 0), ("ordpw+token", 0, 5), ("token+ordpw", 0, 5), ("mailpw", 0, 2), ("", 5, 0), ("token+", 5, 0), ("-+token", 5, 0), ("nobody+", 8, 0), ("token+token+nobody", 6, 0)]
NamedAttempt, NamedSet, LineAnswer, LineTold, ReadLineResult, EnteredLine = (getattr(THE, n) for n in "NamedAttempt NamedSet LineAnswer LineTold ReadLineResult EnteredLine".split())


def coded(line):
    return list(line.encode())


def by_names(student, target, loss, *sets):
    return NamedAttempt(student, coded(target), loss, [[coded(n) for n in x.split("+") if x != "-"] for x in sets])


N_BOTH, N_ONE, N_LOCKS = by_names(7, "order", False, "mailpw", "ordpw+token"), by_names(7, "order", False, "mailpw", "token+mailpw"), by_names(7, "order", True, "mailpw+ordpw", "mailpw+token")
N_NONE, N_TWICE = by_names(7, "order", False), by_names(7, "order", False, "mailpw", "ordpw+token", "token+ordpw")
N_UNKNOWN, N_AGAIN, N_HIGH = by_names(7, "order", False, "nobody"), by_names(7, "order", False, "token+token"), by_names(4000000001, "order", False)
NAMED = [N_BOTH, N_ONE, N_LOCKS, N_NONE, N_TWICE, by_names(7, "order", True, "-"), by_names(4000000000, "mail", False, "mailpw"), N_UNKNOWN, N_AGAIN, N_HIGH, N_NONE._replace(target=coded("nobody"))]
# rows that are written as document 01's sheet is, with a line's end in a name
ODD = lambda: BENCH_DOC._replace(items=[item("ordpw c 1 2 0\nmailpw", 1, 1), *BENCH_DOC.items[2:]])
# what reading the first line tells, of which the second field is the sheet's or the line's
SAYS_BOTH, SAYS_LEAVE = LineAnswer(0, 0, 0, False, 7, ORDER, False, 2), LineAnswer(0, 0, 0, True, 7, 0, False, 0)


def no_line(number, text_=0, place=0):
    return LineAnswer(number, text_, place, False, 0, 0, False, 0)


def no_told(*answer):
    return ReadLineResult(*answer, *[0] * (8 - len(answer)))


def of_lines():
    """What the quantifiers of hand-ins by name look among."""
    sheet, five = text(BENCH), REFUSED["refused 5"][0]
    entries = [("HandsIn", x) for x in NAMED] + [("Withdraws", k) for k in (0, 7, 4000000001)]
    day = [EnteredLine(coded(line), Registered(n, used), exit) for line, n, used, exit in (
        (ORDERED, 0, 1, [R_BOTH, R_ANY]), ("7 nobody open", 8, 1, [R_BOTH, R_ANY]), ("7 order open mailpw token+mailpw", 0, 1, [R_ONE, R_ANY]), ("7 withdraw", 0, 0, [R_ONE, R_ANY]))]
    days = [(BENCH_DOC, [R_ANY, R_ANY], day[:n][::-1]) for n in range(5)] + [(BENCH_DOC, [R_ANY, R_ANY], [day[2]])]
    sets = [NamedSet(*a) for a in ((0, 0, 0, 5), (0, 0, 0, 2), (8, 2, 0, 0), (5, 1, 2, 0), (5, 1, 0, 0), (8, 2, 0, 5))]
    ends = [(SAYS_BOTH, [2, 5, 9]), (SAYS_BOTH, [9, 9, 9]), (SAYS_LEAVE, [9, 9, 9]), (no_line(15), [9]), (no_line(15), [9, 9, 9]), (no_line(8, 2, 2), [9, 9, 9]), (no_line(5, 1, 2), [9, 9, 9])]
    lines = [coded(line) for line in (ORDERED, "7 withdraw", "7 nobody open")]
    names = coded("ordpw+token")
    return {
        "docs": [BENCH_DOC, DOC, *LABS, ODD()],
        "item_rows": [BENCH_DOC.items, DOC.items, SAME_NAMES.items],
        "line_entries": entries,
        "attempts": NAMED,
        "said": [("HandIn", BOTH), ("HandIn", ONE), ("Withdraw", 7), ("Withdraw", 8)],
        "written": [coded(line) for line, _, _ in HANDED_LINES],
        "names_of": [[coded(n) for n in x.split("+") if x != "-"] for x in ("-", "mailpw", "ordpw+token", "token+ordpw", "pw", "nobody", "token+token", "mail")],
        "afternoons": days,
        "marked": [(BENCH_DOC, x, u, a, e, l) for x in (N_BOTH, N_ONE, N_UNKNOWN) for u, a, e, l in (
            (0, Registered(0, 1), [R_ANY], [R_BOTH]), (1, Registered(0, 1), [R_BOTH], [R_ONE]), (0, Registered(26, 0), [], []), (1, Registered(0, 2), [R_ANY, R_ANY], [R_ANY, R_ONE]))],
        "line_outcomes": [THE.with_sets(a, x) for a, x in ends],
        "named_sets": sets,
        "line_ends": ends,
        "registers": [THE.with_slice(a, x) for a, x in REGISTERS],
        "written_sets": [(sheet, 5, [35] * 12, n, f, [x]) for n, f in ((0, [11]), (0, [12]), (14, [0]), (15, [0])) for x in ([*names, 35], [35] * 12)],
        "lines_for_c": [(t, l, [9, 9, 9]) for t in (sheet, five) for l in lines],
        "told_for_c": [(THE.in_numbers(a), x) for a, x in ends],
        "set_readings": [(t, coded(l), a) for t in (sheet, five) for l in ("ordpw+token", "nobody") for a in sets],
        "line_readings": [(t, l, a, [9, 9, 9], x) for t in (sheet, five) for l in lines for a, x in ends],
        "entered": [(sheet, l, 1, a, [R_BOTH, R_ANY], x) for l in lines for a, x in REGISTERS],
    }


def of_handins(D):
    """Lines, sets by name, and what the calls on them tell."""
    sheet, five, items, g = text(BENCH), REFUSED["refused 5"][0], BENCH_DOC.items, of_lines()
    ask = lambda f, *a, **more: lambda: D.among(**{**g, **more})(lambda: f(*a))
    number = lambda line: tuple(D.line_no(items, coded(line)))
    field = lambda l: tuple(D.set_from(items, coded(l)))
    reads = lambda l, *a, t=sheet: ask(D.ReadSetCall, t, coded(l), NamedSet(*a))
    names, lent = coded("ordpw+token"), [35] * 12
    writes = lambda n, v, exit, x=5, t=sheet, out=lent: ask(lambda: D.Fulfils(D.write_set_call(t, x, out), ended(D, n, v, exit)))
    told = lambda line, a, exit, entry=(9, 9, 9), t=sheet: ask(D.ReadLineCall, t, coded(line), a, list(entry), exit)
    in_c = lambda line, a, exit, entry=(9, 9, 9), t=sheet: ask(D.TellLineCall, t, coded(line), a, list(entry), exit)
    enters = lambda line, used, n, back, entry, exit, t=sheet: ask(D.EnterCall, t, coded(line), used, Registered(n, back), entry, exit)
    few = [D.with_slice(Registered(n, 1), x) for n in (0, 8, 25, 26, 27) for x in ([R_BOTH, R_ANY], [R_ONE, R_ANY], [R_ANY])]
    settled = lambda line, used, n, back, entry, exit, t=sheet, among=few: ask(D.SettledEntering, t, coded(line), used, Registered(n, back), entry, exit, registers=among)
    by_set = lambda l, *a, t=sheet: ask(D.SettledReadSet, t, coded(l), NamedSet(*a))
    by_line = lambda line, a, exit, entry=(9, 9, 9), t=sheet: ask(D.SettledReadLine, t, coded(line), a, list(entry), exit)
    taken = lambda x, used, n, back, entry, exit: ask(D.LineTaken, BENCH_DOC, x, used, Registered(n, back), entry, exit)
    log = g["afternoons"][3][2]
    no = [9, 9, 9]
    fields = lambda n: [coded(f) for f in ("7", "order", "open")] + [coded("-")] * n
    return [
        *((f"line: {line!r}", lambda line=line, a=(n, k): number(line) == a, True) for line, n, k in HANDED_LINES),
        *((f"set: {l!r}", lambda l=l, a=(n, x): field(l) == a, True) for l, n, x in HANDED_SETS),
        ("most handed", lambda: D.most_handed == 16384, True),
        ("line: 16,384 sets", lambda: [D.field_questions(items, fields(n))[-1] for n in (16384, 16385)] == [D.ask_of(7, 0, True), D.ask_of(7, 0, False)], True),
        ("line: what it says", lambda: D.line_call(items, coded(ORDERED)) == ("HandIn", BOTH) and D.line_call(items, coded("7 withdraw")) == ("Withdraw", 7), True),
        ("line: lockouts", lambda: D.line_call(items, coded("7 order lock mailpw+ordpw token+mailpw")) == ("HandIn", LOCKS), True),
        ("entry: as it is written", lambda: bytes(D.entry_text(("HandsIn", N_LOCKS))) == b"7 order lock mailpw+ordpw mailpw+token" and bytes(D.entry_text(("Withdraws", 7))) == b"7 withdraw", True),
        ("entry: what it states", lambda: D.stated(items, ("HandsIn", N_LOCKS)) == ("HandIn", LOCKS) and D.stated(items, ("Withdraws", 7)) == ("Withdraw", 7), True),
        ("set names: rising, and none", lambda: [bytes(D.set_names(lambda i: items[i].name, x)) for x in (5, 0)] == [b"ordpw+token", b"-"], True),
        *((f"valid entry: {n}", lambda e=e: D.ValidEntry(items, e), True) for n, e in (("both", ("HandsIn", N_BOTH)), ("the largest student leaves", ("Withdraws", 4000000000)), ("a set twice", ("HandsIn", N_TWICE)))),
        *((f"not valid entry: {n}", lambda e=e: D.ValidEntry(items, e), False) for n, e in (
            ("no item", ("HandsIn", N_UNKNOWN)), ("a name twice", ("HandsIn", N_AGAIN)), ("too high a student", ("HandsIn", N_HIGH)), ("no target", ("HandsIn", NAMED[-1])), ("too high a student leaves", ("Withdraws", 4000000001)))),
        ("valid entry: 16,384 sets, and no more", lambda: [D.ValidAttempt(items, N_NONE._replace(sets=[[]] * n)) for n in (16384, 16385)] == [True, False], True),
        ("named rows: bench", lambda: D.NamedRows(items), True),
        ("not named rows: a name twice", lambda: D.NamedRows(SAME_NAMES.items), False),
        ("not named rows: no name", lambda: D.NamedRows([item("")]), False),
        ("one of: the second", lambda: D.OneOf([[1], [2]], [2]), True),
        ("not one of", lambda: D.OneOf([[1], [2]], [3]), False),
        *((f"law: {f}", ask(getattr(D, f)), True) for f in "LineOfEntry EntryOfLine SetOfNames SetReadBack SetEnough LinesLaw LineMarks RegisterMarks".split()),
        ("set bytes: 64 names of 16 bytes", lambda: D.set_bytes == 64 * 16 + 63, True),
        ("names set: either order", lambda: all(ask(D.NamesSet, sheet, coded(l), 5)() for l in ("ordpw+token", "token+ordpw")), True),
        ("not names set: another set", ask(D.NamesSet, sheet, names, 2), False),
        ("not names set: by rows that are not valid", ask(D.NamesSet, sheet, coded("mail"), 4), False),
        ("not names set: of another sheet", ask(D.NamesSet, render(DOC), names, 5), False),
        ("not names set: a name twice", ask(D.NamesSet, sheet, coded("token+token"), 4), False),
        ("line says: both", ask(D.LineSays, sheet, coded(ORDERED), ("HandIn", BOTH)), True),
        ("not line says: another attempt", ask(D.LineSays, sheet, coded(ORDERED), ("HandIn", ONE)), False),
        ("not line says: a line that is refused", ask(D.LineSays, sheet, coded("4000000001 withdraw"), ("Withdraw", 4000000001)), False),
        ("not line says: by rows that are not valid", ask(D.LineSays, sheet, coded("7 order open"), ("HandIn", NONE._replace(target=3))), False),
        ("not line says: of another sheet", ask(D.LineSays, five, coded("7 withdraw"), ("Withdraw", 7)), False),
        ("named set: a set", lambda: D.named_set(("Ok", 5)) == NamedSet(0, 0, 0, 5), True),
        ("named set: the sheet's refusal", lambda: D.named_set(("Err", ("Sheet", D.SheetRefusal(NO[5], 2)))) == NamedSet(5, 1, 2, 0), True),
        ("named set: the text's refusal", lambda: D.named_set(("Err", ("Text", D.FieldRefusal(NO[8], 3)))) == NamedSet(8, 2, 3, 0), True),
        ("named set: 15", lambda: D.named_set(("Err", "Short")) == NamedSet(15, 0, 0, 0), True),
        ("set written: the number of bytes", lambda: D.set_written(("Ok", 9)) == D.SetWritten(0, 9), True),
        ("set written: a refusal", lambda: D.set_written(("Err", NO[14])) == D.SetWritten(14, 0), True),
        ("line answer: a withdrawal", lambda: D.line_answer(("Ok", ("Withdrawal", 7))) == SAYS_LEAVE, True),
        ("line answer: a hand-in", lambda: D.line_answer(("Ok", ("Attempt", D.AttemptRead(7, 4, True, 2)))) == LineAnswer(0, 0, 0, False, 7, 4, True, 2), True),
        ("line answer: the sheet's refusal", lambda: D.line_answer(("Err", ("Sheet", D.SheetRefusal(NO[5], 3)))) == no_line(5, 1, 3), True),
        ("line answer: the line's refusal", lambda: D.line_answer(("Err", ("Text", D.FieldRefusal(NO[8], 3)))) == no_line(8, 2, 3), True),
        ("line answer: 15", lambda: D.line_answer(("Err", "Short")) == no_line(15), True),
        ("unread line", lambda: D.unread_line(8, 2, 3) == no_line(8, 2, 3), True),
        ("call: a set read", reads("ordpw+token", 0, 0, 0, 5), True),
        ("not call: a set read, another", reads("ordpw+token", 0, 0, 0, 4), False),
        ("not call: a set read, by rows that are not valid", reads("mail", 0, 0, 0, 4), False),
        ("call: a set read, 8", reads("nobody", 8, 2, 0, 0), True),
        ("not call: a set read, 8 of the sheet", reads("nobody", 8, 1, 0, 0), False),
        ("call: a set read, the sheet's number and line", reads("nobody", 5, 1, 2, 0, t=five), True),
        ("not call: a set read, 8 before the sheet's number", reads("nobody", 8, 2, 0, 0, t=five), False),
        ("call: a set written", writes(0, [11], [*names, 35]), True),
        ("not call: a set written, another length", writes(0, [12], [*names, 35]), False),
        ("not call: a set written, not rising", writes(0, [11], [*coded("token+ordpw"), 35]), False),
        ("call: a set written, 15", writes(15, [], lent[:10], out=lent[:10]), True),
        ("call: a set written, equal room", writes(0, [11], names, out=lent[:11]), True),
        ("call: a set written, 14", writes(14, [], lent, x=32), True),
        ("call: a set written, the sheet's number", writes(5, [], lent, x=32, t=five), True),
        ("call: a line read", told(ORDERED, SAYS_BOTH, [2, 5, 9]), True),
        ("not call: a line read, the place behind changed", told(ORDERED, SAYS_BOTH, [2, 5, 0]), False),
        ("not call: a line read, the other way", told(ORDERED, SAYS_BOTH._replace(loss=True), [2, 5, 9]), False),
        ("call: a withdrawal read", told("7 withdraw", SAYS_LEAVE, no), True),
        ("call: a line read, equal room", told(ORDERED, SAYS_BOTH, [2, 5], (9, 9)), True),
        ("call: a line read, 15", told(ORDERED, no_line(15), [9], (9,)), True),
        ("not call: a line read, 15 and written", told(ORDERED, no_line(15), [2], (9,)), False),
        ("not call: a line read, by rows that are not valid", told("7 order open mail", SAYS_BOTH._replace(target=3, count=1), [4, 9, 9]), False),
        ("call: a line read, 5 in field 3", told("7 order shut", no_line(5, 2, 3), no), True),
        ("not call: a line read, 8 in another field", told("7 nobody shut", no_line(8, 2, 3), no), False),
        ("call: a line read, the sheet's number and line", told("", no_line(5, 1, 2), no, t=five), True),
        ("not call: a line read, 4 before the sheet's number", told("", no_line(4, 2, 1), no, t=five), False),
        ("call: a line for C", in_c(ORDERED, ReadLineResult(0, 0, 0, 0, 7, ORDER, 0, 2), [2, 5, 9]), True),
        ("call: a withdrawal for C", in_c("7 withdraw", ReadLineResult(0, 0, 0, 1, 7, 0, 0, 0), no), True),
        ("not call: a line for C, as a withdrawal", in_c(ORDERED, ReadLineResult(0, 0, 0, 1, 7, ORDER, 0, 2), [2, 5, 9]), False),
        ("call: a line for C, the sheet's number and line", in_c(ORDERED, no_told(5, 1, 2), no, t=five), True),
        ("not call: a line for C, the list changed", in_c(ORDERED, no_told(5, 1, 2), [2, 5, 9], t=five), False),
        ("in numbers: lockouts", lambda: D.in_numbers(LineAnswer(1, 2, 3, False, 4, 5, True, 6)) == ReadLineResult(1, 2, 3, 0, 4, 5, 1, 6), True),
        ("not tells line: another line", ask(D.TellsLine, sheet, coded("7 withdraw"), no, LineTold(ReadLineResult(0, 0, 0, 0, 7, ORDER, 0, 2), [2, 5, 9])), False),
        ("tells line: both", ask(D.TellsLine, sheet, coded(ORDERED), no, LineTold(ReadLineResult(0, 0, 0, 0, 7, ORDER, 0, 2), [2, 5, 9])), True),
        ("call: a line entered", enters(ORDERED, 0, 0, 1, [R_ANY], [R_BOTH]), True),
        ("not call: a line entered, another record", enters(ORDERED, 0, 0, 1, [R_ANY], [R_ONE]), False),
        ("call: a line entered, withdrawn", enters("7 withdraw", 1, 0, 0, [R_BOTH], [R_BOTH]), True),
        ("call: a line entered, 26", enters(ORDERED, 0, 26, 0, [], []), True),
        ("call: a line entered, 27", enters("8 withdraw", 1, 27, 1, [R_BOTH], [R_BOTH]), True),
        ("call: a line entered, 8", enters("7 nobody shut", 0, 8, 0, [], []), True),
        ("not call: a line entered, 8 of other rows", enters("7 mailpw open", 0, 8, 0, [], []), False),
        ("not call: a line entered, 26 before 8", enters("7 nobody shut", 0, 26, 0, [], []), False),
        ("call: a line entered, the sheet's number", enters("7 nobody shut", 0, 5, 0, [], [], t=five), True),
        ("call: a line entered, 25", enters("", 1, 25, 1, [], [], t=five), True),
        ("not call: a line entered, the sheet's number before 25", enters("", 1, 5, 1, [], [], t=five), False),
        ("lines: entered one after the other", lambda: D.among(**g)(lambda: D.LinesEntered(sheet, [R_ANY, R_ANY], log)), True),
        ("not lines: the count is not handed on", lambda: D.among(**g)(lambda: D.LinesEntered(sheet, [R_BOTH, R_ANY], [EnteredLine(coded("7 withdraw"), Registered(0, 0), [R_BOTH, R_ANY])])), False),
        ("not lines: an earlier one", lambda: D.among(**g)(lambda: D.LinesEntered(sheet, [R_ANY], [EnteredLine(coded("7 withdraw"), Registered(27, 0), [R_ANY]), EnteredLine(coded("x"), Registered(5, 0), [R_ANY])])), False),
        ("lines: the calls that were made", lambda: D.calls_made(items, log) == (made("HandIn", ONE, 0, (R_ONE, R_ANY), 1), made("HandIn", BOTH, 0, (R_BOTH, R_ANY), 1)), True),
        ("sought: both, and lockouts", lambda: D.NamesSought(BENCH_DOC, N_BOTH) and D.NamesSought(BENCH_DOC, N_LOCKS), True),
        *((f"not sought: {n}", lambda x=x: D.NamesSought(BENCH_DOC, x), False) for n, x in (("a loose one", N_ONE), ("one left out", N_NONE), ("one too many", N_BOTH._replace(sets=[*N_BOTH.sets, [coded("token")]])), ("one in two orders", N_TWICE), ("the other way", N_BOTH._replace(loss=True)))),
        ("named record: both", lambda: D.NamedRecord(BENCH_DOC, N_BOTH, R_BOTH), True),
        ("named record: a loose one", lambda: D.NamedRecord(BENCH_DOC, N_ONE, R_ONE), True),
        ("not named record: another's", lambda: D.NamedRecord(BENCH_DOC, N_ONE, R_BOTH), False),
        ("line taken: in its place", taken(N_ONE, 1, 0, 1, [R_BOTH, R_ANY], [R_ONE, R_ANY]), True),
        ("line taken: behind", taken(N_ONE, 1, 0, 2, [R_ANOTHER, R_ANY], [R_ANOTHER, R_ONE]), True),
        ("not line taken: another record", taken(N_ONE, 1, 0, 1, [R_BOTH, R_ANY], [R_BOTH, R_ANY]), False),
        ("handed by line: the earlier one", lambda: D.HandedByLine(log, N_BOTH), True),
        ("not handed by line: refused", lambda: D.HandedByLine([EnteredLine(coded(ORDERED), Registered(26, 0), [])], N_BOTH), False),
        ("not handed by line: another", lambda: D.HandedByLine(log, N_LOCKS), False),
        ("record of line: the latest", ask(D.RecordOfLine, BENCH_DOC, log, R_ONE), True),
        ("not record of line: a name twice", ask(D.RecordOfLine, BENCH_DOC, [EnteredLine(coded("7 order open token+token"), Registered(0, 1), [])], Record(7, 4, 0, 0, 0, 1, 0, 2)), False),
        ("not record of line: of none", ask(D.RecordOfLine, BENCH_DOC, log, R_LOCKS), False),
        ("settled: a set read", by_set("ordpw+token", 0, 0, 0, 5), True),
        ("settled: a set read, 8", by_set("nobody", 8, 2, 0, 0), True),
        ("settled: a set read, the sheet's number", by_set("nobody", 5, 1, 2, 0, t=five), True),
        ("not settled: a set read, another line", by_set("nobody", 5, 1, 0, 0, t=five), False),
        ("not settled: a set read, neither told nor refused", ask(D.SettledReadSet, sheet, names, NamedSet(8, 2, 0, 5), named_sets=[]), False),
        ("not set answered: of a text", ask(D.SetAnswered, sheet, names, NamedSet(0, 1, 0, 5)), False),
        ("not set answered: another set", ask(D.SetAnswered, sheet, names, NamedSet(0, 0, 0, 2)), False),
        ("set refusal: each number", lambda: all(D.SetRefusal(NamedSet(q, 2, 0, 0)) for q in (5, 6, 8)), True),
        ("not settled: a set read, another set", by_set("ordpw+token", 0, 0, 0, 2), False),
        *((f"not settled: a set refused, {n}", lambda a=a: D.SetRefusal(NamedSet(*a)), False) for n, a in (("with a set", (8, 2, 0, 5)), ("with 7", (7, 2, 0, 0)), ("with 12 of the sheet", (12, 1, 0, 0)), ("at a place", (8, 2, 1, 0)), ("of no text", (8, 0, 0, 0)))),
        ("settled: a line read", by_line(ORDERED, SAYS_BOTH, [2, 5, 9]), True),
        ("settled: a line read, 15", by_line(ORDERED, no_line(15), [9], (9,)), True),
        ("settled: a line read, 8", by_line("7 nobody open", no_line(8, 2, 2), no), True),
        ("not settled: a line read, not written", by_line(ORDERED, SAYS_BOTH, no), False),
        ("not settled: a line read, 15 with room", by_line(ORDERED, no_line(15), no), False),
        ("line answered: both", ask(D.LineAnswered, sheet, coded(ORDERED), SAYS_BOTH, no, [2, 5, 9]), True),
        ("not line answered: another line", ask(D.LineAnswered, sheet, coded("7 withdraw"), SAYS_BOTH, no, [2, 5, 9]), False),
        ("not settled: a line read, neither told nor refused", ask(D.SettledReadLine, sheet, coded(ORDERED), no_line(3, 2), no, no, line_ends=[]), False),
        ("line refusal: each number", lambda: all(D.LineRefusal(no_line(q, 2, 1), no, no) for q in (2, 4, 5, 6, 7, 8)), True),
        ("line refusal: of the sheet", lambda: D.LineRefusal(no_line(11, 1, 4), no, no), True),
        *((f"not line refusal: {n}", lambda a=a, x=x: D.LineRefusal(a, no, x), False) for n, a, x in (
            ("3", no_line(3, 2, 0), no), ("12 of the sheet", no_line(12, 1), no), ("of no text", no_line(8, 0, 2), no), ("15 of the line", no_line(15, 2, 0), no), ("15 at a place", no_line(15, 0, 1), no), ("the list changed", no_line(15), [2, 9, 9]),
            ("a student told", no_line(15)._replace(student=7), no), ("an answer", no_line(0), no))),
        ("settled: a line entered", settled("7 order open mailpw token+mailpw", 1, 0, 1, [R_BOTH, R_ANY], [R_ONE, R_ANY]), True),
        ("settled: a line entered, 26", settled(ORDERED, 1, 26, 1, [R_ANY], [R_ANY]), True),
        ("settled: a line entered, 8", settled("7 nobody open", 1, 8, 1, [R_ANY], [R_ANY]), True),
        ("settled: a line entered, 25", settled("", 2, 25, 2, [R_ANY], [R_ANY]), True),
        ("settled: a line entered, 27", settled("8 withdraw", 1, 27, 1, [R_ANY], [R_ANY]), True),
        ("not settled: a line entered, 13", settled(ORDERED, 1, 13, 1, [R_ANY], [R_ANY], among=[]), False),
        ("not settled: a line entered, the old slice", settled("7 order open mailpw token+mailpw", 1, 0, 1, [R_BOTH, R_ANY], [R_BOTH, R_ANY]), False),
    ]


def of_drawings():
    """Document 01's sheet as it is saved, before and after an item was taken in: its rows rise already."""
    saved, less = text(BENCH), text(BENCH[:-1])
    lent = [35] * (len(saved) + 1)
    ends = [(n, size, lent, exit) for n, size in ((0, len(saved)), (0, 0), (12, 0)) for exit in ([*saved, 35], lent)]
    return {"saves": [*ends, (15, 0, [35], [35]), (0, len(less), lent, less + lent[len(less):])]}


def of_saved_drawings(D):
    """What is saved of a setup that was redrawn."""
    sheet, five = text(BENCH), REFUSED["refused 5"][0]
    less, OFF, ON = text(BENCH[:-1]), D.RemoveEdge(MAIL, ORDER, 1), D.AddEdge(MAIL, ORDER, 1, True)
    g = {**of_drawings(), "docs": [BENCH_DOC, doc_of(BENCH[:-1])], "setups": [bench, TAKEN, EMPTY, LESS], "ends": [bench, TAKEN, EMPTY, LESS]}
    g["runs"] = [(sheet, [], []), (sheet, [D.TakeIn(1)], [0]), (sheet, [D.TakeIn(9)], [13]), (five, [D.TakeIn(1)], [12]), (sheet, [OFF], [0]), (sheet, [ON], [0])]
    written_, drawn = [*sheet, 35], D.drawing_of(bench)
    after = D.left_by([D.TakeIn(1)], [0], drawn)
    saved = lambda *a: lambda: D.SavedDrawing(bench, *a)
    return [
        ("drawing saved", lambda: D.among(**g)(D.DrawingSaved), True),
        ("let go: nothing held, edges and marks kept", lambda: [(d.Held(1), d.Edges(1, MAIL, 0), d.Marks(MAIL, ORDER, 1), d.Marks(1, MAIL, 0)) for d in (D.let_go(after),)] == [(False, True, True, False)], True),
        ("saved drawing: with an item held", saved(after, TAKEN, 0, len(sheet), written_), True),
        ("saved drawing: an edge less", saved(D.drawing_of(LESS), LESS, 0, len(less), less), True),
        ("saved drawing: 15", saved(after, TAKEN, 15, 0, [35]), True),
        ("not saved drawing: 12", saved(after, TAKEN, 12, 0, [35]), False),
        ("not saved drawing: other bytes", saved(after, TAKEN, 0, len(sheet), [35, *sheet]), False),
        ("not saved drawing: of another setup", saved(after, LESS, 0, len(sheet), written_), False),
        ("not saved drawing: another drawing", saved(D.drawing_of(LESS), TAKEN, 0, len(sheet), written_), False),
        ("contracts: save", lambda: D.contract_of(("Save", sheet, [35]), TAKEN).lent == ((35,),) and D.numbers(D.contract_of(("Save", five, []), bench)) == (5, 12, 13, 15), True),
    ]


def of_pooled_sets(D):
    """What opens in the pooled sheet of two labs, of sets as numbers; and of sheets that lost an edge or an item."""
    a, b, both = (render(d) for d in (*LABS, pooled(*LABS)))
    bare = render(LABS[0]._replace(edges=[]))
    return [
        ("set by name: g and h", lambda: D.SetByName(b, both, 3, 6), True),
        ("not set by name: the same number", lambda: D.SetByName(b, both, 3, 3), False),
        ("not set by name: one more", lambda: D.SetByName(b, both, 3, 7), False),
        *((f"keeps opening sets, {n}", lambda s=s: D.KeepsOpeningSet(s, both) and D.KeepsYes(s, both), True) for n, s in (("the first", a), ("the second", b))),
        ("not keeps opening sets: an edge lost", lambda: D.KeepsOpeningSet(a, bare), False),
        ("not keeps yes: an edge lost", lambda: D.KeepsYes(a, bare), False),
    ]


def of_kinds_of_sets(D):
    """Kinds of sets, and what forecasts lie between, on document 01's sheet."""
    return [
        ("kind of set", lambda: D.among(kinds=[APART, UNLIKE, []])(D.KindOfSet), True),
        ("forecast range", lambda: D.among(targets=[(bench, ORDER), (bench, MAIL), (EMPTY, 0), (closed, 0)])(D.ForecastRange), True),
    ]


GROUPS = {
    "far": [of_sets, of_setups, of_well_formed, of_parts, of_full_marks, of_written_rows, of_whole],
    "one": [of_one, of_few_cuts],
    "sums": [of_sums],
    "bench": [of_derivations, of_passes, of_ways, of_bases, of_scores, of_marks, of_set_calls, of_way_calls, of_base_calls, of_score_calls, of_demand3]
    + [of_quick, of_forecasts, of_cuts, of_attackers, of_next_sets, of_register, of_living, of_findings, of_portal, of_contracts, of_told, of_words, of_readings, of_demands, of_both_demands, of_soundness, of_handins, of_saved_drawings, of_kinds_of_sets],
    "rows": [of_valid_rows, of_rows, of_bytes, of_stated, of_meaning, of_refusals],
    "spare": [of_spare],
    "pool": [of_pools, of_saves, of_pooled_sets],
    "ring": [of_ring],
    "bags": [of_bags, of_bag_scores, of_sound_bags],
}


def examples(D):
    """For each world its examples: name, question, expected answer."""
    return {world: [e for group in groups for e in group(D)] for world, groups in GROUPS.items()}


def doc_of(lines):
    rows = [line.split() for line in lines]
    at = rows.index([])
    value = lambda f: None if f == "-" else int(f)
    items = [item(n, value(s), value(l), int(r), Account if k == "a" else Credential) for n, k, s, l, r in rows[1:at]]
    return Doc(items, [edge(f, t, int(c), rec == "1") for f, t, c, rec in rows[at + 2:]])


BENCH_DOC = doc_of(BENCH)


def of_document(name):
    """Is it one of B1 to B12, or a wrong answer to one?"""
    return name.startswith(("B", "not B"))


def outcomes(D, wanted=lambda name: True, first=None):
    """Examples whose answer is not the expected one; an error counts as such. Of those that are wanted; the world `first` comes first."""
    found = worlds(D)
    for world, asked in sorted(examples(D).items(), key=lambda x: x[0] != first):
        D.enter(found[world])
        for name, question, expected in asked:
            if not wanted(name):
                continue
            try:
                answer = bool(question())
            except Exception as e:
                answer = f"{type(e).__name__}: {e}"
            if answer != expected:
                yield name, answer


def of_equations(D):
    """The examples that are computed, of Examples.txt."""
    return [(f"computed {name.removeprefix('example·')}", getattr(D, name), True) for name in D._made.equations]


GROUPS["rows"].append(of_equations)

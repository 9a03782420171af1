"""Over which part of a type a quantifier runs, in Python. No variable has a range that does not stand here: one without an entry is refused.

An entry decides only where is looked, and not what is said: it must be wide enough, and reach beyond the right answers. A quantifier that no example
reaches with candidates that pass its conditions is refused as well (alter.py), unless NEVER has the reason.
"""
# By type and name, wherever they are quantified; `given` is what an example hands in to look among.
BY_NAME = {("ℕ", n): "world.vertices" for n in "i v f e w vertex".split()}
BY_NAME |= {("ℕ", n): "world.colours" for n in "c colour".split()}
BY_NAME |= {("ℕ", n): "world.sets" for n in "x y z subset set".split()}
BY_NAME |= {("Bool", ""): "(False, True)", ("Step", ""): "steps()", ("Attempt", ""): "world.attempts", ("Variable", ""): "variables()", ("List ℕ", "l"): "world.lists"}
BY_NAME |= {("Setup", ""): "given.setups", ("Doc", ""): "given.docs", ("Outcome", ""): "given.outcomes", ("Redrawing", ""): "given.redrawings"}
BY_NAME |= {("Reading", ""): "given.readings", ("Call", ""): "given.calls", ("List ℕ", "text"): "given.texts", ("List ℕ", "sheet"): "given.sheets"}

BY_NAME |= {("List ItemRow", "items"): "given.item_rows", ("LineEntry", ""): "given.line_entries", ("NamedAttempt", ""): "given.attempts", ("RegisterCall", ""): "given.said"}
BY_NAME |= {(score, "r"): "(0, 5, 2 ** 63)" for score in ("VertexSet", "SecurityScore", "RecoverabilityScore")}

YES_NO, ASKED = {"telling.A": "(False, True)"}, lambda names, **more: {names: "given.asked", **more}
OF_LISTS = lambda names: {n: "given.lists" for n in names.split()}
RUNS = {"text calls numbers": "given.runs"}
# By definition: a variable, or several together; `field/variable` where a field has its own; `callee.A` for a type that is handed on, and the
# name of a field that is a type. Names of the definition's parameters may be used.
RANGES = {
    # ---- sets, derivations, contracts
    "Rising": {"y": "(0, *l)"},
    "Derivation": {"steps": "[*lists_of_steps(r, held), *((e,) for e in r.Step())]"},
    "access": {"Step": "steps()"},
    "lockout": {"Step": "world.vertices"},
    "Passes": {"u": "world.sets"},
    "Settles": {"Settled.O": "given.outcomes"},
    "Told": {"values unused": "[(fields[:n], len(fields) - n) for n in range(len(fields) + 1)]"},
    "SettledTold": {"n f l": "given.told"},
    "Counts": {"marks": "[*lists_of_marks(loss, s, g, target, handed), ('Right',) * len(handed)]", "base": "world.lists"},
    "closure_call": {"telling.A": "[CountedClosure(r, n) for r in world.sets for n in range(len(world.vertices) + 2)]"},
    "lost_call": {"telling.A": "world.sets"},
    "way_call": {"Answer": "['Shut', *(('Along', d) for d in ways(s.graph, target, set_))]"},
    "bases_call": {"Answer": "[Bases(opening, lock) for opening in world.lists for lock in world.lists]"},
    "score_call": {"telling.A": "sorted({*scores(s, loss), *range(8), never + 1})"},
    "marks_call": {"telling.A": "[Marks(*m) for m in itertools.product(range(4), repeat=5)]"},
    # ---- the sheet
    "Joins": {"place": "range(len(d.edges) + 1)", "source": "d.items", "target": "d.items"},
    "Stated": {"x": "d.items", "edges/e": "d.edges", "recovery/e": "d.edges"},
    "ValidOfAccepted": {"s": "given.texts", "st": "(read_sheet(s).setup,)"},
    "FirstNo": {"before after": "[(asked[:i], asked[i + 1:]) for i in range(len(asked))]"},
    "NoAtLine": {"above line below": "[((), (120,), ()), *((l[:i], l[i], l[i + 1:]) for l in [lines_of(text)] for i in range(len(l)))]", "place": "places(lines_of(text))"},
    "NoAtEnd": {"place": "places(lines_of(text))"},
    "RefusalLaw": {"s": "given.texts", "q": "given.numbers", "k": "given.lines"},
    "RefusalUnique": {"s": "given.texts", **{q: "given.numbers" for q in ("q", "q'")}, **{k: "given.lines" for k in ("k", "k'")}},
    "Accepted": {"setup": "(read_sheet(s).setup,)"},
    "Refused": {"number": "given.numbers", "line": "given.lines"},
    "AcceptedOrRefused": {"s": "given.texts"},
    "NameBegins": {"rest": "(text[len(above) + len(name):],)"},
    "NamePlaces": {"x": "d.items"},
    # ---- findings, executable definitions, the report
    "Compared": {"less": "graphs(s)"},
    "FindsBackdoor": {n: "scores(s, False)" for n in ("score", "without")},
    "FindsIneffective": {n: "scores(s, True)" for n in ("score", "without")},
    "FindsInconsistent": {n: "scores(s, False)" for n in ("score", "other")},
    "NoEasierRoute": {"g": "graphs(s)", "held": "[_Part(Member, 2, (x,)) for x in world.sets]", **{r: "sorted({*scores(s, False), *scores(s, True)})" for r in ("r", "r'")}},
    **{call: YES_NO for call in ("backdoor_call", "ineffective_call", "inconsistent_call")},
    "Meaning": {"target": "range(s.count)", "handed": "given.handed"},
    "ReportMeaning": {"items/x": "(*world.sets, 2 ** 63 + 1, 2 ** 64 + 1)"},
    "UnmixedPrints": {"g": "graphs(read_sheet(sheet).setup)"},
    # ---- kinds of intruder, the quick yes, forecasts
    "OfBase": {"set": "world.sets"},
    "KindOfSet": {"kinds": "given.kinds", "t": "KINDS"},
    "KindInScore": {"j": "KINDS"},
    "AtOrAbove": {"attacker": "KINDS"},
    "AttackerScore": {"k": "KINDS", "t": "KINDS"},
    "SixKinds": ASKED("s kinds target r"),
    "NobodyIn": ASKED("s kinds target r"),
    "KindsAtMost": {"u": "KINDS"},
    "KindsSound": ASKED("s kinds a b p q"),
    "attacker_call": {"telling.A": "range(128)"},
    "OthersUnread": {"s target": "given.targets", "kinds": "given.kinds", "kinds'": "given.kinds"},
    "HeldAtStop": {"steps": "ways(g, target, set_)"},
    "quick_call": {"telling.A": "[Quick(opens, r) for opens in (True, False) for r in world.sets]"},
    "QuickAgrees": {"a": "quick_call(s, target, set_).Answer()", "b": "closure_call(s, set_).Answer()"},
    "Antichain": {"a": "world.sets", "b": "world.sets"},
    "Sperner": {"t": "world.sets"},
    "Foretold": {"counted": "world.sets"},
    "ForecastHolds": ASKED("s target counted n"),
    "ForecastRange": {"s target": "given.targets", "n": "range(12)"},
    "LongestBase": {"g": "(s.graph,)", "target": "range(s.count)"},
    "CountedOnce": {"s target": "given.targets", "r": "world.sets", "q": "world.sets"},
    "forecast_call": {"telling.A": "range(12)"},
    # ---- bags
    "Pairing": {"to": "functions(len(m), len(n) + 1)", "i": "range(len(m) + 1)", "j": "range(len(m) + 1)"},
    "SameMultiset": {"t": "range(9)"},
    "Fewer": {"t": "range(9)"},
    **{n: OF_LISTS("m n") for n in "PairingCounts PairingSorts Antisymmetric OneAtMostAnswer OneArrangement WrittenApart".split()},
    **{n: OF_LISTS("m") for n in "Reflexive Arranges FourteenPlaces".split()},
    "Transitive": OF_LISTS("k m n"),
    "OrderFree": OF_LISTS("m m' n n'"),
    **{n: ASKED("s target l") for n in "Covered EachListed BagsApart PlacesEach LongestScore".split()},
    "AreBags": {"s target": "given.targets"},
    "NoLonger": ASKED("s target l base"),
    "ForecastEnough": ASKED("s target counted n l"),
    "bags_call": {"Answer": "world.lists"},
    # ---- document 003's theorems
    "ClosedByLockout": {"d": "world.colours"},
    "SmallestClosed": {"u": "world.sets"},
    "AccessIsSmallest": ASKED("g s t"),
    "LockoutIsSmallest": ASKED("g s t"),
    "OneClosure": ASKED("loss g s", t="world.sets", u="world.sets"),
    "BasesCompared": ASKED("loss s g a b l k"),
    "TargetSetsCompared": ASKED("loss s g a b"),
    "MinimalWithin": ASKED("loss s g target"),
    "OneBase": ASKED("loss s g target", k="world.lists"),
    "GrowsWithValues": {"S": "given.lists", "T": "given.lists", "EachAbove.D": "sorted({*S, *T})"},
    "Sound": ASKED("a b base_a base_b"),
    "ConditionsSuffice": {"k": "given.schemes", "loss s g": "given.graphs"},
    "sum_then_least": {"Value": "given.values"},
    "ScoreIsLeast": ASKED("loss s g target r l"),
    "SumMeetsBoth": {"loss s": "given.ways"},
    "SumThenLeastSound": {"loss s g": "given.graphs"},
    "ScoresSound": ASKED("loss s g a b p q"),
    "MultisetsSound": ASKED("s a b l k"),
    "AttackersSound": ASKED("s kinds a b p q"),
    "access_clauses": {"Name": "AccessClause(g)"},
    "lockout_body": {"d": "world.colours"},
    "lockout_clauses": {"Name": "LockoutClause(g)"},
    "Entails": {"value": "assignments(k, x)"},
    "AccessByClauses": ASKED("g held"),
    "LockoutByClauses": ASKED("g lost"),
    "AccessEntailed": ASKED("g s v"),
    "LockoutEntailed": ASKED("g s v"),
    # ---- the next set
    "next_call": {"telling.A": "['End', *(('Shown', x) for x in world.sets)]"},
    "WholeWalk": {"target": "range(s.count + 1)"},
    "ShownRise": {"target last moments l": "given.walks"},
    "ShownEnd": {"target last moments l": "given.walks", "initial": "given.initial"},
    "DrawingAlone": ASKED("target last o", **{"s t": "given.drawings"}),
    # ---- pooling, saving
    "RenamesLowest": {"b": "range(c + 2)", "k": "range(new_colour(es, fs, n, c) + 2)"},
    "Renaming": {"n": "given.names", "c": "range(9)"},
    "IsPooled": {"first": "given.docs", "second": "given.docs"},
    "AlwaysEnough": {"a b t": "given.labs"},
    "PooledText": {"a b r entry exit": "given.pooled"},
    **{n: {"j": "world.vertices"} for n in ("KeepsOpening", "SetByName", "KeepsOpeningSet")},
    "KeepsYes": {"j": "world.vertices", "a": "quick_call(read_sheet(s).setup, i, set_).Answer()", "b": "quick_call(read_sheet(t).setup, j, x).Answer()"},
    "KeepsItems": {"j": "world.vertices"},
    "Pooling": {"a b t": "given.labs"},
    "PoolDetermined": {"a b entry": "given.lent", "r exit": "given.ends", "r' exit'": "given.ends"},
    "SavedRows": {"x": "d.items"},
    "save_call": {"Answer": "given.docs"},
    "SavedText": {"sheet s entry": "given.lent", "number size exit": "given.saved"},
    "Printed": {"answer entry exit": "given.printed"},
    # ---- the class register
    "Enters": {"row": "world.records"},
    **{n: {"u": "world.times"} for n in "Stands First Latest".split()},
    "Entry": {"time": "world.times"},
    "RegisterHolds": {"t": "world.times", "times": "itertools.product(world.times, repeat=len(records))"},
    "RegisterLaw": {"s slice": "given.slices", "log": "given.logs"},
    # ---- hand-ins by name
    "write_set_call": {"Answer": "[(), (45, 45), *(set_names(_Part(name_of, 2, (sheet,)), y) for y in world.sets)]"},
    **{n: {"d slice log": "given.afternoons"} for n in ("LinesLaw", "RegisterMarks")},
    "EntryOfLine": {"l": "given.written"},
    "SetOfNames": {"ns": "given.names_of", "n": "((), *ns, *(x.name for x in items))"},
    "NamesSet": {"names": "given.names_of"},
    "LineTaken": {"row": "world.records"},
    "LineMarks": {"d x used a entry exit": "given.marked"},
    "TellsLine": {"outcome": "given.line_outcomes"},
    "SettledReadSet": {"b": "given.named_sets"},
    "SettledReadLine": {"b other": "given.line_ends"},
    "SettledEntering": {"Settled.O": "given.registers"},
    # ---- cut sets
    "Duality": {"counted": "world.sets", "n": "range(1, 7)"},
    "DualityHolds": ASKED("s target cuts"),
    "CutsMeetBase": ASKED("s target l"),
    "LongestCuts": ASKED("s target cuts"),
    "cuts_call": {"Answer": "world.lists"},
    # ---- a setup that lives
    "Reached": {**RUNS, "fresh": "(read_sheet(text).setup,)"},
    "OpenedAlways": {**RUNS, "s": "given.ends"},
    "RefusedStays": {**RUNS, "s": "given.ends", "n": "range(28)"},
    "NoHeed": {"q o": "given.requests", "used student target loss handed a entry exit": "given.hand_ins"},
    "DrawingSaved": {"sheet calls numbers": "given.runs", "s": "given.ends", "number size entry exit": "given.saves"},
    # ---- the report part by part
    "Begun": {"list": "((0,) * 2 ** most_chosen,)"},
    "Filled": {"entry exit step": "given.fills"},
    "Fills": {"list'": "(list_, (0,))", "d": "given.cursors"},
    "WholeReport": {"sheet r opening₀ lockout₀ opening lockout list": "given.begun", "parts": "given.parts"},
    # ---- the calls for C
    "SaysSetup": {"v": "range(66)"},
    "Strict": {"words": "given.words", "rest": "given.rests"},
    "name_call": {"telling.A": "[NamePart(start, size) for start in range(len(text) + 1) for size in range(most_name + 2)]"},
    "ReadBack": {"number": "given.numbers", "line": "given.lines", "entry": "given.entries", "exit": "given.exits"},
    "living_call": {"Answer": "given.setups"},
    "NoWordChanges": ASKED("v number entry exit"),
    "MadeOn": {"words": "given.words"},
    "LivesInWords": {"text number line entry fresh calls numbers words": "given.lived", "n": "range(28)"},
    # ---- the demands
    "Named": {"x": "d.items"},
    "SettledName": {"p a": "given.parts"},
    "SettledPortal": {"outcome/q": "range(16)", "only/q": "given.numbers"},
    "SettledLiving": {"Settled.O": "given.redrawings"},
    "SettledHandIn": {"Settled.O": "given.registers"},
    "SettledWithdrawal": {"Settled.O": "given.registers"},
    "SettledPool": {"r' exit'": "given.ends"},
    "SettledForC": {
        "calls/q s n fields lent": "given.called",
        "living/c words n fields lent": "given.changed",
        "name/text item n fields lent": "given.named",
        "write_set/sheet x out n fields lent": "given.written_sets",
        "read_line/sheet line entry": "given.lines_for_c",
        "read_line/r exit": "given.told_for_c",
        "read_line/r' exit'": "given.told_for_c",
        "check/words": "given.words",
        "check/r": "range(16)",
        "Settled.O": "range(16)",
        "reading/text entry": "given.entries",
        "reading/n l exit": "given.read",
        "reading/n' l' exit'": "given.read",
    },
    "Demand1": {
        "hand_in/t used student target loss handed a entry exit": "given.handed_in",
        "withdraw/used student a entry exit": "given.withdrawn",
        "pool/first second p entry exit": "given.pooled",
        "living/c t p": "given.redrawn",
        "read_set/sheet l a": "given.set_readings",
        "read_line/sheet line a entry exit": "given.line_readings",
        "enter_line/sheet line used a entry exit": "given.entered",
    },
    "Papers": {"quick/s target set": "given.quick", "routes/s g": "given.routes", "scores/s v r r'": "given.compared"},
}
# Which record is meant, where two have the same fields: by the definition that makes it.
RECORDS = {"with_sets": "LineOutcome", "told_in_numbers": "LineTold", "TellLineCall": "LineTold"}
# Functions whose answers are kept, though they run over no range: what they compute is asked for again and again.
KEPT = set("same_text read_sheet render setup_of base_of target_sets_of score_of closure_of words_of setup_in report_of sum_of edge_count chosen_count name_of name_start rest_of".split())
# Quantifiers that no example reaches, and why.
NEVER = {}

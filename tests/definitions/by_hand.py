"""The alterations by hand, of declared.txt and computed.txt: each is made in its file's text, and its example must then have another answer.

`--record` looks for an example where none is named yet; other words choose files and names. `typed` has the prover see that each is a definition.
"""
import sys

import asking
import blocks
import files
import scratch
from made import antt

DATA = [blocks.HERE / "declared.txt", blocks.HERE / "computed.txt"]
# Files that stand on those of the scratch crate.
ABOVE = """
quick_yes/Agrees answers/Demand3 histories/Histories histories/Requests histories/NoHeed portal/Portal
save_format/Rows save_format/Call save_format/Meaning reference/Meaning soundness/Closures soundness/Secure soundness/Schemes soundness/Scores soundness/Horn
report_text/Meaning written/Rows report_writer/Inner/Steps report_writer/Whole portal_sets/Check portal_living/Living
handin_format/Sets handin_format/Entries handin_format/Lines handin_format/Calls handin_format/Afternoon handin_format/Meaning handin_format/Marks
portal_register/Lines histories/Drawings demands/Sheets demands/Calls demands/HandIns demands/Demands
""".split()


def typed():
    """How many rounds of altered definitions, one alteration of each at a time, the prover does not take as definitions."""
    left = [b for data in DATA for b in blocks.read(data) if "old" in b]
    bad = rounds = 0
    while left:
        now = {(b["file"], b["name"]): b for b in reversed(left)}
        texts = {"report_writer/Inner/Steps": files.AT}
        for (file, name), b in now.items():
            texts[file] = blocks.replaced(texts.get(file) or blocks.source(file).read_text(), name, b["old"], b["new"])
        out, status = scratch.checked("typed", texts, scratch.NO_EXAMPLES, ABOVE)
        if status:
            lines = [line for line in out.split("\n") if ": error: " in line and "was not admitted" not in line]
            print("\n".join(line[:300] for line in lines))
        bad += status != 0
        rounds += 1
        left = [b for b in left if now[b["file"], b["name"]] is not b]
    print(f"by hand: the altered definitions are definitions, in {rounds} rounds, {bad} refused", flush=True)
    return bad


def asked(task):
    """Whether an alteration is noticed by its example, or by which one of those that use the definition."""
    b, record = task
    candidates = asking.of_name(b["name"]) if record else [e for e in asking.EVERY if e.name == b.get("seen")]
    try:
        new = asking.D._made.changed(b["file"], blocks.altered(b))
        return b, *asking.noticing(candidates, new, one=asking.ONE if record else asking.ALL * 3)
    except antt.Refused as e:
        return b, None, str(e)


def main(words=(), record=False):
    """How many alterations are not noticed."""
    bad = tried = 0
    with asking.pool() as pool:
        for data in DATA:
            found = blocks.read(data)
            todo = [b for b in found if "old" in b and (not words or any(w in f"{b['file']} {b['name']}" for w in words)) and not (record and b.get("seen", "?") != "?")]
            for b, seen, why in pool.imap(asked, [(b, record) for b in todo]):
                tried, bad = tried + 1, bad + (seen is None)
                if seen is None or record:
                    print(f"{'NOT NOTICED' if seen is None else 'noticed'} {b['file']} {b['name']}: {b['old']} to {b['new']}: {seen or why}", flush=True)
                if record:
                    next(x for x in found if all(x.get(k) == b.get(k) for k in ("file", "name", "old", "new")))["seen"] = seen or "?"
                if tried % 100 == 0:
                    print(f"by hand: {tried} alterations, {bad} not noticed so far", flush=True)
            if record:
                blocks.write(data, found)
    print(f"by hand: {tried} alterations, {bad} not noticed", flush=True)
    return bad


if __name__ == "__main__":
    chosen = [w for w in sys.argv[1:] if not w.startswith("--")]
    if chosen != ["typed"]:
        asking.measure() if "--record" in sys.argv else asking.list_all()
    sys.exit(1 if (typed() if chosen == ["typed"] else main(chosen, "--record" in sys.argv)) else 0)

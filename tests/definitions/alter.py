"""Alters each definition that must be believed, by hand and by rule, and sees that an example notices it.

    python3 tests/definitions/alter.py --examples   the examples on the definitions as they are: the gate's part
    python3 tests/definitions/alter.py              all of it, and writes what rules and hand have altered to records/definitions.md
    python3 tests/definitions/alter.py --rules [file ..]   the alterations by rule alone, of all files or of these
"""
import collections
import re
import sys
import time

import asking
import blocks
import by_hand
import computed
import files
import rules

DOC = blocks.ROOT / "records" / "definitions.md"
MARK = "<!-- the table: written by tests/definitions/alter.py -->"
REASONS = blocks.HERE / "survivors.txt"
DOCUMENT = re.compile(r"(not |computed )?B\d+\b|computed (reads-(bench|ring|alone|closed|loop|pair)|report-document)$")


def definitions():
    return [(file, name) for file in files.listed() for name in files.parsed(file)[1]]


def reasons():
    """Why an alteration by rule changes no answer: by file, name and sentence, or for all of a field or clause, or of the definition."""
    found = {}
    for line in REASONS.read_text().split("\n"):
        if line and not line.startswith("#"):
            key, reason = line.split(" => ")
            found[key] = reason
    return found


def ruled(words):
    """Every alteration by rule, with the example that notices it or the reason; how many have neither; reasons that are not needed."""
    todo = [(file, name) for file, name in definitions() if not words or any(w in file for w in words)]
    why, found, used, began = reasons(), collections.defaultdict(list), set(), time.time()
    tried = bad = 0
    with asking.pool() as pool:
        for done, (file, name, these) in enumerate(pool.imap_unordered(asking.by_rule, todo), 1):
            for sentence, seen, said in these:
                tried += 1
                if not seen and sentence.endswith(rules.MORE):
                    found[file, name].append((sentence, seen, "the law could perhaps say more"))
                    continue
                part = sentence.removesuffix(" dropped").rpartition(" in ")[2]
                keys = [k for k in (f"{file} {name}: {sentence}", f"{file} {name} {part}", f"{file} {name}") if k in why]
                used |= set() if seen else set(keys[:1])
                found[file, name].append((sentence, seen, why[keys[0]] if keys and not seen else ""))
                if not seen and not keys:
                    bad += 1
                    print(f"NOT NOTICED {file} {name}: {sentence} ({said})", flush=True)
            if done % 50 == 0:
                print(f"by rule: {done} of {len(todo)} definitions, {tried} alterations, {bad} open, {round(time.time() - began)} s", flush=True)
    left = [k for k in why if k not in used and (k.split()[0], k.split()[1].rstrip(":")) in todo]
    for key in left:
        print(f"survivors.txt has a reason that is not needed: {key}")
    with_reason = sum(1 for these in found.values() for _, seen, reason in these if reason)
    print(f"by rule: {tried} alterations, {tried - bad - with_reason} noticed, {with_reason} with a reason, {bad} open, {round(time.time() - began)} s", flush=True)
    return found, bad + len(left)


def code(text):
    return "`" + re.sub(r"\s+", " ", text.replace("⏎", " ")).strip().replace("|", "\\|") + "`"


def rows(file, name, hand, rule):
    for b in hand[file, name]:
        yield f"| `{name}` | none: {b['none']} | |" if "none" in b else f"| `{name}` | {code(b['old'])} to {code(b['new'])} | {b['seen']} |"
    for sentence, seen, reason in rule[file, name]:
        yield f"| `{name}` | by rule: {sentence.replace('|', chr(92) + '|')} | {seen or 'none: ' + reason} |"


def record(rule):
    """The table of records/definitions.md."""
    hand, lines = hand_by_name(), []
    for file in files.listed():
        lines += ["", f"### `crates/{file.replace('/', '/specs/')}.antt`", "", "| definition | alteration | an example that fails |", "|---|---|---|"]
        lines += [row for name in files.parsed(file)[1] for row in rows(file, name, hand, rule)]
    text = DOC.read_text()
    DOC.write_text(text[: text.index(MARK)] + MARK + "\n\n" + totals(hand, rule) + "\n" + "\n".join(lines) + "\n")


def hand_by_name():
    found = collections.defaultdict(list)
    for data in by_hand.DATA:
        for b in blocks.read(data):
            assert (b["file"], b["name"]) in definitions(), f"{b['file']} has no definition {b['name']}, or docs/TRUST.md does not list it"
            found[b["file"], b["name"]].append(b)
    return found


def totals(hand, rule):
    made = [b for bs in hand.values() for b in bs if "old" in b]
    ruled_ = [x for xs in rule.values() for x in xs]
    seen = [b["seen"] for b in made] + [x[1] for x in ruled_ if x[1]]
    altered = sum(bool(rule[d]) or any("old" in b for b in hand[d]) for d in definitions())
    document = sum(bool(DOCUMENT.match(s)) for s in seen)
    return (
        f"{len(definitions())} definitions in {len(files.listed())} files: {altered} altered, {len(definitions()) - altered} not, with the reason.\n"
        f"{len(made)} alterations by hand and {len(ruled_)} by rule: {len(seen)} noticed, {document} by an example of document 01 and {len(seen) - document} by a "
        f"further one; {len(ruled_) + len(made) - len(seen)} change no answer, with the reason."
    )


def left_out(rule):
    """Definitions that nothing alters, without a reason."""
    hand = hand_by_name()
    return [f"{f} {n}" for f, n in definitions() if not rule[f, n] and not hand[f, n]]


def examples():
    """How much is wrong with the definitions as they are."""
    began = time.time()
    wrong, many = asking.wrong()
    print(*wrong, f"examples: {many} of {len(definitions())} definitions, {len(wrong)} faults, {round(time.time() - began)} s", sep="\n", flush=True)
    return len(wrong)


def main(words):
    bad = examples()
    if bad or "--examples" in words:
        return bad
    asking.measure()
    if "--rules" in words:
        return ruled([w for w in words if not w.startswith("--")])[1]
    bad = by_hand.main()
    rule, open_ = ruled(())
    for name in left_out(rule):
        print("no alteration and no reason:", name)
    bad += open_ + len(left_out(rule)) + by_hand.typed() + computed.main()
    record(rule)
    print(totals(hand_by_name(), rule))
    print("definitions:", "FAILED" if bad else "every alteration is noticed, or has its reason")
    return bad


if __name__ == "__main__":
    sys.exit(1 if main(sys.argv[1:]) else 0)

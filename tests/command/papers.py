#!/usr/bin/env python3
"""Papers without a browser: well formed, nothing fetched, nothing run, no answer among the exercises, every cell of the answers against the
brute force, names escaped, size bounded, with and without `dot`, and a `dot` that fails or prints nonsense.

Cells are found by `data-table`, so that words stay free; steps are followed on the sheet, here, once more. GEMZULEG=folder names the folder
of the command, else build/bin; `papers.py NAME..` takes the sheets of these names alone. The exit status is 1 where something does not hold.
"""
import os
import re
import shlex
import subprocess
import sys
import tempfile
import xml.etree.ElementTree as ElementTree
from pathlib import Path

ROOT = Path(__file__).resolve().parent.parent.parent
BIN = Path(os.environ.get("GEMZULEG", str(ROOT / "build/bin"))).resolve()
SVG = "{http://www.w3.org/2000/svg}"
MOST = 2_000_000  # bytes of a page
ROWS, WITH_STEPS = 72, 24  # of a list: shown, and shown with steps
LINES = 3000  # of a page: rows and steps
LOCATIONS, SKILLS = ("remote", "local"), ("none", "some", "expert")
faults, checks = [], 0
room = tempfile.TemporaryDirectory()
at = Path(room.name)
(at / "empty").mkdir()


def hold(yes, what):
    global checks
    checks += 1
    if not yes:
        faults.append(what)


def run(*words, path=None, cwd=at):
    """Without `dot`, unless a folder for it is named."""
    done = subprocess.run([str(BIN / "gemzuleg"), *words], cwd=cwd, env={"PATH": path or str(at / "empty")}, stdin=subprocess.DEVNULL,
                          capture_output=True, timeout=300)
    return done.returncode, done.stdout.decode(), done.stderr.decode()


def day(*words):
    done = subprocess.run(["cargo", "run", "--release", "--quiet", "-p", "day", "--", *words], cwd=ROOT / "tests", capture_output=True, text=True)
    if done.returncode:
        sys.exit(f"papers: day {words}: {done.stderr}")
    return done.stdout


# ---- pages
def text(element):
    return "".join(element.itertext())


def parsed(page, what):
    """The page as a tree, where it is well formed and neither fetches nor runs anything."""
    hold(page.startswith("<!DOCTYPE html>\n<html") and page.endswith("</html>\n"), f"{what}: begins or ends otherwise")
    hold(page.count("<!DOCTYPE") == 1 and "<?xml" not in page, f"{what}: a prolog inside")
    try:
        tree = ElementTree.fromstring(page)
    except ElementTree.ParseError as error:
        hold(False, f"{what}: not well formed: {error}")
        return None
    allowed = {"html", "head", "meta", "title", "style", "body", "header", "h1", "h2", "h3", "p", "b", "i", "div", "span", "figure", "figcaption",
               "table", "thead", "tbody", "tr", "th", "td", "code", "footer", "wbr", "a"}
    for element in tree.iter():
        name = element.tag
        hold(name in allowed or name.startswith(SVG), f"{what}: an element {name}")
        for field, value in element.attrib.items():
            own = field in {"class", "lang", "charset", "data-table"} or (name == "a" and field == "href" and re.fullmatch(r"\./[\w.-]+\.html", value))
            drawn = name.startswith(SVG) and not re.match(r"on|style|.*href", field) and "url(" not in value
            hold(own or drawn, f"{what}: {name} has {field}={value}")
    hold(not re.search(r"@import|url\(|expression", text(tree.find("head/style"))), f"{what}: the style fetches")
    return tree


def tables(tree):
    """Each table's rows, by its name."""
    found = {}
    for table in tree.iter("table"):
        name = table.get("data-table")
        hold(name not in found, f"two tables {name}")
        found[name] = [list(row.findall("td")) for row in table.find("tbody").findall("tr")]
    return found


def cells(rows):
    return [[text(cell) for cell in row] for row in rows]


# ---- the sheet, read here once more
class Sheet:
    def __init__(self, path):
        above, below = path.read_text().split("\n\n")
        self.items = [line.split(" ") for line in above.splitlines()[1:]]
        self.names = [row[0] for row in self.items]
        self.accounts = [row[0] for row in self.items if row[1] == "a"]
        self.row, self.recovery = {}, {}
        for line in below.splitlines()[1:]:
            source, target, colour, rec = line.split(" ")
            self.row.setdefault((target, int(colour)), set()).add(source)
            if rec == "1":
                self.recovery.setdefault((target, int(colour)), set()).add(source)
        self.values = [{row[0]: int(row[n]) for row in self.items if row[n] != "-"} for n in (2, 3)]

    def join(self, names):
        return "+".join(name for name in self.names if name in names) or "-"

    def colours(self, item):
        return sorted(colour for target, colour in self.row if target == item)

    def follow(self, lines, start, target, lock):
        """Does each step stand on the sheet and on what is there before it, and does the last one reach the target?"""
        there = set() if start == "-" else set(start.split("+"))
        if lines == [f"{target} is in the set itself"]:
            return target in there
        for number, line in enumerate(lines, 1):
            if not lock:
                found = re.fullmatch(rf"{number}\. (\S+) (opens?) (\w+) \(colour (\d)(, recovery)?\)", line)
                if not found:
                    return False
                needs, item, colour = set(found[1].split("+")), found[3], int(found[4])
                right = needs == self.row.get((item, colour)) and needs <= there and (found[2] == "opens") == (len(needs) == 1)
                right = right and bool(found[5]) == ((item, colour) in self.recovery)
            else:
                found = re.fullmatch(rf"{number}\. (\w+) is lost with (.*)", line)
                if not found:
                    return False
                item, told = found[1], {}
                for cause in found[2].split(" and "):
                    one = re.fullmatch(r"(\w+) \((colours? )(.*)\)", cause)
                    if not one:
                        return False
                    for colour, rec in re.findall(r"(\d)((?:,? recovery)?)", one[3]):
                        told[int(colour)] = (one[1], bool(rec))
                right = sorted(told) == self.colours(item) and all(
                    cause in there & self.row[item, colour] and rec == ((item, colour) in self.recovery) for colour, (cause, rec) in told.items())
            if not right or item in there:
                return False
            there.add(item)
        return target in there and lines[-1].split(" ")[1 if lock else 3] == target


# ---- exercises
def exercises(sheet, page, what):
    tree = parsed(page, what)
    if tree is None:
        return
    found = tables(tree)
    hold(set(found) <= {"things", "ways", "blank"}, f"{what}: tables {sorted(found)}")
    dash = lambda value: value.replace("-", "–")
    wanted = [[n, {"a": "account", "c": "credential"}[k], dash(s), dash(l), r] for n, k, s, l, r in sheet.items]
    hold(cells(found.get("things", [])) == wanted, f"{what}: things")
    wanted = []
    for name in sheet.names:
        for colour in sheet.colours(name):
            row, rec = sheet.row[name, colour], sheet.recovery.get((name, colour), set())
            mark = "" if not rec else "recovery" if rec == row else f"recovery by {sheet.join(rec)}"
            wanted.append([name, sheet.join(row), str(colour), mark])
    hold(cells(found.get("ways", [])) == wanted, f"{what}: ways")
    hold(cells(found.get("blank", [])) == [[name, "", "", "", ""] for name in sheet.accounts], f"{what}: blank")
    boxes = [box for box in tree.iter("div") if box.get("class") == "exercise"]
    lines = [f"student {name} {way} set set .." for way in ("open", "lock") for name in sheet.accounts]
    hold([text(box.find("h3/code")) for box in boxes] == lines, f"{what}: the lines to hand in")
    hold(all(len(box.findall("div")) == 5 and not any(text(rule) for rule in box.findall("div")) for box in boxes), f"{what}: five ruled lines")


def without_ways(page):
    return re.sub(r'<figure>.*?</figure>\n|<table data-table="ways">.*?</table>\n|<p>No arrow is drawn\.</p>\n', "", page, flags=re.S)


def no_answer(path, page, what):
    """Another drawing with the same things has other answers; its exercises are the same but for what opens what."""
    other = at / "other"
    other.mkdir(exist_ok=True)
    copy = other / path.name
    copy.write_text(path.read_text().split("from to colour rec\n")[0] + "from to colour rec\n")
    hold(without_ways(run("paper", str(copy))[1]) == without_ways(page), f"{what}: the exercises depend on the answers")


# ---- answers
def expected(path, kinds):
    """The brute force's tables: lists, scores, pairs, harden, routes, kinds; each as its rows."""
    parts = day("cells", str(path), *([",".join(map(str, kinds))] if kinds else [])).split("\n\n")
    return [[line.split(" ") for line in part.splitlines()[1:]] for part in parts]


def sentences(tree, all_rows):
    return [text(p) for p in tree.iter("p") if p.get("class") == "cut" and f" of {all_rows} " in text(p)]


def lines_of(found):
    """The rows and steps of all lists."""
    rows = [row for name, table in found.items() if " " in name for row in table]
    return len(rows) + sum(len([line for line in row[-1].iter("div") if line.get("class") is None]) for row in rows)


def answers(sheet, page, want, what):
    tree = parsed(page, what)
    if tree is None:
        return None
    found = tables(tree)
    # a page that is cut has many lines: what has room is whole
    lines = lines_of(found)
    bounded = LINES / 3 < lines <= LINES
    hold(lines <= LINES, f"{what}: {lines} lines")
    lists, scores, pairs, harden, routes = want[:5]
    never = lambda value: value.replace("-", "never")
    turned = {"yes": "no", "no": "yes"}
    hold(cells(found.get("scores", [])) == [[n, never(s), never(r), b, turned[i]] for n, s, r, b, i in scores], f"{what}: scores")
    hold(cells(found.get("pairs", [])) == pairs[:ROWS], f"{what}: pairs")
    used = []
    for name, _, without, total, items, recovery in routes[:ROWS]:
        arrows = [f"{source} to {item}" for item, colour in (part.split(":") for part in recovery.split("+")) for source in sheet.names
                  if source in sheet.recovery[item, int(colour)]]
        used.append([name, items, total, never(without), ", ".join(arrows)])
    hold(cells(found.get("routes", [])) == used, f"{what}: routes")
    for name in sheet.accounts:
        for way in ("open", "lock"):
            rows = [[row[4], row[3]] for row in lists if row[:2] == [name, way]]
            shown = found.get(f"{way} {name}", [])
            hold([text_row[:2] for text_row in cells(shown)] == rows[:len(shown)], f"{what}: {way} {name}")
            told = [[text(line) for line in row[2].iter("div") if line.get("class") is None] for row in shown]
            with_steps = sum(map(bool, told))
            hold(all(told[:with_steps]) and all(sheet.follow(lines, row[0], name, way == "lock") for lines, row in zip(told[:with_steps], rows)),
                 f"{what}: steps of {way} {name}")
            whole = len(shown) == min(ROWS, len(rows)) and with_steps == min(WITH_STEPS, len(rows))
            hold(whole or bounded and (shown or not rows), f"{what}: {way} {name} shows {len(shown)} of {len(rows)}, {with_steps} with steps")
            hold(len(shown) == len(rows) or sentences(tree, len(rows)), f"{what}: {way} {name} is cut without a sentence")
        rows = [row[2] for row in harden if row[0] == name]
        shown = [row[0] for row in cells(found.get(f"harden {name}", []))]
        hold(shown == rows[:len(shown)] and (len(shown) == min(ROWS, len(rows)) or bounded), f"{what}: harden {name}")
        hold(len(shown) == len(rows) or sentences(tree, len(rows)), f"{what}: harden {name} is cut without a sentence")
    hold(len(pairs) <= ROWS or sentences(tree, len(pairs)), f"{what}: pairs are cut without a sentence")
    hold(len(routes) <= ROWS or sentences(tree, len(routes)), f"{what}: routes are cut without a sentence")
    if len(want) > 5:
        wanted = [[name] + [{"yes": "yes, least"}.get(row[4], row[3]) for row in want[5] if row[0] == name] for name in sheet.accounts]
        hold(cells(found.get("kinds", [])) == wanted, f"{what}: kinds")
    names = {f"{kind} {name}" for kind in ("open", "lock", "harden") for name in sheet.accounts}
    hold(set(found) <= names | {"scores", "pairs", "routes", "kinds"}, f"{what}: tables {sorted(found)}")
    hold(len(page.encode()) <= MOST, f"{what}: {len(page.encode())} bytes")
    return tree


def commands_of(tree):
    """What the cut lists' sentences say: how many there are, and the command that prints them all."""
    said = [(re.search(r"first \d+ of (\d+) ", text(p)), p.find("code")) for p in tree.iter("p") if p.get("class") == "cut"]
    return [(int(count[1]), shlex.split(text(code))[1:]) for count, code in said if count]


# ---- sheets
def kinds_of(sheet, path):
    numbers = [(number * 5 + 1) % 6 for number in range(len(sheet.names))]
    rows = [f"{name} {LOCATIONS[number // 3]} {SKILLS[number % 3]}\n" for name, number in zip(sheet.names, numbers)]
    path.write_text("name location skill\n" + "".join(rows))
    return numbers


day("sheets", str(at))
for source in sorted((ROOT / "examples").glob("*.sheet")):
    if run("check", str(source))[0] == 0:
        (at / source.name).write_bytes(source.read_bytes())
sheets = [path for path in sorted(at.glob("*.sheet")) if path.stem in sys.argv[1:] or not sys.argv[1:]]
largest = 0
for path in sheets:
    sheet, what = Sheet(path), path.stem
    status, page, err = run("paper", path.name)
    hold((status, err) == (0, ""), f"{what}: status {status}, {err}")
    exercises(sheet, page, f"{what}, exercises")
    no_answer(path, page, what)
    numbers = kinds_of(sheet, path.with_suffix(".kinds"))
    status, page, err = run("paper", "--answers", "--kinds", f"{what}.kinds", path.name)
    hold((status, err) == (0, ""), f"{what}: status {status}, {err}")
    tree = answers(sheet, page, expected(path, numbers), f"{what}, answers")
    largest = max(largest, len(page.encode()))
    if what == "seven":
        said = commands_of(tree)
        hold({count for count, _ in said} >= {3432, 3003}, "seven: its longest lists are told")
        for count, words in said:
            hold(len(run(*words)[1].splitlines()) == count + 1, f"seven: {words} does not print {count}")

# ---- names
bench = (ROOT / "rust/gemzuleg/src/example.sheet").read_text()
odd = "a<b>&\"c\" 'd' \u00e9\n\x1b;$(x).sheet"
(at / odd).write_bytes((at / "seven.sheet").read_bytes())
for words in (["paper"], ["paper", "--answers"]):
    status, page, err = run(*words, odd)
    tree = parsed(page, "an odd name")
    shown = odd.removesuffix(".sheet").replace("\n", "?").replace("\x1b", "?")
    hold(tree is not None and text(tree.find("head/title")).endswith(shown) and text(tree.find("body/header/p/b")) == shown, "an odd name is not shown")
plain = at / "it's a lab.sheet"
plain.write_bytes((at / "seven.sheet").read_bytes())
for count, words in commands_of(parsed(run("paper", "--answers", plain.name)[1], "a name with spaces")):
    hold(len(run(*words)[1].splitlines()) == count + 1, f"a name with spaces: {words}")

# ---- chosen accounts
(at / "bench.sheet").write_text(bench)
tree = parsed(run("paper", "--answers", "bench.sheet", "order", "order")[1], "one account")
hold([name for name in tables(tree) if " " in name] == ["open order", "lock order", "harden order"], "one account: its tables")
tree = parsed(run("paper", "bench.sheet", "token", "mail")[1], "two items")
hold([row[0] for row in cells(tables(tree)["blank"])] == ["token", "mail"], "two items: in the order in which they are named")

# ---- wrong use
for words, said in [(["--reach", "mailpw"], "goes with --answers"), (["--kinds", "bench.kinds"], "goes with --answers"),
                    (["--answers", "--kinds"], "--kinds wants a FILE"), (["--answers", "--reach", "a", "--reach", "b"], "one of them"),
                    (["--answers", "--kinds", "a", "--kinds", "b"], "once"), (["--lose", "mailpw"], "has no option")]:
    status, out, err = run("paper", "bench.sheet", *words)
    hold((status, out) == (2, "") and said in err, f"paper {words}: {status}, {err}")
for words, status in [(["nosuch.sheet"], 2), (["bench.sheet", "maill"], 1), (["--answers", "--reach", "maill", "bench.sheet"], 1),
                      (["--answers", "--kinds", "nosuch", "bench.sheet"], 2), (["--answers", "--kinds", "bench.sheet", "bench.sheet"], 1)]:
    came = run("paper", *words)
    hold(came[:2] == (status, "") and came[2], f"paper {words}: {came}")

# ---- pictures
GOOD = ('<?xml version="1.0"?>\n<!DOCTYPE svg PUBLIC "-//W3C//DTD SVG 1.1//EN" "http://www.w3.org/Graphics/SVG/1.1/DTD/svg11.dtd">\n<!-- by -->\n'
        '<svg width="8pt" xmlns="http://www.w3.org/2000/svg"><!-- a -> b --><g id="x"><title>a&#45;&gt;b</title><path d="M0,0"/></g></svg>\n')


def dot(script):
    """A folder with a `dot` of our own."""
    folder = at / f"dot{len(list(at.glob('dot*')))}"
    folder.mkdir()
    (folder / "dot").write_text("#!/bin/sh\n" + script)
    (folder / "dot").chmod(0o755)
    return f"{folder}:/usr/bin:/bin"


def printing(svg):
    return dot(f"cat > /dev/null; printf '%s' {shlex.quote(svg)}\n")


status, page, err = run("paper", "bench.sheet", path=printing(GOOD))
tree = parsed(page, "a picture")
hold((status, err) == (0, "") and tree is not None and len(list(tree.iter(SVG + "path"))) == 1, f"a picture: {status}, {err}")
inside = GOOD[GOOD.index("<svg"):]
bad = [inside.replace("</g>", ""), inside.replace("<g ", "<g onload=\"x()\" "), inside.replace("<path", "<script>x()</script><path"), inside + "<svg></svg>",
       inside.replace("<path", '<image xlink:href="http://x/y"/><path'), inside.replace('d="M0,0"', 'style="fill: url(x)"'), inside.replace("&gt;", "&nbsp;"),
       inside.replace('"M0,0"', '"M0,0'), inside.replace('d="', 'd=M0 e="'), "no drawing at all", "<svg", "<svg>", "", inside + "more", inside.replace("M0,0", "<"),
       inside.replace("a -> b", "a")[:-8], inside.replace("<title>", "<a href=\"x\"></a><title>"), inside.replace("M0", "\x01"), "<svg/>" * 2, inside.replace("a -> b", "a -- b"), inside.replace("a -> b", "-")[:60]]
paths = [printing(svg) for svg in bad]
paths += [dot("cat > /dev/null; exit 1\n"), dot("exit 0\n"), dot("printf '<svg>\\377</svg>'\n"), dot(f"cat > /dev/null; printf '%s' {shlex.quote(GOOD)}; exit 3\n"),
          dot("cat > /dev/null; echo '<svg>'; head -c 3000000 /dev/zero | tr '\\0' 'x'; echo '</svg>'\n"), dot("kill -9 $$\n")]
for number, path in enumerate(paths):
    for words in (["paper"], ["paper", "--answers"]):
        status, page, err = run(*words, "bench.sheet", path=path)
        parsed(page, f"dot {number}")
        hold(status == 0 and "<svg" not in page and "<figure" not in page, f"dot {number}: status {status}, a picture")
        hold(err == "gemzuleg: dot: it gave no picture; the paper has none\n", f"dot {number}: {err!r}")
        hold(page == run(*words, "bench.sheet")[1], f"dot {number}: not the page without a picture")
for options in ([], ["--reach", "mailpw"]):
    kept = at / "kept"
    run("paper", "--answers", *options, "bench.sheet", path=dot(f"cat > {shlex.quote(str(kept))}\n"))
    hold(kept.read_text() == run("graph", *options, "bench.sheet")[1], f"dot gets another text than graph {options}")
real = [folder for folder in os.environ["PATH"].split(":") if (Path(folder) / "dot").is_file()]
for path in [path for path in sheets if real and not path.stem.startswith("largest")]:
    status, page, err = run("paper", "--answers", path.name, path=":".join(real))
    tree = parsed(page, f"{path.stem}, drawn")
    titles = [text(title) for title in tree.iter(SVG + "title")] if tree is not None else []
    hold((status, err) == (0, "") and set(Sheet(path).names) <= set(titles), f"{path.stem}: its picture: {status}, {err}")

# ---- a whole day
(at / "bench.kinds").write_text((ROOT / "rust/gemzuleg/src/example.kinds").read_text())
(at / "bench.handins").write_text("1 order open mailpw ordpw+token\n2 order open mailpw\n2 mail lock mailpw\n")
(at / "typo.sheet").write_text(bench.replace("mailpw mail", "mailpwd mail"))
before = set(at.rglob("*"))
status, out, err = run("class", "--summary", "--papers", "day/papers", "bench.sheet", "typo.sheet", "document.sheet")
hold((status, out) == (1, run("class", "--summary", "bench.sheet", "typo.sheet", "document.sheet")[1]), f"class --papers: {status}, {out}")
papers = at / "day/papers"
names = {"bench.html", "bench-answers.html", "document.html", "document-answers.html", "overview.html"}
hold(set(at.rglob("*")) - before == {at / "day", papers} | {papers / name for name in names}, "class --papers writes other files")
hold((papers / "bench.html").read_text() == run("paper", "bench.sheet")[1], "class --papers: the exercises")
hold((papers / "bench-answers.html").read_text() == run("paper", "--answers", "--kinds", "bench.kinds", "bench.sheet")[1], "class --papers: the answers")
tree = parsed((papers / "overview.html").read_text(), "overview")
rows = cells(tables(tree)["labs"])
hold(rows[0] == ["bench", "exercises", "answers", "5", "2", "2", "3", "2"] and [row[0] for row in rows] == ["bench", "document"], f"overview: {rows}")
hold([link.get("href") for link in tree.iter("a")] == ["./bench.html", "./bench-answers.html", "./document.html", "./document-answers.html"], "overview: links")
hold(run("class", "--papers", "day/papers", "bench.sheet")[0] == 0, "class --papers writes anew")
(at / "more").mkdir()
for name, other in [("more/bench.sheet", "bench.html"), ("bench-answers.sheet", "bench-answers.html"), ("overview.sheet", "overview.html")]:
    (at / name).write_text(bench)
    status, out, err = run("class", "--papers", "fresh", "bench.sheet", name)
    hold((status, out) == (2, "") and other in err and not (at / "fresh").exists(), f"class --papers with {name}: {status}, {err}")
(at / "taken").write_text("")
status, out, err = run("class", "--papers", "taken", "bench.sheet")
hold((status, out) == (2, "") and err.startswith("gemzuleg: taken: "), f"a file for a folder: {status}, {err}")
(at / "half" / "bench.html").mkdir(parents=True)
status, out, err = run("class", "--papers", "half", "bench.sheet", "document.sheet")
hold(status == 2 and "half/bench.html: " in err and (at / "half/document.html").is_file(), f"a folder for a file: {status}, {err}")

print(*(f"papers: {fault}\n" for fault in faults[:40]), sep="", end="")
print(f"papers: {len(sheets)} sheets, the largest page {largest} bytes, {len(paths)} bad dots, {'with' if real else 'without'} Graphviz, {checks} checks, {len(faults)} faults")
sys.exit(1 if faults else 0)

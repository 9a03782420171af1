#!/usr/bin/env python3
"""Runs the command where files, input or output fail, where it is used wrongly, and on a terminal.

Each case says what standard output, standard error and the status have to be. GEMZULEG=folder names the folder of the command, else
build/bin. The exit status is 1 where a case does not hold.
"""
import os
import pty
import shutil
import subprocess
import sys
import tempfile
import threading
import time
from pathlib import Path

ROOT = Path(__file__).resolve().parent.parent.parent
BIN = Path(os.environ.get("GEMZULEG", str(ROOT / "build/bin"))).resolve()
HELP = (ROOT / "rust/gemzuleg/src/help.txt").read_bytes()
NOBODY = 65534
REGISTER = b"student target way right repeated shut loose missing full\n"
faults, cases = [], 0
room = tempfile.TemporaryDirectory()
at = Path(room.name)
at.chmod(0o755)


def start(arguments, program=None, **more):
    more = {"stdin": subprocess.DEVNULL, "stdout": subprocess.PIPE, "stderr": subprocess.PIPE, "cwd": at} | more
    return subprocess.Popen([str(program or BIN / "gemzuleg"), *arguments], **more)


def run(arguments, give=None, **more):
    if give is not None:
        more["stdin"] = subprocess.PIPE
    process = start(arguments, **more)
    out, err = process.communicate(give, timeout=120)
    return process.returncode, out, err


def hold(case, came, status, out, err):
    """Each of out and err is the bytes, or a test of them."""
    global cases
    cases += 1
    wanted = [("status", came[0], status), ("standard output", came[1], out), ("standard error", came[2], err)]
    for what, value, want in wanted:
        if not (want(value) if callable(want) else value == want):
            faults.append(f"{case}: {what} is {value if what == 'status' else (value or b'')[:300]!r}, wanted {want!r}")


def fails(case, arguments, err, status=2, out=b"", **more):
    hold(case, run(arguments, **more), status, out, err)


def closed(descriptor):
    return {"preexec_fn": lambda: os.close(descriptor)}


def example(which):
    return run(["example", which])[1]


sheet, handins, kinds = (example(which) for which in ("sheet", "handins", "kinds"))
(at / "bench.sheet").write_bytes(sheet)
(at / "bench.handins").write_bytes(handins)
(at / "bench.kinds").write_bytes(kinds)
(at / "good.handins").write_bytes(b"7 order open mailpw ordpw+token\n")
GOOD = REGISTER + b"7 order open 2 0 0 0 0 yes\n"
CHECKED = b"sheet items starting losable accounts arrows recovery\n"

# ---- files
fails("a sheet that is missing", ["list", "no.sheet"], b"gemzuleg: no.sheet: No such file or directory\n")
fails("hand-ins that are missing", ["mark", "bench.sheet", "no.handins"], b"gemzuleg: no.handins: No such file or directory\n")
fails("kinds that are missing", ["kinds", "bench.sheet", "no.kinds"], b"gemzuleg: no.kinds: No such file or directory\n")
fails("a second sheet that is missing", ["pool", "bench.sheet", "no.sheet"], b"gemzuleg: no.sheet: No such file or directory\n")
fails("a file to tidy that is missing", ["tidy", "no.file"], b"gemzuleg: no.file: No such file or directory\n")
(at / "folder").mkdir()
fails("a folder for a sheet", ["report", "folder"], b"gemzuleg: folder: Is a directory\n")
fails("a folder for hand-ins", ["mark", "bench.sheet", "folder"], b"gemzuleg: folder: Is a directory\n")
(at / "secret.sheet").write_bytes(sheet)
(at / "secret.sheet").chmod(0)
other = {"preexec_fn": lambda: os.setuid(NOBODY)} if os.geteuid() == 0 else {}
open_copy = at / "gemzuleg"
shutil.copy(BIN / "gemzuleg", open_copy)
fails("a sheet that may not be read", ["list", "secret.sheet"], b"gemzuleg: secret.sheet: Permission denied\n", program=open_copy, **other)
open_copy.unlink()
(at / "empty").write_bytes(b"")
fails("an empty sheet", ["list", "empty"], b"empty: the file is empty [2]\n", status=1)
hold("empty hand-ins", run(["mark", "bench.sheet", "empty"]), 0, REGISTER, b"")
hold("nothing to tidy", run(["tidy", "empty"]), 0, b"", b"")
fails("empty kinds", ["kinds", "bench.sheet", "empty"], b"empty: the first line must be: name location skill [3]\n", status=1)
(at / "large").write_bytes(b"x" * 10_000_000)
fails("10 MB for a sheet", ["list", "large"], b"large: the sheet is too long: at most 16384 bytes [1]\n", status=1)
hold("10 MB for hand-ins", run(["mark", "bench.sheet", "large"]), 1, REGISTER, lambda e: e.startswith(b"large:1: ") and len(e) < 1000)
(at / "lines").write_bytes(b"\n" * 5_000_000 + b"7 order open mailpw ordpw+token\n")
hold("5,000,000 empty lines", run(["mark", "bench.sheet", "lines"]), 0, GOOD, b"")
(at / "nul.sheet").write_bytes(sheet.replace(b"token", b"tok\0n", 1))
fails("a NUL byte in a sheet", ["list", "nul.sheet"],
      b"nul.sheet:4: only plain letters, digits and signs may stand in a sheet [2]\n    tok?n c 3 2 0\n       ^\n", status=1)
hold("NUL bytes for hand-ins", run(["mark", "bench.sheet", "-"], give=bytes(1000)), 1, REGISTER, lambda e: e.endswith(b"-: 1 of 1 lines refused\n"))
hold("check goes on", run(["check", "no.sheet", "empty", "bench.sheet"]), 2, CHECKED + b"bench.sheet 5 3 3 2 4 1\n",
     b"gemzuleg: no.sheet: No such file or directory\nempty: the file is empty [2]\n")
(at / "a b\xe9.sheet").write_bytes(sheet)
hold("a file's name in a table", run(["check", "a b\xe9.sheet"]), 0, CHECKED + b"a_b__.sheet 5 3 3 2 4 1\n", b"")

(at / "wide").write_bytes(b"\xff\xfe" + handins.decode().encode("utf-16-le"))
WIDE = b"wide: the text is UTF-16, two bytes for a letter; 'gemzuleg tidy' prints a mended copy [2]\n"
fails("hand-ins in UTF-16", ["mark", "bench.sheet", "wide"], WIDE, status=1)
fails("kinds in UTF-16", ["kinds", "bench.sheet", "wide"], WIDE, status=1)
fails("kinds with an odd byte", ["kinds", "bench.sheet", "-"],
      b"-:2: only plain letters, digits and signs may stand in a line [2]\n    t??ken local none\n     ^^\n", status=1,
      give=b"name location skill\nt\xc3\xb6ken local none\n")
fails("kinds with an odd byte at the top", ["kinds", "bench.sheet", "-"],
      b"-:1: only plain letters, digits and signs may stand in a line [2]\n    ?name location skill\n    ^\n", status=1, give=b"\xffname location skill\n")
for sign, words in ((b",", b"commas"), (b";", b"semicolons")):
    fails("kinds of a spreadsheet", ["kinds", "bench.sheet", "-"], b"-:1: " + words + b" stand where spaces belong; 'gemzuleg tidy' prints a mended copy [3]\n"
          b"    " + sign.join((b"name", b"location", b"skill")) + b"\n", status=1, give=kinds.replace(b" ", sign))
hold("lines that end in a carriage return alone", run(["mark", "bench.sheet", "-"], give=handins.replace(b"\n", b"\r")), 1, REGISTER,
     lambda e: e.startswith(b"-:1: only plain letters, digits and signs may stand in a line [2]\n") and e.endswith(b"-: 1 of 1 lines refused\n"))
PACKED = b"-: this is a spreadsheet's or word processor's own file; save it as text [%d]\n"
fails("a spreadsheet's own file", ["list", "-"], PACKED % 2, status=1, give=b"PK\x03\x04" + bytes(99))
fails("a large one", ["list", "-"], PACKED % 1, status=1, give=b"PK\x03\x04" + bytes(99_999))
fails("the account before the way", ["list", "bench.sheet", "no", "way"], b"'no': no item is called 'no' [8]\n", status=1)
fails("the way before the sets", ["why", "bench.sheet", "mail", "way", "no"], b"'way': 'way' is no way: open or lock [5]\n", status=1)
GRAPH = b"""digraph sheet {
  rankdir=LR;
  "ordpw" [shape=ellipse];
  "mailpw" [shape=ellipse, style=filled, fillcolor=gray60];
  "token" [shape=ellipse];
  "mail" [shape=box, style=filled, fillcolor=gray90];
  "order" [shape=box%s];
  "mailpw" -> "mail" [label="0", color=black, fontcolor=black];
  "ordpw" -> "order" [label="0", color=black, fontcolor=black];
  "token" -> "order" [label="0", color=black, fontcolor=black];
  "mail" -> "order" [label="1", color=blue3, fontcolor=blue3, style=dashed];
}
"""
hold("a drawing with what is reached", run(["graph", "bench.sheet", "--reach", "mailpw"]), 0, GRAPH % b", style=filled, fillcolor=gray90", b"")
hold("a drawing with what is lost", run(["graph", "--lose", "mailpw", "bench.sheet"]), 0, GRAPH % b"", b"")

fails("a name that moves the cursor", ["list", "\x1b[2Jno.sheet"], b"gemzuleg: ?[2Jno.sheet: No such file or directory\n")
fails("a name with an accent", ["list", "\xfcbung.sheet"], "gemzuleg: \xfcbung.sheet: No such file or directory\n".encode())

# ---- a class
(at / "lab1.sheet").write_bytes(sheet)
(at / "lab1.handins").write_bytes(b"7 order open mailpw ordpw+token\n")
(at / "lab2.sheet").write_bytes(sheet)
(at / "lab3.sheet").write_bytes(b"names\n")
(at / "lab4.sheet").write_bytes(sheet)
(at / "lab4.handins").mkdir()
NOTE = b"lab2.sheet: no hand-ins beside it: there is no lab2.handins\n"
hold("a lab without hand-ins", run(["class", "--summary", "lab2.sheet", "lab1.sheet"]), 0, b"lab students attempts full\nlab2 0 0 0\nlab1 1 1 1\n", NOTE)
hold("class goes on", run(["class", "lab3.sheet", "lab4.sheet", "no.sheet", "lab1.sheet"]), 2, b"lab " + REGISTER + b"lab1 7 order open 2 0 0 0 0 yes\n",
     b"lab3.sheet:1: the first line must be: name kind start loss rank [3]\n    names\n"
     b"gemzuleg: lab4.handins: Is a directory\ngemzuleg: no.sheet: No such file or directory\n")
(at / "in").mkdir()
shutil.copy(at / "lab1.sheet", at / "in")
shutil.copy(at / "lab1.handins", at / "in")
hold("a lab in a folder", run(["class", "--summary", "in/lab1.sheet"]), 0, b"lab students attempts full\nin/lab1 1 1 1\n", b"")

# ---- standard input
hold("hand-ins from standard input", run(["mark", "bench.sheet"], give=(at / "good.handins").read_bytes()), 0, GOOD, b"")
hold("a sheet from standard input", run(["mark", "-", "good.handins"], give=sheet), 0, GOOD, b"")
fails("standard input closed", ["mark", "bench.sheet"], b"gemzuleg: -: Bad file descriptor\n", **closed(0))
fails("standard input twice", ["mark", "-", "-"], b"gemzuleg: standard input can be one file only; try 'gemzuleg --help'\n", give=sheet)
fails("standard input twice, for two sheets", ["pool", "-", "-"], b"gemzuleg: standard input can be one file only; try 'gemzuleg --help'\n", give=sheet)
paused = start(["mark", "bench.sheet"], stdin=subprocess.PIPE)


def feed():
    for piece in (b"7 order op", b"en mailpw ord", b"pw+token\n"):
        paused.stdin.write(piece)
        paused.stdin.flush()
        time.sleep(0.1)
    paused.stdin.close()


feeder = threading.Thread(target=feed)
feeder.start()
out, err = paused.stdout.read(), paused.stderr.read()
feeder.join()
hold("standard input in pieces", (paused.wait(), out, err), 0, GOOD, b"")

# ---- standard output and error
FULL = b"gemzuleg: standard output: No space left on device\n"
for arguments in (["example"], ["list", "bench.sheet"], ["check", "bench.sheet"], ["report", "bench.sheet"], ["graph", "bench.sheet"], ["--help"],
                  ["tidy", "bench.sheet"], ["mark", "bench.sheet", "good.handins"], ["class", "lab1.sheet"], ["explain"], ["--version"]):
    with open("/dev/full", "wb") as full:
        fails(f"a full device, {arguments[0]}", arguments, FULL, out=None, stdout=full)
    fails(f"standard output closed, {arguments[0]}", arguments, b"gemzuleg: standard output: Bad file descriptor\n", **closed(1))
hold("nothing to write to a closed output", run(["tidy", "empty"], **closed(1)), 0, b"", b"")
hold("standard error closed", run(["list", "no.sheet"], **closed(2)), 2, b"", b"")
hold("standard error closed, with an answer", run(["mark", "bench.sheet", "bench.handins"], **closed(2)), 1, lambda o: o.startswith(REGISTER), b"")
(at / "many.handins").write_bytes(b"".join(b"%d order open mailpw\n" % n for n in range(6000)))
leaving = start(["mark", "--each", "bench.sheet", "many.handins"])
leaving.stdout.read(10)
leaving.stdout.close()
hold("a reader that leaves", (leaving.wait(timeout=120), b"", leaving.stderr.read()), -13, b"", b"")

# ---- the program `report`
alone = at / "alone"
alone.mkdir()
shutil.copy(BIN / "gemzuleg", alone)
fails("report is missing", ["report", "bench.sheet"], lambda e: e.startswith(b"gemzuleg: ") and e.endswith(b"/libexec/gemzuleg/report: No such file or directory\n"),
      program=alone / "gemzuleg")
REPORT = (ROOT / "examples/document.report").read_bytes()
(at / "libexec/gemzuleg").mkdir(parents=True)
shutil.copy(BIN / "report", at / "libexec/gemzuleg")
hold("report in libexec", run(["report", "bench.sheet"], program=alone / "gemzuleg"), 0, REPORT, b"")
for name, script in (("fails", "#!/bin/sh\ncat > /dev/null; echo target way; exit 1\n"), ("prints nonsense", "#!/bin/sh\necho refused 2 0\n"), ("prints nothing", "#!/bin/sh\n")):
    (alone / "report").write_text(script)
    (alone / "report").chmod(0o755)
    fails(f"a report that {name}", ["report", "bench.sheet"], lambda e: e.endswith(b"/report: it gave no report\n"), program=alone / "gemzuleg")
fails("a refused sheet", ["report", "lab3.sheet"], b"lab3.sheet:1: the first line must be: name kind start loss rank [3]\n    names\n", status=1)

# ---- use
TRY = b"; try 'gemzuleg --help'\n"
hold("no arguments", run([]), 2, b"", HELP)
hold("help", run(["--help"]), 0, HELP, b"")
hold("help behind a command", run(["mark", "--help"]), 0, HELP, b"")
hold("version", run(["--version"]), 0, lambda o: o.startswith(b"gemzuleg ") and o.count(b".") == 2, b"")
fails("no command", ["chek", "bench.sheet"], b"gemzuleg: 'chek' is no command; did you mean 'check'?" + TRY)
fails("no command that is near", ["dance"], b"gemzuleg: 'dance' is no command" + TRY)
fails("no option", ["mark", "--full", "bench.sheet"], b"gemzuleg: 'mark' has no option '--full'" + TRY)
fails("another command's option", ["class", "--each", "bench.sheet"], b"gemzuleg: 'class' has no option '--each'" + TRY)
fails("too few words", ["why", "bench.sheet", "order", "open"], b"gemzuleg: 'why' wants SHEET ACCOUNT WAY SET.." + TRY)
fails("too many words", ["report", "bench.sheet", "order"], b"gemzuleg: 'report' wants SHEET" + TRY)
fails("no such example", ["example", "paper"], b"gemzuleg: 'example' wants [sheet|handins|kinds]" + TRY)
fails("a set is missing", ["graph", "bench.sheet", "--reach"], b"gemzuleg: --reach wants a SET" + TRY)
fails("two sets", ["graph", "bench.sheet", "--reach", "mail", "--lose", "mail"], b"gemzuleg: --reach or --lose, and one of them" + TRY)
fails("no number", ["explain", "28"], b"gemzuleg: '28' is no number of a refusal: 1 to 27" + TRY)
fails("no number at all", ["explain", "x"], b"gemzuleg: 'x' is no number of a refusal: 1 to 27" + TRY)
fails("an argument that is no text", ["list", b"\xff"], b"gemzuleg: '?' is no text" + TRY)
hold("explain", run(["explain"]), 0, lambda o: [line.split(b":")[0] for line in o.splitlines()] == [b"%d" % n for n in range(1, 28)], b"")
(at / "--each").write_bytes(sheet)
hold("the end of options", run(["check", "--", "--each"]), 0, CHECKED + b"--each 5 3 3 2 4 1\n", b"")
hold("options behind arguments", run(["mark", "bench.sheet", "good.handins", "--each"]), 0,
     b"student target way mark items\n7 order open right mailpw\n7 order open right ordpw+token\n\n" + GOOD, b"")
fails("a dash is no account", ["list", "bench.sheet", "-"], b"'-': '-' is no name: 1 to 16 of a-z, 0-9 and _ [5]\n", status=1)
hold("the empty set", run(["why", "bench.sheet", "order", "open", "-"]), 0,
     b"shut: - does not open order\n  it opens nothing\n  order takes ordpw+token (colour 0), and ordpw+token is lacking\n"
     b"  order takes mail (colour 1, recovery), and mail is lacking\n", b"")
hold("the target itself", run(["why", "-", "a", "open", "a"], give=b"name kind start loss rank\na c 1 - 0\n\nfrom to colour rec\n"), 0,
     b"right: a opens a, and nothing less of it does\n  a is in the set itself\n", b"")
RING = b"name kind start loss rank\np a 1 1 0\nq a - 1 0\n\nfrom to colour rec\np q 0 0\np q 1 1\nq p 0 0\n"
hold("colours together", run(["why", "-", "q", "lock", "p"], give=RING), 0,
     b"right: losing p shuts q, and losing less of it does not\n  1. q is lost with p (colours 0, 1 recovery)\n", b"")
hold("no arrow", run(["why", "-", "b", "open", "a"], give=b"name kind start loss rank\na c 1 - 0\nb a - - 0\n\nfrom to colour rec\na a 0 0\n"), 0,
     b"shut: a does not open b\n  it opens nothing\n  no arrow leads to b\n", b"")

# ---- tidy
CSV = b"name,kind,start,loss,rank\r\nordpw,c,1,2,0\r\norder,a,-,-,3\r\n,,,,\r\nfrom,to,colour,rec,\r\nordpw,order,0,0,\r\n"
PLAIN = b"name kind start loss rank\nordpw c 1 2 0\norder a - - 3\n\nfrom to colour rec\nordpw order 0 0\n"
for name, text in (("commas", CSV), ("semicolons", CSV.replace(b",", b";")), ("a mark", b"\xef\xbb\xbf" + PLAIN), ("a mark and commas", b"\xef\xbb\xbf" + CSV),
                   ("tabs", PLAIN.replace(b" ", b"\t")), ("UTF-16, little", b"\xff\xfe" + PLAIN.decode().encode("utf-16-le")),
                   ("UTF-16, big", b"\xfe\xff" + PLAIN.decode().encode("utf-16-be")), ("spaces", PLAIN.replace(b" ", b"  ").replace(b"\n", b" \n")),
                   ("empty lines last", PLAIN + b"\n \n\r\n"), ("spaces behind a Windows line end", PLAIN.replace(b"\n", b" \r \r\n")), ("no last line end", PLAIN[:-1]), ("itself", PLAIN)):
    hold(f"tidy, {name}", run(["tidy", "-"], give=text), 0, PLAIN, b"")
hold("tidy leaves commas in hand-ins", run(["tidy", "-"], give=b"7  order\topen a,b\r\n"), 0, b"7 order open a,b\n", b"")
hold("tidy leaves empty lines inside", run(["tidy", "-"], give=b"a\n\n\nb"), 0, b"a\n\n\nb\n", b"")
hold("tidy with an odd byte behind UTF-16", run(["tidy", "-"], give=b"\xff\xfea\0b"), 0, b"a?\n", b"")


# ---- a terminal
def on_terminal(arguments, streams):
    """What stands on a terminal that the streams are connected with; the others go to pipes."""
    controller, terminal = pty.openpty()
    process = start(arguments, **({"stdout": terminal} if 1 in streams else {}), **({"stderr": terminal} if 2 in streams else {}))
    os.close(terminal)
    shown = b""
    while True:
        try:
            piece = os.read(controller, 4096)
        except OSError:
            break
        if not piece:
            break
        shown += piece
    status = process.wait(timeout=60)
    os.close(controller)
    return status, shown.replace(b"\r\n", b"\n"), (process.stderr.read() if 2 not in streams else process.stdout.read())


PADDED = b"target way  size sum items\norder  open 1    1   mailpw\norder  open 2    4   ordpw+token\n"
hold("columns on a terminal", on_terminal(["list", "bench.sheet", "order", "open"], {1}), 0, PADDED, b"")
hold("check on a terminal", on_terminal(["check", "bench.sheet"], {1}), 0,
     b"sheet       items starting losable accounts arrows recovery\nbench.sheet 5     3        3       2        4      1\n", b"")
hold("reasons on a terminal", on_terminal(["mark", "--why", "bench.sheet", "good.handins"], {1}), 0,
     lambda o: b"\n7       order  open right mailpw\n  mailpw opens order, and nothing less of it does\n    1. " in o
     and b"\n\nstudent target way  right repeated" in o, b"")
hold("the report on a terminal", on_terminal(["report", "bench.sheet"], {1}), 0, lambda o: b"\ntarget score risk back idle\nmail   1     1    no   yes\n" in o, b"")
hold("progress on a terminal", on_terminal(["class", "lab1.sheet", "lab2.sheet"], {2}), 0,
     b"\r\x1b[Klab 1 of 2: lab1.sheet\r\x1b[Klab 2 of 2: lab2.sheet\r\x1b[K" + NOTE, b"lab " + REGISTER + b"lab1 7 order open 2 0 0 0 0 yes\n")
hold("no progress for one lab", on_terminal(["class", "lab1.sheet"], {2}), 0, b"", b"lab " + REGISTER + b"lab1 7 order open 2 0 0 0 0 yes\n")


# ---- completion
def complete(*words):
    """What bash offers for the last word."""
    script = (f"source {ROOT}/rust/gemzuleg/gemzuleg.bash; COMP_WORDS=(gemzuleg \"$@\"); COMP_CWORD=$#; _gemzuleg; "
              "((${#COMPREPLY[@]} == 0)) || printf '%s\\n' \"${COMPREPLY[@]}\"")
    done = subprocess.run(["bash", "-c", script, "bash", *words], cwd=at, capture_output=True, check=False)
    return done.returncode, b" ".join(sorted(done.stdout.split())), done.stderr


hold("complete a command", complete("re"), 0, b"reach report", b"")
hold("complete a sheet", complete("report", "ben"), 0, b"bench.sheet", b"")
hold("complete hand-ins", complete("mark", "--why", "bench.sheet", "goo"), 0, b"good.handins", b"")
hold("complete kinds", complete("kinds", "bench.sheet", "b"), 0, b"bench.kinds", b"")
hold("complete an option", complete("mark", "--m"), 0, b"--missing", b"")
hold("complete an account", complete("list", "bench.sheet", "o"), 0, b"order ordpw", b"")
hold("complete a way", complete("why", "bench.sheet", "order", "l"), 0, b"lock", b"")
hold("complete a set", complete("why", "bench.sheet", "order", "open", "mailpw+t"), 0, b"mailpw+token", b"")
hold("complete a set of an option", complete("graph", "bench.sheet", "--reach", "t"), 0, b"token", b"")

print(*(f"faults: {fault}\n" for fault in faults), sep="", end="")
print(f"faults: {cases} cases of files, input, output, use and terminal, {len(faults)} not as they should be")
sys.exit(1 if faults else 0)

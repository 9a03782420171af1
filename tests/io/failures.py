#!/usr/bin/env python3
"""Runs the programs `report` and `pool` where their input or output fails, and where they only come in pieces.

Standard output has to be the whole report and standard error empty, or standard output a beginning of the report (nothing, where the
input failed) and standard error one line that names the system's reason. Which of the two, and which reason, is said case by case. Of
`pool` likewise, with the pooled sheet for the report; where it refuses, standard output is empty and standard error has the refusal's line.
REPORT=program and POOL=program try others. The exit status is 1 where a case does not hold.
"""
import errno
import hashlib
import os
import resource
import signal
import subprocess
import sys
import tempfile
import threading
import time
from pathlib import Path

ROOT = Path(__file__).resolve().parent.parent.parent
REPORT = os.environ.get("REPORT", str(ROOT / "crates/report/out/report"))
POOL = os.environ.get("POOL", str(ROOT / "crates/pool/out/pool"))
PAUSE = 0.2  # widens the window in which a mistaken program goes on; no case depends on it
LIMIT = 20
NO_INPUT = "report: cannot read standard input: "
CUT_OFF = "report: the report is cut off: "
SHEET_CUT_OFF = "pool: the sheet is cut off: "
USAGE = b"usage: pool FIRST SECOND\n"
# SHA-256 of the long sheet's report, 1,429,457 bytes, as the brute force prints it.
LONG_REPORT = "13235e9e2aa89d65669858dd8fae414542acc69e742c77ed074e08f7c317ff91"
faults, cases = [], 0


def example(name):
    return (ROOT / f"examples/{name}.sheet").read_bytes(), (ROOT / f"examples/{name}.report").read_bytes()


def long_sheet():
    """A sheet whose report is over a megabyte: the accounts are opened by any j of the first i of 13 credentials."""
    name = lambda j, i: key(1) if (j, i) == (1, 1) else f"any_{j}_of_the_{i:02d}"
    key = lambda i: f"credential_{i:05d}"
    items, edges = [f"{key(i)} c 1 1 0" for i in range(1, 14)], []
    for j, i in ((j, i) for j in range(1, 7) for i in range(j, j + 8) if (j, i) != (1, 1)):
        items.append(f"{name(j, i)} a - - 0")
        edges += [f"{name(j, i - 1)} {name(j, i)} 0 0"] * (i > j)
        edges += [f"{name(j - 1, i - 1)} {name(j, i)} 1 0"] * (j > 1)
        edges += [f"{key(i)} {name(j, i)} 1 0"]
    return "\n".join(["name kind start loss rank", *items, "", "from to colour rec", *edges, ""]).encode()


def start(stdin, stdout, **more):
    return subprocess.Popen([REPORT], stdin=stdin, stdout=stdout, stderr=subprocess.PIPE, **more)


def without(descriptor):
    """Starts the program with this descriptor closed."""
    return {"preexec_fn": lambda: os.close(descriptor)}


def finish(process):
    """What the program wrote to its pipes. One that does not end is stopped, which its exit status tells."""
    try:
        return process.communicate(timeout=LIMIT)
    except subprocess.TimeoutExpired:
        process.kill()
        return process.communicate()


def line_of(part, reason):
    return (part + os.strerror(reason) + "\n").encode()


def hold(case, report, out, err, status, reason=None, part=CUT_OFF, want=0, either=False):
    """Notes whether a run gave what it should: the whole report; or, with a reason, a beginning of it and the line for that reason;
    or, where a signal is wanted, a beginning alone. Where a case may go either way, the line says which one it went."""
    global cases
    cases += 1
    if either and err == b"":
        reason = None
    said = []
    if reason is None and want == 0:
        if out != report:
            said.append(f"standard output has {len(out)} bytes, and is not the report of {len(report)}: {out[:60]!r}")
    elif part == NO_INPUT and out != b"":
        said.append(f"standard output has {out[:60]!r}")
    elif out == report or not report.startswith(out):
        said.append(f"standard output has {len(out)} bytes, and is no proper beginning of the report")
    line = b"" if reason is None else line_of(part, reason)
    if err != line:
        said.append(f"standard error has {err!r}, not {line!r}")
    if status != want:
        said.append(f"the exit status is {status}, not {want}")
    if said:
        faults.append(f"{case}: " + "; ".join(said))


def fed(case, report, feed, reason=None, blocking=True, ready=b""):
    """Runs the program on a pipe that holds what is ready, and that feed(descriptor, process) fills further and closes."""
    read, write = os.pipe()
    os.set_blocking(read, blocking)
    os.write(write, ready)
    process = start(read, subprocess.PIPE)
    os.close(read)
    teller = threading.Thread(target=feed, args=(write, process))
    teller.start()
    out, err = finish(process)
    teller.join()
    hold(case, report, out, err, process.returncode, reason, NO_INPUT)


def give(write, pieces, pause=0.0):
    """Writes the pieces, with a pause behind each, until the program reads no more."""
    try:
        for piece in pieces:
            while piece:
                piece = piece[os.write(write, piece) :]
            time.sleep(pause)
    except BrokenPipeError:
        pass
    os.close(write)


def all_of(data):
    return lambda write, _: give(write, [data])


def byte_by_byte(data):
    return lambda write, _: give(write, (data[k : k + 1] for k in range(len(data))), 0.0005)


def later(data, pause):
    """Gives the data once the program has ended, or the pause is over."""
    def feed(write, process):
        try:
            process.wait(pause)
        except subprocess.TimeoutExpired:
            pass
        give(write, [data])

    return feed


def stored(case, report, data):
    """Runs the program on a file with this data."""
    with tempfile.TemporaryFile() as file:
        file.write(data)
        file.seek(0)
        process = start(file, subprocess.PIPE)
        out, err = finish(process)
    hold(case, report, out, err, process.returncode)


def inputs():
    sheet, report = example("document")
    last = sheet.rindex(b"\n", 0, -1) + 1
    rows, row = sheet[:last], sheet[last:]
    assert row.endswith(b" 1\n"), "the last row is no recovery edge"
    shorter = subprocess.run([REPORT], input=rows, capture_output=True, timeout=LIMIT).stdout
    assert shorter.startswith(b"target") and shorter != report, "the sheet without its last row has the same report"
    fed("a pipe", report, all_of(sheet))
    fed("single bytes with pauses", report, byte_by_byte(sheet))
    fed("a pipe that pauses before the last row", report, later(row, PAUSE), ready=rows)
    stored("a file", report, sheet)
    fed("a non-blocking pipe that pauses before the last row", report, later(row, LIMIT / 2), errno.EAGAIN, blocking=False, ready=rows)
    fed("a non-blocking pipe that pauses before the first byte", report, later(sheet, LIMIT / 2), errno.EAGAIN, blocking=False)
    directory = os.open(ROOT, os.O_RDONLY)
    process = start(directory, subprocess.PIPE)
    out, err = finish(process)
    os.close(directory)
    hold("a directory", report, out, err, process.returncode, errno.EISDIR, NO_INPUT)
    process = start(subprocess.DEVNULL, subprocess.PIPE, **without(0))
    out, err = finish(process)
    hold("a closed input", report, out, err, process.returncode, errno.EBADF, NO_INPUT)
    stored("an empty file", b"refused 2 0\n", b"")
    for size, refusal in (16384, b"refused 3 1\n"), (16385, b"refused 1 0\n"), (10_000_000, b"refused 1 0\n"):
        data = b"x" * (size - 1) + b"\n"
        fed(f"{size:,} bytes from a pipe", refusal, all_of(data))
        stored(f"{size:,} bytes from a file", refusal, data)
    sheet, report = example("misspelt-name")
    assert report.startswith(b"refused"), "the example is not refused"
    fed("a refused sheet", report, all_of(sheet))


def to_place(case, sheet, report, stdout, reason, **more):
    """Runs the program with its output at a place that takes nothing."""
    with tempfile.TemporaryFile() as file:
        file.write(sheet)
        file.seek(0)
        process = start(file, stdout, **more)
        _, err = finish(process)
    hold(case, report, b"", err, process.returncode, reason)


def to_pipe(case, sheet, report, drain, reason=None, want=0, either=False, blocking=True, **more):
    """Runs the program with its output at a pipe, of which drain(descriptor, process) gives what was read."""
    read, write = os.pipe()
    os.set_blocking(write, blocking)
    with tempfile.TemporaryFile() as file:
        file.write(sheet)
        file.seek(0)
        process = start(file, write, **more)
    os.close(write)
    out = drain(read, process)
    _, err = finish(process)
    hold(case, report, out, err, process.returncode, reason, want=want, either=either)


def rest(read):
    with open(read, "rb") as file:
        return file.read()


def late(read, process):
    """Reads once the program has ended."""
    try:
        process.wait(LIMIT)
    except subprocess.TimeoutExpired:
        process.kill()
    return rest(read)


def in_turns(read, _):
    """Reads half of what a pipe holds, pauses, so that later parts would find room, and reads the rest. Whether the program finds the
    pipe full is up to the machine."""
    first = b""
    while len(first) < 32768:
        first += os.read(read, 32768 - len(first))
    time.sleep(PAUSE)
    return first + rest(read)


def slowly(read, _):
    """Reads all, in pieces that are no part of a pipe's pages."""
    out = b""
    while piece := os.read(read, 777):
        out += piece
    os.close(read)
    return out


def gone(read, _):
    out = os.read(read, 100)
    os.close(read)
    return out


def limited(size=100_000):
    """A file may have so many bytes, and the signal for more is ignored: a write then takes a part, and the next fails."""
    signal.signal(signal.SIGXFSZ, signal.SIG_IGN)
    resource.setrlimit(resource.RLIMIT_FSIZE, (size, size))


def to_file(case, sheet, report, reason=None, **more):
    with tempfile.TemporaryFile() as file, tempfile.TemporaryFile() as place:
        file.write(sheet)
        file.seek(0)
        process = start(file, place, **more)
        _, err = finish(process)
        place.seek(0)
        hold(case, report, place.read(), err, process.returncode, reason)
        return os.fstat(place.fileno()).st_size


def outputs():
    sheet, report = example("document")
    long = long_sheet()
    long_report = subprocess.run([REPORT], input=long, capture_output=True, timeout=LIMIT).stdout
    assert hashlib.sha256(long_report).hexdigest() == LONG_REPORT, "the long report is another one"
    for size, text, whole in ("a short report", sheet, report), ("a long report", long, long_report):
        with open("/dev/full", "wb") as full:
            to_place(f"{size} to /dev/full", text, whole, full, errno.ENOSPC)
        to_place(f"{size} to a closed output", text, whole, subprocess.DEVNULL, errno.EBADF, **without(1))
        to_file(f"{size} to a file", text, whole)
        to_pipe(f"{size} to a pipe", text, whole, slowly)
    if to_file("a file that gets full", long, long_report, errno.EFBIG, preexec_fn=limited) != 100_000:
        faults.append("a file that gets full: it has not all that fits")
    to_pipe("a non-blocking pipe that is read late", long, long_report, late, errno.EAGAIN, blocking=False)
    to_pipe("a non-blocking pipe that is read in turns", long, long_report, in_turns, errno.EAGAIN, either=True, blocking=False)
    to_pipe("a short report to a non-blocking pipe that is read late", sheet, report, late, blocking=False)
    # The program ignores SIGPIPE as soon as it runs, so that it says why it stops in both cases.
    to_pipe("a reader that goes away, SIGPIPE ignored", long, long_report, gone, errno.EPIPE, restore_signals=False)
    to_pipe("a reader that goes away, SIGPIPE as it comes", long, long_report, gone, errno.EPIPE)
    refused, text = example("misspelt-name")
    with open("/dev/full", "wb") as full:
        to_place("a refused sheet to /dev/full", refused, text, full, errno.ENOSPC)


def pool(case, words, sheet=b"", said=b"", want=0, cut=0, **more):
    """Runs `pool` on these words: standard output has the sheet, or as many of its first bytes as it is cut to, and standard error what is said."""
    global cases
    cases += 1
    with tempfile.TemporaryFile() as place:
        process = subprocess.Popen([POOL, *words], **{"stdout": place, "stderr": subprocess.PIPE, **more})
        _, err = finish(process)
        place.seek(0)
        out = place.read()
    wanted = sheet[:cut] if cut else sheet
    if (out, err or b"", process.returncode) != (wanted, said, want):
        faults.append(f"{case}: standard output has {len(out)} bytes, {out[:60]!r}, standard error {err!r}, the exit status is {process.returncode}")


def cannot_read(name, reason):
    return line_of(f"pool: cannot read {name}: ", reason)


def items(names):
    """A sheet of so many items, with no edge."""
    return "\n".join(["name kind start loss rank", *(f"{name} a - - 0" for name in names), "", "from to colour rec", ""]).encode()


def pool_inputs(at):
    first, second, both = (str(ROOT / f"examples/{name}.sheet") for name in ("first-lab", "second-lab", "both-labs"))
    sheet = Path(both).read_bytes()
    pool("two labs", [first, second], sheet)
    pool("two labs, with no standard input", [first, second], sheet, **without(0))
    for place in 0, 1:
        words = [first, second]
        data = Path(words[place]).read_bytes()
        read, write = os.pipe()
        words[place] = f"/dev/fd/{read}"
        teller = threading.Thread(target=byte_by_byte(data), args=(write, None))
        teller.start()
        pool(f"single bytes with pauses for sheet {place + 1}", words, sheet, pass_fds=(read,))
        teller.join()
        os.close(read)
    for words in [], [first], [first, second, second]:
        pool(f"{len(words)} names", words, said=USAGE)
    for name, reason in (str(at / "none.sheet"), errno.ENOENT), (str(at), errno.EISDIR), ("", errno.ENOENT), ("x" * 256, errno.ENAMETOOLONG):
        pool(f"{name!r} as the first", [name, second], said=cannot_read(name, reason))
        pool(f"{name!r} as the second", [first, name], said=cannot_read(name, reason))
    pool("two names of nothing", ["none", "nothing"], said=cannot_read("none", errno.ENOENT))
    short = os.path.relpath(first, at)
    for size, told in (4095, None), (4096, cannot_read), (4097, lambda _, reason: cannot_read("a name", reason)):
        name = "/" * (size - len(first)) + first
        pool(f"a name of {size:,} bytes", [name, second], b"" if told else sheet, told(name, errno.ENAMETOOLONG) if told else b"")
    pool("a name beside the program", [short, second], sheet, cwd=at)
    # A name is opened as text in UTF-8, and one that is none is refused, as a file that cannot be read.
    name = os.fsencode(at) + b"/\xff.sheet"
    Path(os.fsdecode(name)).write_bytes(Path(first).read_bytes())
    said = b"pool: cannot read " + name + b": " + os.strerror(errno.EILSEQ).encode() + b"\n"
    pool("a name that is no text", [os.fsdecode(name), second], said=said)


def pool_refusals(at):
    first, second, misspelt = (str(ROOT / f"examples/{name}.sheet") for name in ("first-lab", "second-lab", "misspelt-name"))
    refused = (ROOT / "examples/misspelt-name.report").read_bytes().removeprefix(b"refused ")
    pool("a refused first sheet", [misspelt, second], said=b"pool: refused 1 " + refused)
    pool("a refused second sheet", [first, misspelt], said=b"pool: refused 2 " + refused)
    pool("two refused sheets", [misspelt, os.devnull], said=b"pool: refused 1 " + refused)
    pool("an empty second sheet", [first, os.devnull], said=b"pool: refused 2 2 0\n")
    pool("a first sheet without end", ["/dev/zero", second], said=b"pool: refused 1 1 0\n")
    made = at / "made.sheet"
    for size, number in (16384, b"3 1"), (16385, b"1 0"):
        made.write_bytes(b"x" * (size - 1) + b"\n")
        pool(f"a second sheet of {size:,} bytes", [first, str(made)], said=b"pool: refused 2 " + number + b"\n")
    text = Path(second).read_bytes()
    other = text.replace(b"store a - - 1\n", b"store a - - 4\n")
    assert text != other, "the second lab's store has another row"
    made.write_bytes(other)
    pool("a store of two ranks", [first, str(made)], said=b"pool: refused 0 22 0\n")
    more = at / "more.sheet"
    made.write_bytes(items(f"item{i}" for i in range(64)))
    more.write_bytes(items(["another"]))
    pool("65 items", [str(made), str(more)], said=b"pool: refused 0 23 0\n")


def pool_outputs():
    words = [str(ROOT / f"examples/{name}.sheet") for name in ("first-lab", "second-lab")]
    sheet = (ROOT / "examples/both-labs.sheet").read_bytes()
    with open("/dev/full", "wb") as full:
        pool("a pooled sheet to /dev/full", words, said=line_of(SHEET_CUT_OFF, errno.ENOSPC), stdout=full)
    pool("a pooled sheet to a closed output", words, said=line_of(SHEET_CUT_OFF, errno.EBADF), **without(1))
    pool("a pooled sheet and a closed standard error", words, sheet, **without(2))
    pool("a refusal and a closed standard error", words[:1] + [os.devnull], **without(2))
    size = len(sheet) // 2
    pool("a pooled sheet to a file that gets full", words, sheet, line_of(SHEET_CUT_OFF, errno.EFBIG), cut=size, preexec_fn=lambda: limited(size))
    for restored in True, False:
        read, write = os.pipe()
        os.close(read)
        said = line_of(SHEET_CUT_OFF, errno.EPIPE)
        pool(f"a reader that is gone, SIGPIPE {'as it comes' if restored else 'ignored'}", words, said=said, stdout=write, restore_signals=restored)
        os.close(write)


if __name__ == "__main__":
    inputs()
    outputs()
    with tempfile.TemporaryDirectory() as at:
        pool_inputs(Path(at))
        pool_refusals(Path(at))
    pool_outputs()
    for fault in faults:
        print("failures:", fault)
    print(f"failures of input and output: {cases} cases, {len(faults)} faults")
    sys.exit(1 if faults else 0)

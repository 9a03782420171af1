#!/usr/bin/env python3
"""Proves and makes programs and static libraries, and shows on standard error how far it is: prove.py LABEL LOG NAME..

A program goes to crates/NAME/out/NAME with its object beside it, a static library to crates/NAME/out/libNAME.a. The commands are `rt run`, with
nothing on standard input, and `rt lib`; they prove what the crate stands on where that is not proved yet. Right after a gate that passed, `rt ci`
has left the libraries proved in out/rlib, and the crate is built over these: `prove.py --after-gate` notes the sources of which that is so, and
any change of a source ends it. What the commands print goes to the file LOG, and is shown where they fail. A verdict that names axioms is shown
as well for a static library, and fails it. Nothing is shown where all was proved before.
"""
import hashlib
import re
import subprocess
import sys
from pathlib import Path

ROOT = Path(__file__).resolve().parent.parent
NOTE = ROOT / "build" / "proved"
DONE = re.compile(r"^crate (\w+): modules loaded=")


def read_map():
    """The crates of crates.txt, with the crates that each depends on; and those that are static libraries."""
    table, static = {}, set()
    for line in (ROOT / "crates.txt").read_text(encoding="utf-8").splitlines():
        head, colon, names = line.partition("#")[0].partition(":")
        if colon:
            table[head.split()[0]] = names.split()
            static |= {head.split()[0]} if "staticlib" in head.split() else set()
    return table, static


def stands_on(name, table):
    """The crates of the project that a crate reaches, lowest first."""
    found = []
    for dep in table[name]:
        found += [one for one in [*stands_on(dep, table), dep] if one not in found] if dep in table else []
    return found


def files():
    return [path for part in ("src", "specs", "proofs") for path in ROOT.glob(f"crates/*/{part}/**/*") if path.is_file()]


def sources():
    """A sum of all that the proofs are of: the kit, the map, and each crate's files."""
    digest = hashlib.sha256(subprocess.run(["rt", "version"], stdout=subprocess.PIPE, check=True).stdout)
    for path in sorted([ROOT / "crates.txt", *files()]):
        digest.update(f"{path.relative_to(ROOT)}\n".encode() + path.read_bytes())
    return digest.hexdigest()


def rlib(name):
    return ROOT / "crates" / name / "out" / "rlib" / f"{name}.rlib"


def is_newest(path):
    """Is the file there, and newer than all sources?"""
    return path.is_file() and all(path.stat().st_mtime >= source.stat().st_mtime for source in [ROOT / "crates.txt", *files()])


def over_gate(name, table, is_static):
    """The command that builds the crate over the libraries that a gate of just these sources has proved: [] where all is there, None where no gate was."""
    below, out = stands_on(name, table), ROOT / "crates" / name / "out"
    if not NOTE.is_file() or NOTE.read_text().strip() != sources():
        return None
    # A library with a stamp is of a check of its own, which `rt ci` has put back, perhaps of other sources: `rt` can tell.
    if not all(rlib(one).is_dir() and not (rlib(one).parent / "stamp").is_file() for one in below):
        return None
    # `rt ci` makes programs, and neither their objects nor static libraries.
    if not is_static and not is_newest(out / name):
        return None
    if is_newest(out / (f"lib{name}.a" if is_static else f"{name}.o")):
        return []
    kit = Path(subprocess.run(["rt", "doc"], stdout=subprocess.PIPE, check=True, text=True).stdout.strip()).parent
    words = [kit / "bin" / "rattle", "build", "--crate-name", name, "src/lib.rt" if is_static else "src/main.rt"]
    for dep in ["std", *(dep for dep in table[name] if dep not in table)]:
        words += ["--extern", f"{dep}={kit}/rlibs/{dep}.rlib"]
    words += ["-L", f"dependency={kit}/rlibs"]
    for dep in (dep for dep in table[name] if dep in table):
        words += ["--extern", f"{dep}={rlib(dep)}"]
    for dep in below:
        words += ["-L", f"dependency={rlib(dep).parent}"]
    words += ["--antt-project", kit / "rattle/logic/antt-project.json", "--logic-built", kit / "logic_built"]
    words += ["--crate-type", "staticlib"] * is_static
    return [*words, "--toolchain", kit / "toolchain", "--backend", "llvm", "-o", f"out/lib{name}.a" if is_static else f"out/{name}.o"]


def run(words, home, log, say):
    """Runs a command in a crate's folder, its output to the log; `say` gets each line. Gives the status and the lines."""
    lines = []
    with subprocess.Popen(words, cwd=home, stdin=subprocess.DEVNULL, stdout=subprocess.PIPE, stderr=subprocess.STDOUT, text=True, errors="replace") as process:
        for line in process.stdout:
            log.write(line)
            lines.append(line)
            say(line)
    return process.returncode, lines


def make(label, name, log, table, static):
    """Makes one program or static library; gives what is wrong, if anything is."""
    home, is_static, below = ROOT / "crates" / name, name in static, stands_on(name, table)
    if not is_static and not (home / "src" / "main.rt").is_file():
        return f"{name} is neither a program nor a static library"
    words, done = over_gate(name, table, is_static), 0
    if words == []:
        return ""
    status, lines = run(words, home, log, lambda line: None) if words else (1, [])
    if status:
        never = [one for one in below if not (rlib(one).parent / "stamp").is_file()]
        if never:
            print(f"{label}: proves {len(never) + 1} crates first, which takes minutes ({log.name} has all of it)", file=sys.stderr, flush=True)

        def say(line):
            nonlocal done
            found = DONE.match(line)
            done += bool(found)
            if found and never:
                print(f"{label}: crate {done} of {max(done, len(never) + 1)} checked: {found[1]}", file=sys.stderr, flush=True)

        status, lines = run(["rt", "lib" if is_static else "run"], home, log, say)
        # `rt run` ends with the program's own status, and says before it runs it that it does.
        status = 0 if not is_static and any(line.startswith(f"rt: running out/{name}") for line in lines) else status
    if status:
        return f"{name} was not made"
    verdicts = [line for line in lines if line.startswith("logic=")]
    if is_static and not (verdicts and verdicts[-1].startswith("logic=proved ")):
        return f"{name} has no verdict"
    if is_static and "axioms=" in verdicts[-1]:
        return f"{name} stands on axioms"
    return ""


def main(label, path, *names):
    table, static = read_map()
    with open(path, "w", encoding="utf-8") as log:
        for name in names:
            wrong = make(label, name, log, table, static) if name in table else f"there is no crate {name}"
            if wrong:
                log.flush()
                sys.stderr.write(Path(path).read_text(encoding="utf-8"))
                print(f"{label}: {wrong}", file=sys.stderr)
                return 1
    return 0


if __name__ == "__main__":
    if sys.argv[1:] == ["--after-gate"]:
        NOTE.write_text(sources() + "\n")
        sys.exit(0)
    if len(sys.argv) < 4:
        sys.exit("usage: prove.py LABEL LOG NAME..  |  prove.py --after-gate")
    sys.exit(main(*sys.argv[1:]))

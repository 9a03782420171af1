#!/usr/bin/env python3
"""Follows a page word by word: runs every `$` line of its text blocks, in order, in one folder of its own, and compares what comes out.

What stands below a `$` line, up to the next one or the end of the block, is what standard output and standard error have to show together,
byte for byte, with a last line `[status N]` where the status is not 0. `walk.py PAGE..` compares; `walk.py --write PAGE..` puts what came out
into the page. GEMZULEG=folder names the folder of the command, else build/bin.
"""
import os
import re
import subprocess
import sys
import tempfile
from pathlib import Path

ROOT = Path(__file__).resolve().parent.parent.parent
BIN = os.environ.get("GEMZULEG", str(ROOT / "build/bin"))
BLOCK = re.compile(r"^```text\n(.*?)^```$", re.M | re.S)


def run(command, folder):
    environment = {"PATH": f"{BIN}:/usr/bin:/bin", "HOME": folder, "LC_ALL": "C"}
    done = subprocess.run(["bash", "-c", command], cwd=folder, env=environment, stdin=subprocess.DEVNULL, stdout=subprocess.PIPE,
                          stderr=subprocess.STDOUT, timeout=60)
    status = f"[status {done.returncode}]\n" if done.returncode else ""
    return done.stdout.decode("ascii", "backslashreplace") + status


def steps(block):
    """The commands of a block, each with what is to come out."""
    return re.findall(r"^\$ (.*)\n((?:(?!\$ ).*\n)*)", block, re.M)


def walk(page, write):
    """The number of commands that were run, and what differs."""
    path, ran, faults = ROOT / page, 0, []
    text = path.read_text(encoding="utf-8")
    with tempfile.TemporaryDirectory() as folder:

        def follow(block):
            nonlocal ran
            lines = []
            for command, wanted in steps(block.group(1)):
                out = run(command, folder)
                ran += 1
                lines.append(f"$ {command}\n{out}")
                if out != wanted:
                    faults.append(f"{page}: $ {command}\nwanted:\n{wanted}came:\n{out}")
            return "```text\n" + "".join(lines) + "```" if lines else block.group(0)

        new = BLOCK.sub(follow, text)
    if write:
        path.write_text(new, encoding="utf-8")
    return ran, faults


write = "--write" in sys.argv
pages = [page for page in sys.argv[1:] if page != "--write"] or ["docs/COURSE.md", "docs/SHEET.md"]
total, differing = 0, []
for one in pages:
    count, found = walk(one, write)
    total += count
    differing += found + ([f"{one}: no command"] if count == 0 else [])
if write:
    print(f"walk: {total} commands written")
    sys.exit(0)
print(*(f"walk: {fault}\n" for fault in differing), sep="", end="")
print(f"walk: {total} commands of {len(pages)} pages, {len(differing)} faults")
sys.exit(1 if differing else 0)

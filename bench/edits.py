#!/usr/bin/env python3
"""Tries the wrong bodies that the gate doesn't: each edit of bench/edits/CRATE is applied to a copy of that crate, whose check has to refuse it.

Usage: bench/edits.py [CRATE ..]

Without crates all of them are tried. The copy of the repository stands in a temporary folder, where `rt ci` proves these crates and
those below them, unless they are kept on this machine, and then tries the edits as it tries those of the gate (crates/CRATE/must-fail).
What each edit came to is printed, then the gate's last line; the status is the gate's. An edit that can't be applied is refused by `rt ci`
too, so that it is written again where its text has changed."""
import os
import re
import shutil
import subprocess
import sys
import tempfile

TOP = os.path.dirname(os.path.dirname(os.path.abspath(__file__)))
EDITS = f"{TOP}/bench/edits"


def copy(room, crates):
    """Copies the crates into a room, and gives those that are named their edits of bench/edits and no crate any other."""
    for name in ("crates.txt", "HANDLES"):
        shutil.copy(f"{TOP}/{name}", room)
    shutil.copytree(f"{TOP}/crates", f"{room}/crates", ignore=shutil.ignore_patterns("out", "must-fail"))
    for crate in crates:
        shutil.copytree(f"{EDITS}/{crate}", f"{room}/crates/{crate}/must-fail")


def main():
    listed = sorted(os.listdir(EDITS))
    crates = sys.argv[1:] or listed
    unknown = [it for it in crates if it not in listed]
    if unknown:
        print(f"edits: bench/edits has none of {' '.join(unknown)}", file=sys.stderr)
        return 2
    with tempfile.TemporaryDirectory() as room:
        copy(room, crates)
        run = subprocess.run(["rt", "ci", *crates], cwd=room, capture_output=True, text=True, errors="replace")
    told = (run.stdout + run.stderr).splitlines()
    print(*[it for it in told if re.search(r"\.edit\b", it)], sep="\n")
    print(told[-1] if told else "rt ci said nothing")
    return run.returncode


sys.exit(main())

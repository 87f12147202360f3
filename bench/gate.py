#!/usr/bin/env python3
"""Runs the merge gate and says what it costs: processor minutes by crate and by kind of work, and in all.

Usage: bench/gate.py [WORD ..]

WORDs are given to `rt ci`: `--anew` proves everything again, and without it only what isn't kept on this machine counts. What the gate
says goes into bench-gate.log in the temporary folder. Each process of the prover is looked at every half second, so of each the last half second may be missing in the table;
the sum in all is the system's own count of the processor time of the run's children."""
import datetime
import os
import re
import resource
import subprocess
import sys
import tempfile
import time

TOP = os.path.dirname(os.path.dirname(os.path.abspath(__file__)))
TICK = os.sysconf("SC_CLK_TCK")
KINDS = ("proof", "tests", "edits")


def crate_and_kind(words):
    """Which crate a prover's process works on, and for what."""
    crate = words[words.index("--crate-name") + 1]
    if "--test" in words:
        return crate, "tests"
    kept = words[words.index("--incremental") + 1] if "--incremental" in words else ""
    return crate, "edits" if re.search(r"rt-edits?-\d+-", kept) else "proof"


def look(seen):
    """Notes the processor time of each process of the prover so far."""
    for pid in filter(str.isdigit, os.listdir("/proc")):
        try:
            with open(f"/proc/{pid}/cmdline", "rb") as file:
                words = file.read().decode(errors="replace").split("\0")
            if not words[0].endswith("/rattle") or "--crate-name" not in words:
                continue
            folder = os.readlink(f"/proc/{pid}/cwd")
            with open(f"/proc/{pid}/stat") as file:
                fields = file.read().rpartition(")")[2].split()
        except OSError:
            continue
        crate, kind = crate_and_kind(words)
        # (an edit that is tried from nothing keeps nothing, and is told by its folder)
        if "rt-edit-" in folder:
            kind = "edits"
        seen[pid, fields[19]] = crate, kind, (int(fields[11]) + int(fields[12])) / TICK


def crates():
    with open(f"{TOP}/crates.txt") as file:
        return [line.split(":")[0].split()[0] for line in file if ":" in line.split("#")[0]]


def table(seen):
    minutes = {}
    for crate, kind, seconds in seen.values():
        minutes[crate, kind] = minutes.get((crate, kind), 0) + seconds / 60
    shown = lambda crate, kind: f"{minutes[crate, kind]:.1f}" if (crate, kind) in minutes else "none"
    lines = ["| Crate | Proof | Tests | Edits |", "|---|---|---|---|"]
    lines += [f"| `{it}` | {' | '.join(shown(it, kind) for kind in KINDS)} |" for it in crates()]
    sums = [sum(it for (_, kind), it in minutes.items() if kind == one) for one in KINDS]
    return [*lines, f"| together | {' | '.join(f'{it:.0f}' for it in sums)} |"]


def main():
    words = sys.argv[1:]
    log = f"{tempfile.gettempdir()}/bench-gate.log"
    seen, begun = {}, time.time()
    with open(log, "w") as out:
        run = subprocess.Popen(["rt", "ci", *words], cwd=TOP, stdout=out, stderr=out, env={**os.environ, "PYTHONUNBUFFERED": "1"})
        while run.poll() is None:
            look(seen)
            time.sleep(0.5)
    used = resource.getrusage(resource.RUSAGE_CHILDREN)
    with open(log) as file:
        last = file.read().rstrip().rpartition("\n")[2]
    command = " ".join(["rt", "ci", *words])
    minutes = (used.ru_utime + used.ru_stime) / 60, (time.time() - begun) / 60
    said = (
        f"{datetime.date.today()}, {len(os.sched_getaffinity(0))} processors, `{command}`"
        f": {minutes[0]:.0f} processor minutes in {minutes[1]:.0f} minutes; {last}."
    )
    print(said, *table(seen), sep="\n")
    return run.returncode


sys.exit(main())

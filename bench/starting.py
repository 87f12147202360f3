"""Gives `osemosys solve --method rounded` answers to begin from, right ones and wrong ones, and prints how many pivots each saves:
starting.py PROGRAM FOLDER [FILE or WORD ..]"""

import os
import random
import re
import subprocess
import sys

from mps import measured
from planning import CASES, model

GAP = ["--gap", "10"]
LONGEST = 600  # seconds that a solver may take
SCALED = "SpecifiedAnnualDemand", "AccumulatedAnnualDemand"
PRICED = ("VariableCost",)


def run(words, path):
    with open(path, "wb") as out:
        return subprocess.run(["timeout", str(LONGEST), *words], stdout=out, stderr=subprocess.DEVNULL, stdin=subprocess.DEVNULL).returncode


def told(path):
    """The first lines of a report by their first words, and the whole line where it is none."""
    with open(path, errors="replace") as file:
        head = [line.rstrip("\n") for line in file.readlines()[:9]]
    found = {}
    for line in head:
        word, _, rest = line.partition(" ")
        found.setdefault(word, rest)
    return found


def neighbour(text, names, factor):
    """The same data with the values of some parameters times a factor, in the forms in which the models here are written."""
    out, inside = [], False
    for line in text.split("\n"):
        begins = re.match(r"\s*param\s*:?\s*(\w+)", line)
        if begins:
            inside = begins.group(1) in names
        elif inside and not line.strip().startswith((";", "[", "#")) and ":=" not in line:
            words = line.split()
            if len(words) > 1:
                ends = words[-1] == ";"
                number = words[-2] if ends else words[-1]
                try:
                    value = f"{float(number) * factor:.9g}"
                    words[-2 if ends else -1] = value
                    line = " ".join(words)
                except ValueError:
                    pass
        if ";" in line:
            inside = False
        out.append(line)
    return "\n".join(out)


def by_solvers(text, folder, name):
    """What solvers answer to a text in free MPS: kind and path."""
    made = []
    clp = f"{folder}/{name}.clp"
    run(["clp", text, "-solve", "-solution", clp], folder + "/log")
    cbc = f"{folder}/{name}.cbc"
    run(["cbc", text, "-solve", "-solution", cbc], folder + "/log")
    glpsol = f"{folder}/{name}.glpsol"
    run(["glpsol", "--freemps", text, "-w", glpsol], folder + "/log")
    for kind, path in (("Clp", clp), ("CBC", cbc), ("glpsol", glpsol)):
        if os.path.exists(path):
            made.append((f"{kind}, {name}", path))
    return made


def wrong(path, other, folder):
    """Answers that are cut, shuffled, random, of another model, with NaN, and of one long line."""
    with open(path) as file:
        lines = file.read().split("\n")
    source = random.Random(1)
    head, rest = lines[:1], [line for line in lines[1:] if line]
    shuffled = rest[:]
    values = [line.rsplit(",", 1) for line in shuffled]
    numbers = [value for _, value in values]
    source.shuffle(numbers)
    texts = {
        "cut": "\n".join(head + rest[: len(rest) // 2]) + "\n",
        "shuffled": "\n".join(head + [f"{name},{number}" for (name, _), number in zip(values, numbers)]) + "\n",
        "random": "\n".join(head + [f"{name},{source.randrange(0, 10**6)}" for name, _ in values]) + "\n",
        "zeros": "\n".join(head) + "\n",
        "NaN": "\n".join(head + [f"{values[0][0]},NaN"]) + "\n",
        "one line of 64 MiB": "optimal" + " " * (64 * 2**20 - 8) + "\n",
        "random bytes": source.randbytes(100000).decode("latin-1"),
    }
    made = []
    for number, (kind, text) in enumerate(texts.items()):
        made.append((kind, f"{folder}/{number}.answer"))
        with open(made[-1][1], "w", encoding="latin-1") as file:
            file.write(text)
    if other:
        made.append(("another model's plan", other))
    return made


def main():
    program, folder, words = sys.argv[1], sys.argv[2], sys.argv[3:]
    files = {os.path.basename(word): word for word in words if os.path.exists(word)}
    words = [word for word in words if not os.path.exists(word)]
    if words or not files:
        for number, name in enumerate(CASES):
            if not words or any(word in name for word in words):
                files[name] = f"{folder}/{number}.dat"
                with open(files[name], "w") as file:
                    file.write(model(100 + number, **CASES[name]))
    print(f"{'model':32} {'start':28} {'status':>6} {'pivots':>7} {'of':>5} {'seconds':>8}  told")
    other = None
    for name, path in files.items():
        solve = [program, "solve", path, "--method", "rounded", "--pivots", "1000000", *GAP]
        status, took, _ = measured(solve, folder + "/report")
        alone = told(folder + "/report")
        pivots = int(alone.get("pivots", 0))
        print(f"{name:32} {'none':28} {status:6} {pivots:7} {'':5} {took:8.2f}  attempt {alone.get('attempt')}", flush=True)
        if status != 0:
            continue
        plan = folder + "/plan.csv"
        run([*solve, "--show", "plan"], plan)
        starts = [("its own plan", plan)]
        with open(path) as file:
            text = file.read()
        for kind, names, factor in (("demand 3 % higher", SCALED, 1.03), ("costs 10 % higher", PRICED, 1.1)):
            near = folder + "/near.dat"
            with open(near, "w") as file:
                file.write(neighbour(text, names, factor))
            near_plan = f"{folder}/{names[0]}.plan"
            if run([program, "solve", near, *solve[3:], "--show", "plan"], near_plan) == 0:
                starts.append((kind, near_plan))
        for command in ("mps", "reduce"):
            rows = f"{folder}/{command}.mps"
            if run([program, command, path], rows) == 0:
                if command == "mps":
                    with open(rows) as file:
                        free = file.read().replace("NAME OSEMOSYS\n", "NAME OSEMOSYS FREE\n", 1)
                    with open(rows, "w") as file:
                        file.write(free)
                starts.extend(by_solvers(rows, folder, command))
        for kind, start in starts + wrong(plan, other, folder):
            status, took, _ = measured([*solve, "--start", start], folder + "/report")
            found = told(folder + "/report")
            made = int(found.get("pivots", 0))
            said = f"start {found['start']}" if "start" in found else " ".join(next(iter(found.items()), ("", "")))
            part = f"{made / pivots:5.2f}" if pivots and status == 0 else ""
            print(f"{'':32} {kind:28} {status:6} {made or '':7} {part:5} {took:8.2f}  {said}", flush=True)
        other = f"{folder}/other.plan"
        os.replace(plan, other)


main()

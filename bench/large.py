"""Solves large models by guesses, from nothing and from what other solvers answer, beside these: large.py PROGRAM FOLDER [WORD ..]

PEER_SECONDS in the environment says how long a peer may take; ten minutes if it isn't there."""
import os
import subprocess
import sys

from chains import chains
from mps import MIB, measured
from planning import model

LONGEST = 3600  # seconds that the program may take
LONGEST_FILE = 64 * MIB  # what the program reads of a file
PEER_LONGEST = int(os.environ.get("PEER_SECONDS", "600"))
GAP = ["--gap", "10"]
PIVOTS = ["--pivots", "1000000"]

# Of each model what makes its text, from a seed.
LARGE = {
    "three regions, 20 years, 8 slices": lambda seed: model(seed, regions=3, years=20, slices=8, copies=2, trade=True, reserve=True, renewable=0.2),
    "two regions of whole chains, 30 years, 24 slices": lambda seed: chains(seed, regions=2, years=30, slices=24),
    "200 technologies, 40 years, 12 slices": lambda seed: model(seed, years=40, slices=12, copies=25, renewable=0.3),
    "near four million entries": lambda seed: model(seed, regions=3, years=40, slices=48, copies=3, trade=True, reserve=True, renewable=0.2),
}


def timed(words, path, longest=LONGEST):
    """Status, processor seconds and the most memory of a call that may take so long."""
    return measured(["sh", "-c", 'exec timeout "$0" "$@" 2>/dev/null', str(longest), *words], path)


def size(path):
    """How many rows, columns and entries a text in free MPS has, the cost and the right sides left out."""
    rows, names, entries, section = 0, set(), 0, ""
    with open(path) as file:
        for line in file:
            words = line.split()
            if line.startswith("*") or not words:
                continue
            if not line.startswith(" "):
                section = words[0]
            elif section == "ROWS":
                rows += words[0] != "N"
            elif section == "COLUMNS":
                names.add(words[0])
                entries += len(words) // 2
    return f"{rows:>9,} {len(names):>9,} {entries:>10,}"


def as_free(path):
    """Has Clp take a text as free MPS."""
    with open(path) as file:
        text = file.read()
    with open(path, "w") as file:
        file.write(text.replace("NAME OSEMOSYS\n", "NAME OSEMOSYS FREE\n", 1))


def show(what, status, took, most, more=""):
    print(f"  {what:44} {status:6} {took:9.2f} {most / MIB:7.0f} MiB  {more}", flush=True)


def solve(program, path, folder, start=None):
    """Solves by guesses, and says how it ended: the pivots, and how many millionths of the bound lie between cost and bound."""
    words = [program, "solve", path, "--method", "rounded", *PIVOTS, *GAP, "--show", "line"]
    status, took, most = timed(words + (["--start", start] if start else []), folder + "/line")
    with open(folder + "/line", errors="replace") as file:
        line = file.readline().strip()
    told = line.split(",")
    if status == 0 and len(told) == 5 and told[3]:
        return status, took, most, f"{told[4]} pivots, {1e6 * float(told[3]) / abs(float(told[2])):.3f} millionths"
    return status, took, most, line


def proof_files(proof):
    """The words by which `check` gets a proof: its file, or one of the plan and one of the multipliers where one file would be too long."""
    if os.path.getsize(proof) <= LONGEST_FILE:
        return ["--proof", proof]
    plan, multipliers = proof + ".plan", proof + ".multipliers"
    with open(proof) as file, open(plan, "w") as values, open(multipliers, "w") as prices:
        header = file.readline()
        values.write(header)
        prices.write(header)
        for record in file:
            word = record.partition(",")[0]
            # (equations' words have a digit, or begin so; those of variables don't)
            (prices if word.startswith("EQ_") or any(map(str.isdigit, word)) else values).write(record)
    return [plan, multipliers]


def by_peers(folder, kind, text):
    """What Clp, CBC and glpsol answer to a text: each one's name and the file of its answer, where it ended in time."""
    found = []
    for name, words in (("Clp", ["clp", text, "-solve", "-solution"]), ("CBC", ["cbc", text, "-solve", "-solution"]), ("glpsol", ["glpsol", "--freemps", text, "-w"])):
        path = f"{folder}/{kind}.{name}"
        if os.path.exists(path):
            os.remove(path)
        status, took, most = timed([*words, path], folder + "/log", PEER_LONGEST)
        ended = os.path.exists(path) and os.path.getsize(path) > 0
        show(f"{name} on the text of {kind}", status, took, most, "" if ended else f"no answer in {PEER_LONGEST} seconds")
        if ended:
            found.append((f"solve from {name}'s answer to {kind}", path))
    return found


def one(program, folder, name, text, seed):
    path = folder + "/data"
    with open(path, "w") as file:
        file.write(text(seed))
    print(f"{name}: {os.path.getsize(path):,} bytes of data", flush=True)
    texts = {}
    for command in ("mps", "reduce"):
        texts[command] = f"{folder}/{command}"
        status, took, most = timed([program, command, path], texts[command])
        show(command, status, took, most, size(texts[command]) + " rows, columns, entries" if status == 0 else "")
        if status != 0:
            del texts[command]
    if "mps" in texts:
        as_free(texts["mps"])
    show("solve from nothing", *solve(program, path, folder))
    proof = folder + "/proof"
    timed([program, "solve", path, "--method", "rounded", *PIVOTS, *GAP, "--show", "proof"], proof)
    status, took, most = timed([program, "check", path, *proof_files(proof), *GAP], folder + "/verdict")
    with open(folder + "/verdict", errors="replace") as file:
        show("check of its proof", status, took, most, file.readline().strip())
    for kind, text in texts.items():
        for what, start in by_peers(folder, kind, text):
            show(what, *solve(program, path, folder, start))


def main():
    program, folder, words = sys.argv[1], sys.argv[2], sys.argv[3:]
    print(f"  {'':44} {'status':>6} {'seconds':>9} {'memory':>11}")
    for number, (name, text) in enumerate(LARGE.items()):
        if not words or any(word in name for word in words):
            one(program, folder, name, text, 200 + number)


main()

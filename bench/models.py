"""Runs the rounded method, Clp and esolver on models as planners have them: models.py PROGRAM FOLDER [FILE or WORD ..]"""
import os
import sys

from mps import MIB, measured
from planning import CASES, model

LONGEST = 20  # seconds that a peer may take
GAP = ["--gap", "10"]


def peer(words, folder):
    """The processor time of a peer as text, and the most memory."""
    status, took, most = measured(["sh", "-c", 'exec timeout "$0" "$@" 2>/dev/null', str(LONGEST), *words], folder + "/answer")
    return f"{took:8.2f}" if status == 0 else f"{'over ' + str(round(took)):>8}", most


def verdict(program, path, folder):
    """What `check` says of the plan and the multipliers."""
    files = []
    for show in ("plan", "multipliers"):
        files.append(f"{folder}/{show}")
        measured([program, "solve", path, "--method", "rounded", "--pivots", "200000", "--show", show, *GAP], files[-1])
    measured([program, "check", path, *files, *GAP], folder + "/verdict")
    with open(folder + "/verdict") as file:
        return file.readline().strip()


def main():
    program, folder, words = sys.argv[1], sys.argv[2], sys.argv[3:]
    files = {os.path.basename(word): word for word in words if os.path.exists(word)}
    words = [word for word in words if not os.path.exists(word)]
    chosen = words or not files
    for number, name in enumerate(CASES):
        if chosen and (not words or any(word in name for word in words)):
            files[name] = f"{folder}/{number}.dat"
            with open(files[name], "w") as file:
                file.write(model(100 + number, **CASES[name]))
    print(f"{'model':32} {'status':>6} {'pivots':>7} {'seconds':>8} {'memory':>9} {'Clp':>8} {'memory':>9} {'esolver':>8} {'memory':>9}  check")
    for name, path in files.items():
        solve = [program, "solve", path, "--method", "rounded", "--pivots", "200000", *GAP]
        status, took, most = measured(solve, folder + "/report")
        with open(folder + "/report") as file:
            told = dict(line.split(None, 1) for line in file.read().splitlines()[:7] if " " in line)
        measured([program, "mps", path], folder + "/rows.mps")
        clp, clp_most = peer(["clp", folder + "/rows.mps", "-solve", "-quit"], folder)
        exact, exact_most = peer(["esolver", "-O", folder + "/solution", folder + "/rows.mps"], folder)
        said = verdict(program, path, folder) if status == 0 else ""
        print(f"{name:32} {status:6} {told.get('pivots', ''):>7} {took:8.2f} {most / MIB:5.0f} MiB {clp} {clp_most / MIB:5.0f} MiB {exact}"
              f" {exact_most / MIB:5.0f} MiB  {said}", flush=True)


main()

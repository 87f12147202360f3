"""Runs `osemosys check` on made data files with a plan that meets all equations, without and with multipliers of all rows, and `osemosys
mps` on the same files. Prints the processor time and the most memory of each, the times as against `mps`, and how each check ends."""

import sys
from fractions import Fraction

from choosing import chosen
from mps import FILES, MIB, measured
from plan import CHOSEN, Model, write

NAMES = [name for name in FILES if name.startswith("made file")]
RATES = {"MINE": 3000, "IMPORT": 3000, "PPCOAL": 1000, "BOILER": 1000}  # activity for a whole year: more than the demands need
CAPACITY = 3000  # of each of these in each year


def value(name):
    """What the plan chooses: the variable's value."""
    word, rest = name.rstrip("]").split("[")
    members = rest.split(",")
    if word == "RateOfActivity":
        return Fraction(RATES.get(members[2], 0))
    return Fraction(CAPACITY if word == "NewCapacity" and members[1] in RATES else 0)


def make_files(folder, rows):
    """A plan and multipliers as files; how many values and how many multipliers."""
    model = Model(rows)
    plan = model.completed({name: value(name) for name in model.columns if name.split("[")[0] in CHOSEN})
    write(folder + "/plan", {name: plan[name] for name in model.columns})
    write(folder + "/multipliers", model.carried())
    return len(model.columns), len(model.rows)


def main():
    program, folder = sys.argv[1:3]
    names = chosen(NAMES, sys.argv[3:])
    print(f"{'file':18} {'values':>7} {'multipliers':>11} {'command':27} {'seconds':>8} {'memory':>9} {'to mps':>7}  answer")
    for name in names:
        data, rows = folder + "/data", folder + "/mps"
        with open(data, "w") as file:
            file.write(FILES[name]())
        status, first, most = measured([program, "mps", data], rows)
        values, multipliers = make_files(folder, rows)
        print(f"{name:18} {values:7} {multipliers:11} {'mps':27} {first:8.2f} {most / MIB:5.0f} MiB {'':>7}  status {status}", flush=True)
        for words in (["plan"], ["plan", "multipliers"]):
            answer = folder + "/answer"
            files = [folder + "/" + word for word in words]
            status, took, most = measured([program, "check", data, *files], answer)
            with open(answer) as file:
                line = file.readline().strip()
            command = "check, " + " and ".join(words)
            print(f"{'':38} {command:27} {took:8.2f} {most / MIB:5.0f} MiB {took / first:7.1f}  status {status}: {line}", flush=True)


if __name__ == "__main__":
    main()

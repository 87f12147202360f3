"""Compares a curve with the costs that glpsol finds: curve.py PROGRAM MODEL FOLDER FILE REGION EMISSION LIMITS"""
import re
import sys
from fractions import Fraction

from mps import least_cost, measured

GAP = 10  # millionths
SLACK = 1e-7  # glpsol computes with floating-point numbers: so much of a cost may be off
STATEMENT = re.compile(r"param\s+ModelPeriodEmissionLimit\b[^;]*;")


def with_limit(text, region, emission, limit):
    """The data with this limit, and no other on the emissions of the model period."""
    statement = f"param ModelPeriodEmissionLimit default -1 := {region} {emission} {limit} ;"
    changed, count = STATEMENT.subn(lambda _: statement, text)
    if count != 1:
        sys.exit(f"the data have {count} statements for ModelPeriodEmissionLimit, and not one")
    return changed


def cost_at(model, folder, text):
    """The cost that glpsol finds, or None where there is no plan."""
    with open(folder + "/limited.dat", "w") as file:
        file.write(text)
    return least_cost(["-m", model, "-d", folder + "/limited.dat"], folder + "/solution")


def told(line):
    """A line's limit, and its cost, bound and slope, or its other words."""
    words = line.split()
    if words[2] != "cost":
        return Fraction(words[1]), " ".join(words[2:])
    values = {word: Fraction(words[at + 1]) for at, word in enumerate(words) if word in ("cost", "bound", "slope")}
    values.setdefault("bound", values["cost"])
    return Fraction(words[1]), values


def judged(values, least):
    """Whether cost and bound lie about the least cost, within the gap."""
    if least is None or isinstance(values, str):
        return (least is None) == (values == "infeasible")
    slack = SLACK * max(1.0, abs(least))
    near = values["cost"] - values["bound"] <= abs(values["bound"]) * GAP / 1000000
    return near and values["bound"] <= least + slack and values["cost"] >= least - slack


def below(lines, costs):
    """How many lines lie above a least cost at one of the limits."""
    above = 0
    for limit, values in lines:
        for (other, _), least in zip(lines, costs):
            if isinstance(values, dict) and least is not None:
                line = values["bound"] + values["slope"] * (other - limit)
                above += line > least + SLACK * max(1.0, abs(least))
    return above


def main():
    program, model, folder, path, region, emission, limits = sys.argv[1:8]
    with open(path) as file:
        text = file.read()
    curve = [program, "curve", path, region, emission]
    rounded = ["--method", "rounded", "--gap", str(GAP)]
    _, first, _ = measured([*curve, limits.split(",")[0], *rounded], folder + "/one")
    status, took, _ = measured([*curve, limits, *rounded], folder + "/all")
    with open(folder + "/all") as file:
        written = file.read().splitlines()
    print(f"status {status}")
    lines = [told(line) for line in written if line.startswith("limit ")]
    costs = [cost_at(model, folder, with_limit(text, region, emission, limit)) for limit in limits.split(",")]
    wrong = 0
    for line, (_, values), least in zip(written, lines, costs):
        good = judged(values, least)
        wrong += not good
        print(f"{line}    glpsol {'no plan' if least is None else f'{least:.6f}'} {'agrees' if good else 'DIFFERS'}")
    print(f"{len(lines)} of {len(limits.split(','))} lines, {wrong} differ, {below(lines, costs)} times a line lies above a least cost")
    if len(lines) > 1:
        print(f"one limit {first:.2f} s, all {took:.2f} s, a further limit {(took - first) / (len(lines) - 1):.2f} s")


main()

"""Runs the program of eliminating.txt on data files that it makes, and prints time and memory."""

import os
import sys

import mps
from choosing import chosen

TIMES = 10  # how often each step is done


def base(technologies, fuels, years):
    """The smallest model with more technologies, fuels and years: each technology makes each fuel, and 10 of each are asked for."""
    of_base = {"YearSplit": "1", "DiscountRate": "0", "SpecifiedAnnualDemand": "10", "SpecifiedDemandProfile": "1", "OperationalLife": "1",
               "OutputActivityRatio": "1", "CapitalCost": "5", "VariableCost": "2", "FixedCost": "1"}
    members = {"REGION": ["R"], "TECHNOLOGY": mps.numbered("T", technologies), "FUEL": mps.numbered("F", fuels), "MODE_OF_OPERATION": ["1"],
               "TIMESLICE": ["D"], "YEAR": [str(2020 + k) for k in range(years)]}
    before = dict(mps.DEFAULTS)
    mps.DEFAULTS.update(of_base)
    text = mps.data(members, {})
    mps.DEFAULTS.update(before)
    return text


FILES = {
    "made file of 20": lambda: mps.made(20),
    "made file of 60": lambda: mps.made(60),
    "made file of 122": lambda: mps.made(122),
    "498 technologies, 20 years": lambda: base(498, 1, 20),
    "200 technologies, 25 fuels, 20 years": lambda: base(200, 25, 20),
}


def main():
    program, folder = sys.argv[1:3]
    names = chosen(FILES, sys.argv[3:])
    print(f"{'file':38} {'rows':>8} {'left':>7} {'book':>18} {'eliminate':>18} {'carry back':>18}")
    for name in names:
        path, output = folder + "/data", folder + "/answer"
        with open(path, "w") as file:
            file.write(FILES[name]())
        line, before, counts = "", 0, []
        for what in "nothing", "eliminate", "carry":
            status, took, most = mps.measured([program, what, str(TIMES), path], output)
            with open(output) as file:
                found = file.read().strip()
            if status != 0 or not found.isdigit():
                sys.exit(f"{name}: {what}: status {status}: {found}")
            counts.append(found)
            # the second makes the book too, and the third also eliminates once
            spent = took if what == "nothing" else (took - before) / TIMES
            before += took if what == "nothing" else spent
            line += f" {spent:8.3f} {most / mps.MIB:5.0f} MiB"
        print(f"{name:38} {counts[0]:>8} {counts[1]:>7}{line}", flush=True)


main()

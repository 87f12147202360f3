"""Compares spans with the ends that glpsol finds: span.py PROGRAM FOLDER FILE REGION YEAR SLACK TECHNOLOGY.."""
import subprocess
import sys
from fractions import Fraction

from mps import least_cost, measured

GAP = 10  # millionths
SLACK = 1e-6  # glpsol computes with floating-point numbers: so much of an end may be off


def parts(text):
    """The lines of an MPS text by section, and each column's number by its name."""
    sections, names, section, told = {}, {}, None, None
    for line in text.splitlines():
        if line.startswith("*"):
            told = line[2:]
            continue
        if not line.startswith(" "):
            section = line.split()[0]
            sections[section] = []
            continue
        if section == "COLUMNS" and told:
            names[told], told = line.split()[0], None
        sections[section].append(line)
    return sections, names


def limited(sections, names, limit, column, sign):
    """The text with a row that limits the cost, and with this column times the sign as the cost."""
    of_cost = [line.split()[0] for line in sections["COLUMNS"] if line.split()[1] == "COST"]
    columns = {}
    for line in sections["COLUMNS"]:
        name, row, number = line.split()
        if row == "COST":
            columns.setdefault(name, []).append(f" {name} SPAN {number}")
        else:
            columns.setdefault(name, []).append(line)
    columns[column].append(f" {column} COST {sign}")
    assert of_cost
    body = ["NAME SPAN", "ROWS", *sections["ROWS"], " L SPAN", "COLUMNS"]
    for lines in columns.values():
        body += lines
    body += ["RHS", *sections["RHS"], f" RHS SPAN {float(limit):.17g}"]
    for rest in ("BOUNDS",):
        if rest in sections:
            body += [rest, *sections[rest]]
    return "\n".join([*body, "ENDATA", ""])


def least(folder, text):
    """The least cost that glpsol finds; None where there is none."""
    with open(folder + "/limited.mps", "w") as file:
        file.write(text)
    return least_cost(["--freemps", folder + "/limited.mps"], folder + "/solution")


def near(end, found):
    """Whether an end lies on the right side of what glpsol found, or as near to it as both may be off."""
    return abs(end - found) <= (GAP / 1000000 + SLACK) * max(1.0, abs(found))


def main():
    program, folder, path, region, year, slack = sys.argv[1:7]
    text = subprocess.run([program, "mps", path], stdout=subprocess.PIPE, check=True).stdout.decode()
    sections, names = parts(text)
    wrong = 0
    for technology in sys.argv[7:]:
        words = [program, "span", path, region, technology, year, "--slack", slack, "--method", "rounded", "--gap", str(GAP)]
        status, took, memory = measured(words, folder + "/span")
        with open(folder + "/span") as file:
            lines = [line.split() for line in file]
        values = {line[0]: Fraction(line[1]) for line in lines if line[0] in ("cost", "bound", "limit", "low", "high") and line[1] != "none"}
        if status != 0 or "high" not in values:
            print(f"{technology}: status {status}, {' '.join(lines[0])}, {took:.2f} s")
            continue
        column = names[f"NewCapacity[{region},{technology},{year}]"]
        low = least(folder, limited(sections, names, values["limit"], column, 1))
        high = least(folder, limited(sections, names, values["limit"], column, -1))
        good = low is not None and high is not None and near(float(values["low"]), low) and near(float(values["high"]), -high)
        wrong += not good
        by = "rounded" if "bound" in values else "exact"
        print(
            f"{technology}: {by}, limit {float(values['limit']):.6f}, low {float(values['low']):.9f} and high {float(values['high']):.9f}, "
            f"glpsol {low if low is None else f'{low:.9f}'} and {high if high is None else f'{-high:.9f}'}, "
            f"{'agrees' if good else 'DIFFERS'}, {took:.2f} s, {memory >> 20} MiB"
        )
    print(f"{wrong} differ")


main()

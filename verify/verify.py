"""Checks a proof that `osemosys solve --show proof` wrote, in exact fractions, with Python's library alone.

Usage: python3 verify.py PROGRAM PROOF

PROGRAM is the text that `osemosys mps` writes of the data, or what `glpsol --wglp` writes of them by the project's bench/mps.mod. Prints
what is shown, or the first thing that fails, with status 1. An optimum: the plan meets every row and sign, and by the multipliers no plan costs
less than the bound. No plan: the multipliers add the rows up to 0 >= a number above 0. No least cost: the plan meets every row and sign, and
along the direction it goes on to meet them while the cost falls."""
import csv
import sys
from fractions import Fraction
from math import gcd, lcm


class Failed(Exception):
    pass


def need(holds, what):
    if not holds:
        raise Failed(what)


class Program:
    """A linear program, by names: its rows as (sense, entries by column, right side), the cost by column, the columns in their order, and
    those of them that may be below 0."""

    def __init__(self):
        self.rows, self.cost, self.columns, self.free = {}, {}, [], set()


def read_mps(lines):
    """What `osemosys mps` writes: rows are called R1, R2 .. and columns C1, C2 .., and the line before has the name."""
    program, names, section, told = Program(), {}, None, None
    for line in lines:
        words = line.split()
        if line.startswith("*"):
            told = line[1:].strip()
        elif not line.startswith(" "):
            section = words[0]
            need(section in ("NAME", "ROWS", "COLUMNS", "RHS", "BOUNDS", "ENDATA"), f"the section {section} isn't read")
        elif section == "ROWS" and words[0] != "N":
            names[words[1]] = told
            need(told not in program.rows, f"{told} stands twice")
            program.rows[told] = [words[0], {}, Fraction(0)]
        elif section == "COLUMNS":
            if words[0] not in names:
                names[words[0]] = told
                program.columns.append(told)
            entries = program.cost if words[1] == "COST" else program.rows[names[words[1]]][1]
            need(names[words[0]] not in entries, f"{names[words[0]]} stands twice in {words[1]}")
            entries[names[words[0]]] = Fraction(words[2])
        elif section == "RHS":
            program.rows[names[words[1]]][2] = Fraction(words[2])
        elif section == "BOUNDS":
            need(words[0] == "FR", f"a bound {words[0]} isn't read")
            program.free.add(names[words[2]])
    return program


def read_glpk(lines):
    """What `glpsol --wglp` writes: rows and columns have numbers, of which a line without a type is an equality with 0 or not below 0."""
    program, told = Program(), [line.split(maxsplit=3) for line in lines]
    names = {(kind, number): name.strip() for _, kind, number, name in (it for it in told if it[0] == "n" and it[1] in "ij")}
    bounds = {(it[0], it[1]): [*it[2:], "0"] for it in told if it[0] in "ij"}
    for (kind, number), name in names.items():
        sense, right, *_ = bounds.get((kind, number), "s0" if kind == "i" else "l0")
        if kind == "i":
            need(sense in "fslu", f"a row of type {sense} isn't read")
            program.rows[name] = [{"s": "E", "l": "G", "u": "L", "f": "N"}[sense], {}, Fraction(right)]
        else:
            need(sense in "lf" and Fraction(right) == 0, f"a column of type {sense} isn't read")
            program.columns.append(name)
            program.free.update([name] if sense == "f" else [])
    for _, row, column, number in sorted((it for it in told if it[0] == "a"), key=lambda it: int(it[2])):
        need(column != "0", "a constant in the cost isn't read")
        entries = program.cost if row == "0" else program.rows[names["i", row]][1]
        entries[names["j", column]] = Fraction(number)
    program.rows = {name: row for name, row in program.rows.items() if row[0] != "N"}
    return program


def read_program(path):
    with open(path, encoding="utf-8") as file:
        first = file.readline()
        program = read_glpk(file) if first.startswith("p lp min") else read_mps([first, *file])
    program.rows = {name: in_whole_numbers(*row) for name, row in program.rows.items()}
    return program


def in_whole_numbers(sense, entries, right):
    """A row in whole numbers without a common divisor, and of an equality the last column's above 0: its multiplier belongs to this one."""
    numbers = [right, *entries.values()]
    times = lcm(*(it.denominator for it in numbers))
    by = Fraction(times, gcd(*(int(it * times) for it in numbers)) or 1)
    by = -by if sense == "E" and numbers[-1] < 0 else by
    return sense, {name: number * by for name, number in entries.items()}, right * by


def read_proof(path, program):
    """The plan, the direction and the multipliers, by name."""
    plan, direction, multipliers = {}, {}, {}
    with open(path, encoding="utf-8-sig", newline="") as file:
        records = csv.reader(file)
        need(next(records)[::9] == ["NAME", "VALUE"], "the proof has another header")
        columns = set(program.columns)
        for *words, number in records:
            name = f"{words[0].removeprefix('Direction.')}[{','.join(it for it in words[1:] if it)}]"
            into = direction if words[0].startswith("Direction.") else plan if name in columns else multipliers
            known = program.rows if into is multipliers else columns
            need(name in known and name not in into, f"{name} is unknown or stands twice in the proof")
            into[name] = Fraction(number)
    return plan, direction, multipliers


def check_values(program, values, is_direction=False):
    """The values meet every row and sign; a direction meets the rows with the right side 0."""
    for name, (sense, entries, right) in program.rows.items():
        miss = sum(values.get(it, 0) * number for it, number in entries.items()) - (0 if is_direction else right)
        need({"E": miss == 0, "G": miss >= 0, "L": miss <= 0}[sense], f"{name} is missed by {miss}")
    for name in program.columns:
        need(name in program.free or values.get(name, 0) >= 0, f"{name} is below 0")


def check_multipliers(program, multipliers, cost):
    """The rows times their multipliers, added up, have no more of any column than the cost has; and exactly as much of one that may be
    below 0. The right side is the bound."""
    added = dict.fromkeys(program.columns, Fraction(0))
    for name, multiplier in multipliers.items():
        sense, entries, _ = program.rows[name]
        need({"E": True, "G": multiplier >= 0, "L": multiplier <= 0}[sense], f"the multiplier of {name} has the wrong sign")
        for column, number in entries.items():
            added[column] += multiplier * number
    for name, number in added.items():
        over = number - cost.get(name, 0)
        need(over == 0 or (over < 0 and name not in program.free), f"the multipliers have {over} too much of {name}")
    return sum(multiplier * program.rows[name][2] for name, multiplier in multipliers.items())


def verify(program, plan, direction, multipliers):
    if not plan and not direction:
        need(check_multipliers(program, multipliers, {}) > 0, "the multipliers show nothing")
        return "no plan meets the rows"
    need(all(name in plan for name in program.columns), "the plan lacks a variable")
    check_values(program, plan)
    if direction:
        check_values(program, direction, is_direction=True)
        need(sum(number * direction.get(name, 0) for name, number in program.cost.items()) < 0, "the cost doesn't fall along the direction")
        return "for every number some plan costs less"
    cost = sum(number * plan[name] for name, number in program.cost.items())
    bound = check_multipliers(program, multipliers, program.cost)
    return f"a plan costs {cost} = {float(cost)}, and none costs less than {bound} = {float(bound)}; the gap is {float(cost - bound)}"


if __name__ == "__main__":
    try:
        asked = read_program(sys.argv[1])
        print("verified:", verify(asked, *read_proof(sys.argv[2], asked)))
    except (Failed, ValueError, LookupError, ZeroDivisionError) as fault:
        sys.exit(f"not verified: {fault}")

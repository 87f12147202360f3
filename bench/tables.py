"""tables.py PROOF NAME [--exact], or tables.py PROOF limits|prices ROWS [--exact]: a table, as `osemosys table` has to write it.

PROOF is what `solve --show proof` or `--show plan` writes. NAME is that of a kind of variables, one of otoole's two other names, or `all`: the
table is made of the records of PROOF alone. What limits and fuels cost is made of its multipliers and of ROWS, the text of `osemosys mps` of the
data file. Nothing is checked: that the plan meets the equations, and that the multipliers prove a bound, says `osemosys check`. The texts of the
tables in `crates/program_cases/stdout` are this script's.
"""

import csv
import sys
from fractions import Fraction

# the kinds of the long code in the order of their definitions, with the columns of their tables
R, RR, L, T, F, E, M, Y = "REGION", "_REGION", "TIMESLICE", "TECHNOLOGY", "FUEL", "EMISSION", "MODE_OF_OPERATION", "YEAR"
KINDS = {
    "RateOfActivity": [R, L, T, M, Y],
    "NewCapacity": [R, T, Y],
    "Trade": [R, RR, L, F, Y],
    "RateOfDemand": [R, L, F, Y],
    "AccumulatedNewCapacity": [R, T, Y],
    "TotalCapacityAnnual": [R, T, Y],
    "RateOfTotalActivity": [R, T, L, Y],
    "RateOfProductionByTechnologyByMode": [R, L, T, M, F, Y],
    "RateOfProductionByTechnology": [R, L, T, F, Y],
    "RateOfProduction": [R, L, F, Y],
    "RateOfUseByTechnologyByMode": [R, L, T, M, F, Y],
    "RateOfUseByTechnology": [R, L, T, F, Y],
    "RateOfUse": [R, L, F, Y],
    "Production": [R, L, F, Y],
    "Use": [R, L, F, Y],
    "Demand": [R, L, F, Y],
    "ProductionAnnual": [R, F, Y],
    "UseAnnual": [R, F, Y],
    "TradeAnnual": [R, RR, F, Y],
    "ProductionByTechnology": [R, L, T, F, Y],
    "UseByTechnology": [R, L, T, F, Y],
    "TotalAnnualTechnologyActivityByMode": [R, T, M, Y],
    "CapitalInvestment": [R, T, Y],
    "DiscountedCapitalInvestment": [R, T, Y],
    "SalvageValue": [R, T, Y],
    "DiscountedSalvageValue": [R, T, Y],
    "AnnualVariableOperatingCost": [R, T, Y],
    "AnnualFixedOperatingCost": [R, T, Y],
    "OperatingCost": [R, T, Y],
    "DiscountedOperatingCost": [R, T, Y],
    "AnnualTechnologyEmissionByMode": [R, T, E, M, Y],
    "AnnualTechnologyEmission": [R, T, E, Y],
    "AnnualTechnologyEmissionPenaltyByEmission": [R, T, E, Y],
    "AnnualTechnologyEmissionsPenalty": [R, T, Y],
    "DiscountedTechnologyEmissionsPenalty": [R, T, Y],
    "TotalDiscountedCostByTechnology": [R, T, Y],
    "TotalDiscountedCost": [R, Y],
    "ModelPeriodCostByRegion": [R],
    "TotalTechnologyAnnualActivity": [R, T, Y],
    "TotalTechnologyModelPeriodActivity": [R, T],
    "TotalCapacityInReserveMargin": [R, Y],
    "DemandNeedingReserveMargin": [R, L, Y],
    "ProductionByTechnologyAnnual": [R, T, F, Y],
    "TotalREProductionAnnual": [R, Y],
    "RETotalProductionOfTargetFuelAnnual": [R, Y],
    "UseByTechnologyAnnual": [R, T, F, Y],
    "AnnualEmissions": [R, E, Y],
    "ModelPeriodEmissions": [R, E],
}
OTHER_NAMES = {"DiscountedCostByTechnology": "TotalDiscountedCostByTechnology", "DiscountedOperationalCost": "DiscountedOperatingCost"}
FIELDS = {RR: "REGION2", M: "MODE"}

# the equations of limits and of balances of fuels, with their subscripts and the kind of the variable of which each speaks
LIMITS = {
    "TCC1": ([R, T, Y], "TotalCapacityAnnual"),
    "TCC2": ([R, T, Y], "TotalCapacityAnnual"),
    "NCC1": ([R, T, Y], "NewCapacity"),
    "NCC2": ([R, T, Y], "NewCapacity"),
    "AAC2": ([R, T, Y], "TotalTechnologyAnnualActivity"),
    "AAC3": ([R, T, Y], "TotalTechnologyAnnualActivity"),
    "TAC2": ([R, T], "TotalTechnologyModelPeriodActivity"),
    "TAC3": ([R, T], "TotalTechnologyModelPeriodActivity"),
    "RM3": ([R, L, Y], "TotalCapacityInReserveMargin"),
    "RE4": ([R, Y], "TotalREProductionAnnual"),
    "E8": ([R, E, Y], "AnnualEmissions"),
    "E9": ([R, E], "ModelPeriodEmissions"),
}
BALANCES = {"EBa11": ([R, L, F, Y], "Production"), "EBb4": ([R, F, Y], "ProductionAnnual")}
RELATIVE = ("RM3", "RE4")  # their right side is 0
COLUMNS = {"limits": [R, L, T, E, Y], "prices": [R, L, F, Y]}


def decimal(value):
    """A value with six decimal places, halves away from 0."""
    millionths = (2 * abs(value.numerator) * 10**6 + value.denominator) // (2 * value.denominator)
    sign = "-" if value < 0 and millionths else ""
    return "%s%d.%06d" % (sign, millionths // 10**6, millionths % 10**6)


def write(records, kind, exact):
    out = csv.writer(sys.stdout, lineterminator="\n")
    out.writerow(KINDS[kind] + ["VALUE"])
    for record in records:
        value = Fraction(record["VALUE"])
        if record["NAME"] == kind and value:
            out.writerow([record[FIELDS.get(column, column)] for column in KINDS[kind]] + [str(value) if exact else decimal(value)])


def named(text):
    """A word and the members in brackets after it."""
    word, members = text.rstrip("]").split("[", 1)
    return word, tuple(members.split(","))


def rows_of(path):
    """The rows of a text of `osemosys mps`: of each name the numbers of its variables by their names, and the right side."""
    rows, sides, titles, part, title = {}, {}, {}, "", None
    with open(path) as text:
        for line in text:
            words = line.split()
            if line.startswith("*"):
                title = named(line[1:].strip())
            elif not line.startswith(" "):
                part = words[0]
            elif part == "ROWS" and words[0] != "N":
                titles[words[1]] = title
                rows[title], sides[title] = {}, Fraction(0)
            elif part == "COLUMNS" and words[1] in titles:
                rows[titles[words[1]]][title] = Fraction(words[2])
            elif part == "RHS" and words[1] in titles:
                sides[titles[words[1]]] = Fraction(words[2])
    return rows, sides


def fitting(value):
    """A value, and none where its numbers in lowest terms don't fit 128 bits."""
    return value if value is not None and max(abs(value.numerator), value.denominator) < 2**127 else None


def amounts(equation, side, number, multiplier):
    """The limit, the price, and what one per cent more of the limit saves at most."""
    price = fitting(multiplier * number)
    limit = None if equation in RELATIVE or not number else side / number
    cost = None if price is None or limit is None else fitting(price * limit)
    return limit, price, None if cost is None else fitting(-cost / 100)


def write_prices(records, path, name, exact):
    equations, columns = LIMITS if name == "limits" else BALANCES, COLUMNS[name]
    multipliers = {}
    for record in records:
        subscripts = equations.get(record["NAME"], ([], ""))[0]
        members = tuple(record[FIELDS.get(column, column)] for column in subscripts)
        multipliers[record["NAME"], members] = Fraction(record["VALUE"])
    rows, sides = rows_of(path)
    out = csv.writer(sys.stdout, lineterminator="\n")
    out.writerow(["EQUATION"] + columns + (["LIMIT", "PRICE", "PERCENT"] if name == "limits" else ["PRICE"]))
    for (equation, members), entries in rows.items():
        multiplier = multipliers.get((equation, members), 0)
        if equation not in equations or not multiplier:
            continue
        subscripts, kind = equations[equation]
        at = dict(zip(subscripts, members))
        variable = kind, tuple(at[column] for column in KINDS[kind])
        numbers = amounts(equation, sides[equation, members], entries.get(variable, Fraction(0)), multiplier)
        shown = ["" if x is None else str(x) if exact else decimal(x) for x in (numbers if name == "limits" else numbers[1:2])]
        out.writerow([equation] + [at.get(column, "") for column in columns] + shown)


def main():
    path, name, *form = sys.argv[1:]
    with open(path, newline="") as text:
        records = list(csv.DictReader(text))
    if name in COLUMNS:
        write_prices(records, form[0], name, form[1:] == ["--exact"])
        return
    if name != "all":
        write(records, OTHER_NAMES.get(name, name), form == ["--exact"])
        return
    for kind in KINDS:
        print(kind)
        write(records, kind, form == ["--exact"])


main()

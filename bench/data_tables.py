"""data_tables.py FILE NAME [--exact] [--places 6|9], or data_tables.py FILE page PROOF ROWS [--exact] [--places 6|9]: a table of the data,
as `osemosys table` has to write it.

FILE is the data file. NAME is `sets`, `worth` or the word of a parameter that the data use: the table is made of the file alone, in
fractions. `page` has the tables that the page of a proof is drawn from: PROOF is what `solve --show proof` writes, and ROWS the text of
`osemosys mps` of the data file, or of another program that writes the same; of these two `bench/tables.py` makes the tables of values and of
what limits and fuels cost. Nothing is checked: that the file is accepted and the plan meets the equations, says `osemosys check`. The texts of
these tables in `crates/program_cases/stdout` are this script's.
"""

import csv
import os
import subprocess
import sys
from fractions import Fraction
from itertools import product
from math import isqrt

from data_files import SETS, Data

TABLES = os.path.join(os.path.dirname(os.path.abspath(__file__)), "tables.py")
# of these limits any number but -1 is one; of the other only a number above 0
OF_ANY_NUMBER = {
    "TotalAnnualMaxCapacity",
    "TotalAnnualMaxCapacityInvestment",
    "TotalTechnologyAnnualActivityUpperLimit",
    "AnnualEmissionLimit",
    "ModelPeriodEmissionLimit",
}
ABOVE_0 = {"TotalTechnologyModelPeriodActivityUpperLimit"}

# what a page is drawn from, in its order: tables of the data, of a plan's values, of prices, and those of a direction
PAGE_DATA = """sets worth TradeRoute AccumulatedAnnualDemand CapacityToActivityUnit InputActivityRatio OutputActivityRatio EmissionActivityRatio
AnnualExogenousEmission AnnualEmissionLimit ModelPeriodExogenousEmission ModelPeriodEmissionLimit""".split()
PAGE_KINDS = """NewCapacity Trade TotalCapacityAnnual Demand TradeAnnual ProductionByTechnology UseByTechnology DiscountedCapitalInvestment
DiscountedSalvageValue DiscountedOperatingCost AnnualTechnologyEmission DiscountedTechnologyEmissionsPenalty TotalDiscountedCost
TotalTechnologyAnnualActivity ProductionByTechnologyAnnual UseByTechnologyAnnual AnnualEmissions""".split()
PAGE_PRICES = ["limits", "prices"]
DIRECTION_KINDS = ["RateOfActivity", "NewCapacity", "Trade"]


def field(text):
    return '"%s"' % text.replace('"', '""') if any(mark in text for mark in ',"\r\n') else text


def line(fields):
    return ",".join(map(field, fields)) + "\n"


def decimal(value):
    """Six decimal places, the nearest, halves away from 0."""
    size = (2 * 10**6 * abs(value.numerator) + value.denominator) // (2 * value.denominator)
    return "%s%d.%06d" % ("-" if value < 0 and size else "", *divmod(size, 10**6))


def number(value, exact):
    return str(value) if exact else decimal(value)


def sets_table(data):
    return line(["SET", "MEMBER"]) + "".join(line([name, member]) for name in SETS for member in data.sets[name])


def factor(rate, years, places):
    """What 1 in the middle of the year, so many years after the first, is worth, in units of the last place: each year divides by 1 + rate
    and rounds down at 18 places, and the half year is the root that is rounded down at 12."""
    one, worth = 10**9, 10**18
    divisor = one + int(rate * one)
    for _ in range(years):
        worth = worth * one // divisor
    return worth * isqrt(10**24 * one // divisor) // 10 ** (30 - places)


def worth_table(data, exact, places):
    text = line(["REGION", "YEAR", "VALUE"])
    first = min(map(int, data.sets["YEAR"]))
    for region in data.sets["REGION"]:
        for year in data.sets["YEAR"]:
            units = factor(data.of("DiscountRate", region), int(year) - first, places)
            shown = str(Fraction(units, 10**places)) if exact else "%d.%0*d" % (units // 10**places, places, units % 10**places)
            text += line([region, year, shown])
    return text


def says(name, value):
    if name in ABOVE_0:
        return value > 0
    return value != (-1 if name in OF_ANY_NUMBER else 0)


def param_table(data, name, exact):
    sets = data.sets_of(name)
    heads = ["_" + word if word in sets[:at] else word for at, word in enumerate(sets)]
    text = line([*heads, "VALUE"])
    for members in product(*(data.sets[word] for word in sets)):
        value = data.of(name, *members)
        if says(name, value):
            text += line([*members, number(value, exact)])
    return text


def table(data, name, exact, places):
    if name == "sets":
        return sets_table(data)
    return worth_table(data, exact, places) if name == "worth" else param_table(data, name, exact)


def plan_table(proof, name, rows, exact):
    words = [sys.executable, TABLES, proof, name, *([rows] if name in PAGE_PRICES else []), *(["--exact"] if exact else [])]
    return subprocess.run(words, stdout=subprocess.PIPE, text=True, check=True).stdout


def direction_table(records, kind, exact):
    """As tables.py prints a kind's values, of the values of a direction; heads are those of the kind."""
    heads = {"RateOfActivity": "REGION TIMESLICE TECHNOLOGY MODE_OF_OPERATION YEAR", "NewCapacity": "REGION TECHNOLOGY YEAR", "Trade": "REGION _REGION TIMESLICE FUEL YEAR"}
    columns, fields = heads[kind].split(), {"_REGION": "REGION2", "MODE_OF_OPERATION": "MODE"}
    text = line([*columns, "VALUE"])
    for record in records:
        value = Fraction(record["VALUE"])
        if record["NAME"] == "Direction." + kind and value:
            text += line([*(record[fields.get(column, column)] for column in columns), number(value, exact)])
    return text


def page_tables(data, proof, rows, exact, places, shows):
    """The tables of a page, each after a line with its name: of an `optimum`, a `refutation` or a `descent`."""
    named = [(name, table(data, name, exact, places)) for name in (PAGE_DATA if shows == "optimum" else ["sets"])]
    if shows == "optimum":
        named += [(name, plan_table(proof, name, rows, exact)) for name in PAGE_KINDS + PAGE_PRICES]
    elif shows == "descent":
        with open(proof, newline="") as text:
            records = list(csv.DictReader(text))
        named += [(kind, direction_table(records, kind, exact)) for kind in DIRECTION_KINDS]
    return "".join(name + "\n" + text for name, text in named)


def main():
    words, exact, places = sys.argv[1:], False, 6
    if "--exact" in words:
        words.remove("--exact")
        exact = True
    if "--places" in words:
        at = words.index("--places")
        places = int(words[at + 1])
        del words[at : at + 2]
    path, name, *files = words
    data = Data(path)
    if name == "page":
        sys.stdout.write(page_tables(data, files[0], files[1], exact, places, "optimum"))
    elif name in ("sets", "worth") or data.sets_of(name):
        sys.stdout.write(table(data, name, exact, places))
    else:
        sys.exit("data_tables.py: %s has no table %s" % (path, name))


if __name__ == "__main__":
    main()

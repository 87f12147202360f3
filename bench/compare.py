"""compare.py DATA PLAN BOUND DATA2 PLAN2 BOUND2: two plans beside each other, as `osemosys compare` has to write it.

PLAN is what `solve --show plan` or `--show proof` writes, BOUND a fraction that no plan of DATA costs less than. The text is made of the records of
the two plans and the members of the sets that the two data files name. Nothing is checked: that the plans meet the equations, and that the bounds
hold, says `osemosys check`.
"""

import csv
import math
import re
import sys
from fractions import Fraction

FIELDS = ["REGION", "_REGION", "TIMESLICE", "TECHNOLOGY", "FUEL", "EMISSION", "MODE_OF_OPERATION", "YEAR"]
SETS = ["REGION", "TECHNOLOGY", "FUEL", "EMISSION", "MODE_OF_OPERATION", "TIMESLICE", "YEAR"]
R, T, F, E, Y = "REGION", "TECHNOLOGY", "FUEL", "EMISSION", "YEAR"
KINDS = {
    "NewCapacity": [R, T, Y],
    "TotalCapacityAnnual": [R, T, Y],
    "TotalTechnologyAnnualActivity": [R, T, Y],
    "ProductionByTechnologyAnnual": [R, T, F, Y],
    "UseByTechnologyAnnual": [R, T, F, Y],
    "TradeAnnual": [R, "_REGION", F, Y],
    "AnnualEmissions": [R, E, Y],
    "DiscountedCapitalInvestment": [R, T, Y],
    "DiscountedOperatingCost": [R, T, Y],
    "DiscountedTechnologyEmissionsPenalty": [R, T, Y],
    "DiscountedSalvageValue": [R, T, Y],
    "TotalDiscountedCost": [R, Y],
}
LIMIT = 2 ** 127


def fitting(n):
    return n if n is not None and abs(n) < LIMIT else None


def millionths(value):
    """the nearest whole number of millionths, of two that are as near the one further from 0"""
    size = (2 * 1000000 * abs(value.numerator) + value.denominator) // (2 * value.denominator)
    return fitting(-size if value < 0 else size)


def down(value):
    return fitting(math.floor(value * 1000000))


def up(value):
    return fitting(math.ceil(value * 1000000))


def less(a, b):
    return None if a is None or b is None else fitting(b - a)


def plus(a, b):
    return None if a is None or b is None else fitting(a + b)


def decimal(n, nothing):
    if n is None:
        return nothing
    return "%s%d.%06d" % ("-" if n < 0 else "", abs(n) // 1000000, abs(n) % 1000000)


def members(path):
    """the members of the sets, of `set NAME := ... ;`"""
    text = re.sub(r"#[^\n]*", "", open(path, encoding="utf-8").read())
    found = {name: [] for name in SETS}
    for name, names in re.findall(r"\bset\s+(\w+)\s*:=([^;]*);", text):
        if name in found:
            found[name] += [quoted or plain for quoted, plain in re.findall(r"['\"]([^'\"]*)['\"]|([^\s,]+)", names)]
    return found


def plan_of(path):
    """kind -> names -> value, in the order of the file"""
    found = {}
    for record in csv.reader(open(path, newline="", encoding="utf-8")):
        if len(record) == 10 and record[0] in KINDS:
            names = tuple(record[1 + FIELDS.index(f)] for f in KINDS[record[0]])
            found.setdefault(record[0], {})[names] = Fraction(record[9])
    return found


def line(fields):
    return ",".join('"%s"' % f.replace('"', '""') if re.search('[,"\r\n]', f) else f for f in fields)


def section(word, kind, changes):
    """a change: names, both numbers, and whether it differs"""
    differing = [c for c in changes if c[3]]
    yield "%s %s changed %d same %d" % (word, kind, len(differing), len(changes) - len(differing))

    def rank(change):
        rest = less(change[1], change[2])
        return -LIMIT if rest is None else -abs(rest)

    for names, one, two, _ in sorted(differing, key=rank):
        yield line(list(names) + [decimal(n, "") for n in (one, two, less(one, two))])


def values(first, second):
    """of each that isn't 0 in one of the plans"""
    for names, value in first.items():
        if value:
            two = second.get(names, Fraction(0))
            yield names, millionths(value), millionths(two), value != two
    for names, value in second.items():
        if value and not first.get(names, 0):
            yield names, 0, millionths(value), True


def sums_of(values, years):
    """names without the year -> the sum of the years, in the order of the file's years, of those that have a value other than 0, and these values"""
    found = {}
    for names, value in values.items():
        if value:
            found.setdefault(names[:-1], {})[names[-1]] = value
    totals = {}
    for names, by_year in found.items():
        total = 0
        for year in years:
            total = plus(total, millionths(by_year.get(year, Fraction(0))))
        totals[names] = (total, by_year)
    return totals


def sums(first, second):
    """the same are those of which every year's value is the same, and those of which the rounded sums are"""
    for names, (one, by_year) in first.items():
        two, by_year2 = second.get(names, (0, {}))
        yield names, one, two, by_year != by_year2 and less(one, two) != 0
    for names, (two, _) in second.items():
        if names not in first:
            yield names, 0, two, less(0, two) != 0


def cost_of(plan):
    return sum(plan.get("TotalDiscountedCost", {}).values(), Fraction(0))


def compared(data, plan, bound, data2, plan2, bound2):
    sets, sets2 = members(data), members(data2)
    one, two = plan_of(plan), plan_of(plan2)
    costs, bounds = (cost_of(one), cost_of(two)), (Fraction(bound), Fraction(bound2))
    yield "compared"
    yield "status " + " ".join("least" if c == b else "near" for c, b in zip(costs, bounds))
    a, b = (millionths(c) for c in costs)
    yield "cost " + " ".join(decimal(n, "unknown") for n in (a, b, less(a, b)))
    yield "bound " + " ".join(decimal(millionths(b), "unknown") for b in bounds)
    least = less(up(costs[0]), down(bounds[1]))
    most = less(down(bounds[0]), up(costs[1]))
    yield "difference %s %s" % (decimal(least, "unknown"), decimal(most, "unknown"))
    for word, here, there in (("first", sets, sets2), ("second", sets2, sets)):
        yield "only " + word
        for name in SETS:
            for member in here[name]:
                if member not in there[name]:
                    yield line([name, member])
    for kind in KINDS:
        a, b = one.get(kind, {}), two.get(kind, {})
        yield from section("table", kind, list(values(a, b)))
        if kind != "TotalCapacityAnnual":
            yield from section("sums", kind, list(sums(sums_of(a, sets["YEAR"]), sums_of(b, sets2["YEAR"]))))
    yield "end"


if __name__ == "__main__":
    sys.stdout.write("".join(l + "\n" for l in compared(*sys.argv[1:7])))

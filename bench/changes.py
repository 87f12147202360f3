#!/usr/bin/env python3
"""Compares what the program says over data with changes with what it says over a file that was changed by another reader.

Usage: bench/changes.py PROGRAM [COUNT] [SEED]

COUNT random files of changes, 200 where it is left out, are made for small models of crates/program_cases and for
examples/country.dat. Each is applied by `data_files.py` and by the few lines of `changed` below, in fractions; the changed data are
written as a data file, and each command has to say of it what it says of the first file `--with` the changes: byte by byte, but for the
count of rounded numbers, which is reckoned, and the name and the changes on a page. A change that is refused has to be refused by
the same record and word."""
import csv
import itertools
import os
import random
import re
import subprocess
import sys
import tempfile
from fractions import Fraction

from data_files import SETS, USED, Data, billionths

TOP = os.path.dirname(os.path.dirname(os.path.abspath(__file__)))
MODELS = f"{TOP}/crates/program_cases/data/models"
BASES = ["base", "limits-that-bind", "two-units-at-most", "each-region-at-a-limit", "slices-and-modes", "reserve-margin", "renewable-target", "solve-trade", "capital-recovery-rates", "country"]
COLUMNS = ["REGION", "_REGION", "TECHNOLOGY", "FUEL", "EMISSION", "MODE_OF_OPERATION", "TIMESLICE", "YEAR"]
UPPER = ["TotalAnnualMaxCapacity", "TotalAnnualMaxCapacityInvestment", "TotalTechnologyAnnualActivityUpperLimit"]
NO_LIMIT = [*UPPER, "TotalTechnologyModelPeriodActivityUpperLimit", "AnnualEmissionLimit", "ModelPeriodEmissionLimit"]
ANY = ["CapitalCost", "VariableCost", "FixedCost", "EmissionActivityRatio", "EmissionsPenalty", "AnnualExogenousEmission"]
ANY += ["AnnualEmissionLimit", "ModelPeriodExogenousEmission", "ModelPeriodEmissionLimit"]
AMOUNTS = ["0", "1", "2", "0.5", "1.1", "0.8", "-1", "3", "0.333333333", "1e-9", "-0.25", "100", "0.1234567894", "1.0000000005"]


def columns_of(data, name):
    """The columns of a parameter's subscripts: of two regions the second has one of its own."""
    sets = data.sets_of(name)
    return ["_REGION" if word == "REGION" and "REGION" in sets[:place] else word for place, word in enumerate(sets)]


def range_fault(name, value):
    """The word of a value that leaves its parameter's range."""
    if abs(value) > 10**15:
        large = "OutOfRange"
    else:
        large = None
    if name in ANY:
        return large
    if name == "YearSplit":
        return "NotPositive" if value <= 0 else large
    if name in ("DiscountRate", "DiscountRateIdv"):
        return None if 0 <= value <= 1 else "OutOfRange"
    if name == "DepreciationMethod":
        return None if value in (1, 2) else "OutOfRange"
    if name == "OperationalLife":
        return "NotWhole" if value.denominator > 1 else None if 1 <= value <= 200 else "OutOfRange"
    if name == "CapacityOfOneTechnologyUnit":
        return "WholeUnits" if value else None
    if name in NO_LIMIT:
        return large if value == -1 or value >= 0 else "OutOfRange"
    return "Negative" if value < 0 else large


def members_of(data, column, text):
    """The members that the text names, or None."""
    all_of = data.sets[column.lstrip("_")]
    if text in ("", "*"):
        return all_of
    if text in all_of:
        return [text]
    ends = re.fullmatch(r"([^-]*)-(.*)", text)
    if column == "YEAR" and ends and ends[1] in all_of and ends[2] in all_of and int(ends[1]) <= int(ends[2]):
        return [year for year in all_of if int(ends[1]) <= int(year) <= int(ends[2])]
    return None


def changed(data, header, records):
    """Applies the records, one after another. The line of the first that is refused, or None."""
    for number, record in enumerate(records, 2):
        fault = change(data, dict(zip(header, record)))
        if fault:
            return f"refused changes record {number} {fault}\n"
    return None


def change(data, record):
    name, kind = record["NAME"], record["CHANGE"]
    if data.sets_of(name) is None:
        return "UnknownName"
    columns = columns_of(data, name)
    if any(record.get(column, "") not in ("", "*") and column not in columns for column in COLUMNS):
        return "BadRecord"
    named = [members_of(data, column, record.get(column, "")) for column in columns]
    if None in named:
        return "UnknownMember"
    exact = Fraction(record["VALUE"])
    amount = Fraction(billionths(exact), 10**9)
    found = {}
    rounded = exact != amount
    for index in itertools.product(*[[m for m in data.sets[c.lstrip("_")] if m in chosen] for c, chosen in zip(columns, named)]):
        old = data.values.get((name, index), data.defaults.get(name, Fraction(0)))
        new = amount if kind == "=" else old * amount if kind == "*" else old + amount
        if kind != "=" and name in NO_LIMIT and old == -1:
            new = old
        elif kind == "*":
            rounded += Fraction(billionths(new), 10**9) != new
            new = Fraction(billionths(new), 10**9)
        fault = range_fault(name, new)
        if fault:
            return f"{fault} {name}[{','.join(index)}]"
        if new != old:
            found[name, index] = new
    data.values.update(found)
    data.rounded += rounded
    return None


def quoted(word):
    return "'" + word.replace("'", "''") + "'"


def text_of(value):
    whole = billionths(value)
    return f"{'-' if whole < 0 else ''}{abs(whole) // 10**9}.{abs(whole) % 10**9:09}"


def write(data, path):
    """The data as a data file: each value that is given, and the defaults."""
    with open(path, "w", encoding="latin-1", newline="\n") as file:
        for name in SETS:
            file.write(f"set {name} := {' '.join(map(quoted, data.sets[name]))} ;\n")
        for name in [*USED, *(["DiscountRateIdv"] if "DiscountRateIdv" in data.stated else [])]:
            default = f" default {text_of(data.defaults[name])}" if name in data.defaults else ""
            given = [(index, value) for (other, index), value in data.values.items() if other == name]
            file.write(f"param {name}{default} :=\n")
            for index, value in given:
                file.write(" ".join([*map(quoted, index), text_of(value)]) + "\n")
            file.write(";\n")
        file.write("end;\n")


def a_record(data, draw):
    name = draw.choice([*USED, *UPPER, *ANY, "SpecifiedAnnualDemand", "CapacityFactor", "DiscountRateIdv", "StorageLevelStart"])
    record = dict.fromkeys(COLUMNS, "")
    for column in columns_of(data, name) if data.sets_of(name) is not None else []:
        members = data.sets[column.lstrip("_")]
        if members and draw.random() < 0.5:
            record[column] = draw.choice(members)
        if column == "YEAR" and draw.random() < 0.3:
            record[column] = f"{draw.choice(members)}-{draw.choice(members)}"
    if draw.random() < 0.03:
        record[draw.choice(COLUMNS)] = draw.choice(["*", "none", "2020", "R"])
    return {"NAME": name, **record, "CHANGE": draw.choice("=**++"), "VALUE": draw.choice(AMOUNTS)}


def run(program, *words):
    ran = subprocess.run([program, *words], capture_output=True, text=True, encoding="latin-1", timeout=300)
    return ran.returncode, ran.stdout


def without_title(page):
    return re.sub(r'<h3 class="name">.*?</h3>\n(<pre class="changes">\n.*?</pre>\n)?', "", page, flags=re.S)


def with_rounded(text, count):
    """The text with this count of rounded numbers."""
    text = re.sub(r"^rounded \d+$", f"rounded {count}", text, flags=re.M)
    return re.sub(r"^warning \d+ of the numbers had more than nine decimal places\n", "", text, flags=re.M)


def commands(data, file, plan, proof):
    region, years = data.sets["REGION"][0], data.sets["YEAR"]
    yield ["mps", file]
    yield ["mps", file, "--places", "9"]
    yield ["reduce", file]
    yield ["solve", file, "--show", "proof"]
    yield ["solve", file]
    yield ["solve", file, "--show", "line"]
    yield ["explain", file]
    yield ["warn", file]
    yield ["span", file, region, data.sets["TECHNOLOGY"][0], years[-1]]
    if data.sets["EMISSION"]:
        yield ["curve", file, region, data.sets["EMISSION"][0], "0,5.5,1000"]
    yield ["check", file, plan]
    yield ["check", file, "--proof", proof]
    for name in ("all", "sets", "limits", "prices", "page", "CapitalCost", "TotalAnnualMaxCapacity", "NewCapacity"):
        yield ["table", file, proof, name]
    yield ["page", file, proof]


def differs(told, wanted, rounded):
    (code, text), (code2, text2) = told, wanted
    if text.startswith("<!DOCTYPE"):
        text, text2 = without_title(text), without_title(text2)
    counted = re.search(r"^rounded (\d+)$", text, flags=re.M)
    if counted and int(counted[1]) != rounded:
        return True
    if "warnings " in text:
        text, text2 = (re.sub(r"^warnings \d+$", "", part, flags=re.M) for part in (text, text2))
    return code != code2 or with_rounded(text, 0) != with_rounded(text2, 0)


def tried(program, base, draw, folder):
    """Which commands differ for one file of changes."""
    first = f"{TOP}/examples/country.dat" if base == "country" else f"{MODELS}/{base}.dat"
    data = Data(first)
    records = [a_record(data, draw) for _ in range(draw.randint(1, 4))]
    header = ["NAME", *[c for c in COLUMNS if any(r[c] for r in records)], "CHANGE", "VALUE"]
    draw.shuffle(header)
    changes, second, plan, proof = (f"{folder}/{name}" for name in ("changes.csv", "second.dat", "plan.csv", "proof.csv"))
    with open(changes, "w", newline="", encoding="latin-1") as file:
        csv.writer(file).writerows([header, *[[r[c] for c in header] for r in records]])
    fault = changed(data, header, [[r[c] for c in header] for r in records])
    if fault:
        told = run(program, "solve", first, "--with", changes)
        return [] if told == (4, fault) else [f"{told} in the place of {fault}"]
    write(data, second)
    for path, shown in ((plan, "plan"), (proof, "proof")):
        with open(path, "w", encoding="latin-1") as file:
            file.write(run(program, "solve", second, "--show", shown)[1])
    wrong = []
    for words in commands(data, first, plan, proof):
        wanted = run(program, *[second if word == first else word for word in words])
        if differs(run(program, *words, "--with", changes), wanted, data.rounded):
            wrong.append(" ".join(words[:1] + words[3:]))
    told = run(program, "compare", first, proof, first, proof, "--with", changes, "--with2", changes)
    if told != run(program, "compare", second, proof, second, proof):
        wrong.append("compare")
    return wrong


def main():
    program, count = os.path.abspath(sys.argv[1]), int(sys.argv[2]) if len(sys.argv) > 2 else 200
    seed = int(sys.argv[3]) if len(sys.argv) > 3 else 1
    bases = [base for base in BASES if base == "country" or os.path.exists(f"{MODELS}/{base}.dat")]
    wrong = 0
    with tempfile.TemporaryDirectory() as folder:
        for number in range(count):
            draw = random.Random(1000 * seed + number)
            base = bases[number % len(bases)] if number % 20 else "country"
            for what in tried(program, base, draw, folder):
                print(f"{number} {base}: {what}")
                wrong += 1
    print(f"{count} tried, {wrong} wrong")
    sys.exit(wrong > 0)


if __name__ == "__main__":
    main()

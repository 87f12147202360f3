#!/usr/bin/env python3
"""Makes a folder of CSV files of a data file, a file for each set and parameter, as otoole writes them: csv_folder.py FILE FOLDER [wide]

With `wide` parameters by year have a column for each year, fields are parted by semicolons, and long names are cut, as when each sheet of
a workbook of otoole is saved by a spreadsheet. What holds by default is written out where the default isn't otoole's."""
import csv
import itertools
import os
import sys
from fractions import Fraction

from data_files import USED, WHERE_STATED, Data

CUT = {
    "TotalTechnologyAnnualActivityUpperLimit": "TotalTechnologyAnnualActivityUp",
    "TotalTechnologyAnnualActivityLowerLimit": "TotalTechnologyAnnualActivityLo",
    "TotalTechnologyModelPeriodActivityUpperLimit": "TotalTechnologyModelPeriodActUp",
    "TotalTechnologyModelPeriodActivityLowerLimit": "TotalTechnologyModelPeriodActLo",
}
STORING = dict.fromkeys(["TechnologyToStorage", "TechnologyFromStorage"], ["REGION", "TECHNOLOGY", "STORAGE", "MODE_OF_OPERATION"])
USUAL = dict.fromkeys(USED, 0) | dict.fromkeys(["CapacityToActivityUnit", "CapacityFactor", "AvailabilityFactor", "OperationalLife"], 1)
USUAL |= {it: -1 for it in USED if "Max" in it or "Upper" in it or it.endswith("EmissionLimit")}
USUAL |= {"DiscountRate": Fraction(5, 100), "DepreciationMethod": 1}


def decimal(value):
    """A fraction of whole billionths as a decimal."""
    whole = int(abs(value) * 10**9)
    text = f"{whole // 10**9}.{whole % 10**9:09}".rstrip("0").rstrip(".")
    return "-" * (value < 0) + text


def columns(name, of):
    return ["REGION", "_REGION"] + of[2:] if name == "TradeRoute" else of


def wide_records(records, years):
    """The header and the records with the years as columns."""
    rows = {}
    for *members, year, value in records[1:]:
        rows.setdefault(tuple(members), {})[year] = value
    return [records[0][:-2] + years] + [[*members, *(row.get(year, "") for year in years)] for members, row in rows.items()]


def given(data, name, is_sparse):
    """The indices of a parameter with the values that a folder has to have."""
    if not is_sparse and data.sets_of(name) and name in data.defaults and data.defaults[name] != USUAL.get(name):
        indices = itertools.product(*(data.sets[it] for it in data.sets_of(name)))
        return [(index, data.of(name, *index)) for index in indices]
    return [(index, value) for (of, index), value in data.values.items() if of == name]


def write_folder(data, folder, is_wide=False, is_sparse=False):
    """`is_sparse`: without what holds by default, whatever the default is."""
    os.makedirs(folder, exist_ok=True)

    def write(name, records):
        with open(f"{folder}/{name}.csv", "w", encoding="ascii", newline="") as file:
            csv.writer(file, delimiter=";" if is_wide else ",").writerows(records)

    for name, members in data.sets.items():
        write(name, [["VALUE"]] + [[it] for it in members])
    for name, of in [*USED.items(), *WHERE_STATED.items(), *STORING.items()]:
        records = [columns(name, of) + ["VALUE"]] + [[*index, decimal(value)] for index, value in given(data, name, is_sparse)]
        if is_wide and of[-1] == "YEAR":
            records = wide_records(records, data.sets["YEAR"])
        write(CUT.get(name, name) if is_wide else name, records)


if __name__ == "__main__":
    write_folder(Data(sys.argv[1]), sys.argv[2], sys.argv[3:] == ["wide"])

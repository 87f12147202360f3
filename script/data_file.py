#!/usr/bin/env python3
"""Makes a data file of a folder of CSV files: data_file.py FOLDER OUT [DEFAULTS]

FOLDER holds a file for each set and each parameter, called by its name, as otoole writes them or a spreadsheet saves its sheets: of a set
the column VALUE; of a parameter the columns of its sets and VALUE, or in the place of YEAR and VALUE a column for each year. The second
region of TradeRoute may be called `_REGION`, `REGION2`, `REGION.1` or `REGION`. Fields are parted by commas, or by semicolons.

Where the folder gives no value the default holds: of DEFAULTS, a CSV file with the columns NAME and VALUE, else of otoole's own
configuration. It is said on standard error where a rate, a life or a method comes from the latter. DiscountRateIdv is written where there
is a value of it, and has no default but that of DEFAULTS.

What is wrong is told on standard error, a line each, and then nothing is written. The status is 4 then, 5 for words that ask for nothing,
6 for a file that can't be read, 7 for one that can't be written. Of storages there are written the members, which `osemosys` refuses, and
which technologies charge and discharge, which its `warn` tells."""

import csv
import decimal
import io
import os
import re
import sys

REFUSED, WORDS, NO_FILE, NO_WRITE = 4, 5, 6, 7
MOST_TOLD = 20

R, T, F, E, M, L, Y, S = "REGION", "TECHNOLOGY", "FUEL", "EMISSION", "MODE_OF_OPERATION", "TIMESLICE", "YEAR", "STORAGE"
NEEDED = [R, T, F, M, L, Y]
SETS = [R, T, F, E, M, L, Y, S, "SEASON", "DAYTYPE", "DAILYTIMEBRACKET"]
REGION_AGAIN = [R, "_REGION", "REGION2", "REGION.1"]

# the parameters with the sets of their subscripts and otoole's defaults
PARAMETERS = {
    "YearSplit": ([L, Y], "0"),
    "DiscountRate": ([R], "0.05"),
    "DepreciationMethod": ([R], "1"),
    "TradeRoute": ([R, R, F, Y], "0"),
    "SpecifiedAnnualDemand": ([R, F, Y], "0"),
    "SpecifiedDemandProfile": ([R, F, L, Y], "0"),
    "AccumulatedAnnualDemand": ([R, F, Y], "0"),
    "CapacityToActivityUnit": ([R, T], "1"),
    "CapacityFactor": ([R, T, L, Y], "1"),
    "AvailabilityFactor": ([R, T, Y], "1"),
    "OperationalLife": ([R, T], "1"),
    "ResidualCapacity": ([R, T, Y], "0"),
    "InputActivityRatio": ([R, T, F, M, Y], "0"),
    "OutputActivityRatio": ([R, T, F, M, Y], "0"),
    "CapitalCost": ([R, T, Y], "0"),
    "VariableCost": ([R, T, M, Y], "0"),
    "FixedCost": ([R, T, Y], "0"),
    "CapacityOfOneTechnologyUnit": ([R, T, Y], "0"),
    "TotalAnnualMaxCapacity": ([R, T, Y], "-1"),
    "TotalAnnualMinCapacity": ([R, T, Y], "0"),
    "TotalAnnualMaxCapacityInvestment": ([R, T, Y], "-1"),
    "TotalAnnualMinCapacityInvestment": ([R, T, Y], "0"),
    "TotalTechnologyAnnualActivityUpperLimit": ([R, T, Y], "-1"),
    "TotalTechnologyAnnualActivityLowerLimit": ([R, T, Y], "0"),
    "TotalTechnologyModelPeriodActivityUpperLimit": ([R, T], "-1"),
    "TotalTechnologyModelPeriodActivityLowerLimit": ([R, T], "0"),
    "ReserveMarginTagTechnology": ([R, T, Y], "0"),
    "ReserveMarginTagFuel": ([R, F, Y], "0"),
    "ReserveMargin": ([R, Y], "0"),
    "RETagTechnology": ([R, T, Y], "0"),
    "RETagFuel": ([R, F, Y], "0"),
    "REMinProductionTarget": ([R, Y], "0"),
    "EmissionActivityRatio": ([R, T, E, M, Y], "0"),
    "EmissionsPenalty": ([R, E, Y], "0"),
    "AnnualExogenousEmission": ([R, E, Y], "0"),
    "AnnualEmissionLimit": ([R, E, Y], "-1"),
    "ModelPeriodExogenousEmission": ([R, E], "0"),
    "ModelPeriodEmissionLimit": ([R, E], "-1"),
    "DiscountRateIdv": ([R, T], None),
    # the equations have no storages: `osemosys warn` tells which technologies charge and discharge
    "TechnologyToStorage": ([R, T, S, M], "0"),
    "TechnologyFromStorage": ([R, T, S, M], "0"),
}
# those that aren't written without a value
WHERE_GIVEN = ["DiscountRateIdv", "TechnologyToStorage", "TechnologyFromStorage"]
# those whose default says something of the model that nobody may have meant
TOLD_DEFAULTS = ["DiscountRate", "DepreciationMethod", "OperationalLife"]
# those that the equations don't use; their files aren't read
PASSED_OVER = """Conversionls Conversionld Conversionlh DaySplit DaysInDayType StorageLevelStart StorageMaxChargeRate
    StorageMaxDischargeRate MinStorageCharge OperationalLifeStorage CapitalCostStorage ResidualStorageCapacity DiscountRateStorage
    _REGION""".split()
# how otoole shortens names for the sheets of a workbook
SHORT = {
    "TotalAnnualMaxCapacityInvestmen": "TotalAnnualMaxCapacityInvestment",
    "TotalAnnualMinCapacityInvestmen": "TotalAnnualMinCapacityInvestment",
    "TotalTechnologyAnnualActivityLo": "TotalTechnologyAnnualActivityLowerLimit",
    "TotalTechnologyAnnualActivityUp": "TotalTechnologyAnnualActivityUpperLimit",
    "TotalTechnologyModelPeriodActLo": "TotalTechnologyModelPeriodActivityLowerLimit",
    "TotalTechnologyModelPeriodActUp": "TotalTechnologyModelPeriodActivityUpperLimit",
}

NUMBER = re.compile(r"[+-]?(\d+\.?\d*|\.\d+)([eE][+-]?\d+)?", re.A)
BARE = re.compile(r"[A-Za-z0-9+\-._]+")
KEYWORDS = ["data", "end", "set", "param", "default", "tr", "."]

faults = []


def fault(place, what):
    faults.append(f"{place}: {what}")


def stop(status, what):
    print(f"data_file.py: {what}", file=sys.stderr)
    sys.exit(status)


def stop_at_faults():
    for line in faults[:MOST_TOLD]:
        print(line, file=sys.stderr)
    if len(faults) > MOST_TOLD:
        print(f"and {len(faults) - MOST_TOLD} more", file=sys.stderr)
    if faults:
        sys.exit(REFUSED)


def records_of(path):
    """The records of a CSV file with the lines that they end on, without blank ones and without blank columns after the header's last."""
    try:
        with open(path, encoding="utf-8-sig", newline="") as file:
            text = file.read()
    except OSError as error:
        stop(NO_FILE, f"{path} can't be read: {error.strerror}")
    except UnicodeDecodeError:
        stop(REFUSED, f"{path}: it isn't in UTF-8; save it so")
    header = text.partition("\n")[0]
    reader = csv.reader(io.StringIO(text, newline=""), delimiter=";" if ";" in header and "," not in header else ",", strict=True)
    found = []
    try:
        for fields in reader:
            fields = [it.strip() for it in fields]
            while fields and not fields[-1] and (not found or len(fields) > len(found[0][1])):
                fields.pop()
            if any(fields):
                found.append((reader.line_num, fields))
    except csv.Error as error:
        fault(f"{path}:{reader.line_num}", f"it is no CSV: {error}")
    return found


def number(place, text):
    """The text, where the program reads it as a number: digits with a point, and an exponent, of at most 10^15."""
    what = f"'{text}' is no number"
    if NUMBER.fullmatch(text):
        try:
            if decimal.Decimal(text).copy_abs() <= 10**15:
                return text
        except decimal.InvalidOperation:
            pass
        what = f"{text} is above 10^15; of an upper limit -1 says that there is none"
    elif NUMBER.fullmatch(text.replace(",", ".", 1)):
        what = f"{text} is no number: decimals have a point, and thousands no mark"
    elif not text:
        what = "there is no number"
    fault(place, what)
    return None


def is_ascii(member):
    return member != "" and all(" " <= letter <= "~" for letter in member)


def read_set(name, path):
    """The members, in the order of the file."""
    records = records_of(path)
    if not records:
        return {}
    line, header = records[0]
    if header.count("VALUE") != 1:
        fault(f"{path}:{line}", f"the column VALUE is missing; the columns are {', '.join(header)}")
        return {}
    at, members = header.index("VALUE"), {}
    for line, fields in records[1:]:
        member = fields[at] if at < len(fields) else ""
        place = f"{path}:{line}"
        if not member:
            fault(place, "there is no member")
        elif member in members:
            fault(place, f"{member} is a member since line {members[member]}")
        elif not is_ascii(member):
            fault(place, f"{member} has other letters than ASCII's, which the program doesn't read")
        elif name == Y and not re.fullmatch(r"[1-9]\d{0,3}", member, re.A):
            fault(place, f"{member} is no year: its digits alone, as 2030")
        members.setdefault(member, line)
    return members


def columns_of(name, place, header, sets):
    """The columns of the sets, in their order, and those of values: each with its year, or with None where it is VALUE. None for a fault."""
    left, found = dict(enumerate(header)), []
    wanted = PARAMETERS[name][0]
    is_wide = "VALUE" not in header and wanted[-1] == Y and any(it in sets[Y] for it in header)
    for order, subscript in enumerate(wanted[:-1] if is_wide else wanted):
        names = REGION_AGAIN if order == 1 and name == "TradeRoute" else [subscript]
        at = next((at for at, it in left.items() if it in names), None)
        if at is None:
            again = " of the second region (_REGION)" if names is REGION_AGAIN else ""
            fault(place, f"the column {subscript}{again} of {name} is missing; the columns are {', '.join(header)}")
            return None
        del left[at]
        found.append(at)
    years = sets[Y] if is_wide else ["VALUE"]
    values = {at: it if is_wide else None for at, it in left.items() if it in years}
    if not values:
        fault(place, f"the column VALUE of {name} is missing; the columns are {', '.join(header)}")
        return None
    others = [it for at, it in left.items() if at not in values or header.index(it) != at]
    if others:
        fault(place, f"the column '{others[0]}' is none of {name}, {'no year of YEAR, ' if is_wide else ''}or stands twice")
        return None
    return found, values


def read_parameter(name, path, sets):
    """The values by their members, in the order of the file, each with its place."""
    records, found = records_of(path), {}
    columns = records and columns_of(name, f"{path}:{records[0][0]}", records[0][1], sets)
    if not columns:
        return found
    subscripts, values = columns
    for line, fields in records[1:]:
        if len(fields) != len(records[0][1]):
            fault(f"{path}:{line}", f"it has {len(fields)} fields, and the first line has {len(records[0][1])}")
            continue
        for at, year in values.items():
            if year is None or fields[at]:
                index = tuple([fields[it] for it in subscripts] + [year] * (year is not None))
                put(name, f"{path}:{line}", index, fields[at], sets, found)
    return found


def put(name, place, index, text, sets, found):
    """Keeps a value with its place."""
    value = number(place, text)
    # (STORAGE may have been emptied, so that the model is taken without its storages)
    unknown = [(it, of) for it, of in zip(index, PARAMETERS[name][0]) if it not in sets[of] and (of != S or not is_ascii(it))]
    for member, of in unknown:
        fault(place, f"'{member}' is no member of {of}")
    if index in found:
        fault(place, f"{name}[{','.join(index)}] has a value already, by {found[index][1]}")
    elif not unknown:
        found[index] = value, place


def read_defaults(path):
    """Defaults that are given, by parameter."""
    records, given = records_of(path), {}
    if not records or records[0][1] != ["NAME", "VALUE"]:
        fault(f"{path}:1", "the columns must be NAME,VALUE")
        return given
    for line, fields in records[1:]:
        place = f"{path}:{line}"
        if len(fields) != 2 or fields[0] not in PARAMETERS or fields[0] in given:
            fault(place, f"'{','.join(fields)}' isn't the name of a parameter that has no default yet, and a number")
        else:
            given[fields[0]] = number(place, fields[1])
    return given


def files_of(folder):
    """The paths by the names of sets and parameters. A file of another name is a fault where it says something."""
    try:
        names = sorted(os.listdir(folder))
    except OSError as error:
        stop(NO_FILE, f"{folder} can't be read: {error.strerror}")
    found = {}
    for file in names:
        name, ending = os.path.splitext(file)
        name = SHORT.get(name, name)
        path = os.path.join(folder, file)
        if ending.lower() != ".csv" or name in PASSED_OVER:
            continue
        if name in found:
            fault(path, f"{found[name]} has the same parameter")
        elif name in SETS or name in PARAMETERS:
            found[name] = path
        elif len(records_of(path)) > 1:
            fault(path, "no set or parameter of this name is part of the model, and the file has values; take it away where that is meant")
    return found


def symbol(member):
    """A member as the data file has it: quoted where it has other characters, is a word of the grammar, or would lose leading zeros."""
    if BARE.fullmatch(member) and member not in KEYWORDS and not re.fullmatch(r"0\d+", member, re.A):
        return member
    return "'" + member.replace("'", "''") + "'"


def size_of(name, sets):
    count = 1
    for of in PARAMETERS[name][0]:
        count *= len(sets[of])
    return count


def statement(name, values, default):
    lines = [f"param {name}{f' default {default}' if default is not None else ''} :=\n"]
    lines += [f"{' '.join(map(symbol, index))} {value}\n" for index, (value, _) in values.items()]
    return "".join(lines) + ";\n"


def text_of(folder, given):
    """The data section, and what is said besides."""
    files, notes = files_of(folder), []
    sets = {name: read_set(name, files[name]) if name in files else {} for name in SETS}
    for name in NEEDED:
        if not sets[name] and not faults:
            fault(folder, f"{name}.csv has no member" if name in files else f"there is no {name}.csv")
    stop_at_faults()
    missing = [name for name in PARAMETERS if name not in files and name not in WHERE_GIVEN]
    if missing:
        notes.append(f"there is no file of {', '.join(missing)}, so the defaults hold")
    parts = ["data;\n"] + [f"set {name} :={''.join(' ' + symbol(it) for it in sets[name])} ;\n" for name in SETS]
    for name, (_, usual) in PARAMETERS.items():
        values = read_parameter(name, files[name], sets) if name in files else {}
        default = given.get(name, usual)
        if name in TOLD_DEFAULTS and name not in given and len(values) < size_of(name, sets):
            notes.append(f"{name} is {default} where the folder has no value, as by otoole's own configuration")
        if values or name not in WHERE_GIVEN or name in given:
            parts.append(statement(name, values, default))
        elif name in files and name == "DiscountRateIdv":
            notes.append(f"{name} has no value, so it isn't written, and no investment is spread over its life")
    stop_at_faults()
    return "".join(parts) + "end;\n", notes


def main(words):
    if len(words) not in (2, 3):
        stop(WORDS, "the words are FOLDER OUT [DEFAULTS]")
    given = read_defaults(words[2]) if len(words) == 3 else {}
    text, notes = text_of(words[0], given)
    try:
        with open(words[1], "w", encoding="ascii") as file:
            file.write(text)
    except OSError as error:
        stop(NO_WRITE, f"{words[1]} can't be written: {error.strerror}")
    for note in notes:
        print(f"data_file.py: {note}", file=sys.stderr)


main(sys.argv[1:])

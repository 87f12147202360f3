"""Tries script/data_file.py. Usage: folders.py TOP WORK PROGRAM FILE ..

Of each data file a folder of CSV files is made in three ways, and a data file of that: it must say the same by bench/data_files.py, and
the equations must be the same bytes, as the program writes them and as glpsol does by bench/mps.mod, where it is there. Then a folder as
spreadsheets leave it is read, and folders with a mistake must be refused with its place. Prints what is wrong, and how many files were
compared."""
import itertools
import os
import re
import shutil
import subprocess
import sys

from csv_folder import STORING, decimal, write_folder
from data_files import UNUSED, USED, WHERE_STATED, Data

TOP, WORK, PROGRAM, *FILES = sys.argv[1:]
WRONG = []
COMPARED = []  # the files and by whom
# a file, what is replaced in it, by what, and how the line begins that tells of it: each on the folder of examples/base.dat
MISTAKES = [
    ("CapitalCost.csv", "YEAR,VALUE", "YEARS,VALUE", "data/CapitalCost.csv:1: the column YEAR of CapitalCost is missing"),
    ("CapitalCost.csv", "YEAR,VALUE", "YEAR,COST", "data/CapitalCost.csv:1: the column VALUE of CapitalCost is missing"),
    ("CapitalCost.csv", "YEAR,VALUE", "YEAR,VALUE,NOTE", "data/CapitalCost.csv:1: the column 'NOTE' is none of CapitalCost"),
    ("CapitalCost.csv", "YEAR,VALUE", "YEAR,VALUE,VALUE", "data/CapitalCost.csv:1: the column 'VALUE' is none of CapitalCost, or stands twice"),
    ("CapitalCost.csv", "R,T,2020,5\n", "R,T,2020,5\nR,U,2020,7\n", "data/CapitalCost.csv:3: 'U' is no member of TECHNOLOGY"),
    ("CapitalCost.csv", "R,T,2020,5\n", "R,T,2020,5\n\nR,T,2020,7\n",
     "data/CapitalCost.csv:4: CapitalCost[R,T,2020] has a value already, by data/CapitalCost.csv:2"),
    ("CapitalCost.csv", "R,T,2020,5\n", "R,T,2020\n", "data/CapitalCost.csv:2: it has 3 fields, and the first line has 4"),
    ("CapitalCost.csv", "2020,5\n", "2020,5x\n", "data/CapitalCost.csv:2: '5x' is no number"),
    ("CapitalCost.csv", "2020,5\n", "2020,\n", "data/CapitalCost.csv:2: there is no number"),
    ("CapitalCost.csv", "2020,5\n", "2020,inf\n", "data/CapitalCost.csv:2: 'inf' is no number"),
    ("CapitalCost.csv", "2020,5\n", '2020,"5,5"\n', "data/CapitalCost.csv:2: 5,5 is no number: decimals have a point"),
    ("CapitalCost.csv", "2020,5\n", "2020,1e16\n", "data/CapitalCost.csv:2: 1e16 is above 10^15"),
    ("CapitalCost.csv", "2020,5\n", "2020,1000000000000000.0000000001\n", "data/CapitalCost.csv:2: 1000000000000000.0000000001 is above 10^15"),
    ("CapitalCost.csv", "2020,5\n", "2020,1e99999999999999999999\n", "data/CapitalCost.csv:2: 1e99999999999999999999 is above 10^15"),
    ("CapitalCost.csv", "2020,5\n", '2020,"5\n', "data/CapitalCost.csv:2: it is no CSV"),
    ("CapitalCost.csv", "R,T,2020,5\n", "R;T;2020;5\n", "data/CapitalCost.csv:2: it has 1 fields, and the first line has 4"),
    ("CapitalCost.csv", "YEAR,VALUE", "2020,2021", "data/CapitalCost.csv:1: the column '2021' is none of CapitalCost, no year of YEAR"),
    ("TradeRoute.csv", "REGION,_REGION,", "REGION,", "data/TradeRoute.csv:1: the column REGION of the second region (_REGION) of TradeRoute is missing"),
    ("TECHNOLOGY.csv", "T\n", "T\nT\n", "data/TECHNOLOGY.csv:3: T is a member since line 2"),
    ("TECHNOLOGY.csv", "VALUE", "NAME", "data/TECHNOLOGY.csv:1: the column VALUE is missing; the columns are NAME"),
    ("TECHNOLOGY.csv", "T\n", "T\nSöder\n", "data/TECHNOLOGY.csv:3: Söder has other letters than ASCII's"),
    ("YEAR.csv", "2020\n", "2020.0\n", "data/YEAR.csv:2: 2020.0 is no year"),
    ("YEAR.csv", "2020\n", "", "data: YEAR.csv has no member"),
    ("FUEL.csv", None, None, "data: there is no FUEL.csv"),
    ("CapitalCosts.csv", None, "REGION,VALUE\nR,5\n", "data/CapitalCosts.csv: no set or parameter of this name"),
    ("TotalTechnologyAnnualActivityUp.csv", None, "REGION,VALUE\nR,5\n", "data/TotalTechnologyAnnualActivityUpperLimit.csv: data/"),
]


def wrong(what):
    WRONG.append(what)
    print(what)


def run(*words, **rest):
    return subprocess.run(words, stdout=subprocess.PIPE, stderr=subprocess.PIPE, text=True, **rest)


def data_file(*words):
    return run("python3", "-B", f"{TOP}/script/data_file.py", *words, cwd=WORK)


def differences(before, after):
    """Where two data don't say the same."""
    for name in STORING:
        if [it for it in before.values.items() if it[0][0] == name] != [it for it in after.values.items() if it[0][0] == name]:
            yield name
    for name, members in before.sets.items():
        if members != after.sets[name]:
            yield f"the set {name}"
    for name, of in [*USED.items(), *WHERE_STATED.items()]:
        if name in WHERE_STATED and (name in before.stated) != (name in after.stated):
            yield f"whether {name} is stated"
        for index in itertools.product(*(before.sets[it] for it in of)):
            if before.of(name, *index) != after.of(name, *index):
                yield f"{name}{list(index)}: {before.of(name, *index)} and {after.of(name, *index)}"


def program_rows(file):
    ran = run(PROGRAM, "mps", file)
    return ran.stdout if ran.returncode == 0 else None


def glpsol_rows(file):
    """The rows by GLPK's own reader, without the statements that bench/mps.mod doesn't declare. None where glpsol isn't there."""
    if not shutil.which("glpsol"):
        return None
    with open(file, encoding="ascii") as text:
        kept = re.sub(rf"^param (default \S+ : )?({'|'.join([*UNUSED, *WHERE_STATED])})\b[^;]*;", "", text.read(), flags=re.M)
    with open(f"{WORK}/glpsol.dat", "w", encoding="ascii") as text:
        text.write(kept)
    ran = run("glpsol", "--check", "--math", f"{TOP}/bench/mps.mod", "--data", f"{WORK}/glpsol.dat", "--wlp", f"{WORK}/glpsol.lp")
    if ran.returncode:
        wrong(f"{file}: glpsol doesn't read it: {ran.stdout[-300:]}")
        return None
    with open(f"{WORK}/glpsol.lp", encoding="ascii") as text:
        return text.read()


def try_file(path):
    before = Data(path)
    rows = program_rows(path)
    # glpsol doesn't round to nine places, so its numbers may be others
    rows_again = glpsol_rows(path) if not before.rounded else None
    COMPARED.extend(by for by, found in (("osemosys", rows), ("glpsol", rows_again)) if found is not None)
    for way in ("long", "wide", "table"):
        folder, out = f"{WORK}/{os.path.basename(path)}-{way}", f"{WORK}/{way}.dat"
        write_folder(before, folder, way == "wide", way == "table")
        words = []
        if way == "table":
            words = [f"{WORK}/defaults.csv"]
            with open(words[0], "w", encoding="ascii") as file:
                file.writelines(["NAME,VALUE\n", *(f"{name},{decimal(it)}\n" for name, it in before.defaults.items() if name not in UNUSED)])
        ran = data_file(folder, out, *words)
        if ran.returncode:
            wrong(f"{path}, {way}: status {ran.returncode}, {ran.stderr[:300]}")
            continue
        found = list(differences(before, Data(out)))
        if found:
            wrong(f"{path}, {way}: not the same: {'; '.join(found[:3])}")
        if rows != program_rows(out) or rows_again is not None and rows_again != glpsol_rows(out):
            wrong(f"{path}, {way}: the equations aren't the same")


def try_notes():
    """A folder with blank columns and lines, as spreadsheets leave them, without a file, and with a storage that STORAGE lacks: what is said, and
    that all else is as before."""
    with open(f"{TOP}/examples/base.dat", encoding="ascii") as file:
        text = file.read().replace("end;", "param TechnologyFromStorage default 0 := R T DAM 1 1 ;\nend;")
    with open(f"{WORK}/stored.dat", "w", encoding="ascii") as file:
        file.write(text)
    before = Data(f"{WORK}/stored.dat")
    if not any(name in STORING for name, _ in before.values):
        wrong("notes: the file has no storage")
    write_folder(before, f"{WORK}/notes")
    os.remove(f"{WORK}/notes/ReserveMargin.csv")
    with open(f"{WORK}/notes/CapitalCost.csv", "w", encoding="utf-8") as file:
        file.write("\ufeffREGION,TECHNOLOGY,YEAR,VALUE,,\r\n,,,,,\r\n R ,T,2020,5,,\r\n")
    ran = data_file("notes", "notes.dat")
    said = [line.partition(": ")[2] for line in ran.stderr.splitlines()]
    wanted = [
        "there is no file of ReserveMargin, so the defaults hold",
        "DepreciationMethod is 1 where the folder has no value, as by otoole's own configuration",
        "OperationalLife is 1 where the folder has no value, as by otoole's own configuration",
        "DiscountRateIdv has no value, so it isn't written, and no investment is spread over its life",
    ]
    if ran.returncode or said != wanted:
        wrong(f"notes: status {ran.returncode}, {ran.stderr!r}")
    elif list(differences(before, Data(f"{WORK}/notes.dat"))):
        wrong("notes: not the same data")


def try_mistakes():
    for file, old, new, line in MISTAKES:
        shutil.rmtree(f"{WORK}/data", ignore_errors=True)
        write_folder(Data(f"{TOP}/examples/base.dat"), f"{WORK}/data")
        path = f"{WORK}/data/{file}"
        text = ""
        if os.path.exists(path):
            with open(path, encoding="utf-8", newline="") as before:
                text = before.read().replace("\r\n", "\n")
            os.remove(path)
        if old is not None and text.count(old) != 1:
            wrong(f"{file}: '{old}' doesn't stand in it once")
        if new is not None:
            with open(path, "w", encoding="utf-8") as after:
                after.write(text.replace(old, new) if old else new)
        ran = data_file("data", "mistake.dat")
        is_written = os.path.exists(f"{WORK}/mistake.dat")
        if is_written:
            os.remove(f"{WORK}/mistake.dat")
        if ran.returncode != 4 or not ran.stderr.startswith(line) or is_written:
            wrong(f"{file}, '{new}': status {ran.returncode}, {ran.stderr[:300]!r}")


def main():
    for file in FILES:
        try_file(file)
    try_notes()
    try_mistakes()
    counts = f"the equations of {COMPARED.count('osemosys')} compared by the program, of {COMPARED.count('glpsol')} by glpsol"
    print(f"{len(FILES)} files, {counts}; {len(MISTAKES)} mistakes; {len(WRONG)} wrong")
    return int(bool(WRONG))


sys.exit(main())

"""Tries the advice of the script `osemosys`. Usage: advice.py TOP PROGRAM WORK"""
import subprocess
import sys

import planning

TOP, PROGRAM, WORK = sys.argv[1:]
with open(f"{TOP}/examples/base.dat", encoding="utf-8") as source:
    BASE = source.read()

# What is put in the place of a text of base.dat, or after it; the fault that the program tells; and what the advice has.
FILES = [
    ("MUIO's constraints", "set YEAR", "param UDCTag default 0 :=\n;\nset YEAR", "UnknownName", "take out a statement that has only its default"),
    ("the constraints of user-defined constraints", "set YEAR", "param UDCConstant default 5 :=\n;\nset YEAR", "UnknownName", "MUIO"),
    ("a preprocessed file", "set YEAR", "set MODExTECHNOLOGYperFUELout[F] := T 1 ;\nset YEAR", "UnknownName", "from before that script"),
    ("a second set of regions", "set YEAR", "set _REGION := R ;\nset YEAR", "UnknownName", "REGION serves for both"),
    ("trade by timeslice", "param TradeRoute default 0 :=", "param TradeRoute default 0 :=\nR R D F 2020 1", "Unexpected", "take a timeslice out"),
    ("trade by timeslice, in slices", "param TradeRoute default 0 :=", "param TradeRoute default 0 :=\n[R,R,D,F,*] 2020 1", "WrongSlice", "take a timeslice out"),
    ("a life of 999", "param OperationalLife default 1", "param OperationalLife default 999", "OutOfRange", "a life is from 1 to 200"),
    ("a life of 0", "param OperationalLife default 1", "param OperationalLife default 0", "OutOfRange", "a life is from 1 to 200"),
    ("a life with decimals", "param OperationalLife default 1", "param OperationalLife default 1.5", "NotWhole", "whole years"),
    ("no limit as 1e20", "param TotalAnnualMaxCapacity default -1", "param TotalAnnualMaxCapacity default 1e20", "BadNumber", "-1 says that there is none"),
    ("no limit as inf", "param TotalAnnualMaxCapacity default -1", "param TotalAnnualMaxCapacity default inf", "BadNumber", "-1 says that there is none"),
    ("no limit as -2", "param TotalAnnualMaxCapacity default -1", "param TotalAnnualMaxCapacity default -2", "OutOfRange", "-1 says that there is no limit"),
    ("a decimal comma", "param CapitalCost default 5 :=", "param CapitalCost default 5 :=\nR T 2020 0,5", "UnknownMember|EndTooSoon|Unexpected", "decimals have a point"),
    ("a decimal comma in a table", "param CapitalCost default 5 :=", "param CapitalCost default 5 :=\n[R,*,*]: 2020 :=\nT 0,5", "RowTooShort", "decimals have a point"),
    ("UTF-16", None, None, "BadByte", "save it as UTF-8 or ASCII"),
    ("a byte order mark", "", "\ufeff", "BadByte", "byte order mark"),
    ("a path without quotes", "set YEAR", "param ResultsPath := ./res ;\nset YEAR", "BadByte", "put a path between quotes"),
    ("a letter with an accent", "set FUEL := F", "set FUEL := F \u00e9", "BadByte", "spelled without them"),
    ("a model section", "set YEAR", "param X{r in REGION};\nset YEAR", "UnknownName|BadByte", "names are those of the tables|data section alone"),
    ("an equals sign alone", "set FUEL := F", "set FUEL = F", "BadByte", "write :="),
    ("a model's sense", "set YEAR", "set YEAR >= 0;\nset YEAR", "BadByte", "data section alone"),
    ("no capacity factor", "param CapacityFactor default 1", "param CapacityFactor", "NoValue", "default 1"),
    ("no availability", "param AvailabilityFactor default 1", "param AvailabilityFactor", "NoValue", "default 1"),
    ("no unit of activity", "param CapacityToActivityUnit default 1", "param CapacityToActivityUnit", "NoValue", "default 1"),
    ("no ratio", "param InputActivityRatio default 0", "param InputActivityRatio", "NoValue", "default 0"),
    ("no greatest capacity", "param TotalAnnualMaxCapacity default -1", "param TotalAnnualMaxCapacity", "NoValue", "default -1"),
    ("no limit on emissions", "set EMISSION :=", "set EMISSION := CO2", None, ""),
    ("no life", "param OperationalLife default 1", "param OperationalLife", "NoValue", "its life in years"),
    ("no rate", "param DiscountRate default 0", "param DiscountRate", "NoValue", "0.05 for 5 per cent"),
    ("a rate in per cent", "param DiscountRate default 0", "param DiscountRate default 5", "OutOfRange", "5 per cent is 0.05"),
    ("no fixed cost", "param FixedCost default 1", "param FixedCost", "NoValue", "1 for factors"),
    ("no parts of the year", "param YearSplit default 1", "param YearSplit", "NoValue", "sum to 1"),
    ("storage", "set STORAGE :=", "set STORAGE := DAM", "Storage", "the technologies that charge and discharge"),
    ("whole units", "param CapacityOfOneTechnologyUnit default 0", "param CapacityOfOneTechnologyUnit default 1", "WholeUnits", "set it to 0"),
    ("a misspelled member", "param CapitalCost default 5 :=", "param CapitalCost default 5 :=\nR U 2020 5", "UnknownMember", "mend the name"),
    ("a missing semicolon", "set YEAR := 2020 ;", "set YEAR := 2020", "BadYear", "lacks its ;"),
]


def run(*words):
    ran = subprocess.run([f"{TOP}/osemosys", *words], cwd=WORK, stdin=subprocess.DEVNULL, stdout=subprocess.PIPE, stderr=subprocess.PIPE)
    exact = subprocess.run([PROGRAM, *words], cwd=WORK, stdin=subprocess.DEVNULL, stdout=subprocess.PIPE)
    told = ran.stderr.decode("utf-8", "replace")
    faults = [] if (ran.returncode, ran.stdout) == (exact.returncode, exact.stdout) else ["status or standard output differ from the program's"]
    if f"{TOP}/osemosys: line" in told or f"{TOP}/script/" in told:
        faults.append(f"a fault of the script: {told!r}")
    return ran.returncode, ran.stdout.decode("utf-8", "replace"), told, faults


def try_file(what, old, new, fault, wanted):
    if old is not None and (old and old not in BASE):
        return [f"base.dat has no {old!r}"]
    text = BASE.encode("utf-16") if old is None else (new + BASE if old == "" else BASE.replace(old, new, 1)).encode()
    with open(f"{WORK}/model.dat", "wb") as file:
        file.write(text)
    status, line, told, faults = run("warn", "model.dat")
    if fault is None:
        return faults + ([] if status == 0 and told == "" else [f"{line!r} {told!r}"])
    if not any(it in line for it in fault.split("|")):
        faults.append(f"the program says {line!r}")
    if not any(it in told for it in wanted.split("|")):
        faults.append(f"the advice is {told!r}")
    words = line.split()
    if words[1] == "line":
        row, column = int(words[2]), int(words[4])
        shown = told.splitlines()
        begin = f"model.dat:{row}: "
        caret = next((at for at, it in enumerate(shown) if it.strip() == "^"), None)
        if caret is None or not shown[caret - 1].startswith(begin) or shown[caret].index("^") != len(begin) + column - 1 - max(0, column - 60):
            faults.append(f"the place is shown as {shown[:2]}")
    return faults


def try_answers():
    """What is said of answers that give no plan."""
    real = f"{WORK}/real.dat"
    with open(real, "w", encoding="utf-8") as file:
        file.write(planning.model(1, **planning.CASES["five digits"]))
    base, none = f"{TOP}/examples/base.dat", f"{TOP}/examples/no-plan.dat"
    with open(f"{WORK}/proof.csv", "wb") as file:
        file.write(subprocess.run([PROGRAM, "solve", real, "--method", "rounded", "--show", "proof"], stdout=subprocess.PIPE).stdout)
    tried = [
        (("solve", real), 3, "ask again with '--method rounded'"),
        (("solve", real, "--method=rounded", "--pivots", "0"), 3, "'--pivots 1000000'"),
        (("solve", none), 1, f"'./osemosys explain {none}'"),
        (("solve", none, "--method", "rounded"), 1, "--method rounded' tells"),
        (("solve", base, "x"), 5, "help COMMAND"),
        (("solve", base), 0, ""),
        (("page", real, "proof.csv"), 0, ""),
        (("page", real, "proof.csv", "--gap", "0"), 9, "--gap 10"),
        (("table", real, "proof.csv", "Nothing"), 4, "help table"),
        (("check", base, real), 4, "ten fields"),
        (("curve", base, "NOWHERE", "CO2", "4"), 4, "write the member as the data file names it"),
        (("compare", real, "proof.csv", "model.dat", "proof.csv"), 4, "model.dat:"),
        (("nothing",), 5, "help COMMAND"),
        ((), 5, "help COMMAND"),
        (("",), 5, "help COMMAND"),
        (("make", "3", "--show", "summary"), 0, ""),
    ]
    with open(f"{WORK}/model.dat", "w", encoding="utf-8") as file:
        file.write("set YEAR @ ;\n")
    for words, status, wanted in tried:
        ended, line, told, faults = run(*words)
        if ended != status or (wanted not in told if wanted else told):
            faults.append(f"status {ended}, it prints {line[:80]!r} and tells {told!r}")
        yield f"the words {words}", faults


def main():
    wrong = 0
    for what, faults in [(case[0], try_file(*case)) for case in FILES] + list(try_answers()):
        wrong += bool(faults)
        if faults:
            print(f"{what}: {'; '.join(faults)}")
    print(f"{len(FILES)} files, {wrong} wrong")
    return int(wrong > 0)


sys.exit(main())

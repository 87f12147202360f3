"""Tries verify/verify.py. Usage: verify_proofs.py TOP PROGRAM WORK [FILE ..]"""
import csv
import os
import shutil
import subprocess
import sys
from fractions import Fraction

import planning

TOP, PROGRAM, WORK, *FILES = sys.argv[1:]
MADE = ["trade", "trade with losses", "fixed activities", "equal limits", "all renewable", "half renewable, emission limit", "reserve", "five digits",
        "ten years", "emission penalty", "straight line depreciation", "no discounting", "no plan"]
TINY = Fraction(1, 10**9)


def run(*words, **options):
    return subprocess.run(words, cwd=WORK, stdin=subprocess.DEVNULL, stdout=subprocess.PIPE, stderr=subprocess.STDOUT, text=True, **options)


def write(name, text):
    with open(f"{WORK}/{name}", "w", encoding="utf-8") as file:
        file.write(text)
    return f"{WORK}/{name}"


def text_of(path):
    with open(path, encoding="utf-8") as file:
        return file.read()


def verified(text, proof):
    """The beginning of what verify.py prints; it prints a line, whatever it is given."""
    ran = run(sys.executable, f"{TOP}/verify/verify.py", text, proof)
    lines = ran.stdout.splitlines()
    if len(lines) == 1 and ran.returncode == (0 if lines[0].startswith("verified: ") else 1):
        return lines[0]
    return f"a fault: {ran.stdout[-300:]}"


def prepared(name, file):
    """The text and the proof of a data file."""
    write(f"{name}.mps", run(PROGRAM, "mps", file).stdout)
    write(f"{name}.csv", run(PROGRAM, "solve", file, "--method", "rounded", "--pivots", "1000000", "--show", "proof").stdout)
    return f"{name}.mps", f"{name}.csv"


def try_models(files):
    wrong = peers = 0
    for name, file in files.items():
        text, proof = prepared(name, file)
        told = [verified(text, proof)]
        command = ["glpsol", "--check", "--math", f"{TOP}/bench/mps.mod", "--data", file, "--wglp", f"{name}.glp"]
        if shutil.which("glpsol") and run(*command).returncode == 0:
            peers += 1
            told.append(verified(f"{name}.glp", proof))
        if len(set(told)) > 1 or not told[0].startswith("verified: "):
            wrong += 1
            print(f"{name}: {told}")
    print(f"{len(files)} models, {peers} of them by glpsol's text too")
    return wrong


def changed(records, begin, change, which=0):
    """The records with a change of the one of this number of those that begin so and aren't 0."""
    found = [at for at, record in enumerate(records) if record[0].startswith(begin) and Fraction(record[9] if at else "0") != 0]
    copy = [list(record) for record in records]
    change(copy, found[which])
    return copy


def add(number):
    def change(records, at):
        records[at][9] = str(Fraction(records[at][9]) + number)

    return change


def times(number):
    def change(records, at):
        records[at][9] = str(Fraction(records[at][9]) * number)

    return change


def drop(records, at):
    del records[at]


def double(records, at):
    records.append(records[at])


def rename(records, at):
    records[at][8] = "1999"


def exchange(records, at):
    records[at][9], records[at + 1][9] = records[at + 1][9], str(Fraction(records[at][9]) + 1)


def all_times(number, is_meant):
    def spoil(records):
        return [it if at == 0 or not is_meant(it[0]) else [*it[:9], str(Fraction(it[9]) * number)] for at, it in enumerate(records)]

    return spoil


def is_multiplier(name):
    return not name.removeprefix("Direction.").isalpha()


def is_direction(name):
    return name.startswith("Direction.")


def one(begin, change, which=0):
    return lambda records: changed(records, begin, change, which)


def header(records):
    return [["NAME"] * 10, *records[1:]]


def header_alone(records):
    return records[:1]


def no_number(records):
    return [*records[:1], [*records[1][:9], "ten"], *records[2:]]


SPOILED = {
    "country": [
        one("NewCapacity", add(TINY)), one("NewCapacity", add(-TINY), 3), one("NewCapacity", exchange), one("TotalDiscountedCost", add(-1)),
        one("RateOfActivity", times(-1)), one("RateOfActivity", drop), one("RateOfActivity", double),
        one("TotalCapacityAnnual", rename), one("EBa11", rename), one("EBa11", times(-1)), one("EBa11", add(1)), one("CAa2", add(TINY)),
        one("CC2", drop), one("OC4", double), header, no_number, all_times(2, str.isalpha), all_times(2, is_multiplier),
    ],
    "no-plan": [header_alone, all_times(-1, is_multiplier), all_times(0, is_multiplier), one("EBa11", drop), one("CAa4", add(TINY)), one("TCC1", rename),
                one("TCC1", double)],
    "endless": [one("Direction.RateOfActivity", times(-1)), one("Direction.RateOfActivity", add(TINY)), one("Direction.TotalDiscountedCost", drop),
                one("Direction.RateOfActivity", rename), all_times(0, is_direction),
                all_times(-1, is_direction), one("RateOfActivity", drop), one("NewCapacity", add(TINY))],
}


def try_spoiled(files):
    """Each is refused by verify.py, and by the program too, whatever the gap."""
    count = wrong = 0
    for name, spoils in SPOILED.items():
        text, proof = prepared(name, files[name])
        with open(f"{WORK}/{proof}", newline="", encoding="utf-8") as file:
            records = list(csv.reader(file))
        for at, spoil in enumerate(spoils):
            count += 1
            with open(f"{WORK}/spoiled.csv", "w", newline="", encoding="utf-8") as file:
                csv.writer(file).writerows(spoil(records))
            told = verified(text, "spoiled.csv")
            said = run(PROGRAM, "check", files[name], "--proof", "spoiled.csv", "--gap", "1000000").stdout
            if not told.startswith("not verified: ") or said.startswith("accepted"):
                wrong += 1
                print(f"{name}, spoiled proof {at}: {told}; {said}")
    print(f"{count} spoiled proofs")
    return wrong


def main():
    examples = {it: f"{TOP}/examples/{it}.dat" for it in ("base", "first", "country", "no-plan")}
    endless = text_of(examples["base"]).replace("param VariableCost default 2", "param VariableCost default -20")
    examples["endless"] = write("endless.dat", endless)
    named = {f"{at}-{os.path.basename(it)}": os.path.abspath(it) for at, it in enumerate(FILES)}
    made = {it.replace(" ", "-"): write(f"{it.replace(' ', '-')}.dat", planning.model(1, **planning.CASES[it])) for it in MADE}
    wrong = try_models(named or {**examples, **made}) + try_spoiled(examples)
    print(f"{wrong} wrong")
    return int(wrong > 0)


sys.exit(main())

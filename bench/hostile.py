"""Gives `osemosys` hostile texts of 16 and of 64 MiB as each of its files, and random words and texts, and prints what comes of them."""

import os
import random
import resource
import subprocess
import sys
import time

from choosing import chosen
from reading import MIB, TEXTS, filled

SIZES = (16 * MIB, 64 * MIB)
SECONDS = 120  # in which a text of 64 MiB must be answered
SMALL_SECONDS = 10  # and a small one
STATUSES = range(10)
HEADER = b"NAME,REGION,REGION2,TIMESLICE,TECHNOLOGY,FUEL,EMISSION,MODE,YEAR,VALUE\n"
RECORD = b"NewCapacity,R,,,T,,,,2020,10\n"

# Files of plans, multipliers and proofs: what follows the header, over and over.
TABLES = {
    "commas": b",",
    "quotes": b'"',
    "doubled quotes": b'""',
    "line feeds": b"\n",
    "one field": b"a",
    "records of nothing": b",,,,,,,,,\n",
    "quoted records": b'"","","","","","","","","",""\n',
    "one record": RECORD,
    "digits": b"9",
    "no header": None,
    "bytes above 127": b"\xff",
}

# Answers of other solvers to begin from: how they begin, and what follows over and over.
CLP, GLPSOL, HIGHS = b"Optimal - objective value 80\n", b"s bas 1 1 f f 0\n", b"Model status\nOptimal\n\n# Primal solution values\nFeasible\nObjective 80\n# Columns 1\n"
ANSWERS = {
    "Clp, one column": (CLP, b"      0 C1 10 0\n"),
    "Clp, spaces": (CLP, b" "),
    "Clp, a long name": (CLP + b"      0 ", b"C"),
    "Clp, digits": (CLP + b"      0 C1 ", b"9"),
    "glpsol, one column": (GLPSOL, b"j 1 b 10 0\n"),
    "glpsol, remarks": (b"", b"c\n"),
    "HiGHS, one column": (HIGHS, b"C1 10\n"),
    "line feeds": (b"", b"\n"),
    "zero bytes": (b"", b"\x00"),
    "records of a plan": (HEADER, RECORD),
}


def measured(words, limit):
    """The exit status, what was written, what stands on standard error, the processor time in seconds and the most memory in bytes;
    the status is `None` where the time ran out."""

    def limited():
        resource.setrlimit(resource.RLIMIT_CPU, (limit, limit + 1))

    process = subprocess.Popen(words, stdin=subprocess.DEVNULL, stdout=subprocess.PIPE, stderr=subprocess.PIPE, preexec_fn=limited)
    out = process.stdout.read()
    err = process.stderr.read()
    _, status, usage = os.wait4(process.pid, 0)
    code = os.waitstatus_to_exitcode(status)
    took = usage.ru_utime + usage.ru_stime
    process.stdout.close()
    process.stderr.close()
    return (None if code < 0 and took >= limit else code), out, err, took, usage.ru_maxrss * 1024


def fault(status, out, err):
    """What is wrong with an answer, or nothing: one of the ten statuses, nothing on standard error, and one line where it isn't 0 to 2, to
    which `compare` says before it which files it is about."""
    if out.startswith((b"files 1 2\n", b"files 3 4\n")):
        out = out.split(b"\n", 1)[1]
    if status is None:
        return "took too long"
    if status not in STATUSES:
        return f"ended with {status}"
    if err:
        return "wrote to standard error"
    if status >= 3 and (out.count(b"\n") > 1 or (out and not out.endswith(b"\n"))):
        return "was refused with more than a line"
    return None


def table(name, size):
    piece = TABLES[name]
    return filled(RECORD, size) if piece is None else HEADER + filled(piece, size - len(HEADER))


def answer(name, size):
    head, piece = ANSWERS[name]
    return head + filled(piece, size - len(head))


def write(path, kind, name, size):
    """The text as a file. It isn't kept, since what this program holds counts as the other's memory until that begins."""
    with open(path, "wb") as file:
        if kind == "data":
            file.write(TEXTS[name]()[:size])
        else:
            file.write(answer(name, size) if kind == "answer" else table(name, size))


def texts(names, program, examples, work):
    path = work + "/text"
    base, plan = examples + "/base.dat", examples + "/base-plan.csv"
    commands = [("data", f"data: {name}", ["mps", path]) for name in TEXTS]
    commands += [("plan", f"plan: {name}", ["check", base, path]) for name in TABLES]
    commands += [("multipliers", f"multipliers: {name}", ["check", base, plan, path]) for name in TABLES]
    commands += [("proof", f"proof: {name}", ["check", base, "--proof", path]) for name in TABLES]
    commands += [("answer", f"answer: {name}", ["solve", base, "--method", "rounded", "--start", path]) for name in ANSWERS]
    print(f"{'text':46} {'16 MiB':>8} {'64 MiB':>8} {'memory':>9} {'memory':>9}  status and answer")
    for kind, name, words in commands:
        if name not in names:
            continue
        answers = []
        for size in SIZES:
            write(path, kind, name.split(": ", 1)[1], size)
            answers.append(measured([program, *words], SECONDS))
        (_, _, _, first, less), (status, out, err, second, more) = answers
        wrong = next((found for found in (fault(*answer[:3]) for answer in answers) if found), None)
        line = out.split(b"\n")[0][:60].decode("latin1")
        print(f"{name:46} {first:7.2f}s {second:7.2f}s {less / MIB:5.0f} MiB {more / MIB:5.0f} MiB  {status} {line}{'  WRONG: ' + wrong if wrong else ''}", flush=True)
    if os.path.exists(path):
        os.remove(path)


WORDS = ["mps", "check", "solve", "make", "explain", "curve", "span", "table", "page", "compare", "warn", "reduce", "conflict", "all", "prices", "limits", "R", "T", "2020",
         "rounded", "exact", "--exact", "--slack", "--start", "--proof", "--show", "--pivots", "--places", "--gap", "--", "-", "--help", "-h", "--version",
         "--method", "plan", "multipliers", "report", "0", "1", "3", "6", "9", "20000", "1000001", "-1", "1e3", "99999999999999999999", "--show=plan", "--pivots=1",
         "", " ", "\u00e9", "*", "a" * 300, "--" + "x" * 50, "BASE", "PLAN", "MULT", "PROOF", "ANSWER", "TEXT", "missing", "/", "."]
PIECES = [b"set ", b"param ", b"default ", b":=", b":", b";", b",", b"(tr)", b"[", b"]", b"*", b"'", b'"', b"#", b"/*", b"*/", b"\n", b"\r\n", b"\t", b" ", b"data;", b"end;",
          b"REGION", b"YEAR", b"TECHNOLOGY", b"R", b"T", b"2020", b"2021", b"1", b"-1", b"0.5", b"1e3", b"1e-99", b"999999999999999.999999999", b"9" * 40, b"1/3",
          b"NewCapacity", b"YearSplit", b"CapitalCost", b"OutputActivityRatio", b"\x00", b"\xff", b"\xef\xbb\xbf", b"NAME", b",,,,,,,,,"]


def changed(dice, text):
    """The text with some of its bytes taken out, put in, doubled or cut off."""
    text = bytearray(text)
    for _ in range(dice.choice([1, 1, 1, 2, 3, 8])):
        at = dice.randrange(len(text) + 1)
        what = dice.randrange(6)
        if what == 0:
            del text[at : at + dice.choice([1, 1, 5, 40])]
        elif what == 1:
            text[at:at] = dice.choice(PIECES)
        elif what == 2:
            text[at : at + 1] = bytes([dice.randrange(256)])
        elif what == 3:
            text[at:at] = text[at : at + dice.choice([1, 10, 100])]
        elif what == 4 and dice.random() < 0.3:
            del text[at:]
        else:
            numbers = [place for place in range(len(text)) if text[place : place + 1].isdigit()]
            if numbers:
                place = dice.choice(numbers)
                text[place : place + 1] = dice.choice([b"0", b"7", b"10", b"0.3", b"123456789", b"1000000000000", b"-2", b"0.000000001"])
    return bytes(text)


def random_text(dice, sound):
    """Pieces at random, or a sound text changed."""
    if dice.random() < 0.2:
        return b"".join(dice.choice(PIECES) + dice.choice([b"", b" "]) for _ in range(dice.randrange(40)))
    return changed(dice, sound)


# What is asked of a text of each kind.
CALLS = {
    "BASE": [
        ["mps", "TEXT"], ["solve", "TEXT"], ["solve", "TEXT", "--show", "plan"], ["check", "TEXT", "PLAN"], ["check", "TEXT", "PLAN", "MULT"],
        ["solve", "TEXT", "--method", "rounded"], ["explain", "TEXT"], ["explain", "TEXT", "--method", "rounded"], ["reduce", "TEXT"], ["warn", "TEXT"],
        ["span", "TEXT", "R", "T", "2020", "--slack", "1000"], ["span", "TEXT", "R", "T", "2020", "--method", "rounded"], ["curve", "TEXT", "R", "CO2", "1,2"],
        ["check", "TEXT", "--proof", "PROOF"], ["table", "TEXT", "PROOF", "all"], ["page", "TEXT", "PROOF"], ["compare", "BASE", "PROOF", "TEXT", "PROOF"],
        ["compare", "TEXT", "PROOF", "BASE", "PROOF", "--show", "page"], ["solve", "TEXT", "--method", "rounded", "--start", "ANSWER"],
    ],
    "PLAN": [["check", "BASE", "TEXT"], ["solve", "BASE", "--method", "rounded", "--start", "TEXT"]],
    "MULT": [["check", "BASE", "PLAN", "TEXT"]],
    "PROOF": [
        ["check", "BASE", "--proof", "TEXT"], ["table", "BASE", "TEXT", "limits"], ["table", "BASE", "TEXT", "NewCapacity"], ["page", "BASE", "TEXT"],
        ["compare", "BASE", "TEXT", "BASE", "PROOF"], ["compare", "BASE", "PROOF", "BASE", "TEXT", "--show", "page"],
    ],
    "ANSWER": [["solve", "BASE", "--method", "rounded", "--start", "TEXT"]],
}


def random_call(dice, sound, path):
    """Words, and the text for the file that they may name."""
    if dice.random() < 0.3:
        words = [dice.choice(WORDS) for _ in range(dice.randrange(7))]
        return words, random_text(dice, sound["BASE"])
    kind = dice.choice(["BASE", "BASE", "BASE", "PLAN", "MULT", "PROOF", "ANSWER"])
    return dice.choice(CALLS[kind]), random_text(dice, sound[kind])


def calls(count, program, examples, work):
    paths = {"BASE": examples + "/base.dat", "PLAN": examples + "/base-plan.csv", "MULT": examples + "/base-multipliers.csv", "TEXT": work + "/text",
             "PROOF": work + "/proof", "ANSWER": work + "/answer"}
    with open(paths["PROOF"], "wb") as file:
        subprocess.run([program, "solve", paths["BASE"], "--show", "proof"], stdout=file, stdin=subprocess.DEVNULL, check=True)
    with open(paths["ANSWER"], "wb") as file:
        file.write(CLP + b"      0 C1 10 0\n      1 C2 10 0\n      2 C3 0 0\n")
    sound = {}
    for kind in CALLS:
        with open(paths[kind], "rb") as file:
            sound[kind] = file.read()
    found, slowest, wrong = {}, (0.0, 0), 0
    began = time.monotonic()
    for seed in range(count):
        dice = random.Random(seed)
        words, text = random_call(dice, sound, paths["TEXT"])
        with open(paths["TEXT"], "wb") as file:
            file.write(text)
        status, out, err, took, _ = measured([program, *(paths.get(word, word) for word in words)], SMALL_SECONDS)
        found[status] = found.get(status, 0) + 1
        slowest = max(slowest, (took, seed))
        said = fault(status, out, err)
        if said:
            wrong += 1
            print(f"call {seed} {said}: {words}, {out[:80]}, {err[:80]}", flush=True)
    each = ", ".join(f"{found[status]} of status {status}" for status in sorted(found, key=str))
    print(f"{count} random calls in {time.monotonic() - began:.0f} s: {each}; the slowest took {slowest[0]:.2f} s (call {slowest[1]}); {wrong} wrong", flush=True)


RANDOM = "random calls"


def main():
    program, examples, work = sys.argv[1:4]
    words = sys.argv[4:]
    count = int(words.pop(0)) if words and words[0].isdigit() else 10000
    every = [f"data: {name}" for name in TEXTS] + [f"{kind}: {name}" for kind in ("plan", "multipliers", "proof") for name in TABLES]
    every += [f"answer: {name}" for name in ANSWERS] + [RANDOM]
    names = chosen(every, words)
    if names != [RANDOM]:
        texts(names, program, examples, work)
    if RANDOM in names:
        calls(count, program, examples, work)


if __name__ == "__main__":
    main()

"""Runs `osemosys` with each allocation refused, each read and write failing, and each of several bytes cut to one, and prints what comes."""

import os
import subprocess
import sys

from choosing import chosen

SECONDS = 60  # in which each run must end
MOST = 2000  # so many calls of a run are refused one by one; of more, every second or third, and so on
ROUNDED = ["--method", "rounded"]
COMMANDS = {
    "mps": ["mps", "base.dat"],
    "check of a plan": ["check", "base.dat", "base-plan.csv"],
    "check of a plan and multipliers": ["check", "base.dat", "base-plan.csv", "base-multipliers.csv"],
    "check of a proof": ["check", "base.dat", "--proof", "PROOF"],
    "solve": ["solve", "base.dat"],
    "solve for a plan": ["solve", "base.dat", "--show", "plan"],
    "solve for multipliers": ["solve", "base.dat", "--show", "multipliers"],
    "solve by guesses": ["solve", "first.dat", *ROUNDED],
    "solve from a plan": ["solve", "base.dat", *ROUNDED, "--start", "base-plan.csv"],
    "explain": ["explain", "no-plan.dat"],
    "explain by guesses": ["explain", "no-plan.dat", *ROUNDED],
    "curve": ["curve", "first.dat", "NORTH", "CO2", "1,3"],
    "curve by guesses": ["curve", "first.dat", "NORTH", "CO2", "1,3", *ROUNDED],
    "span": ["span", "base.dat", "R", "T", "2020", "--slack", "1000"],
    "span by guesses": ["span", "base.dat", "R", "T", "2020", "--slack", "1000", *ROUNDED],
    "reduce": ["reduce", "base.dat"],
    "warn": ["warn", "mistakes.dat"],
    "table of a plan": ["table", "base.dat", "PROOF", "all"],
    "table of prices": ["table", "base.dat", "PROOF", "prices"],
    "page": ["page", "base.dat", "PROOF"],
    "compare": ["compare", "base.dat", "PROOF", "first.dat", "OTHER"],
    "compare on a page": ["compare", "base.dat", "PROOF", "first.dat", "OTHER", "--show", "page"],
    "make": ["make", "3"],
    "make of a summary": ["make", "3", "--show", "summary"],
}
# The files of proofs that commands name, each with the data that it is of.
PROOFS = {"PROOF": "base.dat", "OTHER": "first.dat"}


def run(program, words, refusing, **numbers):
    """The exit status, or `None` where the time ran out; what was written; and how many allocations, calls, and calls of several bytes."""
    counts, told = os.pipe()
    # The program alone gets the environment, so that no call of the shell counts.
    setting = " ".join([f"LD_PRELOAD={refusing}"] + [f"{name}={number}" for name, number in numbers.items()])
    try:
        done = subprocess.run(["sh", "-c", f'exec 9>&{told} && {setting} exec "$0" "$@"', program, *words],
                              stdin=subprocess.DEVNULL, stdout=subprocess.PIPE, stderr=subprocess.PIPE, pass_fds=[told], timeout=SECONDS)
        status, out = done.returncode, done.stdout
    except subprocess.TimeoutExpired:
        status, out = None, b""
    os.close(told)
    with os.fdopen(counts) as file:
        line = file.read().split()
    return status, out, [int(word) for word in line] or None


def judged(kind, command, answer, whole):
    """What is wrong with an answer where one call was refused, or nothing: the whole answer, or its cause and what may be written then."""
    status, out = answer[:2]
    if (status, out) == whole:
        return None
    if kind == "FAIL_ALLOC" and status == 8 and (not out or command == "mps" and whole[1].startswith(out)):
        return None
    if kind == "FAIL_IO" and status == 7 and whole[1].startswith(out):
        return None
    if kind == "FAIL_IO" and status == 6 and out.startswith(b"read fault file ") and out.count(b"\n") == 1:
        return None
    return f"ended with {status}, {out[:60]}"


def proofs(program, folder):
    """Writes the proofs that commands name, and says where each stands."""
    found = {}
    for name, data in PROOFS.items():
        found[name] = f"{folder}/{name}"
        with open(found[name], "wb") as file:
            subprocess.run([program, "solve", data, "--show", "proof"], stdout=file, stdin=subprocess.DEVNULL, check=True)
    return found


def main():
    program, examples, refusing = sys.argv[1:4]
    os.chdir(examples)
    files = proofs(program, os.path.dirname(refusing))
    kinds = (("FAIL_ALLOC", "allocation refused"), ("FAIL_IO", "call failing"), ("SHORT_IO", "call cut to a byte"))
    wrongs = 0
    for command in chosen(COMMANDS, sys.argv[4:]):
        words = [files.get(word, word) for word in COMMANDS[command]]
        status, out, counts = run(program, words, refusing)
        print(f"{command}: status {status}, {len(out)} bytes; {counts[0]} allocations, {counts[1]} calls, {counts[2]} of several bytes", flush=True)
        for (kind, name), count in zip(kinds, counts):
            found = {}
            numbers = range(1, count + 2, 1 + count // MOST)
            for number in numbers:
                answer = run(program, words, refusing, **{kind: number})
                found[answer[0]] = found.get(answer[0], 0) + 1
                wrong = judged(kind, command, answer, (status, out))
                if wrong:
                    wrongs += 1
                    print(f"  {name} {number}: {wrong}", flush=True)
            each = ", ".join(f"{found[code]} of status {code}" for code in sorted(found, key=str))
            print(f"  {len(numbers)} runs, {name}: {each}", flush=True)
    print(f"{wrongs} wrong", flush=True)


if __name__ == "__main__":
    main()

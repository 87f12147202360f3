"""Tries what the script `osemosys` answers before anything is built. Usage: early.py TOP PROGRAM WORK COUNT"""
import os
import random
import shutil
import subprocess
import sys

COMMANDS = "mps check solve explain curve span make table page warn compare reduce".split()
NAMES = "gap pivots places show method slack proof start exact other".split()
VALUES = ["6", "9", "10", "1000000", "1000001", "00000001", "", "x", "plan", "page", "summary", "exact", "rounded", "-", "-1", "a.dat", "none"]
WORDS = ["a.dat", "b.dat", "none", "", "-", "R", "CO2", "4,7", "7,4", "2020", "7", "2", "122", "123", "0122", "NewCapacity", "--", "-x", "--help", "-5"]
NO_PROGRAM = 70


def random_words(source):
    """A command most often, words that may be its files, and options."""
    words = [source.choice(COMMANDS)] if source.random() < 0.97 else [source.choice(["", "Mps", "solv", "mps 1", "m*", "nothing"])]
    for _ in range(source.choice([0, 1, 1, 1, 2, 2, 3, 4, 4, 5])):
        words.append(source.choice(WORDS[:12] if source.random() < 0.9 else WORDS))
    for _ in range(source.choice([0, 0, 1, 1, 2, 3])):
        name, value = "--" + source.choice(NAMES), source.choice(VALUES)
        at = source.randint(1, len(words))
        words[at:at] = [name] if name == "--exact" and source.random() < 0.8 else source.choice([[name, value], [f"{name}={value}"], [name]])
    return [] if source.random() < 0.01 else words


def answer(program, words, folder):
    """Its status and what it wrote; without `rt`, so that nothing is built. On standard error it has lines of its own alone."""
    ran = subprocess.run([program, *words], cwd=folder, stdin=subprocess.DEVNULL, stdout=subprocess.PIPE, stderr=subprocess.PIPE,
                         env={"PATH": "/usr/bin:/bin"}, timeout=300)
    is_own = all(line.startswith(b"osemosys: ") for line in ran.stderr.splitlines())
    return ran.returncode, ran.stdout if is_own else ran.stderr


def try_words(script, program, folder, count):
    """How many answers there were early, and how many of them are others than the program's, or come late without need."""
    source = random.Random(1)
    early = wrong = 0
    for _ in range(count):
        words = random_words(source)
        if len(words) == 2 and words[1] == "--help" and words[0] in COMMANDS:
            continue
        said, wanted = answer(script, words, folder), answer(program, words, folder)
        early += said[0] != NO_PROGRAM
        # (limits of `curve` that aren't plain numbers are left to the program)
        is_late = said[0] == NO_PROGRAM and wanted[0] in (5, 6) and words[0] != "curve"
        if is_late or said[0] != NO_PROGRAM and said != wanted:
            wrong += 1
            print(f"wrong: {words}: {said}, and the program {wanted}")
        tried = answer(script, ["try", *words], folder)
        if tried != said:
            wrong += 1
            print(f"wrong: {words}: {said}, and with 'try' {tried}")
    if answer(script, ["try", "results", "a.dat", "folder"], folder) != (5, b""):
        wrong += 1
        print("wrong: 'try results' is built")
    return early, wrong


def try_checksum(top, program, folder):
    """A small repository with a program that is said to be built from it: which changes of it are noticed."""
    os.makedirs(f"{folder}/crates/osemosys/out")
    for name in ("below", "osemosys", "beside"):
        os.makedirs(f"{folder}/crates/{name}/src")
        with open(f"{folder}/crates/{name}/src/lib.rt", "w") as file:
            file.write(f"// {name}\n")
    with open(f"{folder}/crates.txt", "w") as file:
        file.write("below:\nosemosys: below\nbeside: below\n")
    shutil.copy(f"{top}/osemosys", f"{folder}/osemosys")
    shutil.copytree(f"{top}/script", f"{folder}/script")
    shutil.copytree(f"{top}/docs", f"{folder}/docs")
    built = f"{folder}/crates/osemosys/out/osemosys"
    # (the script tells itself what it would write down at the end of a build)
    with open(f"{folder}/osemosys") as file:
        functions = file.read().partition("\ncase ${1-} in\n  try)")[0]
    shutil.copy(program, f"{built}.new")
    made = f"{functions}\ndescribe_build '{folder}' >\"$program.built\" && mv \"$program.new\" \"$program\"\n"
    with open(f"{folder}/make", "w") as file:
        file.write(made)
    subprocess.run(["bash", f"{folder}/make"], check=True, stdout=subprocess.DEVNULL, stderr=subprocess.DEVNULL)

    def is_current():
        return answer(f"{folder}/osemosys", ["make", "3"], folder)[0] != NO_PROGRAM

    def change(path, text):
        with open(f"{folder}/{path}", "w") as file:
            file.write(text)
        os.utime(f"{folder}/{path}", (2000000000, 2000000000))

    tried = [("untouched", is_current(), True)]
    change("crates/below/src/lib.rt", "// below\n")
    tried.append(("touched", is_current(), True))
    change("crates/beside/src/lib.rt", "// other\n")
    tried.append(("another crate changed", is_current(), True))
    change("crates/below/src/lib.rt", "// other\n")
    tried.append(("changed", is_current(), False))
    change("crates/below/src/lib.rt", "// below\n")
    tried.append(("changed back", is_current(), True))
    os.remove(f"{folder}/crates/below/src/lib.rt")
    os.utime(f"{folder}/crates/below/src", (2000000000, 2000000000))
    tried.append(("taken out", is_current(), False))
    for what, said, wanted in tried:
        print(f"sources {what}: {'current' if said else 'not current'}{'' if said == wanted else ', wrong'}")
    return sum(said != wanted for _, said, wanted in tried)


def main():
    top, program, work, count = sys.argv[1:]
    os.makedirs(f"{work}/words/docs")
    shutil.copy(f"{top}/osemosys", f"{work}/words/osemosys")
    shutil.copytree(f"{top}/script", f"{work}/words/script")
    for name in ("base.dat", "first.dat"):
        shutil.copy(f"{top}/examples/{name}", f"{work}/words/{'ab'[name == 'first.dat']}.dat")
    early, wrong = try_words(f"{work}/words/osemosys", program, f"{work}/words", int(count))
    print(f"{count} lines of words, {early} answered early")
    wrong += try_checksum(top, program, f"{work}/sources")
    print(f"{wrong} wrong")
    return int(wrong > 0)


sys.exit(main())

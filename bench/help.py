"""Tries what `./osemosys help` prints. Usage: help.py TOP"""
import re
import subprocess
import sys

TOP = sys.argv[1]
UNKNOWN_WORD = 5


def text_of(path):
    with open(f"{TOP}/{path}", encoding="utf-8") as file:
        return file.read()


def tables(path):
    """The rows of each table of a document, after its headings."""
    heads = None
    for line in text_of(path).split("\n"):
        if not line.startswith("|"):
            heads = None
        elif not heads:
            heads = [it.strip() for it in line.strip("|").split("|")]
        elif not re.fullmatch(r"[-| :]+", line):
            yield heads, [it.strip() for it in line.replace("\\|", "\1").strip("|").split("|")]


def words():
    """Each word of which help should know, with a text that it should have."""
    kinds = re.findall(r'^\s*\("(\w+)"', text_of("crates/row_core/src/kinds.rt"), re.M)
    for kind in kinds:
        yield kind, "Variable: "
    for command in ("mps check solve explain curve span make table page warn compare reduce results try help pack").split():
        yield command, command
    for path in ("docs/COMMANDS.md", "docs/DATA.md"):
        for heads, row in tables(path):
            if heads[0] in ("Word", "Code", "Fault") and heads[1] != "Of":
                for word in re.findall(r"`([^`]+)`", row[0]):
                    yield word, f"{heads[0]}: "
            if heads[0] == "Option":
                yield row[0].strip("`").split()[0], "Option: "
            if heads[:2] == ["No", "Parameter"] or heads[:2] == ["No", "Set"]:
                yield row[1], f"{heads[1]}: {row[1]}"
    for heads, row in tables("docs/EQUATIONS.md"):
        if heads[:2] == ["No", "Equation"]:
            yield row[1].strip("`").split("[")[0], f"Equation: {row[1].strip('`')}"


def fault_of(word, wanted):
    ran = subprocess.run([f"{TOP}/osemosys", "help", word], stdin=subprocess.DEVNULL, stdout=subprocess.PIPE, stderr=subprocess.STDOUT, text=True)
    told = ran.stdout
    if ran.returncode or wanted not in told:
        return f"status {ran.returncode}, {told[:100]!r}"
    if re.search(r"`|\*\*|\]\(|^#|^\|", told, re.M):
        return "it has marks"
    if any(len(line) > 80 and " " in line.strip() and not line.startswith("    ") for line in told.split("\n")):
        return "a line is too long"
    return None


def main():
    tried = dict.fromkeys(words())
    wrong = 0
    for word, wanted in tried:
        fault = fault_of(word, wanted)
        if fault:
            wrong += 1
            print(f"{word}: {fault}")
    for word in ("nonsense", "a b", "*", "NewCapacit"):
        if subprocess.run([f"{TOP}/osemosys", "help", word], stdout=subprocess.DEVNULL).returncode != UNKNOWN_WORD:
            wrong += 1
            print(f"{word}: it is known")
    print(f"{len(tried)} words, {wrong} wrong")
    return int(wrong > 0)


sys.exit(main())

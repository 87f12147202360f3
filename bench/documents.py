#!/usr/bin/env python3
"""Checks the documents against the repository, and prints a line for each thing that isn't so.

Usage: bench/documents.py [--no-runs]

- Every path that a document names stands in the repository, and so does every file that it links to; a path with a capital NAME or GROUP
  in it is a pattern.
- docs/dev/THEOREM.md has each clause of the call `osemosys` in brackets, and no others; each name in code there stands in the crates.
- Every crate is in the map of docs/dev/CHANGING.md, and has a README.md whose heading is its name.
- Every command of README.md, examples/README.md and docs/COMMANDS.md that works on a file of examples/ is run, and what is
  shown of its text compared; `..` stands for lines that are left out, and `| head -N` for the lines after the N-th. With
  --no-runs none is run. Runs of `try` and of the gate take minutes, and are left out. What needs a tool that is missing, or a file
  that such a command would have made, is noted and not run.

Status 1 where a line was printed."""
import os
import re
import shlex
import shutil
import subprocess
import sys
import tempfile

sys.path.insert(0, os.path.dirname(os.path.abspath(__file__)))
import crates as crate_table

TOP = crate_table.TOP
FINDINGS = []
NOT_MADE = set()  # files that commands would have made which weren't run, as a tool is missing
SUFFIXES = r"\.(?:rt|antt|md|sh|py|dat|csv|txt|mod|edit)"
SHOWN = ("README.md", "examples/README.md", "docs/COMMANDS.md")


def find(where, what):
    FINDINGS.append(f"{where}: {what}")


def documents():
    found = ["README.md", "examples/README.md", "bench/README.md"]
    found += [f"{folder}/{it}" for folder in ("docs", "docs/dev") for it in sorted(os.listdir(f"{TOP}/{folder}"))]
    found += [f"crates/{it}/README.md" for it in sorted(os.listdir(f"{TOP}/crates"))]
    return [it for it in found if os.path.isfile(f"{TOP}/{it}")]


def lines_of(path):
    with open(f"{TOP}/{path}", encoding="utf-8") as file:
        return file.read().split("\n")


def files():
    """Every file and folder of the repository, with a slash before its path, so that the end of a path can be looked for."""
    ran = subprocess.run(["git", "ls-files", "-co", "--exclude-standard"], cwd=TOP, stdout=subprocess.PIPE, text=True, check=True)
    found = set()
    for path in ran.stdout.split():
        parts = path.split("/")
        found.update("/" + "/".join(parts[:count]) for count in range(1, len(parts) + 1))
    return found


def check_paths():
    """A path stands in the repository where some file's path ends so: below the crate that the text speaks of, most often."""
    ends = set()
    for path in files():
        parts = path.split("/")[1:]
        ends.update("/".join(parts[at:]) for at in range(len(parts)))
    made = {"first.mps", "first.sol", "plan.csv", "exact.csv", "multipliers.csv", "model.dat", "a.dat", "b.dat"}
    made |= {"proof.csv", "page.html", "check.txt", "warnings.txt", "limits.csv", "prices.csv", "explain.txt", "direction.csv"}
    for document in documents():
        is_code = False
        for number, line in enumerate(lines_of(document), 1):
            is_code ^= line.startswith("```")
            for word in re.findall(r"`([^`\s]+)`", line) if not is_code else []:
                word = word.rstrip("/")
                is_path = re.fullmatch(rf"[\w./-]+{SUFFIXES}", word) or re.fullmatch(r"(crates|docs|bench|examples)/[\w./-]+", word)
                is_there = word.removeprefix("./") in ends or os.path.exists(f"{TOP}/{os.path.dirname(document)}/{word}")
                if is_path and not re.search(r"NAME|GROUP", word) and word not in made and not is_there:
                    find(f"{document}:{number}", f"there is no {word}")


def check_links():
    for document in documents():
        for number, line in enumerate(lines_of(document), 1):
            for target in re.findall(r"\]\(([^()\s#]+)[^()\s]*\)", line):
                if "://" not in target and not os.path.exists(f"{TOP}/{os.path.dirname(document)}/{target}"):
                    find(f"{document}:{number}", f"its link leads to no {target}")


def check_theorem():
    document = "docs/dev/THEOREM.md"
    text = "\n".join(lines_of(document))
    call = "\n".join(lines_of("crates/osemosys_run/src/run.rt")).partition("pub fn osemosys<")[2].partition("\n{\n")[0]
    clauses, told = set(re.findall(r"^ *ensures (\w+) \{", call, re.M)), set(re.findall(r"\[(\w+)\]", text))
    for clause in sorted(clauses ^ told):
        find(document, f"the clause {clause} isn't {'told' if clause in clauses else 'one of osemosys'}")
    sources = [it for it in files() if it.startswith("/crates/") and it.endswith((".rt", ".antt"))]
    known = set().union(*(re.findall(r"\w+", "\n".join(lines_of(it[1:]))) for it in sources)) | set(crate_table.needs())
    known |= set().union(*crate_table.needs().values())
    for word in sorted({it for it in re.findall(r"`([A-Za-z_]+)`", text) if "NAME" not in it} - known):
        find(document, f"nothing in the crates is called {word}")


def check_map():
    drawn = "\n".join(lines_of("docs/dev/CHANGING.md")).partition("```text")[2].partition("```")[0]
    for crate in crate_table.needs():
        if not re.search(rf"\b{crate}\b", drawn):
            find("docs/dev/CHANGING.md", f"{crate} isn't in the map")
        if not os.path.isfile(f"{TOP}/crates/{crate}/README.md") or lines_of(f"crates/{crate}/README.md")[0] != f"# {crate}":
            find(f"crates/{crate}/README.md", "it isn't there, or its heading isn't the crate's name")


def blocks(document):
    """The blocks of code of a document: the number of the line before, the kind, and the lines."""
    found, begun = [], None
    for number, line in enumerate(lines_of(document), 1):
        if line.startswith("```"):
            if begun:
                found.append(begun)
                begun = None
            else:
                begun = number, line[3:].strip(), []
        elif begun:
            begun[2].append(line)
    return found


def shown_runs(document):
    """The commands that a document shows, each with the lines that it is shown to print, if there are any: those after `$ ` in a block of
    text, those of a block of sh, of which the last one prints the block of text after it in the same
    section, and those of tables."""
    found, script = [], None
    for number, kind, lines in blocks(document):
        if kind == "text" and lines and lines[0].startswith("$ "):
            for line in lines:
                if line.startswith("$ "):
                    found.append((number, [line[2:]], []))
                else:
                    found[-1][2].append(line)
        elif kind == "sh":
            script = number, [line.split("   #")[0].strip() for line in lines if line.strip()]
            found.append((*script, None))
            after = number + len(lines)
        elif kind == "text" and script and not any(it.startswith("#") for it in lines_of(document)[after : number - 1]):
            found[-1] = (*script, lines)
        if kind != "sh":
            script = None
    for number, line in enumerate(lines_of(document), 1):
        if line.startswith("|"):
            found += [(number, [it], None) for it in re.findall(r"`(\./osemosys [^`]*examples/[^`]*)`", line)]
    return found


def agrees(wanted, printed):
    """Whether the lines are those that are wanted, where `..` stands for any number of them."""
    pattern = "".join("(?:.*\n)*" if line == ".." else re.escape(line) + "\n" for line in wanted)
    return re.fullmatch(pattern, "".join(f"{line}\n" for line in printed)) is not None


def check_runs():
    with tempfile.TemporaryDirectory() as room:
        for name in ("osemosys", "examples", "bench", "docs", "README.md"):
            os.symlink(f"{TOP}/{name}", f"{room}/{name}")
        for document in SHOWN:
            for number, commands, wanted in shown_runs(document):
                run_shown(document, number, commands, wanted, room)


def made_by(command):
    """The files that a command writes."""
    return set(re.findall(r"(?:>|--write )\s*([\w./-]+)", command))


def lacking_files(commands):
    """Files that the commands need, and that nothing made."""
    made, lacking = set(), set()
    for command in commands:
        lacking |= set(re.findall(r"[\w./-]+", command)) & (NOT_MADE - made) - made_by(command)
        made |= made_by(command)
    return lacking


def run_shown(document, number, commands, wanted, room):
    if any(re.search(r"\b(try|rt|git)\b|model\.dat|[ab]\.dat\b|FILE|NAME", it) for it in commands):
        return
    lacking = {shlex.split(it)[0] for it in commands if not shutil.which(shlex.split(it)[0], path=f"{os.environ['PATH']}:{room}")}
    lacking = lacking or lacking_files(commands)
    made = set().union(*map(made_by, commands))
    if lacking:
        print(f"note: {document}:{number} isn't run: {', '.join(sorted(lacking))} is missing")
        NOT_MADE.update(made)
        return
    NOT_MADE.difference_update(made)
    ran = subprocess.run("\n".join(commands), shell=True, cwd=room, stdout=subprocess.PIPE, stderr=subprocess.PIPE, text=True)
    printed = ran.stdout.rstrip("\n").split("\n")
    cut = re.search(r"\| head -(\d+)$", commands[-1])
    if cut:
        printed = printed[: int(cut[1])]
    if ran.returncode not in (0, 1, 4, 5, 9, 141) or ran.stderr and "osemosys: " not in ran.stderr and "glpsol" not in commands[-1]:
        find(f"{document}:{number}", f"'{commands[-1]}' ended with status {ran.returncode} {ran.stderr[:200]}")
    if wanted is not None and not agrees([it.rstrip() for it in wanted], [it.rstrip() for it in printed]):
        find(f"{document}:{number}", f"'{commands[-1]}' prints another text, which begins {printed[:3]}")


def main():
    check_paths()
    check_links()
    check_theorem()
    check_map()
    if "--no-runs" not in sys.argv[1:]:
        check_runs()
    print(*FINDINGS, sep="\n", end="\n" if FINDINGS else "")
    print(f"{len(FINDINGS)} findings")
    return int(bool(FINDINGS))


sys.exit(main())

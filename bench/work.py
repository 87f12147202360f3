"""Runs the recipes of docs/WORK.md. Usage: work.py TOP WORK"""
import os
import re
import shutil
import subprocess
import sys

TOP, WORK = sys.argv[1:]
TOOLS = {"parallel", "Rscript", "snakemake", "cbc", "glpsol"}


def blocks():
    """The headings and blocks of code, in order: kind and text."""
    with open(f"{TOP}/docs/WORK.md", encoding="utf-8") as file:
        text = file.read()
    for heading, kind, block in re.findall(r"^(##+ [^\n]*)$|^```(\w+)\n(.*?)^```$", text, re.M | re.S):
        yield ("heading", heading) if heading else (kind, block)


def agrees(wanted, printed):
    """Whether the lines are those that are wanted, where `..` stands for any text, and alone on a line for any number of lines."""
    pattern = "".join("(?:.*\n)*" if it == ".." else re.escape(it).replace(r"\.\.", ".*") + "\n" for it in wanted.splitlines())
    return re.fullmatch(pattern, printed) is not None


def lacks(script):
    modules = [it for it in ("pandas", "openpyxl") if re.search(rf"\b{it}\b", script)]
    missing = [it for it in TOOLS if re.search(rf"^{it}\b|[|(] *{it}\b", script, re.M) and not shutil.which(it)]
    return missing + [it for it in modules if subprocess.run(["python3", "-c", f"import {it}"], stderr=subprocess.DEVNULL).returncode]


def main():
    for name in ("osemosys", "script", "examples", "bench", "verify", "docs"):
        os.symlink(f"{TOP}/{name}", f"{WORK}/{name}")
    found = list(blocks())
    heading, run, wrong, needed = "", 0, 0, ""
    for at, (kind, text) in enumerate(found):
        if kind == "heading":
            heading = text
        elif kind in ("python", "r"):
            with open(f"{WORK}/{text.split()[1]}", "w", encoding="utf-8") as file:
                file.write(text)
            needed = text
        elif kind == "sh":
            missing = lacks(text + needed)
            needed = ""
            if missing:
                print(f"{heading}: not run, since {', '.join(missing)} is missing")
                continue
            run += 1
            ran = subprocess.run(["bash", "-ec", text], cwd=WORK, stdin=subprocess.DEVNULL, stdout=subprocess.PIPE, stderr=subprocess.PIPE, text=True)
            wanted = found[at + 1][1] if at + 1 < len(found) and found[at + 1][0] == "text" else None
            if ran.returncode or wanted is not None and not agrees(wanted, ran.stdout):
                wrong += 1
                print(f"{heading}: status {ran.returncode}, it prints {ran.stdout!r} {ran.stderr[-300:]!r}")
    print(f"{run} recipes run, {wrong} wrong")
    return int(wrong > 0)


sys.exit(main())

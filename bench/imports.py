#!/usr/bin/env python3
"""Lists imports of definitions and proofs that can't hold, in a second, before a check of minutes says so.

Usage: bench/imports.py. A line for each: of a crate that crates.txt doesn't list for the file's own; of a module that isn't there, or that is private
to its crate; of a name that the module neither declares nor passes on. Modules that the prover makes (`declared`, `contracts`, `Goals`) aren't
looked at, nor those of the kit. That an import is listed here is a fault; that none is, no proof."""
import os
import re

TOP = os.path.dirname(os.path.dirname(os.path.abspath(__file__)))
USE = re.compile(r"(?:unfoldable |pub |ghost )*use Rattle\.(\w+)\.(proofs|specs)\.([\w.]+?)(?:\.\{([^{}]*)\})?;?(?: as \w+;?)?$")
MADE = {"declared", "contracts", "Goals", "Given", "Statement", "Code", "Key"}


def text_of(path):
    with open(path) as file:
        return file.read()


def uses():
    lines = [line.split("#")[0].partition(":") for line in text_of(f"{TOP}/crates.txt").split("\n")]
    return {name.split()[0]: set(rest.split()) for name, colon, rest in lines if colon}


def names_of(path):
    """What a file declares, also within a section or a type, and what it passes on."""
    names = set()
    for line in text_of(path).split("\n"):
        names.update(re.findall(r"([^\s:(){}|]+) :", line))
        names.update(re.findall(r"^\s*(?:pub |abbrev |unfoldable |pattern )*(?:data |record |ruleset )?([^\s:(){}]+)", line))
        passed = re.match(r"(?:unfoldable )?pub use [^ {]+\.\{([^{}]*)\}", line)
        if passed:
            names.update(re.split(r" as |\.", it)[-1] for it in passed.group(1).split(", "))
    return names


def fault_of(crate, match, listed, seen):
    """What is wrong with an import of this crate, or nothing."""
    other, kind, module, names = match.groups()
    parts = module.split(".")
    if other not in listed or MADE & set(parts):
        return None
    if other != crate and other not in listed[crate]:
        return f"crates.txt doesn't list {other} for {crate}"
    path = f"{TOP}/crates/{other}/{kind}/{'/'.join(parts)}.antt"
    if not os.path.exists(path):
        # (a section or a type of a file heads a path too)
        within = f"{TOP}/crates/{other}/{kind}/{'/'.join(parts[:-1])}.antt"
        return None if os.path.exists(within) else f"{other} has no module {kind}.{module}"
    if other != crate and not re.search(rf"^pub mod {parts[0]}$", text_of(f"{TOP}/crates/{other}/{kind}/Lib.antt"), re.M):
        return f"{kind}.{module} is private to {other}"
    known = seen.setdefault(path, None) or names_of(path)
    seen[path] = known
    lacking = [it for it in (names or "").split(", ") if re.search(r"\w", it) and re.split(r" as |\.", it)[0] not in known and not it.startswith("syntax")]
    return f"{other}.{kind}.{module} has no {', '.join(lacking)}" if lacking else None


def main():
    listed, seen, found = uses(), {}, 0
    for crate in sorted(listed):
        for folder, folders, files in os.walk(f"{TOP}/crates/{crate}"):
            folders[:] = [it for it in folders if it not in ("out", "must-fail")]
            for name in sorted(it for it in files if it.endswith((".antt", ".rt"))):
                path = os.path.join(folder, name)
                for at, line in enumerate(text_of(path).split("\n"), 1):
                    match = USE.match(line)
                    fault = match and fault_of(crate, match, listed, seen)
                    if fault:
                        found += 1
                        print(f"{os.path.relpath(path, TOP)}:{at}: {fault}")
    print(f"{found} imports that can't hold")
    return int(found > 0)


raise SystemExit(main())

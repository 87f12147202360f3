"""Runs the program of reading.txt on texts that it makes, and prints time and memory."""

import os
import shutil
import subprocess
import sys

from choosing import chosen

MIB = 1 << 20
LIMIT = 64 * MIB


def filled(piece, size=LIMIT):
    return (piece * (size // len(piece) + 1))[:size]


def plain():
    """About 50 MiB of plain data: 20 regions, 500 technologies and so on."""
    out = ["set REGION := ", " ".join(f"R{r}" for r in range(20)), ";\nparam TotalAnnualMaxCapacity default -1 :=\n"]
    for r in range(20):
        for t in range(500):
            for y in range(2000, 2230):
                out.append(f"R{r} TECH{t:03d} {y} {(r * 7919 + t * 104729 + y * 31) % 100000 / 100:.2f}\n")
    out.append(";\nend;\n")
    return "".join(out).encode()[: 52 * MIB].rsplit(b"\n", 1)[0] + b"\n;\nend;\n"


def tables():
    """About 50 MiB of tables."""
    years = range(2000, 2100)
    out = ["param CapacityFactor default 1 :=\n"]
    for r in range(60):
        for t in range(20):
            out.append(f"[R{r},T{t},*,*]: " + " ".join(map(str, years)) + " :=\n")
            for l in range(96):
                out.append(f"S{l} " + " ".join(f"0.{(r * 17 + t * 31 + l * 7 + y) % 1000:03d}" for y in years) + "\n")
    out.append(";\n")
    return "".join(out).encode()[: 52 * MIB].rsplit(b"\n", 1)[0] + b"\n;\n"


TEXTS = {
    "plain data": plain,
    "tables": tables,
    "blanks": lambda: filled(b" "),
    "line feeds": lambda: filled(b"\n"),
    "one comment line": lambda: filled(b"#" + b"x" * 1023, LIMIT),
    "an open comment": lambda: b"/*" + filled(b"x", LIMIT - 2),
    "/*/*/*": lambda: filled(b"/*", LIMIT),
    "stars in a comment": lambda: b"/*" + filled(b"*", LIMIT - 2),
    "[": lambda: filled(b"["),
    "commas": lambda: filled(b","),
    "commas in a set": lambda: b"set REGION := " + filled(b",", LIMIT - 14),
    "members": lambda: b"set REGION := " + filled(b"a ", LIMIT - 15) + b";",
    "members with commas": lambda: b"set REGION := " + filled(b"a,", LIMIT - 16) + b"b;",
    "quotes": lambda: filled(b"'"),
    "doubled quotes in one symbol": lambda: b"set REGION := '" + filled(b"''", LIMIT - 18) + b"';",
    "one symbol": lambda: filled(b"a"),
    "a member of 64 MiB": lambda: b"set REGION := " + filled(b"a", LIMIT - 15) + b";",
    "a number of 64 million digits": lambda: b"param DiscountRate := R " + filled(b"9", LIMIT - 25) + b";",
    "a number of 64 million zeros": lambda: b"param DiscountRate := R " + filled(b"0", LIMIT - 25) + b";",
    "an exponent of 64 million digits": lambda: b"param DiscountRate := R 1e" + filled(b"9", LIMIT - 27) + b";",
    "columns of a table": lambda: b"param CapacityFactor := [R,T,*,*] : " + filled(b"a ", LIMIT - 40) + b":= ;",
    "statements of sets": lambda: filled(b"set REGION;"),
    "gives": lambda: b"set REGION " + filled(b":=", LIMIT - 12) + b";",
}


def run(program, what, path):
    """The answer, the processor time in seconds and the most memory in bytes."""
    process = subprocess.Popen([program, what, path], stdout=subprocess.PIPE)
    answer = process.stdout.read().decode().strip()
    _, status, usage = os.wait4(process.pid, 0)
    took = usage.ru_utime + usage.ru_stime
    return took, usage.ru_maxrss * 1024, answer if status == 0 else f"status {status}"


# For the texts that glpsol reads as well: the parameter, its number of subscripts, and the sets that the text has.
PEER_MODELS = {"plain data": ("TotalAnnualMaxCapacity", 3, "set REGION;\n"), "tables": ("CapacityFactor", 4, "")}


def peer(name, path, folder):
    """The processor time and the memory of glpsol for reading the data, by a model that only declares what they give."""
    param, subscripts, sets = PEER_MODELS[name]
    model = folder + "/model"
    with open(model, "w") as file:
        file.write(f"{sets}set INDICES dimen {subscripts};\nparam {param}{{INDICES}};\nend;\n")
    process = subprocess.Popen(["glpsol", "--check", "--math", model, "--data", path], stdout=subprocess.PIPE)
    answer = process.stdout.read().decode()
    _, status, usage = os.wait4(process.pid, 0)
    os.remove(model)
    if status != 0 or "Model has been successfully generated" not in answer:
        return None
    return usage.ru_utime + usage.ru_stime, usage.ru_maxrss * 1024


def main():
    program, folder = sys.argv[1:3]
    names = chosen(TEXTS, sys.argv[3:])
    path = folder + "/text"
    print(f"{'text':34} {'MiB':>5} {'call':>7} {'seconds':>8} {'MB/s':>6} {'memory':>9}  answer")
    for name in names:
        text = TEXTS[name]()
        with open(path, "wb") as file:
            file.write(text)
        base = min(run(program, "nothing", path)[0] for _ in range(3))
        for what in ("tokens", "blocks", "pieces"):
            took, most, answer = run(program, what, path)
            took = max(took - base, 1e-3)
            speed = len(text) / took / 1e6
            print(f"{name:34} {len(text) / MIB:5.1f} {what:>7} {took:8.2f} {speed:6.0f} {most / MIB:5.0f} MiB  {answer}", flush=True)
        if name in PEER_MODELS and shutil.which("glpsol"):
            found = peer(name, path, folder)
            if found is None:
                print(f"{name:34} {len(text) / MIB:5.1f}  glpsol read it not")
            else:
                print(f"{name:34} {len(text) / MIB:5.1f}  glpsol {found[0]:8.2f} {len(text) / found[0] / 1e6:6.1f} {found[1] / MIB:5.0f} MiB", flush=True)
    os.remove(path)


if __name__ == "__main__":
    main()

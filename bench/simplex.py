"""Solves made files by a program over the library and by esolver, and prints what both took: simplex.py PROGRAM OSEMOSYS FOLDER [WORD ..]"""
import os
import sys

from choosing import chosen
from mps import MIB, made, measured

FILES = {f"made file of {last}": last for last in (7, 20, 38, 60, 122)}
PIVOTS = "1000000"  # more than any of these files takes


def told(output):
    """The lines of a file."""
    with open(output) as file:
        return file.read().splitlines()


def peer(osemosys, path, folder):
    """The processor time and the most memory of esolver on the rows of the file, and its cost."""
    text, answer = folder + "/rows.mps", folder + "/answer"
    measured([osemosys, "mps", path], text)
    quietly = 'exec esolver -O "$0" "$1" 2>/dev/null'
    _, took, most = measured(["sh", "-c", quietly, folder + "/solution", text], answer)
    costs = [line.split("=")[1].strip() for line in told(folder + "/solution") if line.strip().startswith("Value")]
    return took, most, costs[0] if costs else "none"


def kept_of(program, path, output):
    """How many pivots of phase 1 are made by the kept rows; none where phase 1 begins anew."""
    measured([program, path, PIVOTS, "kept"], output)
    words = told(output)[1].split()
    return int(words[1]) if words[0] == "kept" else None


def main():
    program, osemosys, folder = sys.argv[1:4]
    anew = []
    print(f"{'':18} {'':>14} {'':>7} {'':>6} {'the program':^20} {'esolver':^20}")
    print(f"{'file':18} {'rows, columns':>14} {'pivots':>7} {'kept':>6} {'seconds':>10} {'memory':>9} {'seconds':>10} {'memory':>9}  same cost")
    for name in chosen(FILES, sys.argv[4:]):
        path, output = folder + "/data", folder + "/out"
        with open(path, "w") as file:
            file.write(made(FILES[name]))
        _, before, _ = measured([program, path], output)
        _, took, most = measured([program, path, PIVOTS], output)
        lines = [line.split() for line in told(output)]
        size, end = f"{lines[0][1]}, {lines[0][3]}", lines[1]
        other = peer(osemosys, path, folder)
        pivots, cost = (end[2], end[4]) if end[0] == "optimal" and len(end) == 5 else ("", " ".join(end))
        kept = kept_of(program, path, output)
        if kept is None:
            anew.append(name)
        print(f"{name:18} {size:>14} {pivots:>7} {'anew' if kept is None else kept:>6} {took - before:10.2f} {most / MIB:5.0f} MiB {other[0]:10.2f} {other[1] / MIB:5.0f} MiB"
              f"  {'yes' if cost == other[2] else f'no: {cost}, {other[2]}'}", flush=True)
    if anew:
        sys.exit("phase 1 began anew: " + ", ".join(anew))


if __name__ == "__main__":
    main()

"""Runs the program, esolver and glpsol on made files, and prints what each took: solve.py PROGRAM FOLDER [WORD ..]"""
import re
import sys
from fractions import Fraction

from choosing import chosen
from mps import MIB, made, measured

FILES = {f"made file of {last}": last for last in (7, 20, 38, 60, 122)}
PIVOTS = "1000000"  # more than any of these files takes
LONGEST = 600  # seconds that a peer may take


def told(output):
    """The lines of a file."""
    with open(output) as file:
        return file.read().splitlines()


def quietly(words, output):
    """The processor time and the most memory of a command, for so long at most, and whether it ended by itself."""
    status, took, most = measured(["sh", "-c", 'exec timeout "$0" "$@" 2>/dev/null', str(LONGEST), *words], output)
    return took, most, status == 0


def exact_peer(text, folder):
    """esolver on the rows: time, memory, and the cost; none where it took too long."""
    took, most, ended = quietly(["esolver", "-O", folder + "/solution", text], folder + "/answer")
    if not ended:
        return took, most, None
    costs = [line.split("=")[1].strip() for line in told(folder + "/solution") if line.strip().startswith("Value")]
    return took, most, Fraction(costs[0]) if costs else None


def rational_peer(text, folder):
    """glpsol --exact on the rows: time, memory, and the cost as a decimal; none where it took too long."""
    took, most, ended = quietly(["glpsol", "--freemps", "--exact", text, "-o", folder + "/solution"], folder + "/answer")
    if not ended:
        return took, most, None
    costs = [re.search(r"= *([-+.0-9e]+)", line) for line in told(folder + "/solution") if line.startswith("Objective")]
    return took, most, float(costs[0].group(1)) if costs and costs[0] else None


def figures(peer, ours):
    """A peer's time and memory, and how many times as much time it took."""
    took, most, cost = peer
    if cost is None:
        return f"{f'over {took:.0f}':>10} {most / MIB:5.0f} MiB {'':>7}"
    return f"{took:10.2f} {most / MIB:5.0f} MiB {took / max(ours, 0.005):7.1f}"


def main():
    program, folder = sys.argv[1:3]
    print(f"{'':18} {'':>6} {'':>7} {'the program':^20} {'esolver':^28} {'glpsol --exact':^28}")
    print(f"{'file':18} {'status':>6} {'pivots':>7} {'seconds':>10} {'memory':>9} {'seconds':>10} {'memory':>9} {'times':>7}"
          f" {'seconds':>10} {'memory':>9} {'times':>7}  same cost")
    for name in chosen(FILES, sys.argv[3:]):
        path, output, text = folder + "/data", folder + "/out", folder + "/rows.mps"
        with open(path, "w") as file:
            file.write(made(FILES[name]))
        status, took, most = measured([program, "solve", path, "--pivots", PIVOTS], output)
        words = {line.split()[0]: line.split() for line in told(output)[:5]}
        pivots = words["pivots"][1] if "pivots" in words else ""
        cost = Fraction(words["cost"][1]) if "cost" in words else None
        measured([program, "mps", path], text)
        exact, rational = exact_peer(text, folder), rational_peer(text, folder)
        same = "none" if cost is None else "yes" if exact[2] == cost else "not known" if exact[2] is None else f"no: {cost}, {exact[2]}"
        if cost is not None and rational[2] is not None and abs(rational[2] - float(cost)) > 1e-6 * abs(float(cost)):
            same += f"; glpsol has {rational[2]}"
        print(f"{name:18} {status:6} {pivots:>7} {took:10.2f} {most / MIB:5.0f} MiB {figures(exact, took)} {figures(rational, took)}  {same}", flush=True)


if __name__ == "__main__":
    main()

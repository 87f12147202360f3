"""Has conflicts explained, and other solvers say whether they are: explain.py PROGRAM FOLDER FILE .."""
import os
import sys

from mps import MIB, measured

LONGEST = 120  # seconds that a peer may take over one program
PIVOTS = "200000"


class Rows:
    """The rows that `osemosys mps` writes: names and senses, the entries of columns, right sides, and the columns that may be below 0."""

    def __init__(self, path):
        self.senses, self.names, self.columns, self.right, self.free = {}, {}, {}, {}, set()
        section, comment = None, None
        with open(path) as file:
            for line in file:
                words = line.split()
                if line[0] == "*":
                    comment = line[1:].strip()
                elif line[0] != " ":
                    section = words[0]
                elif section == "ROWS" and words[0] != "N":
                    self.senses[words[1]] = words[0]
                    self.names[comment] = words[1]
                elif section == "COLUMNS":
                    self.columns.setdefault(words[0], []).extend(zip(words[1::2], words[2::2]))
                elif section == "RHS":
                    self.right.update(zip(words[1::2], words[2::2]))
                elif section == "BOUNDS" and words[0] == "FR":
                    self.free.add(words[2])

    def write(self, path, members):
        """The equations and these inequalities alone, without a cost."""
        kept = {row: sense for row, sense in self.senses.items() if sense == "E" or row in members}
        with open(path, "w") as file:
            file.write("NAME TRIAL FREE\nROWS\n N COST\n")
            file.writelines(f" {sense} {row}\n" for row, sense in kept.items())
            file.write("COLUMNS\n")
            used = []
            for column, entries in self.columns.items():
                entries = [(row, number) for row, number in entries if row in kept]
                file.writelines(f" {column} {row} {number}\n" for row, number in entries)
                if entries:
                    used.append(column)
            file.write("RHS\n")
            file.writelines(f" RHS {row} {number}\n" for row, number in self.right.items() if row in kept)
            file.write("BOUNDS\n")
            file.writelines(f" FR BND {column}\n" for column in used if column in self.free)
            file.write("ENDATA\n")


def text_of(path):
    """A file's text; none where there is no such file."""
    if not os.path.exists(path):
        return ""
    with open(path, errors="replace") as file:
        return file.read()


def run(words, output):
    measured(["sh", "-c", 'exec timeout "$0" "$@" 2>&1', str(LONGEST), *words], output)
    return text_of(output)


def by_esolver(path, folder):
    """Whether esolver finds values: True or False; None where it doesn't say."""
    solution = folder + "/solution"
    if os.path.exists(solution):
        os.remove(solution)
    run(["esolver", "-O", solution, path], folder + "/answer")
    status = text_of(solution).split("\n")[0]
    return True if "OPTIMAL" in status else False if "INFEASIBLE" in status else None


def by_clp(path, folder):
    """The same of Clp."""
    said = run(["clp", path, "-solve", "-quit"], folder + "/answer")
    return False if "rimal infeasible" in said or "PrimalInfeasible" in said else True if "Optimal" in said else None


def first_named(program, data, rows, folder):
    """How many inequalities the refutation of the whole model names, by the same method."""
    path = folder + "/multipliers"
    measured([program, "solve", data, "--method", "rounded", "--pivots", PIVOTS, "--show", "multipliers"], path)
    unequal = {name.split("[")[0] for name, row in rows.names.items() if rows.senses[row] != "E"}
    records = [line.split(",") for line in text_of(path).splitlines()[1:]]
    return sum(1 for record in records if record[0] in unequal and record[-1] != "0")


def judged(rows, members, peer, folder):
    """How many of the programs a peer judges as they were explained: the members together, and those without one of them."""
    path = folder + "/trial.mps"
    rows.write(path, set(members))
    together = peer(path, folder) is False
    needed = 0
    for member in members:
        rows.write(path, set(members) - {member})
        needed += peer(path, folder) is True
    return f"{'infeasible' if together else 'NOT SO':>10} {needed:4} of {len(members):4}"


def main():
    program, folder = sys.argv[1:3]
    print(f"{'model':28} {'status':>6} {'seconds':>8} {'memory':>9} {'first':>6} {'members':>7}  {'esolver: all, and needed':>24}  {'Clp: all, and needed':>24}")
    for data in sys.argv[3:]:
        status, took, most = measured([program, "explain", data, "--method", "rounded", "--pivots", PIVOTS], folder + "/text")
        told = [line.split()[1] for line in text_of(folder + "/text").splitlines() if line.startswith("equation ")]
        figures = f"{os.path.basename(data):28} {status:6} {took:8.2f} {most / MIB:5.0f} MiB"
        if status != 1:
            print(figures, "", text_of(folder + "/text").split("\n")[0], flush=True)
            continue
        measured([program, "mps", data], folder + "/rows.mps")
        rows = Rows(folder + "/rows.mps")
        figures += f" {first_named(program, data, rows, folder):6} {len(told):7}"
        members = [rows.names[name] for name in told]
        equations = [row for row in members if rows.senses[row] == "E"]
        assert not equations, equations
        print(figures, "", judged(rows, members, by_esolver, folder), "", judged(rows, members, by_clp, folder), flush=True)


main()

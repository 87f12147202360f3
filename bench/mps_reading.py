"""Reads texts in free MPS by the definition of crates/mps_meaning, told again here, and compares the linear program with the one that glpsol,
lp_solve and Clp read. Prints a line for each text; ends with 1 where one of them reads another program, or the definition reads none."""

import os
import re
import subprocess
import sys
from fractions import Fraction

ORDERS = [["NAME", "ROWS", "COLUMNS", *sides, *bounds, "ENDATA"] for sides in ([], ["RHS"]) for bounds in ([], ["BOUNDS"])]
NUMBER = re.compile(r"[+-]?[0-9]+\Z")


class Refused(Exception):
    """The text says no linear program."""


class Program:
    """Costs and rows by the names of rows and columns: `rows` has the letter, the entries and the right side of each, `columns` whether the
    column is free; both in the order of the text."""

    def __init__(self):
        self.costs = {}
        self.rows = {}
        self.columns = {}

    def entries(self):
        return sum(len(entries) for _, entries, _ in self.rows.values())


def ensure(holds, why):
    if not holds:
        raise Refused(why)


def sections_of(text):
    """The sections of a text: the fields of each head, with the fields of the lines below it."""
    sections = []
    for line in text.split("\n"):
        if line.startswith("*"):
            continue
        if line == "":
            # Only what follows the last line feed may be empty.
            continue
        fields = [field for field in re.split("[ \t]+", line) if field]
        if line[0] in " \t":
            ensure(sections, "a line before the first section")
            sections[-1][1].append(fields)
        else:
            sections.append((fields, []))
    return sections


def number(field):
    ensure(NUMBER.match(field), f"{field} is no whole number")
    return int(field)


def program_of(text):
    """The linear program of a text, by the definition: one entry a line, no other sections, nothing twice."""
    ensure("\n\n" not in text and not text.startswith("\n"), "an empty line")
    sections = sections_of(text)
    heads = [head for head, _ in sections]
    ensure([head[0] for head in heads] in ORDERS, "the sections aren't those of a program, in their order")
    ensure(all(len(head) == 1 or head[0] == "NAME" and len(head) == 2 for head in heads), "a head has further fields")
    below = {head[0]: lines for head, lines in sections}
    ensure(not below["NAME"] and not below["ENDATA"], "lines below NAME or ENDATA")
    program = Program()
    ensure(below["ROWS"] and below["ROWS"][0][0] == "N" and len(below["ROWS"][0]) == 2, "the first row isn't free")
    objective = below["ROWS"][0][1]
    for fields in below["ROWS"][1:]:
        ensure(len(fields) == 2 and fields[0] in ("E", "L", "G"), f"{fields} is no row")
        ensure(fields[1] != objective and fields[1] not in program.rows, f"row {fields[1]} is there twice")
        program.rows[fields[1]] = [fields[0], {}, 0]
    last = None
    for fields in below["COLUMNS"]:
        ensure(len(fields) == 3, f"{fields} is no entry")
        column, row, value = fields[0], fields[1], number(fields[2])
        if column != last:
            ensure(column not in program.columns, f"column {column} is there twice")
            program.columns[column] = False
            last = column
        ensure(row == objective or row in program.rows, f"row {row} isn't known")
        entries = program.costs if row == objective else program.rows[row][1]
        ensure(column not in entries, f"{column} has two entries at {row}")
        entries[column] = value
    given = set()
    for fields in below.get("RHS", []):
        ensure(len(fields) == 3 and fields[0] == "RHS", f"{fields} is no right side")
        ensure(fields[1] in program.rows and fields[1] not in given, f"{fields[1]} isn't known, or has two right sides")
        given.add(fields[1])
        program.rows[fields[1]][2] = number(fields[2])
    for fields in below.get("BOUNDS", []):
        ensure(len(fields) == 3 and fields[:2] == ["FR", "BND"], f"{fields} is no bound of a free column")
        ensure(fields[2] in program.columns and not program.columns[fields[2]], f"{fields[2]} isn't known, or is free twice")
        program.columns[fields[2]] = True
    return program


# ---- what others read


def run(words, folder):
    done = subprocess.run(words, cwd=folder, stdin=subprocess.DEVNULL, capture_output=True, text=True, timeout=600, check=False)
    return done.stdout


def value_of(field):
    """A number that a peer writes: whole, or with as many digits as a double keeps."""
    return Fraction(field)


def of_glpk(path):
    """The program of a file in GLPK's own format: senses are s, u and l. A row of which nothing is said is equal to 0, such a column at least 0."""
    program = Program()
    rows, columns, free, sides, letters = {}, {}, set(), {}, {}
    count = (0, 0)
    entries = []
    for line in open(path, encoding="latin-1"):
        fields = line.split()
        if fields[0] == "p":
            count = (int(fields[3]), int(fields[4]))
        elif fields[0] == "n" and fields[1] == "i":
            rows[int(fields[2])] = fields[3]
        elif fields[0] == "n" and fields[1] == "j":
            columns[int(fields[2])] = fields[3]
        elif fields[0] == "i":
            letters[int(fields[1])] = {"s": "E", "u": "L", "l": "G", "f": "N"}[fields[2]]
            sides[int(fields[1])] = value_of(fields[3]) if len(fields) > 3 else 0
        elif fields[0] == "j" and fields[2] == "f":
            free.add(int(fields[1]))
        elif fields[0] == "a":
            entries.append((int(fields[1]), int(fields[2]), value_of(fields[3])))
    for i in range(1, count[0] + 1):
        program.rows[rows[i]] = [letters.get(i, "E"), {}, sides.get(i, 0)]
    for j in range(1, count[1] + 1):
        program.columns[columns[j]] = j in free
    for i, j, value in entries:
        into = program.costs if i == 0 else program.rows[rows[i]][1]
        into[columns[j]] = value
    return program


def of_mps(text):
    """The program of a text that a peer wrote in MPS: it may have two entries a line and other names of right sides and bounds, and
    MI takes the least value away like FR."""
    program = Program()
    objective = None
    at = None
    for line in text.split("\n"):
        fields = line.split()
        if not fields or line.startswith("*"):
            continue
        if not line.startswith((" ", "\t")):
            at = fields[0]
        elif at == "ROWS" and fields[0] == "N":
            objective = fields[1]
        elif at == "ROWS":
            program.rows[fields[1]] = [fields[0], {}, 0]
        elif at == "COLUMNS":
            program.columns.setdefault(fields[0], False)
            for row, value in zip(fields[1::2], fields[2::2]):
                into = program.costs if row == objective else program.rows[row][1]
                into[fields[0]] = value_of(value)
        elif at == "RHS":
            pairs = fields[len(fields) % 2:]
            for row, value in zip(pairs[0::2], pairs[1::2]):
                if row != objective:
                    program.rows[row][2] = value_of(value)
        elif at == "BOUNDS" and fields[0] in ("FR", "MI"):
            program.columns[fields[2]] = True
        elif at == "BOUNDS" and fields[0] == "PL":
            pass
        elif at not in ("NAME", "ENDATA"):
            raise Refused(f"{at}: {line}")
    return program


def by_glpsol(text, folder):
    write(folder, "text.mps", text)
    run(["glpsol", "--freemps", "text.mps", "--check", "--wglp", "text.glp"], folder)
    return of_glpk(os.path.join(folder, "text.glp"))


def by_lp_solve(text, folder):
    write(folder, "text.mps", text)
    return of_mps(run(["lp_solve", "-S1", "-parse_only", "-fmps", "text.mps", "-wfmps", "/dev/stdout"], folder))


def by_clp(text, folder):
    """Clp reads a text as free MPS where its first line says so by a word after the name."""
    first, rest = text.split("\n", 1)
    write(folder, "free.mps", first + " FREE\n" + rest)
    out = os.path.join(folder, "out.mps")
    if os.path.exists(out):
        os.remove(out)
    run(["clp", "free.mps", "-presolve", "off", "-export", "out.mps", "-quit"], folder)
    with open(out, encoding="latin-1") as file:
        return of_mps(file.read())


def write(folder, name, text):
    with open(os.path.join(folder, name), "w", encoding="latin-1", newline="") as file:
        file.write(text)


def near(a, b):
    """The same, as far as the twelve characters tell in which lp_solve and Clp write a number."""
    return a == b or abs(a - b) <= Fraction(max(abs(a), abs(b))) / 10**5


def difference(own, other):
    """What differs first, or None."""
    if list(own.rows) != list(other.rows):
        return "other rows"
    if list(own.columns) != list(other.columns):
        return "other columns"
    if own.columns != other.columns:
        return "other bounds"
    if own.costs.keys() != other.costs.keys() or not all(near(own.costs[c], other.costs[c]) for c in own.costs):
        return "other costs"
    for row, (letter, entries, side) in own.rows.items():
        peer = other.rows[row]
        if letter != peer[0]:
            return f"another sense of {row}"
        if not near(side, peer[2]):
            return f"another right side of {row}"
        if entries.keys() != peer[1].keys() or not all(near(entries[c], peer[1][c]) for c in entries):
            return f"other entries of {row}"
    return None


def compared(name, text, folder):
    """Prints what was found of a text; whether all agree."""
    try:
        own = program_of(text)
    except Refused as why:
        print(f"{name}: refused: {why}")
        return False
    told = []
    for peer, read in (("glpsol", by_glpsol), ("lp_solve", by_lp_solve), ("clp", by_clp)):
        found = difference(own, read(text, folder))
        told.append(f"{peer} {'the same' if found is None else found}")
    print(f"{name}: {len(own.rows)} rows, {len(own.columns)} columns, {own.entries()} entries; {', '.join(told)}", flush=True)
    return all(word.endswith("the same") for word in told)


def mutants(text):
    """Texts that don't say the program of this one: a sense exchanged, an entry doubled, FR left out, a right side at another row."""
    lines = text.split("\n")
    row = next(i for i, line in enumerate(lines) if re.match(r" E R", line))
    yield "a sense exchanged", lines[:row] + [lines[row].replace(" E ", " L ")] + lines[row + 1:]
    entry = next(i for i, line in enumerate(lines) if re.match(r" C[0-9]+ R", line))
    yield "an entry doubled", lines[:entry] + [lines[entry]] + lines[entry:]
    bound = next((i for i, line in enumerate(lines) if line.startswith(" FR ")), None)
    if bound is not None:
        yield "a bound left out", lines[:bound] + lines[bound + 1:]
    side = next((i for i, line in enumerate(lines) if line.startswith(" RHS ")), None)
    if side is not None:
        taken = {line.split()[1] for line in lines if line.startswith(" RHS ")}
        other = next(line.split()[1] for line in lines if re.match(r" [ELG] R", line) and line.split()[1] not in taken)
        yield "a right side at another row", lines[:side] + [re.sub(r"R[0-9]+", other, lines[side])] + lines[side + 1:]


def changed(name, text):
    """Whether each mutant is refused or says another program."""
    own = program_of(text)
    fine = True
    for what, lines in mutants(text):
        try:
            same = difference(own, program_of("\n".join(lines))) is None
        except Refused:
            same = False
        if same:
            print(f"{name}: {what} makes no difference")
            fine = False
    return fine


def written(program, path):
    return subprocess.run([program, "mps", path], capture_output=True, check=True).stdout.decode("latin-1")


def written_texts(program, examples, folder):
    """The texts that the program writes of the examples, and of files that it makes."""
    for file in sorted(os.listdir(examples)):
        if file.endswith(".dat"):
            yield file, written(program, os.path.join(examples, file))
    for size in (3, 4, 5, 6, 8, 10, 12, 20):
        path = os.path.join(folder, f"made-{size}.dat")
        with open(path, "wb") as file:
            file.write(subprocess.run([program, "make", str(size)], capture_output=True, check=True).stdout)
        yield f"made-{size}.dat", written(program, path)


def given_texts(paths):
    for path in paths:
        with open(path, encoding="latin-1", newline="") as file:
            yield path, file.read()


def main():
    if sys.argv[1] == "--written":
        folder = sys.argv[4]
        texts = written_texts(sys.argv[2], sys.argv[3], folder)
    else:
        folder = sys.argv[2]
        texts = given_texts(sys.argv[3:])
    fine = True
    for name, text in texts:
        fine = compared(name, text, folder) and changed(name, text) and fine
    sys.exit(0 if fine else 1)


main()

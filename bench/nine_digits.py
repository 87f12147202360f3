"""Data files whose numbers have nine decimals: nine_digits.py FILE SEED

Writes the data file FILE with each number of twelve parameters moved by up to 2 per cent, at nine decimals, to standard output. 0, -1 and numbers from
99,999 on stand for something else than a quantity, and stay. Fractions of time stay at most 1. The same seed gives the same text.
"""
import random
import re
import sys

PARAMETERS = {
    "InputActivityRatio", "CapacityFactor", "SpecifiedDemandProfile", "SpecifiedAnnualDemand", "AccumulatedAnnualDemand", "CapitalCost", "FixedCost",
    "VariableCost", "YearSplit", "EmissionActivityRatio", "AvailabilityFactor", "ResidualCapacity",
}
AT_MOST_ONE = {"CapacityFactor", "AvailabilityFactor"}
STANDS_FOR_NO_LIMIT = 99999
HEAD = re.compile(r"param\s+(?:default\s+\S+\s*:\s*)?(\w+)")


def varied(word, name, chance):
    """A number of a parameter, moved; any other word as it is."""
    try:
        value = float(word)
    except ValueError:
        return word
    if value in (0, -1) or abs(value) >= STANDS_FOR_NO_LIMIT:
        return word
    moved = value * (1 + chance.uniform(-0.02, 0.02))
    return f"{min(moved, 1) if name in AT_MOST_ONE else moved:.9f}"


def is_values(line):
    """Whether a line has values: no head, no line of columns or of a slice, and not the end of a statement alone."""
    text = line.strip()
    return text not in ("", ";") and ":" not in text and not text.startswith(("[", "#", "set ", "end"))


def moved_line(line, name, in_table, chance):
    """A line of values: in a table the first word is a member, in a list the last one is the value."""
    text = line.strip()
    end = " ;" if text.endswith(";") else ""
    words = text.rstrip("; ").split()
    kept = 1 if in_table else len(words) - 1
    return " ".join(words[:kept] + [varied(word, name, chance) for word in words[kept:]]) + end + "\n"


def main():
    path, chance = sys.argv[1], random.Random(int(sys.argv[2]))
    name, in_table = "", False
    with open(path) as file:
        for line in file:
            head = HEAD.match(line.strip())
            if head:
                name, in_table = head.group(1), False
            elif ":" in line:
                in_table = True
            elif name in PARAMETERS and is_values(line):
                line = moved_line(line, name, in_table, chance)
            sys.stdout.write(line)


main()

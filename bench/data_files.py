"""Reads a data file as `docs/DATA.md` says, for the scripts of this folder: sets, defaults and values, as fractions.

It reads files that the program accepts, and doesn't say what is wrong with others. Numbers are rounded to whole billionths, as the
program reads them.
"""

import re
from fractions import Fraction

R, T, F, E, M, L, Y = "REGION", "TECHNOLOGY", "FUEL", "EMISSION", "MODE_OF_OPERATION", "TIMESLICE", "YEAR"
SETS = [R, T, F, E, M, L, Y, "STORAGE", "SEASON", "DAYTYPE", "DAILYTIMEBRACKET"]
# the parameters that the equations use, with the sets of their subscripts
USED = {
    "YearSplit": [L, Y],
    "DiscountRate": [R],
    "DepreciationMethod": [R],
    "TradeRoute": [R, R, F, Y],
    "SpecifiedAnnualDemand": [R, F, Y],
    "SpecifiedDemandProfile": [R, F, L, Y],
    "AccumulatedAnnualDemand": [R, F, Y],
    "CapacityToActivityUnit": [R, T],
    "CapacityFactor": [R, T, L, Y],
    "AvailabilityFactor": [R, T, Y],
    "OperationalLife": [R, T],
    "ResidualCapacity": [R, T, Y],
    "InputActivityRatio": [R, T, F, M, Y],
    "OutputActivityRatio": [R, T, F, M, Y],
    "CapitalCost": [R, T, Y],
    "VariableCost": [R, T, M, Y],
    "FixedCost": [R, T, Y],
    "CapacityOfOneTechnologyUnit": [R, T, Y],
    "TotalAnnualMaxCapacity": [R, T, Y],
    "TotalAnnualMinCapacity": [R, T, Y],
    "TotalAnnualMaxCapacityInvestment": [R, T, Y],
    "TotalAnnualMinCapacityInvestment": [R, T, Y],
    "TotalTechnologyAnnualActivityUpperLimit": [R, T, Y],
    "TotalTechnologyAnnualActivityLowerLimit": [R, T, Y],
    "TotalTechnologyModelPeriodActivityUpperLimit": [R, T],
    "TotalTechnologyModelPeriodActivityLowerLimit": [R, T],
    "ReserveMarginTagTechnology": [R, T, Y],
    "ReserveMarginTagFuel": [R, F, Y],
    "ReserveMargin": [R, Y],
    "RETagTechnology": [R, T, Y],
    "RETagFuel": [R, F, Y],
    "REMinProductionTarget": [R, Y],
    "EmissionActivityRatio": [R, T, E, M, Y],
    "EmissionsPenalty": [R, E, Y],
    "AnnualExogenousEmission": [R, E, Y],
    "AnnualEmissionLimit": [R, E, Y],
    "ModelPeriodExogenousEmission": [R, E],
    "ModelPeriodEmissionLimit": [R, E],
}
WHERE_STATED = {"DiscountRateIdv": [R, T]}
# those that are read and not used, with how many subscripts they have
UNUSED = {
    "Conversionls": 2,
    "Conversionld": 2,
    "Conversionlh": 2,
    "DaySplit": 2,
    "DaysInDayType": 3,
    "ResultsPath": 0,
    "TechnologyToStorage": 4,
    "TechnologyFromStorage": 4,
    "StorageLevelStart": 2,
    "StorageMaxChargeRate": 2,
    "StorageMaxDischargeRate": 2,
    "MinStorageCharge": 3,
    "OperationalLifeStorage": 2,
    "CapitalCostStorage": 3,
    "ResidualStorageCapacity": 3,
    "DiscountRateStorage": 2,
}
COUNTS = {name: len(sets) for name, sets in [*USED.items(), *WHERE_STATED.items()]} | UNUSED

TOKEN = re.compile(r"""(\s+|\#[^\n]*|/\*.*?\*/)|'((?:[^'\n]|'')*)'|"((?:[^"\n]|"")*)"|(:=|[][();:,*])|([A-Za-z0-9+\-._]+)""", re.S)
SIGN, BARE, QUOTED = "sign", "bare", "quoted"


def tokens_of(text):
    """The tokens of a text to its closing `end ;`, but for commas: each a kind and what it names or says."""
    tokens, at = [], 0
    while at < len(text):
        found = TOKEN.match(text, at)
        at = found.end()
        _, single, double, sign, bare = found.groups()
        if single is not None:
            tokens.append((QUOTED, single.replace("''", "'")))
        elif double is not None:
            tokens.append((QUOTED, double.replace('""', '"')))
        elif bare is not None:
            tokens.append((BARE, (bare.lstrip("0") or "0") if bare.isdigit() else bare))
        elif sign is not None and sign != ",":
            tokens.append((SIGN, sign))
        if tokens[-2:] == [(BARE, "end"), (SIGN, ";")] and (len(tokens) == 2 or tokens[-3] == (SIGN, ";")):
            return tokens[:-2]
    return tokens


def billionths(value):
    """The nearest whole number of billionths, halves away from 0."""
    size = (2 * 10**9 * abs(value.numerator) + value.denominator) // (2 * value.denominator)
    return -size if value < 0 else size


class Data:
    """`sets` by their words, in the order of the file; `defaults` by parameter; `values` by parameter and members; `stated`, the parameters
    that have a statement; and how many numbers of the text were rounded."""

    def __init__(self, path):
        self.sets, self.defaults, self.values = {name: [] for name in SETS}, {}, {}
        self.stated, self.rounded = set(), 0
        statement = []
        with open(path, encoding="latin-1", newline="") as text:
            for token in tokens_of(text.read()):
                if token == (SIGN, ";"):
                    self.read(statement)
                    statement = []
                else:
                    statement.append(token)

    def read(self, statement):
        words = [word for _, word in statement]
        if words[0] == "set":
            self.sets[words[1]] = [word for kind, word in statement[2:] if kind != SIGN]
        elif words[0] == "param":
            self.read_param(statement[1:])

    def read_param(self, statement):
        """`NAME default V records`, or `default V : NAME := records`."""
        default, rest = None, statement
        is_tabbing = rest[0] == (SIGN, ":") or rest[0] == (BARE, "default")
        if not is_tabbing:
            name, rest = rest[0][1], rest[1:]
        if rest[:1] == [(BARE, "default")]:
            default, rest = rest[1][1], rest[2:]
        if is_tabbing:
            name, rest = rest[1][1], rest[2:]
        self.stated.add(name)
        if default is not None:
            self.defaults[name] = self.number(default)
        self.fill(name, rest)

    def number(self, word):
        value = Fraction(word)
        whole = billionths(value)
        self.rounded += value * 10**9 != whole
        return Fraction(whole, 10**9)

    def fill(self, name, tokens):
        pattern, turned, at = [None] * COUNTS[name], False, 0
        while at < len(tokens):
            if tokens[at] == (SIGN, ":="):
                at += 1
            elif tokens[at] == (SIGN, "["):
                end = tokens.index((SIGN, "]"), at)
                pattern = [None if token == (SIGN, "*") else token[1] for token in tokens[at + 1 : end]]
                at = end + 1
            elif tokens[at] == (SIGN, "("):
                turned, at = True, at + 3
            elif tokens[at] == (SIGN, ":"):
                at = self.fill_table(name, pattern, turned, tokens, at + 1)
                turned = False
            else:
                free = pattern.count(None)
                self.put(name, pattern, [word for _, word in tokens[at : at + free]], tokens[at + free])
                at += free + 1

    def fill_table(self, name, pattern, turned, tokens, at):
        """The table whose columns begin at this token; where it ends."""
        end = tokens.index((SIGN, ":="), at)
        columns = [word for _, word in tokens[at:end]]
        at = end + 1
        while at < len(tokens) and tokens[at][0] != SIGN:
            row = tokens[at][1]
            for place, column in enumerate(columns):
                self.put(name, pattern, [column, row] if turned else [row, column], tokens[at + 1 + place])
            at += 1 + len(columns)
        return at

    def put(self, name, pattern, members, value):
        members = iter(members)
        index = tuple(next(members) if part is None else part for part in pattern)
        if value != (BARE, ".") and name != "ResultsPath":
            self.values[name, index] = self.number(value[1])

    def sets_of(self, name):
        """The sets of the subscripts of a parameter that these data use; none of another word."""
        return USED.get(name) or (WHERE_STATED.get(name) if name in self.stated else None)

    def of(self, name, *members):
        return self.values.get((name, members), self.defaults.get(name, Fraction(0)))

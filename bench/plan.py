"""Plans and multipliers as the files that `osemosys check` reads, over the rows of a text that `osemosys mps` wrote.

plan.py solver MPS SOLUTION  writes the plan that glpsol found (--write SOLUTION), its decimals cut at nine places.
plan.py exact MPS SOLUTION   takes of that plan what is chosen, RateOfActivity and Trade cut so too and NewCapacity rounded up at nine
                             places, and computes all other variables from the equations that define them."""

import sys
from decimal import ROUND_CEILING, ROUND_DOWN, Decimal
from fractions import Fraction

HEADER = "NAME,REGION,REGION2,TIMESLICE,TECHNOLOGY,FUEL,EMISSION,MODE,YEAR,VALUE"
LETTERS = "rRltfemy"  # the sets of subscripts in the order of the fields: R is the other region
# Each equation with its subscripts and the variable that it defines, if one, which has the same.
EQUATIONS = """
EQ_SpecifiedDemand rlfy RateOfDemand, CAa1 rty AccumulatedNewCapacity, CAa2 rty TotalCapacityAnnual,
CAa3 rlty RateOfTotalActivity, CAa4 rlty, CAb1 rty, EBa1 rltfmy RateOfProductionByTechnologyByMode,
EBa2 rltfy RateOfProductionByTechnology, EBa3 rlfy RateOfProduction, EBa4 rltfmy RateOfUseByTechnologyByMode,
EBa5 rltfy RateOfUseByTechnology, EBa6 rlfy RateOfUse, EBa7 rlfy Production, EBa8 rlfy Use, EBa9 rlfy Demand, EBa10 rRlfy,
EBa11 rlfy, EBb1 rfy ProductionAnnual, EBb2 rfy UseAnnual, EBb3 rRfy TradeAnnual, EBb4 rfy, Acc1 rltfy ProductionByTechnology,
Acc2 rltfy UseByTechnology, Acc3 rtmy TotalAnnualTechnologyActivityByMode, CC1 rty CapitalInvestment,
CC2 rty DiscountedCapitalInvestment, SV1 rty SalvageValue, SV2 rty SalvageValue, SV3 rty SalvageValue,
SV4 rty DiscountedSalvageValue, OC1 rty AnnualVariableOperatingCost, OC2 rty AnnualFixedOperatingCost, OC3 rty OperatingCost,
OC4 rty DiscountedOperatingCost, E1 rtemy AnnualTechnologyEmissionByMode, E2 rtey AnnualTechnologyEmission,
E3 rtey AnnualTechnologyEmissionPenaltyByEmission, E4 rty AnnualTechnologyEmissionsPenalty,
E5 rty DiscountedTechnologyEmissionsPenalty, TDC1 rty TotalDiscountedCostByTechnology, TDC2 ry TotalDiscountedCost,
Acc4 r ModelPeriodCostByRegion, TCC1 rty, TCC2 rty, NCC1 rty, NCC2 rty, AAC1 rty TotalTechnologyAnnualActivity, AAC2 rty,
AAC3 rty, TAC1 rt TotalTechnologyModelPeriodActivity, TAC2 rt, TAC3 rt, RM1 ry TotalCapacityInReserveMargin,
RM2 rly DemandNeedingReserveMargin, RM3 rly, RE1 rtfy ProductionByTechnologyAnnual, RE2 ry TotalREProductionAnnual,
RE3 ry RETotalProductionOfTargetFuelAnnual, RE4 ry, RE5 rtfy UseByTechnologyAnnual, E6 rey AnnualEmissions,
E7 re ModelPeriodEmissions, E8 rey, E9 re
"""
CHOSEN = {"RateOfActivity": "rltmy", "NewCapacity": "rty", "Trade": "rRlfy"}
ITEMS = [item.split() for item in EQUATIONS.replace("\n", " ").split(",")]
SUBSCRIPTS = CHOSEN | {item[0]: item[1] for item in ITEMS} | {item[2]: item[1] for item in ITEMS if len(item) > 2}
DEFINED = {item[0]: item[2] for item in ITEMS if len(item) > 2}


class Model:
    """Rows and columns of a text of `osemosys mps`, by name and in order: entries, right sides, and what each row defines."""

    def __init__(self, path):
        self.rows, self.columns, self.cost = [], [], {}
        name = section = ""
        with open(path) as file:
            for line in file:
                words = line.split()
                if line[0] == "*":
                    name = words[1]
                    (self.rows if section == "ROWS" else self.columns).append(name)
                elif line[0] != " ":
                    section = words[0]
                    if section == "COLUMNS":
                        self.entries, self.right = [{} for _ in self.rows], [0] * len(self.rows)
                elif section == "COLUMNS" and words[1] == "COST":
                    self.cost[name] = int(words[2])
                elif section == "COLUMNS":
                    self.entries[int(words[1][1:]) - 1][name] = int(words[2])
                elif section == "RHS":
                    self.right[int(words[1][1:]) - 1] = int(words[2])

    def defined(self, row):
        """The variable that the row of this number defines; none where it defines none."""
        word, rest = self.rows[row].split("[")
        return DEFINED[word] + "[" + rest if word in DEFINED else None

    def completed(self, chosen):
        """The plan with these values of what is chosen, and the others as their equations say. Definitions come one after another."""
        plan = dict(chosen)
        for i, entries in enumerate(self.entries):
            found = self.defined(i)
            if found:
                others = sum(plan[v] * n for v, n in entries.items() if v != found)
                plan[found] = (self.right[i] - others) / Fraction(entries[found])
        return plan

    def carried(self):
        """Multipliers with which each defined variable's column is exactly its cost, the inequalities having 0: in this order backwards,
        the rows that use a variable come before the one that defines it."""
        multipliers, columns = [Fraction(0)] * len(self.rows), dict.fromkeys(self.columns, Fraction(0))
        for i in reversed(range(len(self.rows))):
            found = self.defined(i)
            if found:
                multipliers[i] = (self.cost.get(found, 0) - columns[found]) / self.entries[i][found]
                for v, n in self.entries[i].items():
                    columns[v] += multipliers[i] * n
        return dict(zip(self.rows, multipliers))


def record(name, value):
    """The record of a variable or a row: its word, a field for each set of subscripts, and its value."""
    word, rest = name.rstrip("]").split("[")
    members = dict(zip(SUBSCRIPTS[word], rest.split(",")))
    return ",".join([word] + [members.get(letter, "") for letter in LETTERS] + [str(value)])


def write(path, values):
    with open(path, "w") as file:
        file.write("\n".join([HEADER] + [record(name, value) for name, value in values.items()]) + "\n")


def solution(model, path, rounded_up):
    """The values of glpsol's solution, their decimals cut at nine places, and those of one kind rounded up there."""
    with open(path) as file:
        found = [Decimal(line.split()[3]) for line in file if line.startswith("j ")]
    return {name: nine_places(value, name.startswith(rounded_up + "[")) for name, value in zip(model.columns, found, strict=True)}


def nine_places(value, up):
    return value.quantize(Decimal("1e-9"), rounding=ROUND_CEILING if up else ROUND_DOWN) + 0


def main():
    form, rows, found = sys.argv[1:4]
    model = Model(rows)
    if form == "exact":
        values = solution(model, found, rounded_up="NewCapacity")
        plan = model.completed({name: Fraction(value) for name, value in values.items() if name.split("[")[0] in CHOSEN})
    else:
        plan = {name: f"{value:f}" for name, value in solution(model, found, rounded_up="none").items()}
    write("/dev/stdout", {name: plan[name] for name in model.columns})


if __name__ == "__main__":
    main()

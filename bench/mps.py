"""Runs the program on data files that it makes, and glpsol on the same files by mps.mod, which makes the same rows. Prints for both the
processor time and the most memory, how many times as much glpsol takes, and whether glpsol reads the program's text."""

import os
import subprocess
import sys

from choosing import chosen

MIB = 1 << 20
SETS = ("REGION TECHNOLOGY FUEL EMISSION MODE_OF_OPERATION TIMESLICE YEAR STORAGE SEASON DAYTYPE DAILYTIMEBRACKET").split()
PARAMS = (
    "YearSplit DiscountRate DepreciationMethod TradeRoute SpecifiedAnnualDemand SpecifiedDemandProfile AccumulatedAnnualDemand "
    "CapacityToActivityUnit CapacityFactor AvailabilityFactor OperationalLife ResidualCapacity InputActivityRatio OutputActivityRatio "
    "CapitalCost VariableCost FixedCost CapacityOfOneTechnologyUnit TotalAnnualMaxCapacity TotalAnnualMinCapacity "
    "TotalAnnualMaxCapacityInvestment TotalAnnualMinCapacityInvestment TotalTechnologyAnnualActivityUpperLimit "
    "TotalTechnologyAnnualActivityLowerLimit TotalTechnologyModelPeriodActivityUpperLimit TotalTechnologyModelPeriodActivityLowerLimit "
    "ReserveMarginTagTechnology ReserveMarginTagFuel ReserveMargin RETagTechnology RETagFuel REMinProductionTarget EmissionActivityRatio "
    "EmissionsPenalty AnnualExogenousEmission AnnualEmissionLimit ModelPeriodExogenousEmission ModelPeriodEmissionLimit"
).split()
DEFAULTS = dict.fromkeys(PARAMS, "0")
DEFAULTS.update(YearSplit="0.25", DiscountRate="0.05", DepreciationMethod="1", CapacityToActivityUnit="1", CapacityFactor="1",
                AvailabilityFactor="1", OperationalLife="20", TotalAnnualMaxCapacity="-1", TotalAnnualMaxCapacityInvestment="-1",
                TotalTechnologyAnnualActivityUpperLimit="-1", AnnualEmissionLimit="-1", ModelPeriodEmissionLimit="-1")


def data(members, records):
    """A data section with these members of sets and these records of parameters."""
    out = ["data;\n"]
    for name in SETS:
        out.append(f"set {name} :={''.join(' ' + member for member in members.get(name, []))} ;\n")
    for name in PARAMS:
        out.append(f"param {name} default {DEFAULTS[name]} :=\n")
        out.extend(f"{record}\n" for record in records.get(name, []))
        out.append(";\n")
    out.append("end;\n")
    return "".join(out)


def numbered(letter, count):
    return [f"{letter}{i}" for i in range(1, count + 1)]


def few_ratios(fuels, modes, slices):
    """One region with many technologies and timeslices, and ten ratios that aren't 0."""
    members = {"REGION": ["R"], "TECHNOLOGY": numbered("T", 500), "FUEL": numbered("F", fuels), "MODE_OF_OPERATION": numbered("", modes),
               "TIMESLICE": numbered("S", slices), "YEAR": ["2020", "2021"]}
    ratios = [f"R T{i} F{1 + i % fuels} {1 + i % modes} 2020 1" for i in range(1, 11)]
    return data(members, {"OutputActivityRatio": ratios})


def made(last):
    """Six technologies, four fuels, four timeslices and the years from 2020 to 2017 + last: mines and imports, plants, wind, boilers, and an
    emission with a price."""
    names = [str(y) for y in range(2020, 2018 + last)]
    members = {"REGION": ["R1"], "TECHNOLOGY": "MINE IMPORT PPCOAL PPGAS WIND BOILER".split(), "FUEL": "COAL GAS ELC HEAT".split(),
               "EMISSION": ["CO2"], "MODE_OF_OPERATION": ["1"], "TIMESLICE": numbered("S", 4), "YEAR": names}
    plants = "PPCOAL PPGAS WIND BOILER".split()
    of_each_year = {
        "SpecifiedDemandProfile": [f"ELC S{l} {{}} {v}" for l, v in ((1, "0.2"), (2, "0.3"), (3, "0.3"), (4, "0.2"))],
        "AccumulatedAnnualDemand": ["HEAT {} 10"],
        "CapacityFactor": [f"WIND S{l} {{}} {v}" for l, v in ((1, "0.2"), (2, "0.4"), (3, "0.3"), (4, "0.3"))],
        "AvailabilityFactor": ["PPCOAL {} 0.9"],
        "ResidualCapacity": ["MINE {} 10000", "IMPORT {} 10000"],
        "InputActivityRatio": ["PPCOAL COAL 1 {} 2.5", "PPGAS GAS 1 {} 2", "BOILER GAS 1 {} 1.25"],
        "OutputActivityRatio": [f"{t} {f} 1 {{}} 1" for t, f in zip(members["TECHNOLOGY"], "COAL GAS ELC ELC ELC HEAT".split())],
        "CapitalCost": [f"{t} {{}} {v}" for t, v in zip(plants, (50, 20, 60, 5))],
        "VariableCost": ["MINE 1 {} 2", "IMPORT 1 {} 5", "PPCOAL 1 {} 1", "PPGAS 1 {} 1"],
        "FixedCost": [f"{t} {{}} {v}" for t, v in zip(plants, (2, 1, 2, 1))],
        "TotalAnnualMaxCapacity": ["WIND {} 10"],
        "EmissionActivityRatio": ["PPCOAL CO2 1 {} 0.9", "PPGAS CO2 1 {} 0.4", "BOILER CO2 1 {} 0.25"],
        "EmissionsPenalty": ["CO2 {} 2"],
    }
    records = {name: ["R1 " + line.format(y) for y in names for line in lines] for name, lines in of_each_year.items()}
    records["SpecifiedAnnualDemand"] = [f"R1 ELC {y} {40 + 4 * k}" for k, y in enumerate(names)]
    return data(members, records)


def three_regions():
    """A large model of the usual kind: 3 regions, 20 technologies, 30 years and 24 timeslices, with costs, emissions and limits."""
    regions, technologies, fuels = numbered("R", 3), numbered("T", 20), numbered("F", 6)
    years, slices = [str(2020 + k) for k in range(30)], numbered("S", 24)
    members = {"REGION": regions, "TECHNOLOGY": technologies, "FUEL": fuels, "EMISSION": ["CO2", "NOX"], "MODE_OF_OPERATION": ["1"],
               "TIMESLICE": slices, "YEAR": years}
    plants = [(r, i, t, y) for r in regions for i, t in enumerate(technologies) for y in years]
    demands = [(r, i, f, y) for r in regions for i, f in enumerate(fuels) for y in years]
    records = {
        "YearSplit": [f"{l} {y} {'0.0416' if i % 3 else '0.0418'}" for i, l in enumerate(slices) for y in years],
        "TradeRoute": [f"R1 R2 {f} {y} 0.95" for f in fuels for y in years] + [f"R2 R1 {f} {y} 0.95" for f in fuels for y in years],
        "SpecifiedAnnualDemand": [f"{r} {f} {y} {100 + 3 * i}.5" for r, i, f, y in demands],
        "SpecifiedDemandProfile": [f"{r} {f} {l} {y} 0.0{410 + i}" for r, i, f, y in demands for l in slices],
        "CapacityToActivityUnit": [f"{r} {t} 31.536" for r in regions for t in technologies],
        "CapacityFactor": [f"{r} {t} {l} {y} 0.{25 + i}" for r, i, t, y in plants if i % 4 == 0 for l in slices],
        "AvailabilityFactor": [f"{r} {t} {y} 0.9" for r, _, t, y in plants],
        "ResidualCapacity": [f"{r} {t} {y} {i}.25" for r, i, t, y in plants],
        "InputActivityRatio": [f"{r} {t} F{1 + (i + 1) % 6} 1 {y} 2.5" for r, i, t, y in plants],
        "OutputActivityRatio": [f"{r} {t} F{1 + i % 6} 1 {y} 1" for r, i, t, y in plants],
        "CapitalCost": [f"{r} {t} {y} {900 + 50 * i}" for r, i, t, y in plants],
        "VariableCost": [f"{r} {t} 1 {y} 2.{i}" for r, i, t, y in plants],
        "FixedCost": [f"{r} {t} {y} 20" for r, _, t, y in plants],
        "TotalAnnualMaxCapacity": [f"{r} {t} {y} 500" for r, i, t, y in plants if i % 2],
        "ReserveMarginTagTechnology": [f"{r} {t} {y} 1" for r, _, t, y in plants],
        "ReserveMarginTagFuel": [f"{r} F1 {y} 1" for r in regions for y in years],
        "ReserveMargin": [f"{r} {y} 1.15" for r in regions for y in years],
        "RETagTechnology": [f"{r} {t} {y} 1" for r, i, t, y in plants if i % 4 == 0],
        "RETagFuel": [f"{r} F1 {y} 1" for r in regions for y in years],
        "REMinProductionTarget": [f"{r} {y} 0.2" for r in regions for y in years],
        "EmissionActivityRatio": [f"{r} {t} {e} 1 {y} 0.{3 + i % 5}" for r, i, t, y in plants if i % 4 for e in ("CO2", "NOX")],
        "EmissionsPenalty": [f"{r} CO2 {y} 25" for r in regions for y in years],
        "AnnualEmissionLimit": [f"{r} NOX {y} 4000" for r in regions for y in years],
    }
    return data(members, records)


def near_the_limit():
    """Nearly as many entries as the program takes: 4,000,000."""
    members = {"REGION": numbered("R", 2), "TECHNOLOGY": numbered("T", 80), "FUEL": numbered("F", 6), "MODE_OF_OPERATION": ["1"],
               "TIMESLICE": numbered("S", 59), "YEAR": [str(2020 + k) for k in range(24)]}
    ratios = [f"R{r} T{t} F{1 + t % 6} 1 {2020 + k} 1" for r in (1, 2) for t in range(1, 81) for k in range(24)]
    return data(members, {"OutputActivityRatio": ratios})


FILES = {
    "200 fuels, 20 modes, 300 timeslices": lambda: few_ratios(200, 20, 300),
    "200 fuels, 20 modes, 60 timeslices": lambda: few_ratios(200, 20, 60),
    "10 fuels, 1 mode, 60 timeslices": lambda: few_ratios(10, 1, 60),
    "made file of 20": lambda: made(20),
    "made file of 60": lambda: made(60),
    "made file of 122": lambda: made(122),
    "3 regions, 30 years, 24 timeslices": three_regions,
    "near the limit": near_the_limit,
}
LONGEST = 120  # seconds that glpsol may take


def measured(command, output):
    """The status, the processor time in seconds and the most memory in bytes."""
    with open(output, "wb") as file:
        process = subprocess.Popen(command, stdout=file)
        _, status, usage = os.wait4(process.pid, 0)
    return os.waitstatus_to_exitcode(status), usage.ru_utime + usage.ru_stime, usage.ru_maxrss * 1024


def is_read(output):
    """Whether glpsol reads the text as free MPS, with its rows and the cost, its columns and its entries."""
    section, rows, columns, entries = "", 1, 0, 0
    with open(output) as file:
        for line in file:
            if line[0] not in " *":
                section = line.split()[0]
            elif section == "ROWS":
                rows += line[:3] in (" E ", " L ", " G ")
            elif section == "COLUMNS":
                columns += line[0] == "*"
                entries += line[0] == " "
    answer = subprocess.run(["glpsol", "--check", "--freemps", output], capture_output=True, text=True).stdout
    return f"{rows} rows, {columns} columns, {entries} non-zeros" in answer


def peer(path, folder):
    """The processor time and the most memory in which glpsol makes the same rows of the same data and writes them as free MPS, and its
    rows, columns and entries without the cost; none where it takes too long."""
    model = os.path.join(os.path.dirname(os.path.abspath(__file__)), "mps.mod")
    command = ["timeout", str(LONGEST), "glpsol", "--check", "--math", model, "--data", path, "--wfreemps", folder + "/peer.mps"]
    answer = folder + "/answer"
    status, took, most = measured(command, answer)
    if status != 0:
        return None
    with open(answer) as file:
        told = dict(line.split("=") for line in file if line.startswith("Number of "))
    told = {name.strip(): int(count) for name, count in told.items()}
    entries = told["Number of non-zeros (matrix)"] - told["Number of non-zeros (objrow)"]
    return took, most, (told["Number of rows"] - 1, told["Number of columns"], entries)


def least_cost(words, solution):
    """The least cost that glpsol finds, called with these words and writing to this file; None where there is none."""
    subprocess.run(["glpsol", *words, "-w", solution], stdout=subprocess.DEVNULL, stderr=subprocess.DEVNULL, check=False)
    with open(solution) as file:
        for line in file:
            parts = line.split()
            if parts[:2] == ["s", "bas"]:
                return float(parts[-1]) if parts[4:6] == ["f", "f"] else None
    sys.exit("glpsol came to no end")


def counts(output):
    """The rows, columns and entries of the program's text, without the cost."""
    rows = columns = entries = 0
    with open(output) as file:
        section = ""
        for line in file:
            if line[0] not in " *":
                section = line.strip()
            elif section == "ROWS":
                rows += line.startswith("*")
            elif section == "COLUMNS":
                columns += line.startswith("*")
                entries += line.startswith(" ") and " COST " not in line
    return rows, columns, entries


def main():
    program, folder = sys.argv[1:3]
    names = chosen(FILES, sys.argv[3:])
    print(f"{'':38} {'':>8} {'the program':^40} {'glpsol':^18} {'glpsol to program':^18}")
    print(f"{'file':38} {'entries':>8} {'MB out':>7} {'seconds':>8} {'memory':>9} {'bytes/entry':>12}  {'seconds':>8} {'memory':>9}"
          f" {'time':>8} {'memory':>8}  text read, same counts")
    for name in names:
        path, output = folder + "/data", folder + "/mps"
        with open(path, "w") as file:
            file.write(FILES[name]())
        status, took, most = measured([program, "mps", path], output)
        if status != 0:
            with open(output) as file:
                print(f"{name:38} status {status}: {file.readline().strip()}", flush=True)
            continue
        size, ours = os.path.getsize(output) / 1e6, counts(output)
        line = f"{name:38} {ours[2]:8} {size:7.1f} {took:8.2f} {most / MIB:5.0f} MiB {most / max(ours[2], 1):12.0f}"
        other = peer(path, folder)
        if other is None:
            line += f"  {f'over {LONGEST}':>8} {'':>9} {f'> {LONGEST / took:.1f}':>8} {'':>8}"
        else:
            line += f"  {other[0]:8.2f} {other[1] / MIB:5.0f} MiB {other[0] / took:8.1f} {other[1] / most:8.1f}"
        same = "not known" if other is None else "yes" if other[2] == ours else f"no: glpsol has {other[2]}, the program {ours}"
        print(f"{line}  {'yes' if is_read(output) else 'no'}, {same}", flush=True)


if __name__ == "__main__":
    main()

"""Makes models as planners have them, from a seed: electricity from fuels and from wind, sun and water, with demand by timeslice."""
import random

TECHNOLOGIES = ["GASIMP", "PPGAS", "WIND", "COALMIN", "PPCOAL", "SOLAR", "HYDRO", "BACKSTOP"]
CAPITAL = {"PPGAS": 900, "WIND": 1400, "PPCOAL": 1800, "SOLAR": 1100, "HYDRO": 2500, "BACKSTOP": 9000}
VARIABLE = {"GASIMP": 6.5, "COALMIN": 2.2, "PPGAS": 0.5, "PPCOAL": 0.8, "BACKSTOP": 50}
RENEWABLE = ("WIND", "SOLAR", "HYDRO")

CASES = {
    "trade": dict(regions=2, trade=True),
    "trade with losses": dict(regions=3, trade=True, losses=True),
    "four digits and losses": dict(regions=2, trade=True, losses=True, digits=4),
    "fixed activities": dict(fixed=True),
    "fixed activities and losses": dict(regions=2, fixed=True, trade=True, losses=True),
    "equal limits": dict(equal=True),
    "equal limits and trade": dict(regions=2, equal=True, trade=True),
    "all renewable": dict(renewable=1),
    "all renewable, two regions": dict(regions=2, renewable=1, trade=True),
    "half renewable, emission limit": dict(renewable=0.5, limit=20),
    "reserve": dict(reserve=True, renewable=0.2),
    "five digits": dict(digits=5),
    "seven digits": dict(digits=7),
    "nine digits": dict(digits=9),
    "nine digits, trade and losses": dict(regions=2, digits=9, trade=True, losses=True, reserve=True),
    "emission penalty": dict(penalty=25.5, limit=15),
    "capacity factors of 0": dict(dark=True, slices=8),
    "straight line depreciation": dict(method=2, years=8),
    "no discounting": dict(discount=0),
    "ten years": dict(years=10, slices=6, copies=2, reserve=True, renewable=0.3),
    "no plan": dict(impossible=True),
    "no plan, all renewable": dict(impossible=True, renewable=1, regions=2),
    "three regions, twenty years": dict(regions=3, years=20, slices=8, trade=True, losses=True, reserve=True),
    "thirty years": dict(regions=1, years=30, slices=12, copies=2, renewable=0.3),
    "two regions, twenty years": dict(regions=2, years=20, slices=12, trade=True, limit=150),
    "three regions, 16 technologies": dict(regions=3, years=20, slices=8, copies=2, trade=True, losses=True, reserve=True, renewable=0.2),
}


def parts(source, count, least, most, digits):
    """So many decimals that sum up to 1."""
    raw = [source.uniform(least, most) for _ in range(count)]
    found = [round(x / sum(raw), digits) for x in raw]
    found[-1] = round(1 - sum(found[:-1]), digits)
    return found


def model(seed, regions=1, years=5, slices=4, digits=3, trade=False, losses=False, fixed=False, equal=False, renewable=None, limit=-1,
          reserve=False, discount=0.05, copies=1, dark=False, impossible=False, method=1, penalty=0):
    """The text of a data file."""
    source = random.Random(seed)
    places = [f"R{i}" for i in range(regions)]
    times = [2020 + i for i in range(years)]
    parts_of_year = [f"S{i}" for i in range(slices)]
    plants = [(name if copy == 0 else f"{name}{copy}", name) for copy in range(copies) for name in TECHNOLOGIES]
    lines = ["data;", f"set REGION := {' '.join(places)} ;", f"set TECHNOLOGY := {' '.join(name for name, _ in plants)} ;",
             "set FUEL := GAS COAL ELC ;", "set EMISSION := CO2 ;", "set MODE_OF_OPERATION := 1 ;",
             f"set TIMESLICE := {' '.join(parts_of_year)} ;", f"set YEAR := {' '.join(map(str, times))} ;", "set STORAGE := ;"]

    def told(x):
        return f"{x:.{digits}f}"

    def param(name, default, records=()):
        lines.append(f"param {name} default {default} :=")
        lines.extend(records)
        lines.append(";")

    def each(kinds, record):
        return [record(place, plant, year) for place in places for plant, kind in plants if kind in kinds for year in times]

    kind_of = dict(plants)
    splits = parts(source, slices, 1, 2, digits)
    param("YearSplit", 0, [f"{part} {year} {told(x)}" for part, x in zip(parts_of_year, splits) for year in times])
    param("DiscountRate", told(discount))
    param("DepreciationMethod", method)
    param("TradeRoute", 0, [f"{one} {other} ELC {year} {told(1 + source.uniform(0, 0.1)) if losses else 1}"
                            for one in places for other in places if one != other and trade for year in times])
    demand = {place: source.uniform(50, 200) for place in places}
    param("SpecifiedAnnualDemand", 0, [f"{place} ELC {year} {told(demand[place] * 1.02 ** i)}" for place in places for i, year in enumerate(times)])
    profile = parts(source, slices, 1, 3, digits)
    param("SpecifiedDemandProfile", 0, [f"{place} ELC {part} {year} {told(x)}" for place in places for part, x in zip(parts_of_year, profile) for year in times])
    param("AccumulatedAnnualDemand", 0)
    param("CapacityToActivityUnit", told(31.536))
    factors = []
    for place in places:
        for plant, kind in plants:
            for part in parts_of_year:
                ranges = {"WIND": (0.15, 0.5), "SOLAR": (0.05, 0.4), "HYDRO": (0.3, 0.6)}
                if kind in ranges:
                    x = 0 if dark and kind == "SOLAR" and source.random() < 0.5 else source.uniform(*ranges[kind])
                    factors.extend(f"{place} {plant} {part} {year} {told(x)}" for year in times)
    param("CapacityFactor", 1, factors)
    param("AvailabilityFactor", 1, each(("PPGAS", "PPCOAL"), lambda p, t, y: f"{p} {t} {y} {told(source.uniform(0.8, 0.95))}"))
    param("OperationalLife", 20, [f"{place} {plant} {source.choice([15, 25, 30])}" for place in places for plant, _ in plants])
    param("ResidualCapacity", 0, each(("PPCOAL", "HYDRO"), lambda p, t, y: f"{p} {t} {y} {told(source.uniform(0.5, 2))}"))
    needs = {"PPGAS": ("GAS", 1.8, 2.1), "PPCOAL": ("COAL", 2.4, 2.9)}
    param("InputActivityRatio", 0, each(needs, lambda p, t, y: f"{p} {t} {needs[kind_of[t]][0]} 1 {y} {told(source.uniform(*needs[kind_of[t]][1:]))}"))
    makes = {"GASIMP": "GAS", "COALMIN": "COAL"}
    param("OutputActivityRatio", 0, each(TECHNOLOGIES, lambda p, t, y: f"{p} {t} {makes.get(kind_of[t], 'ELC')} 1 {y} 1"))
    param("CapitalCost", 0, each(CAPITAL, lambda p, t, y: f"{p} {t} {y} {told(CAPITAL[kind_of[t]] * source.uniform(0.9, 1.1))}"))
    param("VariableCost", 0, each(VARIABLE, lambda p, t, y: f"{p} {t} 1 {y} {told(VARIABLE[kind_of[t]] * source.uniform(0.8, 1.2))}"))
    param("FixedCost", 0, each(CAPITAL, lambda p, t, y: f"{p} {t} {y} {told(CAPITAL[kind_of[t]] * 0.02)}"))
    param("CapacityOfOneTechnologyUnit", 0)
    param("TotalAnnualMaxCapacity", -1, each(CAPITAL, lambda p, t, y: f"{p} {t} {y} 0.001") if impossible else
          each(("HYDRO",), lambda p, t, y: f"{p} {t} {y} {told(source.uniform(3, 6))}"))
    param("TotalAnnualMinCapacity", 0)
    built = each(("WIND",), lambda p, t, y: f"{p} {t} {y} {told(source.uniform(0.1, 0.4))}") if equal else []
    param("TotalAnnualMaxCapacityInvestment", -1, built)
    param("TotalAnnualMinCapacityInvestment", 0, built)
    done = each(("PPGAS",), lambda p, t, y: f"{p} {t} {y} {told(source.uniform(5, 9))}") if fixed else []
    param("TotalTechnologyAnnualActivityUpperLimit", -1, done)
    param("TotalTechnologyAnnualActivityLowerLimit", 0, done)
    param("TotalTechnologyModelPeriodActivityUpperLimit", 0)
    param("TotalTechnologyModelPeriodActivityLowerLimit", 0)
    power = [f"{place} ELC {year} 1" for place in places for year in times]
    param("ReserveMarginTagTechnology", 0, each(CAPITAL, lambda p, t, y: f"{p} {t} {y} 1") if reserve else [])
    param("ReserveMarginTagFuel", 0, power if reserve else [])
    param("ReserveMargin", told(1.15) if reserve else 1)
    param("RETagTechnology", 0, each(RENEWABLE, lambda p, t, y: f"{p} {t} {y} 1") if renewable is not None else [])
    param("RETagFuel", 0, power if renewable is not None else [])
    param("REMinProductionTarget", 0, [f"{place} {year} {renewable}" for place in places for year in times] if renewable is not None else [])
    gives = {"GASIMP": 0.056, "COALMIN": 0.095}
    param("EmissionActivityRatio", 0, each(gives, lambda p, t, y: f"{p} {t} CO2 1 {y} {told(gives[kind_of[t]])}"))
    param("EmissionsPenalty", penalty)
    param("AnnualExogenousEmission", 0)
    param("AnnualEmissionLimit", limit)
    param("ModelPeriodExogenousEmission", 0)
    param("ModelPeriodEmissionLimit", -1)
    return "\n".join([*lines, "end;"]) + "\n"

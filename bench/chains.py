"""Makes models of whole energy chains, from a seed: fuels, power stations, grids, cars and heating that compete, with costs that change by
year and limits that bind in some years."""
import random
from collections import namedtuple

from planning import parts

Way = namedtuple("Way", "fuel product need")  # a mode: what goes in, if anything, what comes out, and how much goes in for one unit
# Ways to work; cost of capacity, and by what it is multiplied each year; cost of activity by way; life; what stands at first, as a part of
# the demand then; availability.
Technology = namedtuple("Technology", "ways capital change activity life standing availability")
CHAIN = {
    "MINCOAL": Technology([Way(None, "COAL", 0)], 0, 1, [2.6], 1, 0, 1),
    "IMPCOAL": Technology([Way(None, "COAL", 0)], 0, 1, [3.4], 1, 0, 1),
    "GASFIELD": Technology([Way(None, "GAS", 0)], 0, 1, [4.1], 1, 0, 1),
    "IMPGAS": Technology([Way(None, "GAS", 0)], 0, 1, [6.9], 1, 0, 1),
    "IMPOIL": Technology([Way(None, "CRUDE", 0), Way(None, "FUEL", 0)], 0, 1, [10.3, 13.2], 1, 0, 1),
    "FOREST": Technology([Way(None, "WOOD", 0)], 0, 1, [5.8], 1, 0, 1),
    "REFINERY": Technology([Way("CRUDE", "FUEL", 1.08)], 24, 1, [0.7], 35, 0.3, 0.92),
    "COALSTEAM": Technology([Way("COAL", "ELC1", 2.8), Way("WOOD", "ELC1", 3.0)], 1950, 1, [1.0, 1.2], 40, 0.3, 0.85),
    "COALNEW": Technology([Way("COAL", "ELC1", 2.3)], 2480, 0.998, [0.9], 40, 0, 0.87),
    "GASTURBINE": Technology([Way("GAS", "ELC1", 2.7)], 640, 1, [1.3], 25, 0.1, 0.93),
    "GASCYCLE": Technology([Way("GAS", "ELC1", 1.8)], 1190, 0.997, [0.8], 30, 0.2, 0.89),
    "OILENGINE": Technology([Way("FUEL", "ELC1", 2.86)], 870, 1, [1.6], 25, 0.05, 0.8),
    "WOODPLANT": Technology([Way("WOOD", "ELC1", 3.5)], 2790, 0.995, [1.5], 30, 0, 0.78),
    "NUCLEAR": Technology([Way(None, "ELC1", 0)], 5200, 0.999, [2.9], 50, 0.05, 0.88),
    "HYDRO": Technology([Way(None, "ELC1", 0)], 3050, 1, [0], 80, 0.1, 0.95),
    "WINDLAND": Technology([Way(None, "ELC1", 0)], 1640, 0.985, [0], 25, 0.03, 1),
    "WINDSEA": Technology([Way(None, "ELC1", 0)], 3400, 0.97, [0], 25, 0, 1),
    "SUNFIELD": Technology([Way(None, "ELC2", 0)], 1180, 0.96, [0], 25, 0.01, 1),
    "SUNROOF": Technology([Way(None, "ELC3", 0)], 1690, 0.955, [0], 24, 0.01, 1),
    "LINES": Technology([Way("ELC1", "ELC2", 1.05)], 610, 1, [0], 50, 1.1, 1),
    "NETWORK": Technology([Way("ELC2", "ELC3", 1.1)], 1100, 1, [0], 50, 1.0, 1),
    "CARS": Technology([Way("FUEL", "TRAVEL", 3.6), Way("ELC3", "TRAVEL", 1.25)], 320, 0.99, [1.1, 0.8], 15, 0.9, 1),
    "CARSNEW": Technology([Way("ELC3", "TRAVEL", 1.05)], 430, 0.965, [0.7], 14, 0, 1),
    "BOILER": Technology([Way("GAS", "HEAT", 1.15), Way("WOOD", "HEAT", 1.35)], 38, 1, [0.3, 0.5], 18, 0.9, 1),
    "HEATPUMP": Technology([Way("ELC3", "HEAT", 0.34)], 95, 0.98, [0.2], 20, 0.05, 1),
    "BACKSTOP": Technology([Way(None, "ELC3", 0), Way(None, "HEAT", 0)], 90000, 1, [500, 500], 20, 0, 1),
}
FUELS = ["COAL", "GAS", "CRUDE", "FUEL", "WOOD", "ELC1", "ELC2", "ELC3", "TRAVEL", "HEAT"]
POWER = [name for name, each in CHAIN.items() if each.ways[0].product.startswith("ELC") and name not in ("LINES", "NETWORK", "BACKSTOP")]
RENEWABLE = ["WOODPLANT", "HYDRO", "WINDLAND", "WINDSEA", "SUNFIELD", "SUNROOF"]
FIRM = ["COALSTEAM", "COALNEW", "GASTURBINE", "GASCYCLE", "OILENGINE", "WOODPLANT", "NUCLEAR", "HYDRO"]
WEATHER = {"HYDRO": (0.3, 0.6), "WINDLAND": (0.12, 0.45), "WINDSEA": (0.25, 0.6), "SUNFIELD": (0, 0.4), "SUNROOF": (0, 0.33)}
EMISSIONS = {"MINCOAL": 0.095, "IMPCOAL": 0.096, "GASFIELD": 0.056, "IMPGAS": 0.057, "IMPOIL": 0.073}
# How fast capacity may be added, and how much there may be, as parts of the first demand.
FASTEST = {"WINDLAND": 0.03, "WINDSEA": 0.02, "SUNFIELD": 0.04, "SUNROOF": 0.03, "NUCLEAR": 0.05, "GASCYCLE": 0.06, "HEATPUMP": 0.08, "CARSNEW": 0.09}
MOST = {"HYDRO": 0.16, "COALSTEAM": 0.36, "WINDLAND": 0.5, "NUCLEAR": 0.3}
DIGITS = 4


class Chains:
    """The parameters of a model, as records of its data file."""

    def __init__(self, seed, regions, years, slices):
        self.source = random.Random(seed)
        self.regions = [f"R{number}" for number in range(1, regions + 1)]
        self.years = [2021 + number for number in range(years)]
        self.slices = [f"S{number}" for number in range(1, slices + 1)]
        self.demand = {region: self.source.uniform(60, 140) for region in self.regions}
        self.lines = []

    def shares(self):
        """A part of each timeslice, all of which sum up to 1."""
        return zip(self.slices, parts(self.source, len(self.slices), 1, 2.5, DIGITS))

    def about(self, number):
        return number * self.source.uniform(0.9, 1.1)

    def param(self, name, default, records=()):
        self.lines += [f"param {name} default {default} :=", *records, ";"]

    def by_year(self, head, number):
        """A record for each year of what `number` gives for its place."""
        return [f"{head} {year} {number(place):.{DIGITS}f}" for place, year in enumerate(self.years)]

    def of_each(self, names, record):
        return [line for region in self.regions for name in names for line in record(region, name)]

    def sets(self):
        members = {"REGION": self.regions, "TECHNOLOGY": list(CHAIN), "FUEL": FUELS, "EMISSION": ["CO2"], "MODE_OF_OPERATION": ["1", "2"],
                   "TIMESLICE": self.slices, "YEAR": map(str, self.years), "STORAGE": []}
        self.lines += [f"set {name} := {' '.join(each)} ;" for name, each in members.items()]

    def demands(self):
        self.param("YearSplit", 0, [line for part, share in self.shares() for line in self.by_year(part, lambda _: share)])
        size, grows = {"ELC3": 1, "HEAT": 0.4}, {"ELC3": 1.024, "HEAT": 1.008}
        self.param("SpecifiedAnnualDemand", 0, self.of_each(size, lambda region, fuel: self.by_year(
            f"{region} {fuel}", lambda year: self.demand[region] * size[fuel] * grows[fuel] ** year)))
        self.param("SpecifiedDemandProfile", 0, self.of_each(size, lambda region, fuel: [
            line for part, share in self.shares() for line in self.by_year(f"{region} {fuel} {part}", lambda _: share)]))
        self.param("AccumulatedAnnualDemand", 0, self.of_each(["TRAVEL"], lambda region, fuel: self.by_year(
            f"{region} {fuel}", lambda year: self.demand[region] * 0.6 * 1.015 ** year)))

    def plants(self):
        electric = [*POWER, "LINES", "NETWORK", "BACKSTOP"]
        self.param("CapacityToActivityUnit", 1, self.of_each(electric, lambda region, name: [f"{region} {name} 31.536"]))
        self.param("CapacityFactor", 1, self.of_each(WEATHER, lambda region, name: [
            line for part in self.slices for factor in [self.source.uniform(*WEATHER[name])] for line in self.by_year(f"{region} {name} {part}", lambda _: factor)]))
        self.param("AvailabilityFactor", 1, self.of_each(CHAIN, lambda region, name: self.by_year(f"{region} {name}", lambda _: CHAIN[name].availability)
                                                         if CHAIN[name].availability < 1 else []))
        self.param("OperationalLife", 1, self.of_each(CHAIN, lambda region, name: [f"{region} {name} {CHAIN[name].life}"]))
        self.param("ResidualCapacity", 0, self.of_each(CHAIN, lambda region, name: self.standing(region, name, electric)))
        self.param("InputActivityRatio", 0, self.of_each(CHAIN, lambda region, name: [
            line for mode, way in enumerate(CHAIN[name].ways, 1) if way.fuel for line in self.by_year(f"{region} {name} {way.fuel} {mode}", lambda _: way.need)]))
        self.param("OutputActivityRatio", 0, self.of_each(CHAIN, lambda region, name: [
            line for mode, way in enumerate(CHAIN[name].ways, 1) for line in self.by_year(f"{region} {name} {way.product} {mode}", lambda _: 1)]))

    def standing(self, region, name, electric):
        """What stands at the beginning, and goes out of use by its life."""
        part, life = CHAIN[name].standing, CHAIN[name].life
        first = self.about(self.demand[region] * part / (31.536 * 0.6 if name in electric else 1))
        return self.by_year(f"{region} {name}", lambda year: max(0, first * (1 - year / life))) if part else []

    def costs(self):
        self.param("DiscountRate", 0.05, [f"{region} {self.source.choice([0.05, 0.06, 0.075])}" for region in self.regions])
        self.param("DepreciationMethod", 1)
        built = [name for name, each in CHAIN.items() if each.capital]
        self.param("CapitalCost", 0, self.of_each(built, lambda region, name: self.by_year(
            f"{region} {name}", lambda year: CHAIN[name].capital * CHAIN[name].change ** year)))
        self.param("FixedCost", 0, self.of_each(built, lambda region, name: self.by_year(f"{region} {name}", lambda _: CHAIN[name].capital * 0.02)))
        self.param("VariableCost", 0, self.of_each(CHAIN, lambda region, name: [
            line for mode, first in enumerate(CHAIN[name].activity, 1) if first
            for line in self.by_year(f"{region} {name} {mode}", lambda year: first * 1.009 ** year)]))

    def limits(self):
        def size(region, name):
            return self.demand[region] / (31.536 * 0.6 if name in POWER else 1)

        self.param("TotalAnnualMaxCapacity", -1, self.of_each(MOST, lambda region, name: self.by_year(
            f"{region} {name}", lambda year: size(region, name) * MOST[name] * (1 + year / 30))))
        self.param("TotalAnnualMinCapacity", 0)
        self.param("TotalAnnualMaxCapacityInvestment", -1, self.of_each(FASTEST, lambda region, name: self.by_year(
            f"{region} {name}", lambda year: size(region, name) * FASTEST[name] * (1 + year / 20))))
        self.param("TotalAnnualMinCapacityInvestment", 0, self.of_each(["WINDSEA"], lambda region, name: [
            line for line in self.by_year(f"{region} {name}", lambda _: size(region, name) * 0.004)[4::5]]))
        self.param("TotalTechnologyAnnualActivityUpperLimit", -1, self.of_each(["GASFIELD", "FOREST", "MINCOAL"], lambda region, name: self.by_year(
            f"{region} {name}", lambda year: self.demand[region] * self.about(0.6) * 0.985 ** year)))
        self.param("TotalTechnologyAnnualActivityLowerLimit", 0, self.of_each(["COALSTEAM"], lambda region, name: self.by_year(
            f"{region} {name}", lambda _: self.demand[region] * 0.08)[:8]))
        self.param("TotalTechnologyModelPeriodActivityUpperLimit", 0, self.of_each(["GASFIELD"], lambda region, name: [
            f"{region} {name} {self.demand[region] * 0.4 * len(self.years):.{DIGITS}f}"]))
        self.param("TotalTechnologyModelPeriodActivityLowerLimit", 0)
        self.param("CapacityOfOneTechnologyUnit", 0)

    def policies(self):
        """Reserve, renewable target, emissions and trade."""
        def ones(names):
            return self.of_each(names, lambda region, name: self.by_year(f"{region} {name}", lambda _: 1))

        self.param("ReserveMarginTagTechnology", 0, ones(FIRM))
        self.param("ReserveMarginTagFuel", 0, ones(["ELC1"]))
        self.param("ReserveMargin", 1.12)
        self.param("RETagTechnology", 0, ones(RENEWABLE))
        self.param("RETagFuel", 0, ones(["ELC3"]))
        self.param("REMinProductionTarget", 0, [line for region in self.regions for line in self.by_year(region, lambda year: min(0.45, 0.06 + 0.013 * year))])
        self.param("EmissionActivityRatio", 0, self.of_each(EMISSIONS, lambda region, name: [
            line for mode in range(1, len(CHAIN[name].ways) + 1) for line in self.by_year(f"{region} {name} CO2 {mode}", lambda _: EMISSIONS[name])]))
        self.param("EmissionsPenalty", 0, self.of_each(["CO2"], lambda region, name: self.by_year(f"{region} {name}", lambda year: 8 * 1.03 ** year)))
        self.param("AnnualEmissionLimit", -1, self.of_each(["CO2"], lambda region, name: self.by_year(
            f"{region} {name}", lambda year: self.demand[region] * 0.42 * 0.985 ** year)[3:]))
        self.param("AnnualExogenousEmission", 0)
        self.param("ModelPeriodExogenousEmission", 0)
        self.param("ModelPeriodEmissionLimit", -1)
        self.param("TradeRoute", 0, [line for one in self.regions for other in self.regions if one != other
                                     for line in self.by_year(f"{one} {other} ELC2", lambda _: 1)])


def chains(seed, regions, years, slices):
    """The text of a data file."""
    made = Chains(seed, regions, years, slices)
    for part in (made.sets, made.demands, made.plants, made.costs, made.limits, made.policies):
        part()
    return "\n".join(["data;", *made.lines, "end;"]) + "\n"

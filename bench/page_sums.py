"""page_sums.py FOLDER: makes the numbers of the charts of every results page of a folder again, from the CSV that the page is drawn
from, and compares them with what Chromium shows: all regions together, each in turn, timeslices of the first year and of the last, and
of two plans the change and either. Every chart has to be one that is expected, with the same rows and cells, and none may be missing.

Sums are of whole millionths. It prints each chart that differs, and ends with counts and with 1 where there are any."""

import csv
import io
import os
import subprocess
import sys
from collections import defaultdict
from fractions import Fraction
from html.parser import HTMLParser
from urllib.parse import urlencode

import page_make

NOISE = 2
LIMITS = {
    "TCC1": "Capacity of @ at most",
    "TCC2": "Capacity of @ at least",
    "NCC1": "New capacity of @ at most",
    "NCC2": "New capacity of @ at least",
    "AAC2": "Activity of @ at most",
    "AAC3": "Activity of @ at least",
    "TAC2": "Activity of @, all years, at most",
    "TAC3": "Activity of @, all years, at least",
    "RM3": "Reserve margin",
    "RE4": "Renewable target",
    "E8": "Emissions of @ at most",
    "E9": "Emissions of @, all years, at most",
}
COSTS = (
    ("Investment", "DiscountedCapitalInvestment", 1),
    ("Running: fixed and variable", "DiscountedOperatingCost", 1),
    ("Emission penalties", "DiscountedTechnologyEmissionsPenalty", 1),
    ("Salvage value, returned", "DiscountedSalvageValue", -1),
)


def whole(text, places=6):
    """A decimal as a whole number of its last place."""
    if not text:
        return None
    sign, (front, after) = -1 if text.startswith("-") else 1, text.lstrip("-").split(".")
    return sign * int(front + after.ljust(places, "0"))


def written(value):
    if value is None:
        return ""
    return "0" if value == 0 else "%s%d.%06d" % ("-" if value < 0 else "", *divmod(abs(value), 10**6))


def nearest(a, b):
    size = (2 * abs(a) + b) // (2 * b)
    return -size if a < 0 else size


def added(lists):
    return [sum(values) for values in zip(*lists)]


def spaced(digits):
    """Thin spaces between groups of three digits, from five digits on."""
    return digits if len(digits) < 5 else "{:,}".format(int(digits)).replace(",", "\u202f")


def short(value):
    """As numbers stand for reading: three places below 1, two below 10, one below 1000, and none above."""
    size = abs(value)
    places = 3 if size < 10**6 else 2 if size < 10**7 else 1 if size < 10**9 else 0
    rounded = nearest(size, 10 ** (6 - places))
    if rounded == 0:
        return written(value)
    front, after = divmod(rounded, 10**places)
    return ("\u2212" if value < 0 else "") + spaced(str(front)) + (".%0*d" % (places, after) if places else "")


def share(part, whole_part):
    percent = nearest(100 * part, whole_part)
    text = "<1" if percent == 0 and part > 0 else ">99" if percent == 100 and part < whole_part else str(percent)
    return text + "\u00a0%"


def with_changes(changes):
    """What the name of a data file is told with: how many changes were made, each a line after the first."""
    if changes is None:
        return ""
    made = len(list(csv.reader(io.StringIO(changes)))) - 1
    return " with %d change%s" % (made, "" if made == 1 else "s")


class Plan:
    """The tables of a plan, and the charts of a scope as {(heading, title): (series, lines)}, each {name: values}."""

    def __init__(self, name, said, text, changes=None):
        self.name, self.said, self.tables, lines = name + with_changes(changes), said, {}, []
        for line in text.splitlines():
            if "," not in line:
                lines = self.tables.setdefault(line, [])
            else:
                lines.append(line)
        self.tables = {word: list(csv.DictReader(io.StringIO("\n".join(rows)))) for word, rows in self.tables.items()}

    def members(self, kind):
        return [row["MEMBER"] for row in self.tables["sets"] if row["SET"] == kind]

    def of(self, table, **wanted):
        """The rows of a table with these members; a list of members is any of them."""
        for row in self.tables.get(table, []):
            if all(row.get(column) in (found if isinstance(found, (list, set)) else [found]) for column, found in wanted.items()):
                yield row

    def sums(self, table, by, over, labels, sign=1, **wanted):
        """{member of the column `by`: values by the labels of the column `over`}."""
        found = defaultdict(lambda: [0] * len(labels))
        for row in self.of(table, **wanted):
            if row[over] in labels:
                found[row[by] if by else ""][labels.index(row[over])] += sign * whole(row["VALUE"])
        return found

    def total(self, table, over, labels, **wanted):
        return self.sums(table, None, over, labels, **wanted).get("", [0] * len(labels))

    def trade(self, table, over, labels, scope, **wanted):
        """What comes in from outside and what goes out there, by the routes of the balances."""
        flows = {"imports": [0] * len(labels), "exports": [0] * len(labels)}
        for row in self.of(table, REGION=scope, **wanted):
            if row["_REGION"] in scope or row[over] not in labels:
                continue
            members = {column: row[column] for column in ("REGION", "_REGION", "FUEL", "YEAR")}
            route = sum(whole(one["VALUE"]) for one in self.of("TradeRoute", **members))
            flow = nearest(whole(row["VALUE"]) * route, 10**6)
            flows["imports" if flow < 0 else "exports"][labels.index(row[over])] -= flow
        return flows

    def demand(self, scope, fuel, years):
        return added(self.total(table, "YEAR", years, REGION=scope, FUEL=fuel) for table in ("Demand", "AccumulatedAnnualDemand"))

    def fuel_charts(self, scope, fuel, years, slices, year):
        charts = {}
        at = {"REGION": scope, "FUEL": fuel}
        for word, table in (("Production", "ProductionByTechnology"), ("Use", "UseByTechnology")):
            made = self.sums(table + "Annual", "TECHNOLOGY", "YEAR", years, **at)
            sliced = self.sums(table, "TECHNOLOGY", "TIMESLICE", slices, YEAR=year, **at)
            lines, sliced_lines = {}, {}
            if word == "Production":
                made.update(self.trade("TradeAnnual", "YEAR", years, scope, FUEL=fuel))
                sliced.update(self.trade("Trade", "TIMESLICE", slices, scope, FUEL=fuel, YEAR=year))
                lines = {"Final demand": self.demand(scope, fuel, years)}
                sliced_lines = {"Final demand": self.total("Demand", "TIMESLICE", slices, YEAR=year, **at)}
            charts["%s of %s" % (word, fuel)] = made, lines
            if len(slices) > 1:
                charts["%s of %s in %s" % (word, fuel, year)] = sliced, sliced_lines
        outside = [region for region in self.members("REGION") if region not in scope]
        charts["Trade of " + fuel] = self.sums("TradeAnnual", "_REGION", "YEAR", years, _REGION=outside, **at), {}
        makers = {(row["REGION"], row["TECHNOLOGY"]) for row in self.makes if row["FUEL"] == fuel and row["REGION"] in scope}
        for title, table in (("Capacity making ", "TotalCapacityAnnual"), ("New capacity making ", "NewCapacity")):
            charts[title + fuel] = self.made_by(makers, table, years), {}
        charts["How full capacity runs: " + fuel] = self.fullness(makers, years), {}
        return charts

    def made_by(self, makers, table, years):
        found = defaultdict(lambda: [0] * len(years))
        for row in self.tables[table]:
            if (row["REGION"], row["TECHNOLOGY"]) in makers and row["YEAR"] in years:
                found[row["TECHNOLOGY"]][years.index(row["YEAR"])] += whole(row["VALUE"])
        return found

    def fullness(self, makers, years):
        does, could = self.made_by(makers, "TotalTechnologyAnnualActivity", years), defaultdict(lambda: [0] * len(years))
        units = {(row["REGION"], row["TECHNOLOGY"]): whole(row["VALUE"]) for row in self.tables["CapacityToActivityUnit"]}
        for region, technology in makers:
            capacity = self.made_by({(region, technology)}, "TotalCapacityAnnual", years)
            for name, values in capacity.items():
                could[name] = added([could[name], [value * units.get((region, name), 0) for value in values]])
        return {
            name: [nearest(does[name][i] * 100 * 10**12, most) if most > 0 else None for i, most in enumerate(values)]
            for name, values in could.items()
        }

    def prices(self, region, fuel, years, slices):
        rows = list(self.of("prices", REGION=region, FUEL=fuel))
        by_slice = any(row["EQUATION"] == "EBa11" and whole(row["PRICE"]) for row in rows)
        found = {name: [0] * len(years) for name in (slices if by_slice else ["Year"])}
        for row in rows:
            if (row["EQUATION"] == "EBa11") == by_slice:
                worth = sum(whole(one["VALUE"], 9) for one in self.of("worth", REGION=region, YEAR=row["YEAR"]))
                price = nearest(whole(row["PRICE"]) * 10**9, worth)
                found[row["TIMESLICE"] if by_slice else "Year"][years.index(row["YEAR"])] = price
        return found if any(map(any, found.values())) else {}

    def cost_charts(self, scope, years):
        kinds = {name: self.sums(table, "TECHNOLOGY", "YEAR", years, sign, REGION=scope) for name, table, sign in COSTS}
        series = {name: added(found.values()) for name, found in kinds.items() if found}
        net = self.total("TotalDiscountedCost", "YEAR", years, REGION=scope)
        parts = {(technology, name): values for name, found in kinds.items() for technology, values in found.items()}
        return {"Cost by year and kind": (series, {"Net (TotalDiscountedCost)": net}), "What the cost is made of": (parts, {})}

    def emission_chart(self, scope, emission, years):
        lines = {}
        if len(scope) == 1:
            limits = {row["YEAR"]: whole(row["VALUE"]) for row in self.of("AnnualEmissionLimit", REGION=scope, EMISSION=emission)}
            for row in self.of("AnnualExogenousEmission", REGION=scope, EMISSION=emission, YEAR=set(limits)):
                limits[row["YEAR"]] -= whole(row["VALUE"])
            if limits:
                lines["Yearly limit"] = [limits.get(year) for year in years]
        return self.sums("AnnualTechnologyEmission", "TECHNOLOGY", "YEAR", years, REGION=scope, EMISSION=emission), lines

    @property
    def makes(self):
        return self.tables["OutputActivityRatio"]

    def charts(self, scope, heading, sets, year):
        """All charts of a scope by (its heading, that of the fuel or none, title)."""
        years, slices = sets["YEAR"], sets["TIMESLICE"]
        found = {(heading, "", title): chart for title, chart in self.cost_charts(scope, years).items()}
        for emission in sets["EMISSION"]:
            found[heading, "", "Emissions: " + emission] = self.emission_chart(scope, emission, years)
        for fuel in sets["FUEL"]:
            for title, chart in self.fuel_charts(scope, fuel, years, slices, year).items():
                found[heading, fuel, title] = chart
            if len(scope) == 1:
                found[heading, fuel, "Price of " + fuel] = self.prices(scope[0], fuel, years, slices), {}
        busy = {row["TECHNOLOGY"] for plan in sets["plans"] for row in plan.makes}
        idle = {(region, name) for region in scope for name in self.members("TECHNOLOGY") if name not in busy}
        for title, table in (("Capacity", "TotalCapacityAnnual"), ("New capacity", "NewCapacity")):
            found[heading, "Technologies that make no fuel", title] = self.made_by(idle, table, years), {}
        return found

    def who_makes(self, scope, fuel, year):
        """Who makes most of a fuel, and where that one makes all of it out of one fuel, who makes most of that, and so on."""
        told, seen = "", []
        while fuel not in seen:
            made = [("imports", self.trade("TradeAnnual", "YEAR", [year], scope, FUEL=fuel)["imports"][0])]
            sums = self.sums("ProductionByTechnologyAnnual", "TECHNOLOGY", "YEAR", [year], REGION=scope, FUEL=fuel)
            made += [(name, sums[name][0]) for name in self.members("TECHNOLOGY") if name in sums]
            name, most = max(made, key=lambda pair: pair[1])
            everything = sum(value for _, value in made)
            if most <= 0:
                break
            told += ("" if not seen else "%s its %s: " % ("" if len(seen) == 1 else " and", fuel)) + name + " " + share(most, everything)
            seen.append(fuel)
            taken = {row["FUEL"] for row in self.of("InputActivityRatio", REGION=scope, TECHNOLOGY=name)}
            if most < everything or len(taken) != 1:
                break
            fuel = taken.pop()
        return told or "\u2013"

    def asked_rows(self, scope, sets):
        """The rows of what is asked for, and of who makes most of it."""
        years = sets["YEAR"]
        for fuel in sets["FUEL"]:
            asked = self.demand(scope, fuel, years)
            if any(asked):
                ends = sorted({0, len(years) - 1})
                yield [fuel, *(text for i in ends for text in (short(asked[i]), self.who_makes(scope, fuel, years[i])))]

    def limit_rows(self, scope):
        """The rows of the limits that cost most: the limit, its years, its bounds, one per cent and a unit."""
        found = defaultdict(list)
        for row in self.of("limits", REGION=scope):
            found[row["EQUATION"], row["REGION"], row["TECHNOLOGY"] or row["EMISSION"]].append(row)
        rows = []
        for (equation, region, what), parts in found.items():
            bounds = [whole(part["LIMIT"]) for part in parts if part["LIMIT"]]
            unit, percent = (sum(abs(whole(part[column]) or 0) for part in parts) for column in ("PRICE", "PERCENT"))
            times = list(dict.fromkeys(part["YEAR"] for part in parts if part["YEAR"]))
            at = "" if not bounds else " to ".join(dict.fromkeys((short(min(bounds)), short(max(bounds)))))
            text = (region + ": " if len(scope) > 1 else "") + LIMITS[equation].replace("@", what)
            in_years = "".join(times[:1]) + (" and %d more" % (len(times) - 1) if len(times) > 1 else "")
            rows.append((-percent, -unit, [text, in_years, at, short(percent) if bounds else "", short(unit)]))
        return [row for _, _, row in sorted(rows, key=lambda one: one[:2])]

    def told(self, scope, heading, sets):
        """The tables for reading, and their rows."""
        return {
            (heading, "", "What is asked for, and who makes most of it"): list(self.asked_rows(scope, sets)),
            (heading, "", "Which limits cost most"): self.limit_rows(scope),
        }

    def facts(self):
        """What stands below the headline."""
        said = dict(line.split(" ", 1) for line in self.said.splitlines()[1:])
        cost, bound, gap = (Fraction(said[word]) * 10**6 for word in ("cost", "bound", "gap"))
        numbers = [nearest(cost.numerator, cost.denominator), nearest(bound.numerator, bound.denominator), -(-gap.numerator // gap.denominator)]
        return [*map(written, numbers), *(said[word] for word in ("rounded", "places") if word in said)]

    def region_charts(self, sets):
        years = sets["YEAR"]
        found = {("", "", "Cost by year and region"): (self.sums("TotalDiscountedCost", "REGION", "YEAR", years), {})}
        for emission in sets["EMISSION"]:
            rows = self.sums("AnnualEmissions", "REGION", "YEAR", years, EMISSION=emission)
            found["", "", "Emissions by region: " + emission] = rows, {}
        return found


def changed(first, second, names):
    """The charts of a change: the second plan's values less the first's, of which less than NOISE counts as none."""

    def less(a, b, width):
        a, b = a or [0] * width, b or [0] * width
        values = [None if x is None or y is None else y - x for x, y in zip(a, b)]
        return [0 if value is not None and abs(value) < NOISE else value for value in values]

    found = {}
    for key, (series, lines) in second.items():
        before, before_lines = first[key]
        if key[2].startswith("Price of "):
            continue
        both = set(series) & set(before) if key[2].startswith("How full") else set(series) | set(before)
        width = len(next(iter([*series.values(), *before.values()]), []))
        rows = {name: less(before.get(name), series.get(name), width) for name in both}
        marks = {name: less(before_lines.get(name), values, len(values)) for name, values in lines.items()}
        title = key[2] + ": change"
        if key[2] == "What the cost is made of":
            title = "What the change of cost is made of"
        elif key[2].startswith("Emissions: "):
            title, marks = "Emissions of %s: change" % key[2][11:], names[key[0], key[2][11:]]
        found[(*key[:2], title)] = rows, marks
    return found


def made_of(parts, is_change):
    """What costs are made of by technology, of {(technology, kind): values by year}: investment less salvage, running and penalties."""
    rows = defaultdict(lambda: [0, 0, 0])
    for (technology, kind), values in parts.items():
        rows[technology][[name for name, _, _ in COSTS].index(kind) % 3] += sum(values)
    least = NOISE if is_change else 0
    return {name: [value if abs(value) >= least else 0 for value in values] for name, values in rows.items()}


def table_of(title, series, lines):
    """The rows that a table has to have, or none where there is no chart."""
    if "cost is made of" in title:
        series = made_of(series, "change" in title)
    rows = {name: values for name, values in series.items() if any(values)}
    if title.startswith("Price of "):
        rows = dict(series)
    if not rows:
        return None
    is_made_of = "cost is made of" in title
    if is_made_of:
        rows = {name: [*values, sum(values)] for name, values in rows.items()}
    summed = not title.startswith(("Cost by year and kind", "How full", "Price of "))
    last = {"Sum": added(rows.values())} if summed and (len(rows) > 1 or is_made_of) else {}
    last.update((name, values) for name, values in lines.items() if name != "Final demand" or any(values))
    return {name: list(map(written, values)) for name, values in [*rows.items(), *last.items()]}


class Shown(HTMLParser):
    """The tables of numbers of a page, {(region's heading, fuel's heading, title): {row: cells}}, those for reading, with lists of rows,
    and what stands below the headline."""

    def __init__(self, text):
        super().__init__(convert_charrefs=True)
        self.heads, self.head, self.rows, self.row, self.cell, self.tables = {}, None, None, None, None, {}
        self.told, self.facts = {}, []
        self.feed(text)

    def handle_starttag(self, tag, attributes):
        if tag in ("h2", "h3", "h4"):
            self.head, self.heads[tag] = tag, ""
            for lower in ("h3", "h4"):
                if lower > tag:
                    self.heads.pop(lower, None)
        elif tag == "details" and "h4" in self.heads:
            self.rows = self.tables.setdefault(self.place(), {})
        elif tag == "table" and ("class", "glance") in attributes:
            self.rows = self.told.setdefault(self.place(), [])
        elif tag == "dd":
            self.facts.append("")
            self.cell = ""
        elif tag == "tbody" and self.rows is not None:
            self.row = []
        elif tag == "tr" and self.row is not None:
            self.row = []
        elif tag in ("th", "td") and self.row is not None:
            self.cell = ""

    def place(self):
        return tuple(self.heads.get(head, "") for head in ("h2", "h3", "h4"))

    def handle_data(self, data):
        if self.head:
            self.heads[self.head] += data
        if self.cell is not None:
            self.cell += data

    def handle_endtag(self, tag):
        if tag == self.head:
            self.head = None
        elif tag == "details" or (tag == "table" and isinstance(self.rows, list)):
            self.rows = self.row = None
        elif tag == "dd":
            self.facts[-1], self.cell = self.cell, None
        elif tag in ("th", "td") and self.cell is not None:
            self.row.append(self.cell)
            self.cell = None
        elif tag == "tr" and self.row and isinstance(self.rows, list):
            self.rows.append(self.row)
        elif tag == "tr" and self.row and self.rows is not None:
            self.rows[self.row[0]] = self.row[1:]


def shown(path, state):
    words = "chromium --headless --no-sandbox --disable-gpu --virtual-time-budget=20000 --dump-dom".split()
    address = "file://%s#%s" % (os.path.abspath(path), urlencode(state))
    return Shown(subprocess.run([*words, address], capture_output=True, text=True, check=False).stdout)


def together(plans, kind):
    return list(dict.fromkeys(member for plan in plans for member in plan.members(kind)))


def scopes_of(regions, chosen):
    """The headings of what is shown, and the regions of each."""
    if len(regions) == 1:
        return [("", regions)]
    return [("All regions together", regions)] if chosen == "*" else [(name, [name]) for name in regions]


def expected(plans, view, region, year):
    """The charts and the tables for reading of one plan, of either of two or of their change."""
    sets = {kind: together(plans, kind) for kind in ("REGION", "FUEL", "EMISSION", "TIMESLICE")}
    sets["YEAR"], sets["plans"] = sorted(together(plans, "YEAR"), key=int), plans
    scopes, charts, told = scopes_of(sets["REGION"], region), [], []
    for plan in plans:
        charts.append(plan.region_charts(sets) if len(sets["REGION"]) > 1 else {})
        told.append({})
        for heading, scope in scopes:
            charts[-1].update(plan.charts(scope, heading, sets, year))
            told[-1].update(plan.told(scope, heading, sets))
    if view != "change":
        shown_plan = 1 if view == "second" else 0
        return charts[shown_plan], told[shown_plan]
    names = {
        (heading, emission): {
            name: plan.total("AnnualEmissions", "YEAR", sets["YEAR"], REGION=scope, EMISSION=emission) for name, plan in zip(file_names(plans), plans)
        }
        for heading, scope in scopes
        for emission in sets["EMISSION"]
    }
    return changed(charts[0], charts[1], names), {}


def file_names(plans):
    names = [plan.name for plan in plans]
    return [names[0] + " (first)", names[1] + " (second)"] if len(set(names)) < len(names) else names


class Counts:
    """How many charts and cells were looked at, and how many things differ."""

    def __init__(self):
        self.charts = self.cells = self.wrong = 0

    def differs(self, *words):
        self.wrong += 1
        print("wrong: " + ", ".join(map(str, words))[:500])

    def compare_charts(self, name, wanted, found):
        self.charts += len(found)
        for key in [*wanted, *(key for key in found if key not in wanted)]:
            rows = table_of(key[2], *wanted[key]) if key in wanted else None
            if rows == found.get(key):
                self.cells += sum(map(len, (rows or {}).values()))
                continue
            here, there = rows or {}, found.get(key) or {}
            self.differs(name, " / ".join(key), [(row, here.get(row), there.get(row)) for row in {**here, **there} if here.get(row) != there.get(row)][:2])

    def compare_told(self, name, wanted, found):
        for key in {**wanted, **found}:
            self.charts += 1
            if wanted.get(key, []) != found.get(key, []):
                self.differs(name, " / ".join(key), wanted.get(key, [])[:3], found.get(key, [])[:3])
            self.cells += sum(map(len, wanted.get(key, [])))

    def compare_page(self, path, name, plans, compared):
        years, several = sorted(together(plans, "YEAR"), key=int), len(together(plans, "REGION")) > 1
        words = dict((line.split(" ", 1) + [""])[:2] for line in compared.splitlines())
        for view in ("change", "first", "second") if len(plans) > 1 else ("only",):
            for region in ("*", "+") if several else ("",):
                for year in (years[0], years[-1]):
                    charts, told = expected(plans, view, region, year)
                    page = shown(path, {"open": 1, "most": 0, "fuel": "", "view": view, "region": region, "year": year})
                    self.compare_charts(name, charts, page.tables)
                    self.compare_told(name, told, page.told)
        if len(plans) > 1:
            (cost, cost2, _), (bound, bound2), between = (words[word].split(" ") for word in ("cost", "bound", "difference"))
            facts = [cost, bound, cost2, bound2, *between]
        else:
            facts = plans[0].facts()
        if facts != page.facts:
            self.differs(name, "below the headline", facts, page.facts)


def main():
    folder, counts = sys.argv[1], Counts()
    for name in sorted(os.listdir(folder)):
        path = os.path.join(folder, name)
        texts, compared = page_make.texts_of(page_make.read(path))
        is_solved = texts and all(text[1].startswith("accepted\n") for text in texts)
        if is_solved and name not in ("made-large.html", "made-looks.html"):
            counts.compare_page(path, name, [Plan(*text) for text in texts], compared)
    print("page_sums.py: %d charts and tables tried, %d cells the same, %d wrong" % (counts.charts, counts.cells, counts.wrong))
    sys.exit(1 if counts.wrong else 0)


if __name__ == "__main__":
    main()

"""page_make.py [--anew] [--made] FROM TO: puts the results pages of the folder FROM into the folder TO.

A page has the texts of one plan or of two, (file name, what is said, tables, and a file of changes or None), and what `compare` says. The pages of FROM have to be these
texts, escaped, between the constants of crates/result_pages; with --anew they are assembled so, whatever they were. With --made there are
pages of changed texts besides, which show what no example does.
"""

import html
import os
import re
import sys

import page_hashes


def escaped(text):
    """As `escaped` of the crate."""
    for byte, written in (("&", "&amp;"), ("<", "&lt;"), (">", "&gt;"), ('"', "&quot;"), ("'", "&#39;")):
        text = text.replace(byte, written)
    return text


PLAN = re.compile(
    r'<h3 class="name">(?P<name>.*?)</h3>\n(?:<pre class="changes">\n(?P<changes>.*?)</pre>\n)?'
    r'<pre class="said">\n(?P<said>.*?)</pre>.*?<pre class="tables" tabindex="0">\n(?P<tables>.*?)</pre>',
    re.S,
)


def texts_of(page):
    """The texts of a page, and what is compared."""
    plans = PLAN.finditer(page)
    compared = re.search(r'<pre class="compared">\n(.*?)</pre>', page, re.S)
    unescaped = [tuple(text and html.unescape(text) for text in plan.group("name", "said", "tables", "changes")) for plan in plans]
    return unescaped, html.unescape(compared.group(1) if compared else "")


def plan_text(part, name, said, tables, changes=None):
    """What a page has of a plan."""
    changed = "" if changes is None else part["CHANGES_START"] + escaped(changes) + part["CHANGES_END"]
    title = part["PLAN_NAME"] + escaped(name) + part["NAME_END"] + changed
    return title + part["PLAN_SAID"] + escaped(said) + part["PLAN_TABLES"] + escaped(tables) + part["PLAN_END"]


def assembled(texts, compared=""):
    part = page_hashes.constants(page_hashes.TOP)
    plans = [plan_text(part, *text) for text in texts]
    return "".join(
        [part["PAGE_START"], part["STYLE"], part["PAGE_BODY"], *plans, part["COMPARED"], escaped(compared)]
        + [part["SCRIPT_START"], page_hashes.script(part), part["PAGE_END"]]
    )


# ---- Pages that show what no example does


def section(tables, name):
    """A table of the text: its lines with the word and the header."""
    return re.search(r"(?m)^%s\n(?:.*,.*\n)*" % name, tables).group(0)


def with_rows(tables, name, rows):
    found = section(tables, name)
    return tables.replace(found, found + "".join(row + "\n" for row in rows))


def with_members(tables, members):
    found = section(tables, "sets")
    return tables.replace(found, found + "".join("%s,%s\n" % pair for pair in members))


def looks(said):
    """27 technologies that make a fuel each, of one emission."""
    sets = [("REGION", "R"), ("EMISSION", "CO2"), ("YEAR", "2030"), *((s, s[0] + str(i)) for s in ("TECHNOLOGY", "FUEL") for i in range(27))]
    text = "sets\nSET,MEMBER\n" + "".join("%s,%s\n" % pair for pair in sets)
    for name, head, row in (
        ("OutputActivityRatio", "REGION,TECHNOLOGY,FUEL,MODE_OF_OPERATION,YEAR,VALUE", "R,T%d,F%d,1,2030,1.000000"),
        ("EmissionActivityRatio", "REGION,TECHNOLOGY,EMISSION,MODE_OF_OPERATION,YEAR,VALUE", "R,T%d,CO2,1,2030,%d.000000"),
        ("AnnualTechnologyEmission", "REGION,TECHNOLOGY,EMISSION,YEAR,VALUE", "R,T%d,CO2,2030,2%d.500000"),
    ):
        text += name + "\n" + head + "\n" + "".join(row % (i, i) + "\n" for i in range(27))
    return [("looks.dat", said, text)], ""


def small(name, said, tables):
    """Two series of ELC that can't be seen, and sixty of HEAT that can together."""
    extra = [("ELC", "SMALL%d" % i, "0.010000") for i in (1, 2)] + [("HEAT", "LITTLE%d" % i, "0.020000") for i in range(60)]
    years = re.findall(r"(?m)^YEAR,(\d+)$", tables)
    tables = with_members(tables, [("TECHNOLOGY", technology) for _, technology, _ in extra])
    return [(name, said, with_rows(tables, "ProductionByTechnologyAnnual", ["ISLE,%s,%s,%s,%s" % (t, f, y, v) for f, t, v in extra for y in years]))], ""


def noise(name, said, tables):
    """The same plan twice, but for a millionth and for two."""
    found = section(tables, "ProductionByTechnologyAnnual")
    changed = found
    for technology, year, by in (("SOLAR", "2031", 1), ("WIND", "2032", -2)):
        row = re.search(r"(?m)^ISLE,%s,ELC,%s,(.*)$" % (technology, year), found)
        value = int(row.group(1).replace(".", "")) + by
        changed = changed.replace(row.group(0), row.group(0)[: -len(row.group(1))] + "%d.%06d" % divmod(value, 10**6))
    compared = "compared\nstatus least least\ncost 8968.230890 8968.230891 0.000001\nbound 8968.230890 8968.230891\ndifference 0.000000 0.000002\n"
    return [(name, said, tables), (name, said, tables.replace(found, changed))], compared


def rare(name, said, tables):
    """What few pages have: nothing said of what was rounded and of places, modes among the sets, a technology that makes nothing, demand
    of a year as a whole, and prices of it."""
    tables = with_members(tables, [("MODE_OF_OPERATION", "7"), ("TECHNOLOGY", "STORE")])
    tables = re.sub(r"(?m)^EBa11,ISLE,[^,]*,GAS,.*\n", "", tables)
    for table, row in (
        ("TotalCapacityAnnual", "ISLE,STORE,2031,2.000000"),
        ("NewCapacity", "ISLE,STORE,2031,2.000000"),
        ("AccumulatedAnnualDemand", "ISLE,HEAT,2033,1.250000"),
        ("prices", "EBb4,ISLE,,GAS,2032,3.000000"),
    ):
        tables = with_rows(tables, table, [row])
    return [(name, re.sub(r"(?m)^(rounded|places) .*\n", "", said), tables)], ""


def members(name, said, tables):
    """Two files of which one has members that the other hasn't."""
    compared = "compared\nstatus least near\ncost 8968.230890 8970.000000 1.769110\nbound 8968.230890 8968.000000\ndifference -0.230890 1.769110\n"
    return [(name, said, tables), ("other.dat", *rare(name, said, tables)[0][0][1:])], compared


def routes(name, said, tables):
    """Routes that lose some of what they carry, and money with nine places."""
    found = section(tables, "TradeRoute")
    tables = tables.replace(found, found.replace(",1.000000", ",0.923457"))
    found = section(tables, "worth")
    return [(name, said.replace("places 6", "places 9"), tables.replace(found, re.sub(r"(?m)(\.\d{6})$", r"\g<1>123", found)))], ""


YEARS, SLICES, OTHERS = 5, 4, 5


def copies(row):
    """A row of three regions over four years with two timeslices, in all years and timeslices and of all technologies and fuels of the
    large page: a copy's technologies make and take the copy's fuels."""
    if row.get("SET"):
        row = {"SET": row["SET"], row["SET"]: row["MEMBER"]}
    times = range(YEARS) if row.get("YEAR") else [0]
    for k in range(OTHERS) if row.get("TECHNOLOGY") or row.get("FUEL") else [0]:
        for s in range(SLICES) if row.get("TIMESLICE") else [0]:
            for y in times:
                new = dict(row)
                for column, suffix in (("TECHNOLOGY", k), ("FUEL", k), ("TIMESLICE", s)):
                    if row.get(column) and suffix:
                        new[column] += "_%d" % suffix
                if row.get("YEAR"):
                    new["YEAR"] = str(int(row["YEAR"]) + len(times) // YEARS * 4 * y)
                yield ",".join(new.values())


def large(name, said, tables):
    """Three regions over twenty years with eight timeslices, made of three over four with two."""
    lines, columns = [], []
    for line in tables.splitlines():
        fields = line.split(",")
        if len(fields) == 1 or not columns:
            lines.append(line)
            columns = [] if len(fields) == 1 else fields
        else:
            lines += copies(dict(zip(columns, fields)))
    return [(name, said, "\n".join(lines) + "\n")], ""


def huge(name, said, tables):
    """A value beyond all that a picture's numbers hold exactly."""
    return [(name, said, re.sub(r"(?m)^(ISLE,GAS_PLANT,ELC,2031),.*$", r"\1,123456789012345678901.000001", tables))], ""


def limits(name, said, tables):
    """A limit a thousand times as high as what is emitted, emissions from elsewhere, and a limit over all years."""
    tables = tables.replace("ISLE,CO2,2034,4.500000", "ISLE,CO2,2034,4500.000000", 1)
    for table, row in (
        ("AnnualExogenousEmission", "ISLE,CO2,2035,0.250000"),
        ("ModelPeriodExogenousEmission", "ISLE,CO2,1.500000"),
        ("ModelPeriodEmissionLimit", "ISLE,CO2,40.000000"),
    ):
        tables = with_rows(tables, table, [row])
    return [(name, said, tables)], ""


CHANGES = """NAME,REGION,TECHNOLOGY,YEAR,CHANGE,VALUE
CapitalCost,ISLE,SOLAR,2030,*,0.8
CapitalCost,ISLE,SOLAR,2031,*,0.8
TotalAnnualMaxCapacity,ISLE,WIND,2035,=,4
"""
HOSTILE = """NAME,TECHNOLOGY,CHANGE,VALUE
CapitalCost,"<script>alert(""1"")</script></pre><img src=x onerror='alert(2)'>&lt;b&gt;&amp;",*,0.8
"""


def changes(name, said, tables):
    """A plan of data that three changes were made to."""
    return [(name, said, tables, CHANGES)], ""


def hostile_changes(name, said, tables):
    """A file of changes that has markup and quotes in a field, and ends without a line feed."""
    return [(name, said, tables, HOSTILE.rstrip("\n"))], ""


def changes_of_both(name, said, tables):
    """Two plans of one data file, changed once and three times."""
    compared = "compared\nstatus least least\ncost 8968.230890 8968.230890 0.000000\nbound 8968.230890 8968.230890\ndifference 0.000000 0.000000\n"
    emitted = section(tables, "AnnualTechnologyEmission")
    more = tables.replace(emitted, re.sub(r"(?m)^(ISLE,GAS_IMPORT,CO2,2031),.*$", r"\1,9.000000", emitted))
    once = "".join(CHANGES.splitlines(keepends=True)[:2])
    return [(name, said, tables, once), (name, said, more, CHANGES)], compared


def made(texts):
    """The pages that are made of examples, by their names."""
    plan = {name: found[0][:3] for name, (found, _) in texts.items() if found}
    if "country.html" in plan:
        country = plan["country.html"]
        yield "made-looks.html", looks(country[1])
        for kind in (small, noise, rare, members, huge, limits, changes, hostile_changes, changes_of_both):
            yield "made-%s.html" % kind.__name__.replace("_", "-"), kind(*country)
    if "r3-trade.html" in plan:
        yield "made-routes.html", routes(*plan["r3-trade.html"])
        yield "made-large.html", large(*plan["r3-trade.html"])


def read(path):
    with open(path, newline="") as page:
        return page.read()


def main():
    """Pages of examples are copied as they are, or assembled with --anew; with --made the others stand beside them."""
    options, (source, target) = sys.argv[1:-2], sys.argv[-2:]
    pages = {name: read(os.path.join(source, name)) for name in sorted(os.listdir(source)) if name.endswith(".html")}
    texts = {name: texts_of(page) for name, page in pages.items()}
    anew = {name: assembled(*found) for name, found in texts.items()}
    wrong = 0
    if "--anew" in options:
        pages = anew
    else:
        for name in pages:
            if pages[name] != anew[name]:
                wrong += 1
                print("wrong: %s isn't its escaped texts between the constants of crates/result_pages" % name)
        print("page_make.py: %d tried, %d wrong" % (len(pages), wrong))
    if "--made" in options:
        pages.update((name, assembled(*found)) for name, found in made(texts))
    for name, page in pages.items():
        with open(os.path.join(target, name), "w", newline="") as file:
            file.write(page)
    sys.exit(1 if wrong else 0)


if __name__ == "__main__":
    main()

"""page_planted.py COPY NAME: plants a mistake in a copy of the repository's bench/ and crates/result_pages. page_planted.py: the names."""

import os
import sys

SRC = "crates/result_pages/src/"
MISTAKES = {
    "salvage-is-added": (
        SRC + "script_series.rt",
        "table: 'DiscountedSalvageValue', sign: -1n",
        "table: 'DiscountedSalvageValue', sign: 1n",
    ),
    "bars-of-a-stack-all-begin-at-0": (
        SRC + "script_drawing.rt",
        "const from = !isStack ? 0 : v > 0 ? up : down,",
        "const from = 0,",
    ),
    "five-decimals": (
        SRC + "script_numbers.rt",
        "String(abs(v) % UNIT).padStart(6, '0')",
        "String(abs(v) % UNIT).padStart(6, '0').slice(0, 5)",
    ),
    "texts-are-not-escaped": (
        "bench/page_make.py",
        "        text = text.replace(byte, written)\n",
        "        text = text\n",
    ),
    "a-region-shows-the-first-one": (
        SRC + "script_series.rt",
        "for (const row of plan.rows(table, region, what).filter(",
        "for (const row of plan.rows(table, names.REGION[0], what).filter(",
    ),
}


def main():
    if len(sys.argv) == 1:
        print("\n".join(MISTAKES))
        return
    copy, name = sys.argv[1:]
    path, old, new = MISTAKES[name]
    path = os.path.join(copy, path)
    with open(path, newline="") as file:
        text = file.read()
    if text.count(old) != 1:
        sys.exit("page_planted.py: the place of %s isn't there once" % name)
    with open(path, "w", newline="") as file:
        file.write(text.replace(old, new))


if __name__ == "__main__":
    main()

"""page_hashes.py [--write]: whether the policy of a results page (PAGE_START of crates/result_pages) has the hashes of its style
sheet and of its script; with --write it puts them there. Prints the number of wrong ones, and ends with 1 where there are any."""

import base64
import hashlib
import os
import re
import sys

TOP = os.path.dirname(os.path.dirname(os.path.abspath(__file__)))
SCRIPTS = "NUMBERS TABLES SERIES DRAWING FIGURES PAGE".split()


def folder(top):
    return os.path.join(top, "crates", "result_pages", "src")


def constants(top):
    """The raw byte strings of the crate, by name."""
    found = {}
    for name in sorted(os.listdir(folder(top))):
        if re.fullmatch(r"(page|script)_\w+\.rt", name):
            with open(os.path.join(folder(top), name), newline="") as source:
                found.update(re.findall(r'const (\w+): &\[u8\] = br##"(.*?)"##;', source.read(), re.S))
    return found


def script(parts):
    return "".join(parts["SCRIPT_" + name] for name in SCRIPTS)


def hashed(text):
    return "'sha256-%s'" % base64.b64encode(hashlib.sha256(text.encode("ascii")).digest()).decode()


def with_hashes(start, parts):
    """The start of the page with the hashes that its policy has to have."""
    start = re.sub(r"script-src '[^']*'", "script-src " + hashed(script(parts)), start)
    return re.sub(r"style-src '[^']*'", "style-src " + hashed(parts["STYLE"]), start)


def main():
    parts = constants(TOP)
    wanted = with_hashes(parts["PAGE_START"], parts)
    wrong = sum(a != b for a, b in zip(wanted.split("'"), parts["PAGE_START"].split("'")))
    if sys.argv[1:] == ["--write"]:
        path = os.path.join(folder(TOP), "page_parts.rt")
        with open(path, newline="") as source:
            text = source.read()
        with open(path, "w", newline="") as source:
            source.write(text.replace(parts["PAGE_START"], wanted))
        print("page_hashes.py: %d written" % wrong)
        return
    print("page_hashes.py: %d wrong" % wrong)
    sys.exit(1 if wrong else 0)


if __name__ == "__main__":
    main()

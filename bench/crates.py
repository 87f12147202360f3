#!/usr/bin/env python3
"""Prints the crates of crates.txt by layer, with the first sentence of their READMEs, and the longest chain. A crate's layer is the number
of crates of the longest chain that ends with it."""
import os
import re

TOP = os.path.dirname(os.path.dirname(os.path.abspath(__file__)))


def needs():
    """The crates of crates.txt, each with those that it stands on."""
    with open(f"{TOP}/crates.txt") as file:
        lines = [line.split("#")[0] for line in file]
    return {line.split(":")[0].split()[0]: line.split(":")[1].split() for line in lines if ":" in line}


def layers(below):
    """The layer of each crate. Libraries of the kit aren't counted."""
    found = {}

    def layer(crate):
        if crate not in found:
            found[crate] = 1 + max((layer(it) for it in below[crate] if it in below), default=0)
        return found[crate]

    for crate in below:
        layer(crate)
    return found


def chain(below, found):
    """The longest chain, lowest crate first."""
    at, links = max(found, key=lambda it: found[it]), []
    while at:
        links.append(at)
        at = next((it for it in below[at] if it in below and found[it] == found[at] - 1), None)
    return links[::-1]


def first_sentence(crate):
    with open(f"{TOP}/crates/{crate}/README.md") as file:
        text = file.read().split("\n\n")[1].replace("\n", " ")
    return re.split(r"(?<=[.:])\s+(?=[A-Z`])", text)[0].rstrip(":").rstrip(".")


def main():
    below = needs()
    found = layers(below)
    for crate in sorted(below, key=lambda it: found[it]):
        print(f"{found[crate]:2} {crate:22} {first_sentence(crate)}")
    print("The longest chain:", *chain(below, found))


if __name__ == "__main__":
    main()

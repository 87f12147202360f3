#!/usr/bin/env python3
"""Lists what `.antt` files declare and nothing cites: names of lemmas and definitions that no contract, definition, proof or document mentions.

Usage: bench/idle_lemmas.py [CRATE ..]. A line for each: file, line, how many lines, name. What is cited only by what is itself idle is idle too.
Answers to goals (Answers, Invariants, Proof) and computed examples count as cited: files named *Examples, and those of named_equations
that compute its equations on made data, which are left out here by EXAMPLES. A name that the list has may still be what a reader wants; the check
of the crate, and of those above it, decides whether it can go. Imports aren't looked at: `rt check --fix-imports` does that."""
import collections
import os
import re
import sys

TOP = os.path.dirname(os.path.dirname(os.path.abspath(__file__)))
TOKEN = re.compile(r"[^\s(){}\[\],;:λ→@`|=]+")
HEAD = re.compile(r"(?:pub |abbrev |unfoldable |pattern )*(?:data |record |ruleset |axiom )?([^\s:(){}]+)")
ANSWERS = ("Answers.antt", "Invariants.antt", "Proof.antt")
# crates whose proofs/ are computed examples for the most part
EXAMPLES = ("named_equations",)


def words(text):
    """How often each word stands in the text; of a path each part counts too."""
    seen = collections.Counter()
    for word in TOKEN.findall(text):
        seen.update({word, *filter(None, re.split(r'[.#"]', word))})
    return seen


class Block:
    """A declaration with its equations, and the comment above it."""

    def __init__(self, path, name, at):
        self.path, self.name, self.at, self.lines = path, name, at, []

    def close(self):
        self.text = "\n".join(re.sub("--.*", "", line) for line in self.lines)
        self.words = words(self.text)
        return self


def blocks_of(path, text):
    """The declarations of a file, without its imports."""
    blocks, comment = [], 0
    for at, line in enumerate(text.split("\n"), 1):
        begins = line and not line[0].isspace() and line[0] not in "})]"
        if begins and line.startswith("--"):
            comment += 1
            continue
        if begins and not line.startswith("unfolding "):
            if re.match(r"(unfoldable )?(pub )?(use|mod) ", line):
                blocks.append(Block(path, None, at))
            elif line.startswith("module "):
                # (what a section declares counts as cited)
                blocks.append(Block(path, "module _", at))
            else:
                name = HEAD.match(line).group(1)
                if not blocks or blocks[-1].name != name:
                    blocks.append(Block(path, name, at - comment))
        if blocks:
            blocks[-1].lines.append(line)
        comment = 0
    return [block.close() for block in blocks if block.name]


def is_root(block):
    base = os.path.basename(block.path)
    return block.name == "module _" or base in ANSWERS or "Examples" in base or block.path.split(os.sep)[0] in EXAMPLES


def read():
    """All declarations, and the words of code and documents."""
    blocks, cited = [], collections.Counter()
    for folder, _, names in os.walk(TOP):
        parts = os.path.relpath(folder, TOP).split(os.sep)
        if parts[0] == ".git" or "out" in parts:
            continue
        for name in names:
            path = os.path.join(folder, name)
            if not name.endswith((".antt", ".rt", ".md")):
                continue
            with open(path) as file:
                text = file.read()
            if name.endswith(".antt"):
                blocks += blocks_of(os.path.relpath(path, f"{TOP}/crates"), text)
            else:
                cited.update(words(text))
    return blocks, cited


def idle(blocks, cited):
    count = collections.Counter(cited)
    for block in blocks:
        count.update(block.words)
    named = collections.defaultdict(list)
    for block in blocks:
        if not is_root(block):
            named[block.name].append(block)
    found, doubtful = set(), set(named)
    while doubtful:
        nearby = set()
        for name in doubtful:
            those = [block for block in named[name] if block not in found]
            if those and count[name] == sum(block.words[name] for block in those):
                found.update(those)
                for block in those:
                    count.subtract(block.words)
                    nearby |= block.words.keys() & named.keys()
        doubtful = nearby
    return sorted(found, key=lambda block: (block.path, block.at))


def main():
    for block in idle(*read()):
        if not sys.argv[1:] or block.path.split(os.sep)[0] in sys.argv[1:]:
            print(block.path, block.at, len(block.lines), block.name)


main()

"""The choice of what a measurement runs on."""

import sys


def chosen(names, words):
    """The names that have one of the words in them, in their order, or all where there are no words. Ends the program where none has one."""
    found = [name for name in names if not words or any(word in name for word in words)]
    if not found:
        sys.exit("no name has one of these words in it; there are " + "; ".join(names))
    return found

#!/bin/sh
# Prints the processor time and the most memory that `osemosys` takes of hostile texts of 16 and of 64 MiB as a data file, as a file of a
# plan, of multipliers and of a proof, and as an answer to begin from, with what it says of them; and then what comes of ten thousand random
# lists of words and texts: how many had each exit status, the slowest, and each that had none of the ten statuses, took too long, or was
# refused with more than a line. A first word that is a number makes so many random ones instead. Words choose the texts whose names have
# one of them.
top=$(cd "$(dirname "$0")/.." && pwd)
name=hostile.sh
. "$top/bench/common.sh"
need rt python3
make_work
build_osemosys
python3 -B "$top/bench/hostile.py" "$program" "$top/examples" "$work" "$@"

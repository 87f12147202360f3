#!/bin/sh
# Prints the processor time and the most memory that `osemosys solve` takes from made data files to their reports, with the status and the
# number of pivots; the time and memory in which esolver (QSopt_ex) solves the rows that `osemosys mps` writes of the same file, and
# `glpsol --exact` too, whether their costs are the same, and how many times as much time each takes. Words choose the files whose names
# have one of them.
top=$(cd "$(dirname "$0")/.." && pwd)
name=solve.sh
. "$top/bench/common.sh"
need rt python3 esolver glpsol
make_work
build_osemosys
python3 -B "$top/bench/solve.py" "$program" "$work" "$@"

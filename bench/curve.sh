#!/bin/sh
# Prints a curve of `osemosys curve --method rounded` beside the least costs that glpsol finds at the same limits, from the same data file with
# each limit in it and the long code in MathProg: whether each cost and bound lie within the gap about the least cost, and whether each line
# lies below the least costs at all other limits. Then the processor time of one limit and of all, and what a further limit takes.
# FILE REGION EMISSION LIMITS may be given; without them it is the country of examples/.
top=$(cd "$(dirname "$0")/.." && pwd)
name=curve.sh
. "$top/bench/common.sh"
need rt python3 glpsol
make_work
build_osemosys
if [ $# -eq 0 ]; then
    set -- "$top/examples/country.dat" ISLE CO2 16,18,22,28,40
fi
python3 -B "$top/bench/curve.py" "$program" "$top/bench/mps.mod" "$work" "$@"

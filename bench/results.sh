#!/bin/sh
# Tries `./osemosys results` on optimum, no plan, no least cost, a refused file, one of which nothing is known, one that is too large for the
# exact method, folders that can't be written, full disks and interrupts; prints a line for each, and how many are wrong.
top=$(cd "$(dirname "$0")/.." && pwd)
name=results.sh
. "$top/bench/common.sh"
need python3
make_work
build_osemosys
python3 -B "$top/bench/results.py" "$top" "$program" "$work"

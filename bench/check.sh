#!/bin/sh
# Prints the processor time and the most memory that `osemosys check` takes on files that it makes, with a full plan, and with multipliers
# of all rows too, and how many times as much time that is as `osemosys mps` takes of the same data file; and the first line of each
# answer. Words choose the files whose names have one of them.
top=$(cd "$(dirname "$0")/.." && pwd)
name=check.sh
. "$top/bench/common.sh"
need rt python3
make_work
build_osemosys
python3 -B "$top/bench/check.py" "$program" "$work" "$@"

#!/bin/sh
# Prints of so many lines of random words (2000, or as many as the first word says) how many the script `osemosys` answers before it
# builds anything, and how many of these otherwise than the program; and whether it goes by the checksum of its sources.
top=$(cd "$(dirname "$0")/.." && pwd)
name=early.sh
. "$top/bench/common.sh"
need python3
make_work
build_osemosys
python3 -B "$top/bench/early.py" "$top" "$program" "$work" "${1:-2000}"

#!/bin/sh
# Runs the recipes of docs/WORK.md as they stand, in their order, and compares what they print with the text after them; says which tools are
# missing, and how many recipes are wrong.
top=$(cd "$(dirname "$0")/.." && pwd)
name=work.sh
. "$top/bench/common.sh"
need python3
make_work
build_osemosys
python3 -B "$top/bench/work.py" "$top" "$work"

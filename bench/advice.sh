#!/bin/sh
# Tries what the script `osemosys` says on standard error of files with the usual mistakes, of other programs' files and of answers that
# give no plan; prints how many are wrong.
top=$(cd "$(dirname "$0")/.." && pwd)
name=advice.sh
. "$top/bench/common.sh"
need python3
make_work
build_osemosys
python3 -B "$top/bench/advice.py" "$top" "$program" "$work"

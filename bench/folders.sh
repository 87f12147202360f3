#!/bin/sh
# Tries script/data_file.py on the data files given, or on those of examples/, and on folders with a mistake; see folders.py.
top=$(cd "$(dirname "$0")/.." && pwd)
name=folders.sh
. "$top/bench/common.sh"
need python3
[ $# -gt 0 ] || set -- "$top"/examples/*.dat
make_work
build_osemosys
python3 -B "$top/bench/folders.py" "$top" "$work" "$program" "$@"

#!/bin/sh
# Prints the processor time and the most memory that `osemosys solve --method rounded` takes on models as planners have them: data with
# several digits, discounting, trade, limits and reserves, up to three regions, twenty years and eight timeslices; beside Clp and esolver
# (QSopt_ex) on the rows that `osemosys mps` writes of the same file. Plan and multipliers are given back to `osemosys check` with a gap of
# 10 millionths. A word that names a file of data is measured too; other words choose the models whose names have one of them.
top=$(cd "$(dirname "$0")/.." && pwd)
name=models.sh
. "$top/bench/common.sh"
need rt python3 esolver clp
make_work
build_osemosys
python3 -B "$top/bench/models.py" "$program" "$work" "$@"

#!/bin/sh
# For each file of data that is named: how long `osemosys explain --method rounded` takes and how much memory; how many inequalities the
# first refutation names, by the multipliers that `solve` shows, and how many members are told; and whether other solvers find those members
# infeasible together with all equations of the rows that `osemosys mps` writes, and feasible without any one of them: esolver (QSopt_ex),
# whose numbers have any length, and Clp.
top=$(cd "$(dirname "$0")/.." && pwd)
name=explain.sh
. "$top/bench/common.sh"
need rt python3 esolver clp
make_work
build_osemosys
python3 -B "$top/bench/explain.py" "$program" "$work" "$@"

#!/bin/sh
# Prints the processor time and the most memory in which the exact simplex solves made files, less the time of all that comes before it;
# how many rows and columns it begins with, its pivots, how many of them phase 1 makes by the kept rows, and the cost; and the time and
# memory of esolver (QSopt_ex) on the text of `osemosys mps`, with whether both costs are the same. It proves and builds a small program
# in a copy of the repository. Words choose the files whose names have one of them. It fails where phase 1 begins anew.
top=$(cd "$(dirname "$0")/.." && pwd)
name=simplex.sh
. "$top/bench/common.sh"
need rt python3 esolver
make_work
build_osemosys
osemosys=$program
build_over simplex_bench simplex.txt simplex_core exact_solver row_book param_tables mathprog_data row_core exact_num model_sets
python3 -B "$top/bench/simplex.py" "$program" "$osemosys" "$work" "$@"

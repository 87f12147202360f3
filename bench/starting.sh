#!/bin/sh
# Prints how many pivots `osemosys solve --method rounded` needs from a start, beside those that it needs from nothing: from the plan of the
# same model and of ones with other demands and costs, from what Clp, CBC and glpsol answer to the texts of `osemosys mps` and `osemosys reduce`,
# and from wrong answers: cut, shuffled, random, of another model, with NaN, and one line of 64 MiB. A word that names a file of data is measured;
# other words choose the models of `models.sh` whose names have one of them.
top=$(cd "$(dirname "$0")/.." && pwd)
name=starting.sh
. "$top/bench/common.sh"
need rt python3 clp cbc glpsol
make_work
build_osemosys
python3 -B "$top/bench/starting.py" "$program" "$work" "$@"

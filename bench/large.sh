#!/bin/sh
# Prints what large models take by guesses: size, status, processor time and the most memory of `osemosys mps`, `reduce`, `solve --method rounded`
# and `check` of its proof, with the pivots and how far cost and bound are apart; and of Clp, CBC and glpsol on the texts of `mps` and `reduce`,
# with what `solve` takes from each of their answers. Words choose the models whose names have one of them. A peer may take PEER_SECONDS, ten
# minutes if the environment doesn't say it; so the largest take an hour.
top=$(cd "$(dirname "$0")/.." && pwd)
name=large.sh
. "$top/bench/common.sh"
need rt python3 clp cbc glpsol
make_work
build_osemosys
python3 -B "$top/bench/large.py" "$program" "$work" "$@"

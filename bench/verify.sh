#!/bin/sh
# Tries verify/verify.py: on the proofs of the examples and of made models, or of the data files that are named, against the text of `mps`
# and, where glpsol is there, against the one that it writes by mps.mod; and on spoiled proofs. Prints how many are wrong.
top=$(cd "$(dirname "$0")/.." && pwd)
name=verify.sh
. "$top/bench/common.sh"
need python3
make_work
build_osemosys
python3 -B "$top/bench/verify_proofs.py" "$top" "$program" "$work" "$@"

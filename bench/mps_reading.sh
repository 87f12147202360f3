#!/bin/sh
# Prints for texts in free MPS how many rows, columns and entries they say by the definition of crates/mps_meaning, which mps_reading.py
# tells again, and whether glpsol, lp_solve and Clp read the same linear program from them. Words are files with such texts; without any,
# the texts are those that `osemosys mps` writes of the examples and of files that it makes.
top=$(cd "$(dirname "$0")/.." && pwd)
name=mps_reading.sh
. "$top/bench/common.sh"
need python3
for tool in glpsol lp_solve clp; do
    if ! command -v "$tool" >/dev/null 2>&1; then
        echo "$name: $tool is missing (Debian has it in glpk-utils, lp-solve or coinor-clp)" >&2
        exit 1
    fi
done
make_work
if [ $# = 0 ]; then
    build_osemosys
    python3 -B "$top/bench/mps_reading.py" --written "$program" "$top/examples" "$work"
else
    python3 -B "$top/bench/mps_reading.py" --texts "$work" "$@"
fi

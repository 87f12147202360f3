#!/bin/sh
# Prints spans of `osemosys span --method rounded` beside the ends that glpsol finds on the text of `osemosys mps` with a row that limits
# the cost and the capacity as the cost: whether they agree within the gap. Then the processor time and the most memory of each.
# FILE REGION YEAR SLACK TECHNOLOGY.. may be given; without them it is the country of examples/.
top=$(cd "$(dirname "$0")/.." && pwd)
name=span.sh
. "$top/bench/common.sh"
need rt python3 glpsol
make_work
build_osemosys
if [ $# -eq 0 ]; then
    set -- "$top/examples/country.dat" ISLE 2033 5000 GAS_PLANT WIND SOLAR
fi
python3 -B "$top/bench/span.py" "$program" "$work" "$@"

#!/bin/sh
# Runs each command of `osemosys` on a small example as often as it allocates memory, and has one allocation refused each time, the first,
# the second and so on; then as often as it opens, reads or writes, with one such call failing each time; and then with one read or write of
# several bytes moving one alone. Prints how often each exit status came, and each run that crashed, lost a byte or told a wrong cause.
# Words choose the commands that have one of them.
top=$(cd "$(dirname "$0")/.." && pwd)
name=memory.sh
. "$top/bench/common.sh"
need rt python3 cc
make_work
build_osemosys
cc -x c -shared -fPIC -O1 -o "$work/refusing" "$top/bench/refusing.txt" -ldl
python3 -B "$top/bench/memory.py" "$program" "$top/examples" "$work/refusing" "$@"

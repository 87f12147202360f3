#!/bin/sh
# Prints the processor time that `tokens` and `read_blocks` take on large and on hostile texts, less what reading the file alone
# takes, and the most memory that the program holds, the file in it included. It proves and builds a small program in a copy of the
# repository, so it takes minutes before it measures. The texts, of up to 64 MiB, stand in a temporary folder that is removed at the
# end. Words choose the texts whose names have one of them.
top=$(cd "$(dirname "$0")/.." && pwd)
name=reading.sh
. "$top/bench/common.sh"
need rt python3
make_work
build_over reading_bench reading.txt mathprog_data
python3 -B "$top/bench/reading.py" "$program" "$work" "$@"

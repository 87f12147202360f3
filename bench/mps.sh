#!/bin/sh
# Prints the processor time and the most memory that `osemosys mps` takes on files that it makes, with the entries, the bytes that it
# writes and its bytes of memory for an entry; the time and memory in which glpsol makes the same rows from the same file by mps.mod and
# writes them as free MPS, and how many times as much that is; whether glpsol reads the text, and whether both have the same numbers of
# rows, columns and entries. Words choose the files whose names have one of them.
top=$(cd "$(dirname "$0")/.." && pwd)
name=mps.sh
. "$top/bench/common.sh"
need rt python3 glpsol
make_work
build_osemosys
python3 -B "$top/bench/mps.py" "$program" "$work" "$@"

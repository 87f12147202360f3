#!/bin/sh
# Prints the processor time in which the defined variables of a book of rows are eliminated, and in which a plan and multipliers are carried
# back to them, each less the making of the book, and the most memory with each step. It proves and builds a small program in a copy of the
# repository, so it takes minutes before it measures. Words choose the files whose names have one of them.
top=$(cd "$(dirname "$0")/.." && pwd)
name=eliminating.sh
. "$top/bench/common.sh"
need rt python3
make_work
build_over eliminating_bench eliminating.txt exact_solver mathprog_data param_tables row_book row_core
python3 -B "$top/bench/eliminating.py" "$program" "$work" "$@"

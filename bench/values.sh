#!/bin/sh
# Measures the making of checked data from two million values of one parameter: the time and the peak memory of a program that
# makes the text and reads it, of one that also takes up the sets, and of one that also builds the data and looks every value up.
# It proves and builds a small program in a copy of the repository, so it takes minutes before it measures.
top=$(cd "$(dirname "$0")/.." && pwd)
name=values.sh
. "$top/bench/common.sh"
need rt python3
make_work
build_over values_bench values.txt mathprog_data model_sets param_tables exact_num
python3 -c '
import os, resource, subprocess, sys, time
program = sys.argv[1]
before = None
for words, what in (([], "text read"), (["sets"], "sets taken up"), (["sets", "build"], "data built"), (["sets", "build", "at"], "all values looked up")):
    start = time.perf_counter()
    child = subprocess.Popen([program] + words, stdout=subprocess.DEVNULL)
    _, status, used = os.wait4(child.pid, 0)
    took = time.perf_counter() - start
    print(f"{what:>22}: {took:6.2f} s, {used.ru_maxrss / 1024:8.1f} MiB at most, status {os.waitstatus_to_exitcode(status)}")
' "$program"

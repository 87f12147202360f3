#!/bin/sh
# Counts the instructions of a million greatest common divisors of random pairs of 20, 64 and 120 bits, and the time that they take.
# It proves and builds a small program in a copy of the repository, so it takes minutes before it measures. The making of the pairs is
# counted apart and taken off.
top=$(cd "$(dirname "$0")/.." && pwd)
name=gcd.sh
. "$top/bench/common.sh"
need rt valgrind python3
make_work
build_over gcd_bench gcd.txt exact_num

instructions() {
    valgrind --tool=callgrind --callgrind-out-file="$work/callgrind" "$program" "$@" 2>&1 >/dev/null |
        sed -n 's/.*Collected : *//p'
}

seconds() {
    python3 -c '
import subprocess, sys, time
best = 1e9
for _ in range(5):
    start = time.perf_counter()
    subprocess.run(sys.argv[1:], stdout=subprocess.DEVNULL, check=True)
    best = min(best, time.perf_counter() - start)
print(best)' "$program" "$@"
}

for bits in 20 64 120; do
    all=$(instructions "$bits")
    pairs=$(instructions "$bits" pairs)
    long=$(seconds "$bits")
    short=$(seconds "$bits" pairs)
    python3 -c '
import sys
bits, all_, pairs, long, short = sys.argv[1:]
print(f"{bits:>3} bits: {(int(all_) - int(pairs)) / 1e6:8.1f} instructions and {(float(long) - float(short)) * 1e3:7.1f} ns for one gcd")' \
        "$bits" "$all" "$pairs" "$long" "$short"
done

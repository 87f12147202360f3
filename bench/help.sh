#!/bin/sh
# Tries `./osemosys help` on every command, option, code, word, equation, variable, parameter and set: something is told of each, in lines of
# at most 80 characters and without marks. Prints how many are wrong. It needs no program.
top=$(cd "$(dirname "$0")/.." && pwd)
name=help.sh
. "$top/bench/common.sh"
need python3
python3 -B "$top/bench/help.py" "$top"

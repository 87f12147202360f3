#!/bin/sh
# statuses.sh PROGRAM runs the program once for each exit status of docs/COMMANDS.md, and on the edges that no clause reaches: paths, files
# that are no plain files or change while they are read, outputs that fail, and the progress line. Prints each answer that isn't the one that
# is wanted, and `N wrong`. Without PROGRAM it is the one that `./osemosys` builds.
top=$(cd "$(dirname "$0")/.." && pwd)
name=statuses.sh
. "$top/bench/common.sh"
need python3
make_work
if [ $# -gt 0 ]; then
    program=$(readlink -f "$1")
else
    need rt
    build_osemosys
fi
cd "$work" || exit 1
examples=$top/examples
base=$examples/base.dat
tried=0
wrong=0

# Tells that an answer isn't the one that is wanted.
tell() {
    wrong=$((wrong + 1))
    echo "WRONG $1: $2"
}

# Takes the status of a call whose text is in `out` and whose standard error is in `err`:
# judge WHAT STATUS WANTED LINE, where the first line has to begin with LINE, and nothing may be written where that is `-`.
judge() {
    tried=$((tried + 1))
    [ "$2" = "$3" ] || tell "$1" "ended with $2 and not $3"
    case $4 in
    -) [ ! -s out ] || tell "$1" "wrote $(head -n 1 out)" ;;
    *) case $(head -n 1 out) in "$4"*) ;; *) tell "$1" "wrote '$(head -n 1 out)' and not '$4'" ;; esac ;;
    esac
    [ ! -s err ] || tell "$1" "wrote to standard error: $(head -n 1 err)"
}

# Runs the program with words: run WHAT STATUS LINE WORD..
run() {
    what=$1
    status=$2
    line=$3
    shift 3
    "$program" "$@" >out 2>err </dev/null
    judge "$what" $? "$status" "$line"
}

# The text has to be that of `mps` of the base example.
same_equations() { cmp -s out equations || tell "$1" "wrote another text than of the plain file"; }

# ---- each exit status

run "status 0" 0 "NAME OSEMOSYS" mps "$base"
cp out equations
run "status 1" 1 "status infeasible" solve "$examples/no-plan.dat"
sed 's/^param CapitalCost default 5/param CapitalCost default -5/' "$base" >unbounded.dat
run "status 2" 2 "status unbounded" solve unbounded.dat
run "status 3" 3 "uncertified budget 0" solve "$base" --pivots 0
run "status 4" 4 "refused line" mps "$top/README.md"
run "status 5" 5 "words refused NoCommand"
run "status 6" 6 "read fault file 1" mps missing.dat
"$program" mps "$base" >/dev/full 2>err </dev/null
status=$?
: >out
judge "status 7" $status 7 -
sed 's/^NewCapacity,\(.*\),[^,]*$/NewCapacity,\1,9/' "$examples/base-plan.csv" >short.csv
run "status 9" 9 "rejected " check "$base" short.csv
run "status 10" 10 - mps "$(printf 'a\377')"

# Memory that ends: some more than what a small call needs, for one that needs much. A program with a sanitizer can't begin under any limit.
least=
for limit in 4096 8192 16384 32768; do
    [ -z "$least" ] || break
    { (ulimit -v $limit && "$program" make 3 >out 2>err </dev/null) && [ -s out ] && least=$limit; } 2>/dev/null
done
if [ -n "$least" ]; then
    (ulimit -v $((least + 8192)) && "$program" make 122 --show summary >out 2>err </dev/null)
    judge "status 8" $? 8 -
else
    echo "note: status 8 isn't tried, since this program doesn't begin under a limit on its memory"
fi

# The script, where neither the program nor rt is there. It says so on standard error.
mkdir script bin
cp -r "$top/osemosys" "$top/script" script/
for tool in bash env dirname readlink stat; do ln -s "$(command -v $tool)" bin/; done
PATH=$work/bin script/osemosys mps "$base" >out 2>told </dev/null
status=$?
: >err
judge "status 70" $status 70 -
[ -s told ] || tell "status 70" "said nothing on standard error"

# ---- paths

run "a folder" 6 "read fault file 1" mps "$work"
run "a file as a folder" 6 "read fault file 1" mps "$base/"
mkdir -p 'a b/c'
cp "$base" 'a b/c/é
.dat'
run "a path with folders" 0 "NAME" mps 'a b/../a b/c/é
.dat'
same_equations "a path with folders"
ln -s "$base" link.dat
run "a link" 0 "NAME" mps link.dat
same_equations "a link"
run "a folder as a second file" 6 "read fault file 2" check "$base" "$work"
: >empty
run "an empty file" 4 "refused " mps empty

# ---- files whose length isn't known, or changes while they are read

# Ends what writes into the pipe, which may wait for a reader that never came.
end_writer() {
    kill $! 2>/dev/null
    wait $! 2>/dev/null
}

size=$(wc -c <"$base")
mkfifo pipe
(head -c 700 "$base"; sleep 0.3; tail -c +701 "$base") >pipe &
run "a pipe that halts" 0 "NAME" mps pipe
same_equations "a pipe that halts"
end_writer
head -c 700 "$base" >cut.dat
"$program" mps cut.dat >cut 2>/dev/null </dev/null
cat cut.dat >pipe &
run "a pipe that ends early" 4 "$(cat cut)" mps pipe
end_writer
head -c 67108865 /dev/zero >pipe 2>/dev/null &
run "a pipe with a byte too many" 4 "refused too long file 1" mps pipe
end_writer
run "a file without an end" 4 "refused too long file 1" mps /dev/zero
# (what stands after the closing `end ;` isn't part of the text; the environment of a process has a length of 0 and ends with a zero byte)
if [ -r /proc/self/environ ]; then
    env -i "$(cat "$base")" /bin/sleep 60 &
    other=$!
    while [ "$(tr -d '\0' <"/proc/$other/environ" | wc -c)" -ne "$((size - 1))" ] && kill -0 $other; do :; done
    run "a file of /proc" 0 "NAME" mps "/proc/$other/environ"
    same_equations "a file of /proc"
    kill $other
    wait $other 2>/dev/null
else
    echo "note: there is no /proc"
fi
cp "$base" grows.dat
(while [ ! -e stop ]; do head -c 65536 /dev/zero >>grows.dat; [ "$(wc -c <grows.dat)" -lt 60000000 ] || truncate -s "$size" grows.dat; done) &
other=$!
for round in 1 2 3 4 5; do
    run "a file that grows" 0 "NAME" mps grows.dat
    same_equations "a file that grows"
done
: >stop
wait $other
rm stop
cp "$base" shrinks.dat
(while [ ! -e stop ]; do head -c 60000000 /dev/zero >>shrinks.dat; truncate -s "$size" shrinks.dat; done) &
other=$!
for round in 1 2 3 4 5; do
    run "a file that is cut" 0 "NAME" mps shrinks.dat
    same_equations "a file that is cut"
done
: >stop
wait $other

# ---- outputs

# (with the standard output closed the data file is opened in its place)
cp "$base" kept.dat
: >out
"$program" mps kept.dat >&- 2>err </dev/null
judge "a closed output" $? 7 -
cmp -s kept.dat "$base" || tell "a closed output" "the data file was changed"
"$program" mps kept.dat >out 2>&- <&-
status=$?
: >err
judge "closed input and errors" $status 0 "NAME"
same_equations "closed input and errors"
"$program" mps kept.dat >&- 2>&- <&-
status=$?
: >out
judge "nothing open" $status 7 -
cmp -s kept.dat "$base" || tell "nothing open" "the data file was changed"
{ sleep 0.5; "$program" warn "$base" 2>err </dev/null; echo $? >status; } | true
judge "a pipe whose reader ended" "$(cat status)" 7 -
# (a text of some megabytes, more than a pipe holds)
"$program" make 122 >made.dat 2>/dev/null </dev/null
"$program" mps made.dat >made 2>/dev/null </dev/null
{ "$program" mps made.dat 2>err </dev/null; echo $? >status; } | head -c 100000 >out
judge "a pipe whose reader ends" "$(cat status)" 7 "NAME OSEMOSYS"
head -c 100000 made | cmp -s - out || tell "a pipe whose reader ends" "it got another text"
{ "$program" mps made.dat 2>err </dev/null; echo $? >status; } | (sleep 0.5; cat) >out
judge "a pipe whose reader is slow" "$(cat status)" 0 "NAME OSEMOSYS"
cmp -s made out || tell "a pipe whose reader is slow" "it got another text"

# ---- standard output beside the progress line, with a terminal as standard error

cat >terminal.py <<'PYTHON'
"""Runs words with a terminal as standard error: the text goes to standard output, and what the terminal got to the file `line`."""
import os, pty, subprocess, sys, threading

here, there = pty.openpty()
got = []


def listen():
    try:
        while piece := os.read(here, 4096):
            got.append(piece)
    except OSError:
        pass


listener = threading.Thread(target=listen)
listener.start()
status = subprocess.run(sys.argv[1:], stdin=subprocess.DEVNULL, stderr=there).returncode
os.close(there)
listener.join()
with open("line", "wb") as file:
    file.write(b"".join(got))
sys.exit(status)
PYTHON
"$program" solve "$examples/country.dat" --show proof >proof.csv 2>/dev/null </dev/null
beside() {
    "$program" "$@" >wanted 2>/dev/null </dev/null
    status=$?
    python3 terminal.py "$program" "$@" >out 2>err
    judge "a terminal beside $1" $? $status "$(head -n 1 wanted)"
    cmp -s wanted out || tell "a terminal beside $1" "another text than without one"
    # (the line is begun by a carriage return, and taken away by one and an erasure)
    case $(tr '\r\033' '<E' <line) in '<'*'<E[K') ;; *) tell "a terminal beside $1" "the line isn't there, or isn't removed" ;; esac
}
beside mps "$examples/country.dat"
beside solve "$examples/country.dat"
beside solve "$examples/country.dat" --method rounded --show plan
beside explain "$examples/no-plan.dat"
beside page "$examples/country.dat" proof.csv
beside mps missing.dat

echo "$tried tried"
echo "$wrong wrong"
[ "$wrong" = 0 ]

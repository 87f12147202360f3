# Sourced by the scripts of this folder, each of which sets `top`, the repository, and `name`, its own, first.

# Ends the script where one of these tools is missing.
need() {
    for tool in "$@"; do
        if ! command -v "$tool" >/dev/null 2>&1; then
            echo "$name: $tool is missing (Debian has glpsol in glpk-utils and esolver in qsopt-ex)" >&2
            exit 1
        fi
    done
}

# A temporary folder, `work`, which is removed at the end.
make_work() {
    work=$(mktemp -d)
    trap 'rm -rf "$work"' EXIT
}

# The lines of crates.txt for these crates and all below them, lowest first.
lines_for() {
    python3 -c '
import sys
lines = [line.split("#")[0].strip() for line in open(sys.argv[1])]
needs = {line.split(":")[0].split()[0]: line.split(":")[1].split() for line in lines if line}
kept = []
def keep(crate):
    if crate in needs and crate not in kept:
        for below in needs[crate]:
            keep(below)
        kept.append(crate)
for crate in sys.argv[2:]:
    keep(crate)
print("\n".join((crate + ": " + " ".join(needs[crate])).strip() for crate in kept))' "$top/crates.txt" "$@"
}

# Proves and builds a program from a source of this folder, over these crates and all below them, in a copy of the repository:
# build_over PROGRAM SOURCE CRATE... Afterwards `program` is its file.
build_over() {
    built=$1
    source=$2
    shift 2
    lines_for "$@" >"$work/crates.txt"
    mkdir -p "$work/crates/$built/src"
    cp "$top/HANDLES" "$work/"
    cut -d: -f1 "$work/crates.txt" | while read -r crate; do
        mkdir -p "$work/crates/$crate"
        for part in src specs proofs; do
            if [ -d "$top/crates/$crate/$part" ]; then cp -R "$top/crates/$crate/$part" "$work/crates/$crate/"; fi
        done
    done
    echo "$built: $*" >>"$work/crates.txt"
    cp "$top/bench/$source" "$work/crates/$built/src/main.rt"
    # The one way to the proved program is to run it once; what that run answers doesn't matter.
    (cd "$work/crates/$built" && rt run </dev/null >/dev/null 2>"$work/log")
    program=$work/crates/$built/out/$built
    if [ ! -x "$program" ]; then
        echo "$name: the program wasn't built:" >&2
        tail -n 20 "$work/log" >&2
        exit 1
    fi
}

# Builds `osemosys` where it isn't built from its sources. Afterwards `program` is its file.
build_osemosys() {
    if "$top/osemosys" warn "$top/examples/base.dat" >/dev/null 2>&1 </dev/null; then
        program=$top/crates/osemosys/out/osemosys
    else
        echo "$name: osemosys wasn't built; '$top/osemosys' says why" >&2
        exit 1
    fi
}

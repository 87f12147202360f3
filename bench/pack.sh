#!/bin/sh
# Tries the archive that `./osemosys pack` makes: whether it is the same twice, and whether it runs in a root of its own, which has bash, awk
# and the small tools and nothing of this repository or of rt. Only root may make such a root. Prints how many are wrong.
top=$(cd "$(dirname "$0")/.." && pwd)
name=pack.sh
. "$top/bench/common.sh"
need tar gzip chroot ldd
make_work
build_osemosys
wrong=0
chroot=$(command -v chroot)

try() {
    if [ "$2" = "$3" ]; then echo "$1: right"; else echo "$1: wrong: $2"; wrong=$((wrong + 1)); fi
}

# A folder with these tools and the libraries that they need.
make_root() {
    mkdir -p "$work/root/tmp" "$work/root/dev"
    : >"$work/root/dev/null"
    for tool in bash awk sed grep find sort xargs cut head tail tr cat wc mkdir mktemp mv rm cp touch date stat readlink dirname sha256sum timeout; do
        file=$(readlink -f "$(command -v "$tool")")
        for part in "$file" $(ldd "$file" | grep -o '/[^ ]*'); do
            mkdir -p "$work/root$(dirname "$part")"
            cp -L "$part" "$work/root$part"
        done
        mkdir -p "$work/root/usr/bin"
        [ "$file" = "/usr/bin/$tool" ] || cp -L "$file" "$work/root/usr/bin/$tool"
    done
    for part in $(ldd "$program" | grep -o '/[^ ]*'); do mkdir -p "$work/root$(dirname "$part")" && cp -L "$part" "$work/root$part"; done
    mkdir -p "$work/root/usr/bin" && cp -L "$(command -v env)" "$work/root/usr/bin/env"
}

(mkdir "$work/one" "$work/two" && cd "$work/one" && "$top/osemosys" pack >/dev/null 2>&1 && cd "$work/two" && "$top/osemosys" pack >/dev/null 2>&1) ||
    { echo "$name: '$top/osemosys pack' makes no archive" >&2; exit 1; }
archive=$(cd "$work/one" && echo *.tar.gz)
try "two archives" "$(cmp "$work/one/$archive" "$work/two/$archive" && echo same)" same
try "the checksum" "$(cd "$work/one" && sha256sum -c --quiet "$archive.sha256" && echo good)" good
make_root
tar -C "$work/root" -xzf "$work/one/$archive" && mv "$work/root/${archive%.tar.gz}" "$work/root/packed"
try "the list of checksums" "$(cd "$work/root/packed" && sha256sum -c --quiet SHA256SUMS && echo good)" good
inside() { (cd "$work" && PATH=/usr/bin:/bin TMPDIR=/tmp "$chroot" "$work/root" /usr/bin/bash -c "$1" 2>&1); }
try "rt in the root" "$(inside 'command -v rt || echo none')" none
try "a plan" "$(inside '/packed/osemosys solve /packed/examples/country.dat --show line')" 0,8968.230890,8968.230890,0.000000,209
try "the version" "$(inside '/packed/osemosys --version' | head -n 1)" "osemosys $(echo "$archive" | sed 's/^osemosys-//; s/-x86_64.tar.gz$//')"
try "help" "$(inside '/packed/osemosys help NoValue | grep -c default')" "$("$top/osemosys" help NoValue | grep -c default)"
try "results" "$(inside '/packed/osemosys results /packed/examples/country.dat /tmp/country | head -n 1')" "found: a plan that costs 8968.230890, by the exact method"
try "an unknown command" "$(inside '/packed/osemosys slove; echo $?' | tr '\n' ' ' | sed 's/ osemosys:.*help WORD. tell of one//')" "words refused BadCommand 5 "
echo "$wrong wrong"
[ "$wrong" = 0 ]

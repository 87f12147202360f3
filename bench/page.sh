#!/bin/sh
# Tries results pages in Chromium: page.sh [--anew | --planted] FOLDER. FOLDER has pages as `osemosys page` and `osemosys compare --show
# page` write them; some checks want country.html, compare.html, r3-trade.html, hostile.html, no-plan.html and unbounded.html among them.
# With --anew they are assembled again, of their texts and the constants of crates/result_pages. With --planted mistakes are planted in
# copies of script and assembly, one after another, and each has to be found. Where Firefox is there, it has to draw all pages without an
# error. Prints what is wrong, and counts.
top=$(cd "$(dirname "$0")/.." && pwd)
name=page.sh
. "$top/bench/common.sh"
for tool in chromium node python3; do
    if ! command -v "$tool" >/dev/null 2>&1; then
        echo "$name: $tool is missing (Debian has chromium in chromium and node in nodejs)" >&2
        exit 1
    fi
done
mode=
case $1 in --anew | --planted)
    mode=$1
    shift
    ;;
esac
if [ ! -d "$1" ]; then
    echo "$name: which folder of pages? page.sh [--anew | --planted] FOLDER" >&2
    exit 1
fi
make_work

# Tries the pages of a folder: tested FOLDER. Its status is 0 where nothing is wrong.
tested() {
    rm -rf "$work/home"
    mkdir "$work/home"
    node --no-warnings --experimental-websocket "$top/bench/page.mjs" "$1" "$work/home"
    first=$?
    python3 -B "$top/bench/page_sums.py" "$1" && [ $first -eq 0 ]
}

if [ "$mode" = --planted ]; then
    tried=0
    missed=0
    mkdir "$work/chosen"
    for page in country r3-trade hostile; do cp "$1/$page.html" "$work/chosen/" || exit 1; done
    for mistake in $(python3 -B "$top/bench/page_planted.py"); do
        copy=$work/$mistake
        mkdir -p "$copy/crates/result_pages" "$copy/pages"
        cp -R "$top/crates/result_pages/src" "$copy/crates/result_pages/"
        cp -R "$top/bench" "$copy/"
        python3 -B "$top/bench/page_planted.py" "$copy" "$mistake" || exit 1
        python3 -B "$copy/bench/page_hashes.py" --write >/dev/null
        python3 -B "$copy/bench/page_make.py" --anew "$work/chosen" "$copy/pages"
        tried=$((tried + 1))
        if tested "$copy/pages" >"$work/log" 2>&1; then
            missed=$((missed + 1))
            echo "missed: $mistake"
        else
            echo "found: $mistake: $(grep -c '^wrong' "$work/log") wrong, first $(grep -m 1 '^wrong' "$work/log" | cut -c1-90)"
        fi
    done
    echo "$name: $tried mistakes planted, $missed missed"
    [ $missed -eq 0 ]
    exit
fi

mkdir "$work/pages"
python3 -B "$top/bench/page_hashes.py"
hashes=$?
python3 -B "$top/bench/page_make.py" $mode --made "$1" "$work/pages"
made=$?
tested "$work/pages"
shown=$?
if command -v firefox-esr >/dev/null 2>&1; then
    mkdir "$work/firefox"
    node --no-warnings --experimental-websocket "$top/bench/page_firefox.mjs" "$work/pages" "$work/firefox" || shown=1
else
    echo "$name: not tried in Firefox, which is missing (Debian has it in firefox-esr)"
fi
[ $shown -eq 0 ] && [ $hashes -eq 0 ] && [ $made -eq 0 ]

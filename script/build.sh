# shellcheck shell=bash
# The program: whether it is that of the sources, how it is built, and how it is run unproved.

need_rt() {
  command -v rt >/dev/null && return
  say "the program isn't built, or isn't that of its sources, and rt, the command that builds it, isn't on the path"
  exit $NO_PROGRAM
}

# The program is that of the sources. Their times are asked first; where one is newer, as after a copy, a checkout or a pull that came
# back, their checksum says whether it is the program that was built from these very sources, and its time is set to the present one, so
# that this is asked once. A packed program has no sources beside it.
is_current() {
  local now
  [ -x "$program" ] || return
  [ -d "$here/crates/osemosys/src" ] && has_newer_source || return 0
  now=$(date +%s)
  [ -f "$program.built" ] && [ "$(recorded program)" = "$(sum_of <"$program")" ] && [ "$(recorded sources)" = "$(sources_sum "$here")" ] || return
  touch -c -d "@$now" "$program" 2>/dev/null
  return 0
}

# A line of what was written down when the program was installed: its commit, kit, and checksums of the sources and of the program.
recorded() { sed -n "s/^$1 //p" "$program.built" 2>/dev/null; }

sum_of() { sha256sum | cut -d ' ' -f 1; }

# A source of the program's crates is newer than the program, or a folder of them, where one was taken out.
has_newer_source() {
  local crate folders=()
  [ ! "$here/crates.txt" -nt "$program" ] || return 0
  while IFS=': ' read -r crate _; do
    folders+=("$here/crates/$crate/src" "$here/crates/$crate/specs" "$here/crates/$crate/proofs")
  done < <(needed_crates "$here")
  [ -n "$(find "${folders[@]}" -newer "$program" -print -quit 2>/dev/null)" ]
}

# One checksum of all that the program is built from: of its crates the lines of crates.txt and the files of src, specs and proofs.
sources_sum() {
  (
    cd "$1" || exit
    {
      needed_crates .
      while IFS=': ' read -r crate _; do
        find "crates/$crate/src" "crates/$crate/specs" "crates/$crate/proofs" -type f -print0 2>/dev/null
      done < <(needed_crates .) | LC_ALL=C sort -z | xargs -0 sha256sum
    } | sum_of
  )
}

# The lines of crates.txt, in this folder, of the program and of the crates that it stands on.
needed_crates() {
  awk -F: '
    /^[^#]*:/ { split($1, head, " "); name[++count] = head[1]; line[head[1]] = $0; uses[head[1]] = $2 }
    function mark(crate, list, i, n) {
      if (crate in marked || !(crate in line)) return
      marked[crate] = 1
      n = split(uses[crate], list, " ")
      for (i = 1; i <= n; i++) mark(list[i])
    }
    END { mark("osemosys"); for (i = 1; i <= count; i++) if (name[i] in marked) print line[name[i]] }
  ' "$1/crates.txt"
}

# Copies the crates that the program needs, without must-fail edits, into a folder outside the repository.
copy_needed() {
  local to=$1 crate part
  mkdir "$to/crates" && cp "$here/HANDLES" "$to/" && needed_crates "$here" >"$to/crates.txt" || return
  while IFS=': ' read -r crate _; do
    mkdir "$to/crates/$crate" || return
    for part in "$here/crates/$crate"/*; do
      case ${part##*/} in out | must-fail) ;; *) cp -r "$part" "$to/crates/$crate/" || return ;; esac
    done
  done <"$to/crates.txt"
}

# How many crates the build has proved by what it has written so far; those that an earlier build proved are counted too.
proved_crates() { grep -cE '^rt: [a-z0-9_]+ (proved|is kept)' "$1"; }

# Shows how far the build of this process is until it ends.
follow() {
  local build=$1 log=$2 all=$3 begun=$SECONDS now last=-1
  while kill -0 "$build" 2>/dev/null; do
    now=$(proved_crates "$log")
    if [ -t 2 ] || [ "$now" != "$last" ]; then
      show_progress "proved $now of $all crates, $(((SECONDS - begun) / 60)) minutes"
    fi
    last=$now
    sleep 1
  done
  end_progress
}

# How many crates are proved at once: as many as there are processors, if there are three gigabytes of memory for each. (Left to itself, rt
# reckons with fifteen near the top, where a check takes two, and proves one crate after another there.)
lanes() {
  awk -v most="$(nproc)" '/^MemAvailable:/ { fit = int($2 / 3000000); print fit < 1 ? 1 : fit < most ? fit : most }' /proc/meminfo
}

# Builds the program. The gate's own command, over a copy of the crates that the program needs, is the quickest way to it: crates are
# proved side by side, each over the statements of those below. Where the kit keeps what it has proved, as 13f does, an
# interrupted build goes on where it stopped; with one that keeps nothing, as 13b, it begins anew.
build() {
  need_rt
  local room log pid
  room=$(mktemp -d "${TMPDIR:-/tmp}/osemosys-build.XXXXXX") && log=$room.log || exit $NO_PROGRAM
  trap 'rm -rf "$room"' EXIT
  trap 'kill -TERM -- "-$pid" 2>/dev/null; end_progress; exit 130' INT TERM
  if ! copy_needed "$room" 2>"$log"; then
    say "the program could not be built; $log has why its crates could not be copied"
    exit $NO_PROGRAM
  fi
  say "building the program, which proves it first; './osemosys try WORDS' gives an unproved answer in minutes meanwhile"
  # (a group of its own, so that an interrupt ends all that it started)
  set -m
  (cd "$room" && PYTHONUNBUFFERED=1 RT_JOBS=${RT_JOBS:-$(lanes)} exec rt ci </dev/null >"$log" 2>&1) &
  pid=$!
  set +m
  follow "$pid" "$log" "$(wc -l <"$room/crates.txt")"
  if ! wait "$pid" || ! install_program "$room"; then
    say "the program could not be built; $log has what the build wrote"
    exit $NO_PROGRAM
  fi
  trap - EXIT INT TERM
  rm -rf "$room" "$log"
}

# Puts the program that was built in this folder in its place, whole, and beside it what it was built from. Its time is that of the
# build's beginning, so that what was changed meanwhile is newer.
install_program() {
  local room=$1
  mkdir -p "${program%/*}" && cp "$room/crates/osemosys/out/osemosys" "$program.new" && touch -r "$room/crates.txt" "$program.new" &&
    describe_build "$room" >"$program.built" && mv "$program.new" "$program"
}

describe_build() {
  printf 'commit %s\nkit %s\nsources %s\nprogram %s\nlibrary %s\n' \
    "$(commit)" "$(rt version)" "$(sources_sum "$1")" "$(sum_of <"$program.new")" "$(library_of "$program.new")"
}

# The oldest C library with which a program runs: of the versions of symbols that it names the newest.
library_of() { LC_ALL=C grep -aoE 'GLIBC_[0-9]+(\.[0-9]+)+' "$1" | sort -uV | tail -n 1 | sed 's/GLIBC_/glibc /'; }

# The commit of this folder, with `-dirty` where a file differs from it.
commit() {
  if [ -z "$(git -C "$here" rev-parse --show-prefix 2>&1)" ]; then
    git -C "$here" describe --always --abbrev=12 --exclude='*' --dirty
  else
    echo unknown
  fi
}

# Runs the program as it stands, unproved. It runs in a folder of its own, where each file that the words name has another name.
try_unproved() {
  if [ "${1-}" = results ]; then
    say "'results' asks the program several times, so it has to be built; 'try solve' and 'try page' show most of it"
    exit "$UNKNOWN_WORD"
  fi
  answer_early "$@"
  need_rt
  local told status words=() files=() most=1 is_value=
  case ${1-} in check) most=3 ;; table | page) most=2 ;; compare) most=4 ;; make) most=0 ;; esac
  for word in "$@"; do
    if [ ${#words[@]} = 0 ] || [ -n "$is_value" ]; then
      # (of the options' values those of --proof, --start, --with and --with2 are files)
      if [[ $is_value =~ ^--(proof|start|with2?)$ ]] && [ -f "$word" ]; then
        files+=(--data "file${#words[@]}=$(readlink -f -- "$word")")
        word=file${#words[@]}
      fi
      is_value=
    elif [[ $word =~ ^--(proof|start|with2?)= ]] && [ -f "${word#*=}" ]; then
      files+=(--data "file${#words[@]}=$(readlink -f -- "${word#*=}")")
      word=${word%%=*}=file${#words[@]}
    elif [[ $word == --?* ]]; then
      # (the flag --exact has no value)
      [[ $word == *=* || $word == --exact ]] || is_value=$word
    elif [ "$((${#files[@]} / 2))" -lt "$most" ] && [ -f "$word" ]; then
      files+=(--data "file${#words[@]}=$(readlink -f -- "$word")")
      word=file${#words[@]}
    fi
    words+=("$word")
  done
  say "unproved: a first look while nothing has been proved on this machine"
  told=$(mktemp "${TMPDIR:-/tmp}/osemosys-try.XXXXXX") || exit $NO_PROGRAM
  trap 'rm -f "$told"' EXIT
  (cd "$here/crates/osemosys" && rt try --seconds 600 "${files[@]}" -- "${words[@]}" </dev/null 2>"$told")
  status=$?
  # (its last line tells an exit status of the program from a fault of it, or of the try)
  if ! tail -n 1 "$told" | grep -q '^run=ended '; then
    say "no answer: $(tail -n 1 "$told")"
    exit $NO_PROGRAM
  fi
  exit "$status"
}

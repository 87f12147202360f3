# shellcheck shell=bash
# Which version this is, and an archive of the built program to be passed on.

# Which commit this is, and which program is there.
version() {
  local state
  if [ -d "$here/crates/osemosys/src" ]; then
    printf 'osemosys %s\n' "$(commit)"
  else
    printf 'osemosys %s\n' "$(recorded packed)"
  fi
  if [ ! -x "$program" ]; then
    echo 'program not built'
    return
  fi
  if is_current; then state='of these sources'; else state='of other sources'; fi
  [ -d "$here/crates/osemosys/src" ] || state=packed
  if [ "$(recorded program)" != "$(sum_of <"$program")" ]; then
    printf 'program sha256 %s, and nothing tells what it was built from\n' "$(sum_of <"$program")"
    return
  fi
  printf 'program sha256 %s, %s\n' "$(sum_of <"$program")" "$state"
  printf 'built of %s by %s, for x86-64 with %s or later\n' "$(recorded commit)" "$(recorded kit)" "$(recorded library)"
}

# Makes an archive of the program and of what the script needs beside it, in the folder that the script is called from: the same bytes of
# the same files. `room` is the folder that is packed.
pack() {
  local name time archive
  [ $# = 0 ] || { say "'pack' takes no word"; exit "$UNKNOWN_WORD"; }
  is_current || build
  [ "$(recorded program)" = "$(sum_of <"$program")" ] || {
    say "it isn't written down what $program was built from: remove it, and the next call builds it anew"
    exit "$NO_PROGRAM"
  }
  name=osemosys-$(commit)-x86_64
  [ -d "$here/crates/osemosys/src" ] || name=osemosys-$(recorded packed)-x86_64
  archive=$PWD/$name.tar.gz
  trap 'rm -rf "$room"' EXIT
  trap 'exit 130' INT TERM HUP
  room=$(mktemp -d "$PWD/.osemosys-pack.XXXXXX") && copy_packed "$room/$name" && sum_packed "$room/$name" || {
    say "$archive can't be written"
    exit "$NO_WRITE"
  }
  time=$(git -C "$here" log -1 --format=%ct 2>/dev/null) || time=$(stat -c %Y "$here/osemosys")
  tar -C "$room" --sort=name --mtime="@$time" --owner=0 --group=0 --numeric-owner --mode='u+rw,go=rX' -cf "$room/tar" "$name" &&
    gzip -n -9 "$room/tar" && mv "$room/tar.gz" "$archive" || {
    say "$archive can't be written"
    exit "$NO_WRITE"
  }
  (cd "$PWD" && sha256sum "$name.tar.gz") | tee "$archive.sha256"
  say "runs without rt on Linux on x86-64 with $(recorded library) or later"
  exit 0
}

# Copies what the archive has: the built program with what it was built from, the script, the documents of users, the examples, the checker.
copy_packed() {
  local to=$1 file
  mkdir -p "$to/crates/osemosys/out" "$to/docs" && cp "$program" "$program.built" "$to/crates/osemosys/out/" || return
  [ ! -d "$here/crates/osemosys/src" ] || printf 'packed %s\n' "$(commit)" >>"$to/crates/osemosys/out/osemosys.built" || return
  for file in osemosys script README.md LICENSE CITATION.cff examples verify docs/COMMANDS.md docs/DATA.md docs/EQUATIONS.md docs/WORK.md; do
    [ ! -e "$here/$file" ] || cp -r "$here/$file" "$to/$file" || return
  done
  find "$to" -name __pycache__ -prune -exec rm -r {} +
}

sum_packed() { (cd "$1" && find . -type f ! -name SHA256SUMS -print0 | LC_ALL=C sort -z | xargs -0 sha256sum >SHA256SUMS); }

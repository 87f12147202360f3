# shellcheck shell=bash
# What to do next, on standard error, after an answer that is none, or a refusal.

# What to do next, after the program ended with this status and its words, on standard error.
advise() {
  local status=$1
  shift
  part_words "${@:2}" && find_form "${1-}" || files=()
  case $status in
    1)
      case $1 in
        solve | span | table | page) say "'./osemosys explain $(printf %q "${files[0]}")$(rounded_words)' tells a few limits that can't be met together" ;;
      esac
      ;;
    "$UNCERTIFIED")
      case $1 in
        solve | explain | curve | span) advise_method "$1" ;;
        *) advise_by_line "$@" ;;
      esac
      ;;
    "$REFUSED" | "$REJECTED") advise_by_line "$@" ;;
    "$UNKNOWN_WORD") say "'./osemosys help' lists the commands, './osemosys help COMMAND' and './osemosys help WORD' tell of one" ;;
  esac
}

rounded_words() { [ "${options[method]-}" != rounded ] || printf ' --method rounded'; }

# After `uncertified`: what the same command may be asked besides.
advise_method() {
  local usual=10
  [ "$1" != span ] || usual=1000
  if [ "${options[method]-}" != rounded ]; then
    say "nothing is known of the model; ask again with '--method rounded'"
  elif [ "${options[pivots]-1000000}" -lt 1000000 ]; then
    say "nothing is known of the model; ask again with '--pivots 1000000'"
  elif [ "$1" != explain ] && [ "${options[gap]-$usual}" -lt 1000 ]; then
    say "nothing is known of the model; '--gap 1000' allows a thousandth"
  else
    say "nothing is known of the model; './osemosys help uncertified' says what may help"
  fi
}

# After a refusal or a rejection. The program wrote its line, which isn't held up on its way; so it is asked again for it, where it answered
# soon and its files can be read again.
advise_by_line() {
  local word line=
  for word in "$@"; do
    word=${word#--*=}
    [ ! -p "$word" ] && [ ! -c "$word" ] || line=none
  done
  [ -z "$line" ] && [ "$took" -le 10 ] && line=$(timeout 20 "$program" "$@" 2>/dev/null | head -c 4096 | tr -d '\0')
  case $line in
    'files 3 4'$'\n'*) advise_line "${line#*$'\n'}" "${files[2]}" ;;
    'files 1 2'$'\n'*) advise_line "${line#*$'\n'}" "${files[0]}" ;;
    'refused '* | 'rejected '* | 'uncertified '*) advise_line "$line" "${files[0]-}" ;;
    *) say "'./osemosys help' with the word of the line says what to do" ;;
  esac
}

# The place in this data file that a line names, and what its row in the tables of the documents says.
advise_line() {
  local line=${1%%$'\n'*} file=$2 word names=()
  word=$(word_of_line "$line")
  if [[ $line =~ ^refused\ line\ ([0-9]+)\ column\ ([0-9]+) ]] && [ -f "$file" ]; then
    show_place "$file" "${BASH_REMATCH[1]}" "${BASH_REMATCH[2]}"
    mapfile -t names < <(names_at "$file" "${BASH_REMATCH[1]}" "${BASH_REMATCH[2]}")
  elif [[ $line =~ ^refused\ [A-Za-z]+\ ([A-Za-z]+)\[ ]]; then
    names=("${BASH_REMATCH[1]}")
  fi
  advice_for "$word" "${line%% *}" "${names[@]}" | unmarked | while IFS= read -r line; do say "$line"; done
  say "'./osemosys help $word' has more"
}

# The word of such a line that stands first in a row of the tables.
word_of_line() {
  local words
  read -ra words <<<"$1"
  case $1 in
    'refused changes '*) echo changes ;;
    'refused line '* | 'refused set '* | 'refused '*' record '* | 'refused too many '*) echo "${words[-1]}" ;;
    'refused plan Missing '* | 'refused proof Missing '* | 'refused no '* | 'refused too '*) echo "${words[2]}" ;;
    'uncertified width '*) echo "${words[2]}" ;;
    *) echo "${words[1]}" ;;
  esac
}

# The line of a file, with a mark below the column. Columns count bytes, and of a long line a part is shown.
show_place() {
  local file=$1 row=$2 column=$3 from text
  from=$((column > 60 ? column - 60 : 0))
  text=$(LC_ALL=C sed -n "${row}{p;q}" -- "$file" | LC_ALL=C cut -b "$((from + 1))-$((from + 100))" | LC_ALL=C tr -c '[:print:]\n' ' ')
  printf '%s:%s: %s\n%*s\n' "$file" "$row" "$text" $((${#file} + ${#row} + 3 + column - from)) '^' >&2
}

# What stands at a place of a file, by which its advice is chosen: the symbol, the sign, the name of the statement, and marks of files that
# other programs or other countries write.
names_at() {
  LC_ALL=C awk -v row="$2" -v column="$3" '
    NR == 1 && /^(\377\376|\376\377)/ { print "UTF-16" }
    {
      text = NR == row ? substr($0, 1, column - 1) : $0
      while (match(text, /(^|[ \t;])param[ \t]+[A-Za-z_]+/)) {
        name = substr(text, RSTART, RLENGTH)
        sub(/.*[ \t]/, "", name)
        text = substr(text, RSTART + RLENGTH)
        is_comma = 0
      }
      if (text ~ /[ \t][0-9]+,[0-9]+([ \t;]|$)/) is_comma = 1
    }
    NR == row {
      before = substr($0, 1, column - 1)
      rest = substr($0, column)
      print substr(rest, 1, 1)
      if (match(rest, /^[A-Za-z0-9_.+-]+/)) print substr(rest, 1, RLENGTH)
      if (is_comma || before ~ /[0-9],$/) print "0,5"
      if (name != "") print name
      exit
    }
  ' <"$1"
}

# shellcheck shell=bash
# What the documents say of a command or a word, as a terminal shows it.

# What COMMANDS.md says of a command: its part up to the first heading after its own.
help_of_command() {
  awk -v command="$1" '
    /^##+ / { text = $0; sub(/^#+ /, "", text); inside = index(text, "`" command " ") == 1 || text == "`" command "`"; if (inside) found = 1 }
    inside
    END { exit !found }
  ' "$here/docs/COMMANDS.md"
}

# What the programs of awk below share: the cells of a row of a table, and whether a cell has a word between backticks, or a list of words
# with commas has one of these names, of which one with `..` at its end stands for all that begin so.
TABLES='
  function cells(line, into, n, i) {
    gsub(/\\\|/, "\001", line); sub(/^\| */, "", line); sub(/ *\| *$/, "", line)
    n = split(line, into, / *\| */)
    for (i = 1; i <= n; i++) gsub("\001", "|", into[i])
    return n
  }
  function has(cell, word, parts, words, i, k, n, m) {
    n = split(cell, parts, "`")
    for (i = 2; i <= n; i += 2) {
      m = split(parts[i], words, " ")
      for (k = 1; k <= m; k++) if (tolower(words[k]) == tolower(word)) return 1
    }
    return 0
  }
  function lists(cell, names, items, i, k, n, m, stem) {
    gsub("`", "", cell)
    n = split(tolower(cell), items, ", ")
    m = split(tolower(names), list, "\n")
    for (i = 1; i <= n; i++) for (k = 1; k <= m; k++) {
      if (list[k] == items[i]) return 1
      stem = substr(items[i], 1, length(items[i]) - 2)
      if (substr(items[i], length(stem) + 1) == ".." && stem != "" && index(list[k], stem) == 1) return 1
    }
    return 0
  }
  /^\|[-| :]+\|$/ { next }
  FNR == 1 { inside = 0 }
  /^\|/ && !inside { width = cells($0, heads); inside = 1; next }
  !/^\|/ { inside = 0 }
'

# The rows whose first cell has the word, of the tables of COMMANDS.md and DATA.md that begin with a word, a code or a fault; and those
# of its tables of options, with the command. Each cell is a line after its heading.
help_of_word() {
  awk -v word="$1" "$TABLES"'
    /^##+ `/ { command = $2; gsub("`", "", command) }
    function print_row(row, n, i) {
      if (found++) print ""
      for (i = 1; i <= n; i++) if (row[i] != "") print heads[i] ": " row[i]
    }
    /^\|/ && heads[1] ~ /^(Word|Code|Fault)$/ {
      n = cells($0, row)
      if (has(row[1], word) && heads[2] != "Of") print_row(row, n)
      if (heads[2] == "Of" && has(row[1], word)) special = special "For " row[2] ": " row[3] "\n"
    }
    /^\|/ && heads[1] == "Option" {
      n = cells($0, row)
      row[1] = row[1] " of " command
      if (has(row[1], word) || has(row[1], "--" word)) print_row(row, n)
    }
    END {
      if (special != "") printf "%s%s", found++ ? "\n" : "", special
      exit !found
    }
  ' "$here/docs/COMMANDS.md" "$here/docs/DATA.md"
}

# What the documents say of the name of an equation, a variable, a parameter or a set: its row, its unit, in which equations it stands, and
# what of it is often wrong.
help_of_name() {
  awk -v word="$1" "$TABLES"'
    function is_named(cell) { gsub("`", "", cell); sub(/[[ ].*/, "", cell); return tolower(cell) == tolower(word) }
    # (whole words, whether small or capital)
    function mentions(text, low, at, before, after) {
      low = tolower(text)
      while (at = index(low, tolower(word))) {
        before = substr(low, at - 1, at > 1)
        after = substr(low, at + length(word), 1)
        if (before !~ /[a-z0-9_]/ && after !~ /[a-z0-9_]/) return 1
        low = substr(low, at + length(word))
      }
      return 0
    }
    function tell(text) { told = told text "\n" }
    # (a cell with two groups of names has two units)
    function tell_unit(names, units, groups, each, i, n) {
      n = split(names, groups, "; ")
      if (split(units, each, "; ") != n) { each[1] = units; groups[1] = names; n = 1 }
      for (i = 1; i <= n; i++) if (lists(groups[i], word)) tell("Unit: " each[i])
    }
    /^- Subscripts stand in the order/ { subscripts = substr($0, 3) }
    !/^\|/ { next }
    heads[2] == "Equation" {
      n = cells($0, row)
      if (is_named(row[2])) {
        kind = heads[2]
        for (i = 2; i <= n; i++) if (row[i] != "" && heads[i] != "Scale") tell(heads[i] ": " row[i])
      }
      if (mentions(row[5])) { is_defined = 1; tell("Defined by " row[2] ": " row[4]) }
      else if (mentions(row[4])) where = where (where == "" ? "" : ", ") row[2]
    }
    heads[1] == "Variables" { cells($0, row); tell_unit(row[1], row[2]) }
    (heads[2] == "Parameter" || heads[2] == "Set") && width > 2 {
      n = cells($0, row)
      if (is_named(row[2]) && kind == "") {
        kind = heads[2]
        for (i = 2; i <= n; i++) if (row[i] != "") tell(heads[i] ": " row[i])
      }
    }
    heads[1] == "Finds" { cells($0, row); if (mentions(row[1])) warned = warned "Warned of by warn: " row[1] ": " row[2] "\n" }
    heads[2] == "Of" { cells($0, row); if (lists(row[2], word)) tell("After " row[1] ": " row[3]) }
    END {
      if (told == "" && where == "") exit 1
      if (kind == "") print "Variable: " (is_defined ? "each plan has it" : "what a plan chooses; no equation defines it")
      printf "%s", told
      if (where != "" && kind != "Equation") print "Stands in: " where
      if (kind == "Equation" || where != "") print subscripts
      if (kind == "Parameter") printf "%s", warned
    }
  ' "$here/docs/EQUATIONS.md" "$here/docs/DATA.md"
}

# What to do, of the rows of a word: those whose column "Of" lists one of these names, else those without such a column. Of words that
# several lines have, the row is that of the lines that begin with this word.
advice_for() {
  local word=$1 first=$2
  shift 2
  names=$(printf '%s\n' "$@") awk -v word="$word" -v first="$first" "$TABLES"'
    /^\|/ && heads[1] ~ /^(Word|Fault)$/ && heads[width] == "What to do" {
      n = cells($0, row)
      if (!has(row[1], word) || heads[2] == "Line and code" && !index(row[2], "`" first)) next
      if (heads[2] != "Of") usual = usual row[n] "\n"
      else if (lists(row[2], ENVIRON["names"])) special = special row[n] "\n"
    }
    END { printf "%s", special != "" ? special : usual }
  ' "$here/docs/COMMANDS.md" "$here/docs/DATA.md"
}

# A text of one line without the marks of the documents.
unmarked() { sed -e 's/`//g' -e 's/\*\*//g'; }

# A text of the documents as a terminal shows it: without marks, each row of a table as lines of its own, in lines of this width.
as_plain_text() {
  awk -v wide="$1" '
    function unmarked(text, shown, link) {
      gsub(/`|\*\*/, "", text)
      while (match(text, /\[[^][]*\]\([^() ]*\)/)) {
        link = substr(text, RSTART, RLENGTH)
        sub(/\].*/, "", link)
        text = substr(text, 1, RSTART - 1) substr(link, 2) substr(text, RSTART + RLENGTH)
      }
      return text
    }
    function wrap(text, first, rest, words, i, n, line) {
      n = split(unmarked(text), words, " ")
      line = first
      for (i = 1; i <= n; i++) {
        if (i > 1 && length(line) + 1 + length(words[i]) > wide) { print line; line = rest words[i] }
        else line = line (i > 1 ? " " : "") words[i]
      }
      print line
    }
    /^```/ { inside = !inside; next }
    inside { print "    " $0; next }
    /^\|[-| :]+\|$/ { next }
    /^\|/ {
      gsub(/\\\|/, "\001"); sub(/^\| */, ""); sub(/ *\| *$/, "")
      n = split($0, cell, / *\| */)
      for (i = 1; i <= n; i++) gsub("\001", "|", cell[i])
      if (!rows++) { for (i = 1; i <= n; i++) head[i] = cell[i]; next }
      wrap(cell[1], "  ", "      ")
      for (i = 2; i <= n; i++) if (cell[i] != "") wrap((n > 2 ? head[i] ": " : "") cell[i], "      ", "      ")
      next
    }
    { rows = 0 }
    /^$/ { print ""; next }
    /^##+ / { sub(/^#+ /, ""); wrap($0, "", "    "); next }
    /^- / { wrap(substr($0, 3), "- ", "  "); next }
    # (a heading and its cell, or a paragraph)
    { wrap($0, "", $0 ~ /^(For|Warned|Defined|After) [^.:]*: / || $0 ~ /^[A-Z][A-Za-z ]*: / && index($0, ": ") < 40 ? "    " : "") }
  ' | cat -s
}

# How wide the text of help is, which goes to the file descriptor 3: as the terminal, but between 40 and 120, or 80 where it goes elsewhere.
text_width() {
  local wide=
  [ ! -t 3 ] || wide=$(stty size <&3 2>/dev/null)
  wide=${wide#* }
  [[ $wide =~ ^[1-9][0-9]*$ ]] || wide=80
  [ "$wide" -ge 40 ] || wide=40
  [ "$wide" -le 120 ] || wide=120
  echo "$wide"
}

# Everything that the documents say of a word.
help_text() {
  local word=$1 told= about
  case $word in
    "") help_of_command help; return ;;
    *[!A-Za-z0-9_-]*) return ;;
  esac
  help_of_command "$word" && told=yes
  for about in help_of_name help_of_word; do
    [ -z "$told" ] || echo
    "$about" "$word" && told=yes
  done
}

help() {
  local text wide
  text=$(help_text "${1-}")
  if [ -z "${text//[$'\n']/}" ]; then
    printf "help: no command, option, status, exit code, word of a refusal, equation, variable, parameter or set is called '%s'\n" "$1"
    exit $UNKNOWN_WORD
  fi
  { wide=$(text_width); } 3>&1
  as_plain_text "$wide" <<<"$text"
  exit 0
}

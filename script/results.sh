# shellcheck shell=bash
# All that a model comes to: `results FILE FOLDER [OPTIONS of solve]`.
#
# `room` is a hidden folder beside FOLDER, in which everything is made; `made`, in it, becomes FOLDER when it is whole. `child` is the
# program at work. `tried` are the options that found what is written, `method` says by which method, `checked` are the options by which it
# is checked, and `changes` is the one that names a file of changes, if there is one.
child=
method=
tried=()
checked=()
changes=()

# Solves once, and writes all that the answer comes to. It ends with the status of `solve`.
results() {
  local file=${plain[0]} folder status name
  folder=$(readlink -m -- "${plain[1]}")
  for name in "$file" ${options[with]+"${options[with]}"}; do
    [ -f "$name" ] || fail_results "$NO_FILE" "$name is read several times, so it has to be a file"
  done
  make_room "$folder"
  solve_for_results "$file"
  status=$?
  case $status in
    0 | 1 | 2) ;;
    *)
      cat "$room/made/proof.csv"
      advise_results "$status" "$file"
      exit "$status"
      ;;
  esac
  write_parts "$file" "$status"
  put_in_place "$folder"
  tell_results "$folder" "$status"
  exit "$status"
}

# Ends, with what is wrong with the folder or the file.
fail_results() {
  say "$2"
  exit "$1"
}

# Makes the hidden folder, in the nearest folder that there is. What was found before, and nothing else, may be replaced.
make_room() {
  local folder=$1 beside other
  if [ -e "$folder" ]; then
    [ -d "$folder" ] || fail_results "$NO_WRITE" "$folder is no folder"
    other=$(cd "$folder" && find . -mindepth 1 ! -path ./page.html ! -path ./proof.csv ! -path ./check.txt ! -path ./warnings.txt \
      ! -path ./limits.csv ! -path ./prices.csv ! -path ./explain.txt ! -path ./direction.csv ! -path ./plan.csv \
      ! -path ./multipliers.csv ! -path ./csv ! -path './csv/[A-Z]*.csv' -print -quit)
    [ -z "$other" ] || fail_results "$NO_WRITE" "$folder has ${other#./}, which is none of the files of results: name another folder"
  fi
  beside=${folder%/*}
  while [ -n "$beside" ] && [ ! -e "$beside" ]; do beside=${beside%/*}; done
  trap 'rm -rf "$room"' EXIT
  trap 'stop_child; exit 129' HUP
  trap 'stop_child; exit 130' INT
  trap 'stop_child; exit 143' TERM
  room=$(mktemp -d "$beside/.osemosys-results.XXXXXX" 2>/dev/null) && mkdir "$room/made" ||
    fail_results "$NO_WRITE" "$folder can't be written"
}

stop_child() { [ -z "$child" ] || { kill "$child" && wait "$child"; } 2>/dev/null; }

# Runs the program, with what it prints in a file of the folder that is made. It runs beside the script, so that an interrupt ends it.
write_part() {
  local name=$1 status
  shift
  "$program" "$@" <&0 >"$room/made/$name" &
  child=$!
  wait "$child"
  status=$?
  child=
  return "$status"
}

# What to do next, where there are no results; the line of `solve` is at hand.
advise_results() {
  case $1 in
    "$UNCERTIFIED")
      part_words "${tried[@]}"
      advise_method solve
      ;;
    "$REFUSED") advise_line "$(<"$room/made/proof.csv")" "$2" ;;
    *) advise "$1" solve ;;
  esac
}

# The exact method first and, where it stops or the model is too large for it, guesses; or the method that is asked for, alone.
solve_for_results() {
  local file=$1 name status given=()
  for name in "${!options[@]}"; do given+=("--$name=${options[$name]}"); done
  tried=("${given[@]}")
  [ -z "${options[with]+given}" ] || changes=("--with=${options[with]}")
  checked=("--gap=${options[gap]-0}" "--places=${options[places]-6}" "${changes[@]}")
  method='by the exact method'
  if [ "${options[method]-}" != rounded ]; then
    write_part proof.csv solve "${tried[@]}" --show=proof -- "$file"
    status=$?
    [ -z "${options[method]+given}" ] && wants_guesses "$status" proof.csv || return "$status"
    say "the exact method ends with '$(<"$room/made/proof.csv")'; now by guesses that are checked exactly"
    tried+=(--method=rounded)
  fi
  checked[0]=--gap=${options[gap]-10}
  method='by guesses that were checked exactly'
  write_part proof.csv solve "${tried[@]}" --show=proof -- "$file"
}

# The exact method stopped, or the model is too large for it.
wants_guesses() {
  [ "$1" = "$UNCERTIFIED" ] || { [ "$1" = "$REFUSED" ] && [[ $(head -c 100 "$room/made/$2") == 'refused too large '* ]]; }
}

# All but the proof, by the status of `solve`. A part that fails, as where the disk is full, ends it all.
write_parts() {
  local file=$1 status=$2 proof=$room/made/proof.csv
  need_part warnings.txt 0 warn "${changes[@]}" -- "$file"
  if [ "$(stat -c %s "$proof")" -gt "$LONGEST_FILE" ]; then
    check_in_two "$file"
    return
  fi
  need_part check.txt 0 check "${checked[@]}" --proof="$proof" -- "$file"
  need_part page.html "$status" page "${checked[@]}" -- "$file" "$proof"
  case $status in
    0)
      need_part limits.csv 0 table "${checked[@]}" -- "$file" "$proof" limits
      need_part prices.csv 0 table "${checked[@]}" -- "$file" "$proof" prices
      need_part all.csv 0 table "${checked[@]}" -- "$file" "$proof" all
      split_tables
      ;;
    1) explain_for_results "$file" ;;
    2) awk -F, '
        NR == 1 || /^Direction\.(RateOfActivity|NewCapacity|Trade),/ && $NF != "0" { sub(/^Direction\./, ""); print }
      ' "$proof" >"$room/made/direction.csv" || fail_results "$NO_WRITE" "the direction can't be written" ;;
  esac
}

# A part that must end with this status.
need_part() {
  local name=$1 wanted=$2 status
  shift 2
  write_part "$name" "$@"
  status=$?
  [ "$status" = "$wanted" ] && return
  head -c 1000 "$room/made/$name"
  fail_results "$status" "'$1' ended with status $status, so there are no results"
}

# A proof that is too long for one file is checked as a plan and multipliers, whose names have digits, and has no page and no tables.
check_in_two() {
  local made=$room/made
  awk -F, -v plan="$made/plan.csv" -v multipliers="$made/multipliers.csv" '
    NR == 1 { print >plan; print >multipliers; next }
    { print >($1 ~ /^[A-Za-z]+$/ ? plan : multipliers) }
  ' "$made/proof.csv" && rm "$made/proof.csv" || fail_results "$NO_WRITE" "the proof can't be written in two files"
  need_part check.txt 0 check "${checked[@]}" -- "$1" "$made/plan.csv" "$made/multipliers.csv"
}

# The tables of all kinds, each in a file of the name that otoole gives it, where it has one.
split_tables() {
  local made=$room/made
  mkdir "$made/csv" && awk -v folder="$made/csv/" '
    !/,/ {
      if (file != "") close(file)
      name = $0
      if (name == "TotalDiscountedCostByTechnology") name = "DiscountedCostByTechnology"
      if (name == "DiscountedOperatingCost") name = "DiscountedOperationalCost"
      file = folder name ".csv"
      next
    }
    { print >file }
  ' "$made/all.csv" && rm "$made/all.csv" || fail_results "$NO_WRITE" "the tables can't be written"
}

# Which limits can't be met together, by the method that found that there is no plan, else by guesses; no file where neither says so.
explain_for_results() {
  local file=$1 status option given=()
  for option in "${tried[@]}"; do [[ $option == --gap=* || $option == --start=* ]] || given+=("$option"); done
  write_part explain.txt explain "${given[@]}" -- "$file"
  status=$?
  if [ -z "${options[method]+given}" ] && [[ " ${given[*]} " != *' --method=rounded '* ]] && wants_guesses "$status" explain.txt; then
    given+=(--method=rounded)
    write_part explain.txt explain "${given[@]}" -- "$file"
    status=$?
  fi
  case $status in
    1) ;;
    "$UNCERTIFIED" | "$REFUSED") rm "$room/made/explain.txt" ;;
    *) fail_results "$status" "'explain' ended with status $status, so there are no results" ;;
  esac
}

# Gives the folder its name, whole; what stood there goes with the hidden folder. No interrupt comes between.
put_in_place() {
  local folder=$1
  trap '' HUP INT TERM
  mkdir -p -- "${folder%/*}/" || fail_results "$NO_WRITE" "$folder can't be written"
  [ ! -d "$folder" ] || mv -T -- "$folder" "$room/before" || fail_results "$NO_WRITE" "$folder can't be replaced"
  mv -T -- "$room/made" "$folder" && return
  [ ! -d "$room/before" ] || mv -T -- "$room/before" "$folder"
  fail_results "$NO_WRITE" "$folder can't be written"
}

# What was found, how sure it is, and where it lies, in three lines.
tell_results() {
  local folder=$1 status=$2
  case $status in
    0) tell_plan "$folder" ;;
    1)
      printf 'found: no plan, %s\n' "$method"
      echo 'sure: proved, and checked again: no plan meets all equations'
      ;;
    2)
      printf 'found: plans of any lower cost, %s; direction.csv says along which choices the cost falls\n' "$method"
      echo 'sure: proved, and checked again: for every whole number some plan costs less'
      ;;
  esac
  printf 'where: %s with %s; warnings.txt says %s\n' "$folder" "$(list_results "$folder" "$status")" "$(tail -n 1 "$folder/warnings.txt")"
}

tell_plan() {
  awk -v method="$method" '
    function value(text, parts) { return split(text, parts, "/") == 2 ? parts[1] / parts[2] : parts[1] + 0 }
    { told[$1] = value($2) }
    END {
      printf "found: a plan that costs %.6f, %s\n", told["cost"], method
      printf "sure: proved, and checked again: it meets every equation exactly, and "
      if (told["gap"] == 0) { print "no plan costs less"; exit }
      part = told["bound"] == 0 ? 0 : told["gap"] / (told["bound"] < 0 ? -told["bound"] : told["bound"]) * 1000000
      printf "no plan costs less than %.6f", told["bound"]
      if (part > 0) printf ", at most %.3f millionths below", part + 0.0005
      print ""
    }
  ' "$1/check.txt"
}

# The files, those to look at first.
list_results() {
  local folder=$1 name list=
  for name in page.html explain.txt direction.csv limits.csv prices.csv proof.csv plan.csv multipliers.csv check.txt; do
    [ ! -f "$folder/$name" ] || list+="${list:+, }$name"
  done
  [ ! -d "$folder/csv" ] || list+=" and $(find "$folder/csv" -name '*.csv' | wc -l) tables in csv"
  [ "$2" != 1 ] || [ -f "$folder/explain.txt" ] || list+=" (which limits can't be met together isn't found)"
  [ -f "$folder/page.html" ] || list+=" (the proof is too long for a page and for tables)"
  printf '%s\n' "$list"
}

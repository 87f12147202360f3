# shellcheck shell=bash
# The words of a call: which form of a command they have, and what is answered of them before any program is needed.

# What the program takes as a file, in bytes.
LONGEST_FILE=67108864

# The forms of the commands, as `crates/command_words` has them: the command; how many words follow it at least and at most beside the
# options, and how many of these are files; the options that it may have, those that it may have beside `--method rounded` alone, and
# the one that it needs. `results` is the script's own.
FORMS='
results 2 2 1 gap,pivots,places,method,with start start
results 2 2 1 gap,pivots,places,method,with - -
mps 1 1 1 places,with - -
check 2 3 3 gap,places,with - -
check 1 1 1 gap,places,proof,with - proof
solve 1 1 1 gap,pivots,places,show,method,with - -
solve 1 1 1 gap,pivots,places,show,method,with start start
explain 1 1 1 pivots,places,method,with - -
curve 4 4 1 pivots,places,method,with gap -
span 4 4 1 pivots,places,method,slack,with gap -
make 1 1 0 show - -
table 3 3 2 gap,places,exact,with - -
page 2 2 2 gap,places,with - -
warn 1 1 1 with - -
compare 4 4 4 gap,places,show,with,with2 - -
reduce 1 1 1 places,with - -'

# What the words are made of, as `part_words` finds it: those that are no options, and the options by name; and the files among them, as
# `find_form` finds them.
plain=()
declare -A options=()
files=()

# Parts the words after a command. Fails where an option is unknown, stands twice, or has no value where it must have one.
part_words() {
  local word name value is_over=
  plain=() options=()
  while [ $# -gt 0 ]; do
    word=$1
    shift
    if [ -n "$is_over" ] || [[ $word != -?* ]]; then
      plain+=("$word")
    elif [ "$word" = -- ]; then
      is_over=yes
    else
      name=${word%%=*} value=
      case $name in
        --exact) [[ $word != *=* ]] || return ;;
        --gap | --pivots | --places | --show | --method | --slack | --proof | --start | --with | --with2)
          if [[ $word == *=* ]]; then
            value=${word#*=}
          elif [ $# -gt 0 ] && [[ $1 != -?* ]]; then
            value=$1
            shift
          else
            return 1
          fi
          ;;
        *) return 1 ;;
      esac
      name=${name#--}
      [ -z "${options[$name]+given}" ] || return
      options[$name]=$value
    fi
  done
}

# Whether each option that is given is one of this list, or of this one beside `--method rounded`.
may_have() {
  local may=,$1, rounded=,$2, name
  [ "${options[method]-}" = rounded ] || rounded=
  for name in "${!options[@]}"; do
    [[ $may$rounded == *",$name,"* ]] || return
  done
}

# Finds the form of a command that the parted words have, and the files among them, in the order in which they are read. Fails where
# there is none.
find_form() {
  local word least most many may rounded needs
  files=()
  while read -r word least most many may rounded needs; do
    [ -n "$word" ] && [ "$word" = "$1" ] && [ ${#plain[@]} -ge "$least" ] && [ ${#plain[@]} -le "$most" ] &&
      may_have "$may" "$rounded" && { [ "$needs" = - ] || [ -n "${options[$needs]+given}" ]; } || continue
    files=("${plain[@]:0:many}")
    [ "$needs" = - ] || files+=("${options[$needs]}")
    [ -z "${options[with]+given}" ] || files+=("${options[with]}")
    [ -z "${options[with2]+given}" ] || files+=("${options[with2]}")
    return
  done <<<"$FORMS"
  return 1
}

is_command() { [[ $1 =~ ^[a-z]+$ && $FORMS == *$'\n'"$1 "* ]]; }

# A number of one to seven digits, up to a million.
is_number() { [[ $1 =~ ^[0-9]{1,7}$ ]] && [ "$((10#$1))" -le 1000000 ]; }

# Whether the numbers that options are, and the one of `make`, are such.
has_good_numbers() {
  local name
  for name in gap pivots slack; do
    [ -z "${options[$name]+given}" ] || is_number "${options[$name]}" || return
  done
  [[ ${options[places]-6} == [69] ]] || return
  [ "$1" != make ] || [[ ${plain[0]} =~ ^[0-9]{1,3}$ && 10#${plain[0]} -ge 3 && 10#${plain[0]} -le 122 ]]
}

# Whether the values of `--show` and `--method` are words of the command.
has_good_words() {
  local shows
  case $1 in
    make) shows=file,summary ;;
    compare) shows=text,page ;;
    *) shows=report,plan,multipliers,proof,line ;;
  esac
  [ -z "${options[show]+given}" ] || [[ ${options[show]} =~ ^[a-z]+$ && ,$shows, == *",${options[show]},"* ]] || return
  [[ ${options[method]-exact} == exact || ${options[method]} == rounded ]]
}

# Plain limits of `curve`: at most twenty ascending numbers of up to nine digits, with up to nine decimal places. Whether other texts are
# limits is left to the program, and so is what it says after them.
are_plain_limits() {
  local limit last=-1 now count=0
  [[ $1 =~ ^[0-9]{1,9}(\.[0-9]{1,9})?(,[0-9]{1,9}(\.[0-9]{1,9})?)*$ ]] || return
  for limit in ${1//,/ }; do
    [[ $limit == *.* ]] || limit+=.
    now=${limit#*.}000000000
    now=$((10#${limit%.*}${now:0:9}))
    [ "$now" -gt "$last" ] || return
    last=$now count=$((count + 1))
  done
  [ "$count" -le 20 ]
}

# What the program says of words that ask for nothing: the first of its faults that they have.
word_fault() {
  [ $# -gt 0 ] || { echo NoCommand; return; }
  is_command "$1" || { echo BadCommand; return; }
  part_words "${@:2}" && find_form "$1" || { echo BadForm; return; }
  has_good_numbers "$1" || { echo BadNumber; return; }
  [ "$1" != curve ] || are_plain_limits "${plain[3]}" || return
  has_good_words "$1" || { echo BadShow; return; }
  [ "$1" != check ] || [ -z "${options[gap]+given}" ] || [ -n "${options[proof]+given}" ] || [ ${#plain[@]} = 3 ] || echo GapAlone
}

# The number of the first file that can't be read, where the program surely comes to it: all before it can be, and aren't too long.
missing_file() {
  local number=0 file
  for file in "$@"; do
    number=$((number + 1))
    if [ ! -r "$file" ] || [ -d "$file" ]; then
      echo "$number"
      return
    fi
    [ -f "$file" ] && [ "$(stat -L -c %s -- "$file")" -le "$LONGEST_FILE" ] || return
  done
}

# Answers words that ask for nothing, and files that aren't there, as the program does, and ends; else it returns. So nothing is built
# for these.
answer_early() {
  local fault number
  fault=$(word_fault "$@")
  if [ -n "$fault" ]; then
    printf 'words refused %s\n' "$fault"
    advise "$UNKNOWN_WORD"
    exit "$UNKNOWN_WORD"
  fi
  part_words "${@:2}" && find_form "$1"
  [ "$1" != curve ] || are_plain_limits "${plain[3]}" || return
  number=$(missing_file "${files[@]}")
  if [ -n "$number" ]; then
    printf 'read fault file %s\n' "$number"
    exit "$NO_FILE"
  fi
}

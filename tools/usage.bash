# shellcheck shell=bash disable=SC2154
# Judges the words of a call by the table of commands, and says which word has no form and what there is in its place. The
# program judges them itself: what is said here is beside its note.
#
# `judge_words` sets these: why the words have no form, or nothing; the words with their options, as far as they have a form;
# and the words that look like names of files, which the program never reads.
fault=
formed=()
files=()

# Keeps the first fault.
blame() {
  fault=${fault:-$1}
}

# Prints a word as the shell reads it, cut where it is long.
shown() {
  local word=$1
  if ((${#word} > 60)); then word=${word:0:60}..; fi
  printf %q "$word"
}

# Prints words with a separator between them.
joined() {
  local separator=$1 result=$2 word
  shift 2
  for word; do result+=$separator$word; done
  printf %s "$result"
}

is_command() {
  [[ $1 =~ ^[a-z]+$ && -v cosim_reads[$1] ]]
}

# Whether a word is an option of the command whose options were read last.
is_option() {
  [[ $1 =~ ^--[a-z]+$ && -v cosim_values[$1] ]]
}

# Whether a word begins another one or differs from it by one letter, apart from leading dashes and from capitals.
is_near() {
  local word=${1,,} name=${2#--} place
  word=${word#-}
  word=${word#-}
  if [ -z "$word" ]; then return 1; fi
  if [[ $name = "$word"* ]]; then return; fi
  for ((place = 0; place <= ${#name}; place++)); do
    case $word in
      # A letter more, less or other, or two in the other order.
      "${name:0:place}"?"${name:place}" | "${name:0:place}${name:place+1}" | "${name:0:place}"?"${name:place+1}") return ;;
      "${name:0:place}${name:place+1:1}${name:place:1}${name:place+2}") return ;;
    esac
  done
  return 1
}

# Prints what there is in place of a word: the names that are near to it, or else all of them.
instead_of() {
  local word=$1 all=$2 name near=()
  shift 2
  for name; do
    if is_near "$word" "$name"; then near+=("$name"); fi
  done
  if ((${#near[@]})); then
    printf 'did you mean %s?' "$(joined ' or ' "${near[@]}")"
  else
    printf '%s %s' "$all" "$(joined ', ' "$@")"
  fi
}

# Prints what the value of an option is.
told_value() {
  local value=${cosim_values[$1]}
  case $value in
    N) printf 'a number of one to nineteen digits' ;;
    *..*) printf 'a number from %s' "${value/../ to }" ;;
    *) printf %s "${value//|/ or }" ;;
  esac
}

# Whether a number without needless zeros is at most another one; both may be too large for the arithmetic of the shell.
is_at_most() {
  ((${#1} < ${#2})) || { ((${#1} == ${#2})) && [[ ! $1 > $2 ]]; }
}

# Whether a word is a value of an option.
is_value() {
  local value=${cosim_values[$1]} number=$2
  if [[ $value != N && $value != *..* ]]; then
    [[ $number != *\|* && "|$value|" = *"|$number|"* ]]
    return
  fi
  if [[ ! $number =~ ^[0123456789]{1,19}$ ]]; then return 1; fi
  number=${number#"${number%%[!0]*}"}
  number=${number:-0}
  if [ "$value" != N ]; then
    is_at_most "${value%..*}" "$number" && is_at_most "$number" "${value#*..}"
  fi
}

# Whether an option is near to a word.
is_near_option() {
  local name
  for name in "${!cosim_values[@]}"; do
    if is_near "$1" "$name"; then return; fi
  done
  return 1
}

# Says what is wrong with a word that is meant for an option and is none of the command.
blame_option() {
  local command=$1 word=$2 names
  if [[ $word = --*=* ]] && is_option "${word%%=*}"; then
    if [ -z "${cosim_values[${word%%=*}]}" ]; then
      blame "$(shown "$word"): ${word%%=*} has no value"
    else
      blame "$(shown "$word"): the value is the next word, as in ${word%%=*} $(shown "${word#*=}")"
    fi
  elif ((${#cosim_values[@]})); then
    mapfile -t names < <(printf '%s\n' "${!cosim_values[@]}" | LC_ALL=C sort)
    blame "$command has no option $(shown "$word"); $(instead_of "$word" 'it has' "${names[@]}")"
  else
    blame "$command has no option $(shown "$word"), and no other"
  fi
}

# Judges an option, and the value after it.
judge_option() {
  local name=$1
  if [[ " ${formed[*]} " = *" $name "* ]]; then blame "$name is given twice"; fi
  formed+=("$name")
  if [ -z "${cosim_values[$name]}" ]; then return; fi
  if (($# == 1)); then
    blame "$name lacks its value, which is $(told_value "$name")"
  elif ! is_value "$name" "$2"; then
    blame "$(shown "$2") isn't a value of $name, which is $(told_value "$name")"
  else
    formed+=("$2")
  fi
}

# Says which option is missing. The call is shown with what it has in that place.
judge_required() {
  local command=$1 name
  for name in "${cosim_required[@]}"; do
    if [[ " ${formed[*]} " != *" $name "* ]]; then
      blame "$command requires $name N, which is $(told_value "$name")"
      formed+=("$name" N)
    fi
  done
}

# The number that was given for an option.
given() {
  local place
  for ((place = 1; place < ${#formed[@]}; place += 2)); do
    if [ "${formed[place]}" = "$1" ]; then printf %s "${formed[place + 1]}"; fi
  done
}

# Judges a size of a generated system, whose parts are in their ranges.
judge_size() {
  if (($((10#$(given --instances))) * $((10#$(given --rows))) > cosim_most_words)); then
    blame "--instances times --rows is at most $cosim_most_words"
  fi
}

judge_words_of() {
  local command=$1
  shift
  cosim_read_options "$command"
  formed=("$command")
  while (($#)) && [ -z "$fault" ]; do
    if is_option "$1"; then
      judge_option "$@"
      if [ -n "${cosim_values[$1]}" ] && (($# > 1)); then shift; fi
    elif [[ $1 = -?* ]]; then
      blame_option "$command" "$1"
    elif [ -z "${cosim_reads[$command]}" ]; then
      blame "$command reads nothing, and $(shown "$1") is no option of it"
    elif [[ ! -e $1 && ${#1} -gt 2 ]] && is_near_option "$1"; then
      blame_option "$command" "$1"
    else
      files+=("$1")
    fi
    shift
  done
  if [ -z "$fault" ]; then judge_required "$command"; fi
  if [[ -z "$fault" && $command = @(gen|bench) ]]; then judge_size; fi
}

judge_words() {
  if (($# == 0)); then
    blame "a command is missing; $(shown "$0") help shows all of them"
  elif is_command "$1"; then
    judge_words_of "$@"
  elif [[ $1 = @(help|--help|-h|--version) ]]; then
    blame "$(shown "$2") may not follow $1"
  elif [ -f "$1" ]; then
    files=("$1")
    formed=(run)
  elif [[ ${1,,} = version ]]; then
    blame "there is no command $(shown "$1"); did you mean --version?"
  elif [[ $1 = -?* ]]; then
    blame "the command comes first, and not $(shown "$1"); $(instead_of "$1" 'there are' "${cosim_commands[@]}" help --help --version)"
  else
    blame "there is no command $(shown "$1"); $(instead_of "$1" 'there are' "${cosim_commands[@]}" help)"
  fi
}

# Whether a word is the name of a file that is no input of `verify`, since no line of it is the word `trace`.
lacks_trace() {
  [[ -f $1 && -r $1 ]] && ! grep -aqE '^[[:blank:]]*trace[[:blank:]]*(#.*)?$' <"$1"
}

# Shows a call that reads the files on standard input, as what it reads.
show_call() {
  local reads=$1 call
  printf -v call '%q ' "$0" "${formed[@]}"
  if [ "${#files[@]},${formed[*]}" = 2,verify ]; then
    printf -v call '%s< <(cat %q; echo trace; cat %q)' "$call" "${files[@]}"
  elif [ "${#files[@]},${formed[*]}" = 1,verify ] && lacks_trace "${files[0]}"; then
    printf -v call '%s< <(cat %q; echo trace; cat TRACE)' "$call" "${files[0]}"
  elif ((${#files[@]} == 1)) && [[ ${files[0]} != @(|-) && ! -d ${files[0]} ]]; then
    printf -v call '%s< %q' "$call" "${files[0]}"
  else
    call+='< FILE'
  fi
  say "the $reads comes on standard input: $call"
}

# Judges the words of cosim-steps, which takes its option alone.
judge_words_of_steps() {
  cosim_read_options cosim-steps
  while (($#)) && [ -z "$fault" ]; do
    if is_option "$1"; then
      judge_option "$1"
    elif [[ $1 = -?* ]]; then
      blame_option cosim-steps "$1"
    elif [ -f "$1" ]; then
      files+=("$1")
    elif ((${#1} > 2)) && is_near_option "$1"; then
      blame_option cosim-steps "$1"
    else
      blame "cosim-steps takes no words but $(joined ' or ' "${!cosim_values[@]}"), and here is $(shown "$1")"
    fi
    shift
  done
}

# Says of a call of cosim-steps what `hint` says of one of cosim.
hint_steps() {
  judge_words_of_steps "$@"
  if [ -n "$fault" ]; then say "$fault"; fi
  if ((${#files[@]})); then
    show_call "${cosim_reads[cosim-steps]}"
  elif [[ -z "$fault" && -t 0 ]]; then
    say "the ${cosim_reads[cosim-steps]} is read from the terminal, up to Ctrl-D on a line of its own"
  fi
}

# Says why the words of a call have no form, or that the program is going to read the terminal.
hint() {
  if [ "$chosen" != cosim ]; then
    hint_steps "$@"
    return
  fi
  judge_words "$@"
  if [ -n "$fault" ]; then say "$fault"; fi
  if ((${#files[@]})); then
    show_call "${cosim_reads[${formed[0]}]}"
  elif [[ -z "$fault" && -n "${cosim_reads[$1]}" && -t 0 ]]; then
    say "the ${cosim_reads[$1]} is read from the terminal, up to Ctrl-D on a line of its own"
  fi
}

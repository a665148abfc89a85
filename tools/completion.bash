# Completes the words of cosim in bash: its commands, and after one its options that aren't given yet, with their values.
# After `<` and `>` it completes the names of files.
#   source tools/completion.bash

# shellcheck source=tools/commands.bash
source "$(dirname "$(readlink -f -- "${BASH_SOURCE[0]}")")/commands.bash"

# Sets `choices` to what a word may be after the words of a call, of which the last is given by itself too.
_cosim_choose() {
  local before=$1 command=$2 option value
  shift 2
  cosim_read_options "$command"
  value=${cosim_values[$before]-}
  if [ -n "$value" ]; then
    if [[ $value = *\|* ]]; then choices=${value//|/ }; fi
    return
  fi
  for option in "${!cosim_values[@]}"; do
    if [[ " $* " != *" $option "* ]]; then choices+="$option "; fi
  done
}

_cosim() {
  local word=$2 before=$3 choices=
  if [[ "$before" = *[\<\>] ]]; then
    compopt -o default 2>/dev/null
  elif ((COMP_CWORD == 1)); then
    choices="${cosim_commands[*]} help"
  elif [ -n "${COMP_WORDS[1]}" ]; then
    _cosim_choose "$before" "${COMP_WORDS[1]}" "${COMP_WORDS[@]:2:COMP_CWORD-2}"
  fi
  mapfile -t COMPREPLY < <(compgen -W "$choices" -- "$word")
}

# Completes the words of cosim-steps: its option, and those that the script answers.
_cosim_steps() {
  local word=$2 before=$3 choices=
  if [[ "$before" = *[\<\>] ]]; then
    compopt -o default 2>/dev/null
  elif ((COMP_CWORD == 1)); then
    cosim_read_options cosim-steps
    choices="${!cosim_values[*]} help --help --version"
  fi
  mapfile -t COMPREPLY < <(compgen -W "$choices" -- "$word")
}

complete -F _cosim cosim ./cosim
complete -F _cosim_steps cosim-steps ./cosim-steps

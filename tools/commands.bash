# shellcheck shell=bash disable=SC2034
# The commands of the program: ./cosim judges words and prints its help by this table, and tools/completion.bash completes
# words by it. The tables of docs/COMMANDS.md have the same commands and options, and .ci/tools compares both.

# The version, as CHANGELOG.md has it first and as the package of Python has it.
cosim_version=0.1.0

# The commands in the order of the help. Of each: what it reads, its options and what it prints.
cosim_commands=()
declare -gA cosim_reads=() cosim_options=() cosim_prints=()

# Declares a command: its name, what it reads or nothing, its options, and what it prints. An option in brackets may be left
# out. Its value is a number of a range, any number (N), or one of some words, which `|` separates.
cosim_command() {
  cosim_commands+=("$1")
  cosim_reads[$1]=$2
  cosim_options[$1]=$3
  cosim_prints[$1]=$4
}

cosim_command run model '[--workers 0..16] [--window 0..16] [--guess hold|linear] [--report]' 'the trace, as CSV; workers are threads'
cosim_command check model '' "'accepted', or the line and the rule that it breaks"
cosim_command print model '' 'the model in its canonical form'
cosim_command upgrade model '' 'the same in version 2 of the language, which has events'
cosim_command save model '--row 0..99999' "where the run is at a row, as a text for 'resume'"
cosim_command resume 'saved text' '' 'the rows from there on'
cosim_command verify input '' "whether the table after the model's line 'trace' is its trace"
cosim_command stimulus table '' 'a model whose outputs are the columns of a table'
cosim_command flatten 'nested text' '' 'the model that a text with groups of components means'
cosim_command replay model '--seed N --workers 0..16' 'the trace again, by drawn events'
cosim_command nodes model '--seed N --rounds 1..100000' 'the trace by two nodes over a bad link'
cosim_command gen '' '--seed N --instances 1..64 --rows 1..100000' 'a model that is made from a number'
cosim_command bench '' '--seed N --instances 1..64 --rows 1..100000' 'figures of the trace of that model'

# What cosim-steps reads, its option, and the columns of the step log and of the summary that it prints.
cosim_reads[cosim-steps]=model
cosim_options[cosim-steps]='[--summary]'
cosim_log_columns=time,index,proposed,limited_by,agreed,shortened_by,accepted,redone,held
cosim_summary_columns=name,limited,shortened,least_limit,faults

# The most that the instances of `gen` and `bench` times their rows may be.
cosim_most_words=1000000

# Reads the options of a command: `cosim_values` has the value of each by its name, and `cosim_required` the names of those
# that may not be left out.
cosim_read_options() {
  local words word name
  declare -gA cosim_values=()
  cosim_required=()
  read -ra words <<<"${cosim_options[$1]-}"
  for word in "${words[@]}"; do
    case $word in
      --*)
        name=$word
        cosim_required+=("$name")
        ;;
      \[--*)
        name=${word#\[}
        name=${name%\]}
        ;;
      *)
        cosim_values[$name]=${word%\]}
        continue
        ;;
    esac
    cosim_values[$name]=
  done
}

# shellcheck shell=bash disable=SC2034,SC2154
# The sources of the programs, for the scripts that build them, keep them or compare them: they set `here` to the folder of the
# repository, by its full path, read this file, and choose a program by its name.

# The programs. Of each: the crate of its `main`, the record of what bin/ keeps, and the words by which a build tries it on a model.
programs=(cosim cosim-steps)
declare -A app_of=([cosim]=cosim_app [cosim-steps]=steps_app)
declare -A record_of=([cosim]=sources.sha256 [cosim-steps]=steps-sources.sha256)
declare -A tried_by=([cosim]="run" [cosim-steps]="")

no_kit="the Rattle kit, which proves and builds the program, isn't on this machine: there is no command rt. \
\"What it depends on\" in $here/README.md explains it"

# The crates of the repository that each crate depends on, by crates.txt; and those of the chosen program in the order in which
# they are proved, lowest first.
declare -A below=()
order=()

# Chooses the program that the other functions are about. Sets its crate `app`, what a build makes, what is kept in the repository,
# and the records of both. A record has three lines: the checksum of the sources that the program was built from, the kit that built
# it, and the program's own checksum.
choose_program() {
  chosen=$1
  app=${app_of[$1]}
  built=$here/crates/$app/out/$app
  built_from=$built.sources.sha256
  kept=$here/bin/$1-x86_64-linux
  kept_from=$here/bin/${record_of[$1]}
  of_others=
  order=()
  if ((${#below[@]} == 0)); then read_crates; fi
  put_in_order "$app"
}

# Reads which crates each crate depends on.
read_crates() {
  local name rest crate ours
  while IFS=: read -r name rest; do
    case $name in '' | '#'*) continue ;; esac
    below[${name%% *}]=$rest
  done <"$here/crates.txt"
  for name in "${!below[@]}"; do
    ours=
    for crate in ${below[$name]}; do
      if [[ -v below[$crate] ]]; then ours+=" $crate"; fi
    done
    below[$name]=$ours
  done
}

# Adds a crate to the order, after those that it depends on.
put_in_order() {
  local crate
  case " ${order[*]} " in *" $1 "*) return ;; esac
  for crate in ${below[$1]}; do put_in_order "$crate"; done
  order+=("$1")
}

# Finds the files that the chosen program is made of, by their paths in the repository, and through links; the words go to `find`.
find_sources() (
  cd "$here" || exit
  exec find -L crates.txt HANDLES "${order[@]/#/crates/}" \( -name out -o -name must-fail \) -prune -o \
    -type f \( -name '*.rt' -o -name '*.antt' -o -path crates.txt -o -path HANDLES \) "$@"
)

# Prints the checksum of standard input.
sum_input() {
  local sum
  sum=$(sha256sum) && echo "${sum%% *}"
}

# Prints one checksum of all sources, by path and content, in an order that no setting of the machine changes. It takes about
# a tenth of a second. Times of files don't show what a clone, an older file or a link changes.
sum_sources() (
  cd "$here" || exit
  find_sources -print0 | LC_ALL=C sort -z | xargs -0 sha256sum | sum_input
)

# Prints a line of a record, by its number from 0.
line_of() {
  local lines=()
  mapfile -t lines <"$1"
  echo "${lines[$2]-}"
}

# Whether a program is the one that a record is about.
is_recorded() {
  [[ -x $1 && -r $1 && -r $2 ]] && [ "$(line_of "$2" 2)" = "$(sum_input <"$1")" ]
}

# Whether a record is of the sources that are there.
is_from_sources() {
  [ "$(line_of "$1" 0)" = "$(sum_sources)" ]
}

# Whether the kept program is the one that was kept, and that of the sources, and starts here. What is wrong
# with it is noted in `of_others`. Where the machine or its C library is another one, the program doesn't end with status 2, which
# it does with an empty word, reading nothing.
is_kept_right() {
  local status=0
  if ! is_recorded "$kept" "$kept_from"; then
    if [ -e "$kept" ]; then of_others="the program that bin/ keeps isn't the one that its record is of"; fi
    return 1
  fi
  if ! is_from_sources "$kept_from"; then
    of_others="the program that bin/ keeps is of other sources"
    return 1
  fi
  "$kept" '' </dev/null >/dev/null 2>&1 || status=$?
  [ "$status" = 2 ]
}

# Says why the program has to be built, or nothing.
why_build() {
  if [ ! -x "$built" ]; then
    echo "the program isn't built yet"
  elif ! is_recorded "$built" "$built_from"; then
    echo "it isn't known which sources the program was built from"
  elif ! is_from_sources "$built_from"; then
    echo "the program was built from other sources"
  fi
}

# Prints the program of a name that its script starts without a build, or says why there is none.
find_program() {
  local reason
  choose_program "$1"
  if is_kept_right; then
    echo "$kept"
    return
  fi
  reason=$(why_build)
  if [ -n "$reason" ]; then
    echo "${of_others:-$reason}"
    return 1
  fi
  echo "$built"
}

# Writes the record of the chosen program, which was built just now, from the sources with this checksum.
record_built() {
  local kit sum
  kit=$(rt version) && sum=$(sum_input <"$built") && printf '%s\n' "$1" "$kit" "$sum" >"$built_from"
}

is_kit_there() {
  command -v rt >/dev/null
}

# Whether this machine is of the kind that the kept program is built for.
is_kept_machine() {
  [ "$(uname -sm)" = "Linux x86_64" ]
}

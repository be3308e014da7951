# Common to the measurements of bench/, each of which reads this first: the path of a built program, a temporary folder that is removed at
# the end, and functions that take and print the time of a run. A script says by a function `once` what one run is, and by `prepare`
# what is done before it and isn't timed.
set -eu
[ -z "${PRINT_MODELS-}" ] || PRINT_MODELS=$(realpath -m -- "$PRINT_MODELS")
. "$(dirname "$0")/../tests/program.sh"
work=$(mktemp -d)
trap 'rm -rf "$work"' EXIT

# PROGRAM, HOW IT IS MADE: leaves its path in `program`
want() {
  program=$PWD/$1
  [ -x "$program" ] || stop "no $1 here: call $2 first"
  cd "$work"
}

# The same with mvn: the program that MVN names, or bin/mvn
want_mvn() {
  find_program
  [ -z "$unproved" ] || stop "$mvn is UNPROVED, and many times slower: its times say nothing of a proved one"
  program=$mvn
  cd "$work"
}

# The same with print_models: the program that PRINT_MODELS names, or the built one
want_print_models() {
  if [ -n "${PRINT_MODELS-}" ]; then
    program=$PRINT_MODELS
    [ -x "$program" ] || stop "there is no program $program"
    cd "$work"
  else
    want crates/print_models/out/print_models '(cd crates/print_models && rt run)'
  fi
}

prepare() { :; }

# TRIES: the nanoseconds of one run, the least of so many, since a busy machine only adds
least() {
  local begin spent best=
  for _ in $(seq "$1"); do
    prepare
    begin=$(date +%s%N)
    once
    spent=$(($(date +%s%N) - begin))
    if [ -z "$best" ] || [ "$spent" -lt "$best" ]; then best=$spent; fi
  done
  echo "$best"
}

# LABEL, SIZE, NANOSECONDS over the empty case: a line, with the ratio to the first since `first` was emptied
row() {
  [ -n "$first" ] || first=$3
  awk -v label="$1" -v size="$2" -v spent="$3" -v first="$first" \
    'BEGIN { printf "%s %9d  over the empty case %9.2f ms  ratio %5.2f\n", label, size, spent / 1e6, spent / first }'
}

#!/usr/bin/env bash
# Builds projects that are made from numbers by 1 to 16 workers at once, over objects in memory, with the built program build_rows, and
# looks whether they leave what one worker leaves: COUNT projects without faults, and as many in which calls of the objects fail. The stored
# output of the program has others, and the rows of goals that wait for one another. usage: crew_rows.sh [COUNT [FIRST]]
. "$(dirname "$0")/cases.sh"
program=crates/build_rows/out/build_rows
count=${1-60}
first=${2-1001}
[ -x "$program" ] || stop "no $program here: call rt ci, or (cd crates/build_rows && rt run) first"

# CASE, KIND, WHAT IS TOLD
tried() {
  local told
  told=$(echo "run $2 $first $count" | timeout 600 "$program" | tail -n 1)
  if [[ $told =~ ^$3,\ none\ different$ ]]; then
    pass "$1: $told"
  else
    fail "$1" "${told:-the program ended without an answer}"
  fi
}

tried "$count projects by 1 to 16 workers leave what one worker leaves" random '[0-9]+ built'
tried "$count builds with faults leave whole files, and modules apart from a fault as without it" faults 'at least a quarter with a fault'
tell

#!/usr/bin/env bash
# Shows that winners, their scopes and conflicts of ranges are found as their definitions say, on random small dependency graphs with
# exclusions, scopes, management, ranges, missing POMs and circles. Compares with what the plain, slow graphs.py tells over all paths
# and walks: the stored output of the program bench_graphs, which the CI run holds that program to, on 60 graphs; and what the built
# program tells on 3,000 others, and on 1,000 more, each followed by two projects over the same libraries. It needs python3.
. "$(dirname "$0")/cases.sh"
stored=crates/bench_graphs
program=$stored/out/bench_graphs

# COUNT SEED [WORD]: writes so many graphs and their answers
graphs() { python3 tests/graphs.py "$1" "$2" "$work/given" "$work/wanted" "${@:3}" || stop "tests/graphs.py ended with status $?"; }

# CASE ANSWERS: the built program tells these answers
answered() {
  "$program" < "$work/given" > "$work/told"
  if [ "$(grep -c '^$' "$work/wanted")" = "$2" ] && cmp -s "$work/told" "$work/wanted"; then
    pass "$1"
  else
    fail "$1" "$(diff "$work/told" "$work/wanted" | sed -n 2p)"
  fi
}

graphs 60 1
sed '1,/^project$/d' "$stored/stdin" > "$work/stdin"
front=$(sed '/^project$/q' "$stored/stdin" | grep -c '^module\|^project$')
awk -v front="$front" 'told >= front; /^$/ { told++ }' "$stored/stdout" > "$work/told"
if [ "$(grep -c '^$' "$work/wanted")" = 60 ] && cmp -s "$work/given" "$work/stdin" && cmp -s "$work/told" "$work/wanted"; then
  pass '60 stored graphs are answered as by the definition'
else
  fail '60 stored graphs are answered as by the definition' "$(diff "$work/told" "$work/wanted" | sed -n 2p)"
fi

[ -x "$program" ] || stop "no $program here: call rt ci, or (cd $stored && rt run) first"
graphs 3000 7
answered '3000 graphs are answered as by the definition' 3000
graphs 1000 11 modules
answered '3000 projects over 1000 graphs are answered as by the definition' 3000
tell

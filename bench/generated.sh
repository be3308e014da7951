#!/usr/bin/env bash
# How the time of a whole build of the generated project grows with its POMs and shrinks with the workers, as ratios in one run, and memory:
# `mvn --generated N -T W install`. Nothing outside is read or written, so what is measured is planning, the crew and the goals alone. A
# ratio of the numbers is a constant time a module. The empty case, which is taken off, is the project of one POM by as many workers.
# usage: bench/generated.sh [POMS..]
sizes=${*:-125 250 500 1000}
. "$(dirname "$0")/common.sh"
memory=$PWD/bench/memory.py
want_mvn

# the run, which has to say that all is built
once() { "$program" --generated "$poms" -T "$workers" install > out && grep -qx "total $poms built $poms failed 0 skipped 0" out; }

# NANOSECONDS, OF ALL, KIB: over the empty case and with it, with the ratio to the first number of POMs and to one worker
line() {
  [ -n "$first" ] || first=$1
  [ -n "${alone[$poms]-}" ] || alone[poms]=$2
  awk -v poms="$poms" -v workers="$workers" -v spent="$1" -v all="$2" -v kib="$3" -v first="$first" -v one="${alone[$poms]}" 'BEGIN {
    printf "%5d POMs %2d workers %9.1f ms  over the empty case %9.1f ms  ratio %5.2f  of one worker %4.2f  %7.1f MiB\n", poms, workers, all / 1e6, spent / 1e6, spent / first, all / one, kib / 1024 }'
}

declare -a alone
for workers in 1 2 4 8; do
  first=
  poms=1
  base=$(least 5)
  for poms in $sizes; do
    all=$(least 3)
    line $((all - base)) "$all" "$("$memory" "$program" --generated "$poms" -T "$workers" install)"
  done
done

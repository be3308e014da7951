#!/usr/bin/env bash
# How the time of a build's events grows with their number, and with the workers that share them, as ratios in one run of the built program
# `bench_crew`: modules that have nothing but their POM, and objects in memory, so that turns over the board are nearly all that a worker
# does. If the ratio of the times is that of the numbers, an event costs the same however many came before it.
. "$(dirname "$0")/common.sh"
want crates/bench_crew/out/bench_crew '(cd crates/bench_crew && rt run < stdin)'
once() { "$program" < in > out; }

# MODULES WORKERS TIMES: the nanoseconds of so many builds, without planning
builds() {
  printf '%s %s 0\n' "$1" "$2" > in
  local base
  base=$(least 5)
  printf '%s %s %s\n' "$1" "$2" "$3" > in
  echo $(($(least 5) - base))
}

# MODULES WORKERS TIMES
events() {
  local spent number
  spent=$(builds "$1" "$2" "$3")
  number=$(sed 's/.*: //' out)
  row "events of $1 modules, workers $2:" "$number" "$spent"
  awk -v number="$number" -v spent="$spent" 'BEGIN { printf "  %.0f nanoseconds an event, %.0f events a second\n", spent / number, number * 1e9 / spent }'
}

first=
for modules in 125 250 500 1000; do events "$modules" 1 100; done
for workers in 1 2 4 8 16; do
  first=
  events 500 "$workers" 200
done

#!/usr/bin/env bash
# How the time of a build's events grows with their number, as ratios in one run of the built program `bench_events`: modules that have
# nothing but their POM, one after another, by one worker, and modules that wait for others. A ratio of the numbers is a constant time an
# event.
. "$(dirname "$0")/common.sh"
want crates/bench_events/out/bench_events '(cd crates/bench_events && rt run)'
once() { "$program" < in > out; }

printf 'long 0\n' > in
base=$(least 15)
first=
for number in 500000 1000000 2000000 4000000; do
  printf 'long %s\n' "$number" > in
  row 'events' "$number" $(($(least 5) - base))
done

# modules each with the four before it as upstreams, each asked for as the first that may begin
printf 'front 0\n' > in
base=$(least 15)
first=
for number in 8000 16000 32000 64000; do
  printf 'front %s\n' "$number" > in
  row 'modules' "$number" $(($(least 5) - base))
done

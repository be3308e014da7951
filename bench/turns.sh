#!/usr/bin/env bash
# How the time of turns under a turn lock grows with their number, and how it compares with that of a plain mutex, for 1 to 16 threads that
# do the same work: ratios, all taken in one run of this script with the built program `bench_low`. If the ratio of the times is that of
# the numbers, a turn takes a constant time; with more threads the number of turns stays the same.
. "$(dirname "$0")/common.sh"
want crates/bench_low/out/bench_low '(cd crates/bench_low && rt run)'
once() { "$program" < in > out; }

printf 'measure turns\n1 0\n' > in
base=$(least 15)
first=
for number in 250000 500000 1000000 2000000; do
  printf 'measure turns\n1 %s\n' "$number" > in
  row 'turns of one thread' "$number" $(($(least 5) - base))
done

# a million notes by so many threads: under a mutex, and in turns of a lock
for workers in 1 2 4 8 16; do
  first=
  for way in mutex turns; do
    printf 'measure turns\n%s %s %s\n' "$workers" $((1000000 / workers)) "$way" > in
    row "a million notes, $way, threads" "$workers" $(($(least 9) - base))
  done
done

#!/usr/bin/env bash
# How the time of comparing versions grows with their bytes, and that of finding the highest with their number, as ratios in
# one run of the built program `bench_low`. A ratio of the sizes is what one pass costs.
. "$(dirname "$0")/common.sh"
want crates/bench_low/out/bench_low '(cd crates/bench_low && rt run)'
once() { "$program" < in > out; }

printf 'measure versions\n1\n1\n' > in
base=$(least 15)

# LABEL, PATTERN, END: two versions that repeat the pattern and differ at their ends
growing() {
  local size text
  first=
  for size in 262144 524288 1048576 2097152; do
    text=$(yes "$2" | tr -d '\n' | head -c "$size")
    printf 'measure versions\n(,)\n%s%s1\n%s%s2\n' "$text" "$3" "$text" "$3" > in
    row "$1" "$size" $(($(least 15) - base))
  done
}

growing 'digits  ' 7 ''
growing 'tokens  ' 1.a- ''
growing 'nulls   ' 0. '-'

# The highest of this many versions
first=
for count in 512 1024 2048 4096; do
  { printf 'measure versions\n[1.0,2.0),(2.0,)\n'; for ((i = 0; i < count; i++)); do echo "1.$((i * 7919 % count)).$i-rc$i"; done; } > in
  row 'versions' "$count" $(($(least 15) - base))
done

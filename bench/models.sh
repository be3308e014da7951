#!/usr/bin/env bash
# How the time of joining and filling models grows, as ratios in one run of the built program `bench_models`: a POM over one of as many
# dependencies, a POM with a profile, a chain of properties that name one another, and properties that name one of 65,536 bytes.
. "$(dirname "$0")/common.sh"
want crates/bench_models/out/bench_models '(cd crates/bench_models && rt run)'
once() { "$program" < in > out; }

# LABEL, WORD, NUMBERS
rows() {
  label="$1" word="$2"
  shift 2
  first=
  for number in "$@"; do
    printf '%s %s\n' "$word" "$number" > in
    row "$label" "$number" $(($(least 15) - base))
  done
}

printf 'chain 0\n' > in
base=$(least 15)
rows 'dependencies over as many' inherit 4000 8000 16000 32000
rows 'dependencies with a profile' inject 4000 8000 16000 32000
rows 'properties in a chain' chain 1000 2000 4000 8000 16000 32000
rows 'properties of 65536 bytes' long 64 128 256 512

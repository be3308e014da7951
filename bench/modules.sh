#!/usr/bin/env bash
# How the time of ordering modules grows with the edges and with the modules, and that of keeping soft edges with their number, as
# ratios in one run of the built program `bench_low`. The edges are read as text, which is part of it, but for the soft ones; a ratio
# of the sizes is what near linear costs.
. "$(dirname "$0")/common.sh"
want crates/bench_low/out/bench_low '(cd crates/bench_low && rt run)'
once() { "$program" < in > out; }

# MODULES, EDGES: each edge from a module to one of a greater number, so that the last declared has to come first
graph() {
  awk -v n="$1" -v edges="$2" 'BEGIN { srand(7); print "measure modules"; print n; for (i = 0; i < edges; i++) { a = int(rand() * (n - 1)); b = a + 1 + int(rand() * (n - 1 - a)); print a, b } }'
}

printf 'measure modules\n1\n' > in
base=$(least 15)
first=
for edges in 12500 25000 50000 100000; do
  graph 1024 "$edges" > in
  row 'edges of 1024 modules' "$edges" $(($(least 15) - base))
done
first=
for modules in 12500 25000 50000 100000; do
  graph "$modules" "$modules" > in
  row 'modules with as many edges' "$modules" $(($(least 15) - base))
done
# soft edges from each module to the modules behind it, the first again behind the last, so that most of them close a cycle
first=
for edges in 128 256 512 1024; do
  printf 'measure modules\n1024\nsoft %s\n' "$edges" > in
  row 'soft edges of each of 1024 modules' "$edges" $(($(least 5) - base))
done

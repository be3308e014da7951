#!/usr/bin/env bash
# How the time of finding winners grows with the dependency graph, as ratios in one run of the built program `bench_graphs`, and for a chain
# whose libraries each exclude something the most memory. The graph is read as text, which is part of it; a ratio of the sizes is what
# near linear costs.
. "$(dirname "$0")/common.sh"
memory=$PWD/bench/memory.py
want crates/bench_graphs/out/bench_graphs '(cd crates/bench_graphs && rt run)'
once() { "$program" < in > out; }

# WINNERS: each library needs the next one
chain() {
  awk -v n="$1" 'BEGIN { print "needs g a1 1 jar - - -"; for (i = 1; i <= n; i++) { print "pom g a" i " 1"; if (i < n) print "needs g a" i + 1 " 1 jar - - -" } }'
}

# WINNERS: each needs the next four, so that three declarations of each lose
diamonds() {
  awk -v n="$1" 'BEGIN { print "needs g a1 1 jar - - -"; for (i = 1; i <= n; i++) { print "pom g a" i " 1"; for (k = 1; k <= 4 && i + k <= n; k++) print "needs g a" i + k " 1 jar - - -" } }'
}

# WINNERS: so, below an exclusion that names none of them
excluded() {
  diamonds "$1" | sed '1s/-$/other:thing/'
}

# WINNERS: each needs the next one and excludes another artifact below it, so that the last is looked up among as many exclusions
excluding() {
  awk -v n="$1" 'BEGIN { print "needs g a1 1 jar - - other:x0"; for (i = 1; i <= n; i++) { print "pom g a" i " 1"; if (i < n) print "needs g a" i + 1 " 1 jar - - other:x" i } }'
}

# MODULES: each of ten dependencies among 300 artifacts, which need three of the next ones
modules() {
  awk -v n="$1" 'BEGIN { srand(7); for (m = 0; m < n; m++) { if (m) print "project"; for (k = 0; k < 10; k++) print "needs g a" 1 + int(rand() * 300) " 1 jar - - -"; for (i = 1; i <= 300; i++) { print "pom g a" i " 1"; for (k = 1; k <= 3 && i + 7 * k <= 300; k++) print "needs g a" i + 7 * k " 1 jar - - -" } } }'
}

# MODULES: so many such modules over one set of libraries, of which only the number of winners is told
sharing() {
  modules 1 | sed '1,10d'
  awk -v n="$1" 'BEGIN { srand(7); for (m = 0; m < n; m++) { print "module counted"; for (k = 0; k < 10; k++) print "needs g a" 1 + int(rand() * 300) " 1 jar - - -" } }'
}

# MODULES: so, over libraries that need nothing
plain() {
  sharing "$1" | awk '/^pom /{ lib = 1; print; next } /^module/ { lib = 0 } !lib'
}

printf 'needs g a1 1 jar - - -\n' > in
base=$(least 15)
for shape in chain diamonds excluded; do
  first=
  for winners in 2048 4096 8192 16384; do
    "$shape" "$winners" > in
    row "winners in a graph: $shape" "$winners" $(($(least 15) - base))
  done
done
first=
for winners in 1000 2000 4000 8000; do
  excluding "$winners" > in
  row 'winners in a graph: excluding' "$winners" $(($(least 15) - base))
  kib=$("$memory" "$program" < in)
  echo "that with $((kib / 1024)) MiB at most"
done
first=
for number in 10 20 40; do
  modules "$number" > in
  row 'modules of ten dependencies' "$number" $(($(least 15) - base))
done
for shape in sharing plain; do
  "$shape" 0 > in
  base=$(least 15)
  first=
  for number in 250 500 1000; do
    "$shape" "$number" > in
    row "modules over one set of libraries: $shape" "$number" $(($(least 15) - base))
  done
done

#!/usr/bin/env bash
# How the time of planning grows with the modules of a project, as ratios in one run: `mvn validate`, which runs no goal, on projects of 125,
# 250, 500 and 1,000 modules with a shared parent, each with ten dependencies, five of them on other modules and five on 300 libraries of the
# repository; and memory. The empty case is a project of one module beside the same repository.
# usage: bench/plan.sh [MODULES..]
sizes=${*:-125 250 500 1000}
. "$(dirname "$0")/common.sh"
maker=$PWD/bench/reactor_project.py
memory=$PWD/bench/memory.py
want_mvn
once() { "$program" validate > out && tail -n 1 out | grep -q ' failed 0 skipped 0$'; }

# MODULES: the project, new
project() {
  cd "$work"
  rm -rf project
  mkdir project
  cd project
  "$maker" "$1" 300
}

project 1
base=$(least 7)
first=
for size in $sizes; do
  project "$size"
  row modules "$size" $(($(least 3) - base))
done
kib=$("$memory" "$program" validate)
echo "the last of them with $((kib / 1024)) MiB at most"
cd "$work"

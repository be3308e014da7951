#!/usr/bin/env bash
# How the time of `mvn` grows with the modules of a project, as ratios in one run: `validate` and `install` on projects of 1, 200 and
# 1,000 modules, each with ten dependencies on others, and memory. Beside them `mvn -o -q validate` of Apache Maven on the same projects, if
# it is installed: the program that MAVEN names, or the `mvn` on the PATH. Maven reads the same POMs and runs no goal.
# usage: bench/reactor.sh [MODULES..]
sizes=${*:-1 200 1000}
. "$(dirname "$0")/common.sh"
maker=$PWD/bench/reactor_project.py
memory=$PWD/bench/memory.py
want_mvn
maven=${MAVEN-$(command -v mvn || true)}
[ -n "$maven" ] && "$maven" --version 2> /dev/null | grep -q 'Apache Maven' || maven=
[ -n "$maven" ] || echo 'Apache Maven is not installed: ours alone'
words=

# the run, whose last line has to say that all is built
ours() { "$program" $words > out && tail -n 1 out | grep -q ' failed 0 skipped 0$'; }
theirs() { "$maven" -o -q -B -Dmaven.repo.local="$work/maven" $words > out 2>&1; }
# LABEL, MODULES, NANOSECONDS, KIB, and those of Maven if there are any
line() {
  [ -n "$first" ] || first=$3
  awk -v label="$1" -v size="$2" -v spent="$3" -v first="$first" -v kib="$4" -v other="${5-}" -v more="${6-}" 'BEGIN {
    printf "%-9s %5d modules %9.1f ms  ratio %5.2f  %7.1f MiB", label, size, spent / 1e6, spent / first, kib / 1024
    if (other != "") printf "   Maven %9.1f ms, %6.1f MiB: of its time %.3f, of its memory %.3f", other / 1e6, more / 1024, spent / other, kib / more
    print "" }'
}

for words in validate install; do
  first=
  for size in $sizes; do
    rm -rf project
    mkdir project
    cd project
    "$maker" "$size" 0
    prepare() { rm -rf .m2; }
    once() { ours; }
    spent=$(least 3)
    kib=$("$memory" "$program" $words)
    if [ -n "$maven" ] && [ "$words" = validate ]; then
      once() { theirs; }
      line "$words" "$size" "$spent" "$kib" "$(least 2)" "$("$memory" "$maven" -o -q -B -Dmaven.repo.local="$work/maven" $words)"
    else
      line "$words" "$size" "$spent" "$kib"
    fi
    cd ..
  done
done

#!/usr/bin/env bash
# How the time of fetching grows with the number of files: 256 to 2,048 libraries of 64 KiB, needed by 16 modules, each of which has its own,
# from a remote repository that is a folder on the same disk into a new local one, by one worker and by four. What is taken off is a run over
# the local repository that has all of them: planning, reading the classpaths, and the goals. Beside it stands what `cp` of the same files
# takes, with `sync` of each file and folder behind it, and how often the one goes into the other. The aim is a straight line, and 1.5.
# A try is a fetch and a copy one behind the other, each behind a `sync` of the disk, so that what the disk does later for one run is paid
# by none; every second try copies first. How often is the median of the tries' own quotients, since one disk takes twice as long in one
# minute as in the next; the times are medians too.
# Nothing is removed before the end: on a disk without a journal making a file takes the longer the more were removed in the minutes before,
# so that each run would pay for those before it. Nine tries take 7 GB of the disk.
# usage: bench/fetch.sh [TRIES], 9 if absent. The program is the one that MVN names, or bin/mvn.
. "$(dirname "$0")/common.sh"
tries=${1-9}
[[ $tries =~ ^[1-9][0-9]*$ ]] || stop "usage: fetch.sh [TRIES]"
want_mvn
export MVN_REPO=$work/repository MVN_REMOTE=$work/remote
workers=1
head='<project><modelVersion>4.0.0</modelVersion><groupId>demo</groupId><version>1</version>'

# COUNT: a project whose modules need so many libraries together, and a remote repository that has them, without POMs
project() {
  local module at
  fresh remote m*
  for module in $(seq 16); do
    mkdir "m$module"
    {
      printf '%s<artifactId>m%d</artifactId><dependencies>' "$head" "$module"
      for at in $(seq "$module" 16 "$1"); do
        printf '<dependency><groupId>x</groupId><artifactId>l%d</artifactId><version>1</version></dependency>' "$at"
        mkdir -p "$MVN_REMOTE/x/l$at/1"
        head -c 65536 /dev/urandom > "$MVN_REMOTE/x/l$at/1/l$at-1.jar"
      done
      printf '</dependencies></project>'
    } > "m$module/pom.xml"
  done
  printf '%s<artifactId>root</artifactId><packaging>pom</packaging><modules>%s</modules></project>' "$head" "$(printf '<module>m%d</module>' $(seq 16))" > pom.xml
  sync
}

fetch() { "$program" compile -T "$workers" > out || stop "it ended with status $?: $(tail -n 1 out)"; }
copy() { cp -R "$MVN_REMOTE" copy && find copy -print0 | xargs -0 sync; }
nothing() { :; }

# NAME..: moves what stands under these names aside, where it stays until the end
fresh() {
  local aside it
  aside=$(mktemp -d "$work/aside.XXXXXX")
  for it in "$@"; do [ ! -e "$it" ] || mv "$it" "$aside"; done
}

# HOW IT IS PREPARED, WHAT ONE RUN IS: the nanoseconds of one run behind a sync
turn() {
  eval "prepare() { $1; sync; }; once() { $2; }"
  least 1
}

# A try with so many workers, whose copy comes first or last: its line is the nanoseconds of the copy, the fetch and the run behind it
try() {
  local copied whole again
  [ "$1" = last ] || copied=$(turn 'fresh copy' copy)
  whole=$(turn 'fresh repository' fetch)
  again=$(turn : fetch)
  [ "$1" = first ] || copied=$(turn 'fresh copy' copy)
  echo "$copied $whole $again"
}

# EXPRESSION: the median of what it is of the lines on standard input
median() { awk "{ print $1 }" | sort -g | awk '{ all[NR] = $1 } END { printf "%.3f", (all[int((NR + 1) / 2)] + all[int(NR / 2) + 1]) / 2 }'; }

first=
for count in 256 512 1024 2048; do
  project "$count"
  for workers in 1 4; do
    turn 'fresh copy' copy > /dev/null
    for at in $(seq "$tries"); do
      if [ $((at % 2)) -eq 0 ]; then try first; else try last; fi
    done > "tries.$workers"
    spent=$(median '$2 - $3' < "tries.$workers")
    [ -n "$first" ] || first=$spent
    awk -v count="$count" -v workers="$workers" -v spent="$spent" -v first="$first" \
      -v copied="$(median '$1' < "tries.$workers")" -v times="$(median '($2 - $3) / $1' < "tries.$workers")" \
      'BEGIN { printf "files %5d  workers %d  fetched in %9.2f ms  ratio %5.2f  cp and sync %9.2f ms  %5.2f times\n", count, workers, spent / 1e6, spent / first, copied / 1e6, times }'
  done
done

#!/usr/bin/env bash
# What workers gain, as ratios in one run: 200 modules whose goals are children that sleep 20 ms each, by one worker and by eight (the aim is
# 7), and 40 modules whose goals are children that compute, by one and by four (the aim is 3.5, on four processors). Then what a turn costs:
# 200 modules have 200 empty built-in goals each, and the processor time of a run with these goals over that of one without them, which plans
# the same, is divided by their number, since each goal is a turn (the aim is 2 microseconds for each worker).
# usage: bench/crew.sh [TRIES], 3 if absent. The program is the one that MVN names, or bin/mvn.
. "$(dirname "$0")/common.sh"
tries=${1-3}
[[ $tries =~ ^[1-9][0-9]*$ ]] || stop "usage: crew.sh [TRIES]"
want_mvn

# COUNT, TEXT: a project of so many modules, of which none needs another, with this in the POM of the parent
project() {
  rm -rf p
  mkdir p
  cd p
  local at
  for at in $(seq "$1"); do
    mkdir "m$at"
    echo "<project><modelVersion>4.0.0</modelVersion><parent><groupId>demo</groupId><artifactId>root</artifactId><version>1</version></parent><artifactId>m$at</artifactId></project>" > "m$at/pom.xml"
  done
  printf '<project><modelVersion>4.0.0</modelVersion><groupId>demo</groupId><artifactId>root</artifactId><version>1</version><packaging>pom</packaging><modules>%s</modules>%s</project>' \
    "$(printf '<module>m%d</module>' $(seq "$1"))" "$2" > pom.xml
  cd ..
}

# PHASE, WORKERS
build() { (cd p && "$program" "$1" -T "$2" > ../out) || stop "it ended with status $?: $(tail -n 1 out)"; }

# LABEL, MODULES, WORKERS, WHAT A GOAL DOES: the times of one worker and of so many
gain() {
  local alone together
  printf '#!/bin/sh\ncat > /dev/null\n%s\necho '\''{"answer":"done"}'\''\n' "$4" > goal
  chmod +x goal
  export MVN_GATE=$work/goal
  project "$2" ''
  once() { build process-resources 1; }
  alone=$(least "$tries")
  once() { build process-resources "$many"; }
  many=$3
  together=$(least "$tries")
  unset MVN_GATE
  awk -v label="$1" -v count="$2" -v many="$3" -v alone="$alone" -v together="$together" \
    'BEGIN { printf "%d modules, goals that %s  workers 1: %9.1f ms  workers %d: %9.1f ms  %5.2f times\n", count, label, alone / 1e6, many, together / 1e6, alone / together }'
}

# PHASE, WORKERS: the least processor time of a run, in microseconds
processor() {
  local spent best=
  for _ in $(seq "$tries"); do
    spent=$({ TIMEFORMAT='%3U %3S'; time build "$1" "$2"; } 2>&1 | awk '{ print int(($1 + $2) * 1e6) }')
    if [ -z "$best" ] || [ "$spent" -lt "$best" ]; then best=$spent; fi
  done
  echo "$best"
}

gain 'sleep 20 ms' 200 8 'sleep 0.02'
gain 'compute' 40 4 'i=0; while [ $i -lt 100000 ]; do i=$((i + 1)); done'

executions=$(for at in $(seq 199); do echo "<execution><id>e$at</id><phase>process-resources</phase><goals><goal>resources</goal></goals></execution>"; done)
project 200 "<build><plugins><plugin><artifactId>maven-resources-plugin</artifactId><executions>$executions</executions></plugin></plugins></build>"
for many in 1 2 4 8 16; do
  without=$(processor validate "$many")
  with=$(processor process-resources "$many")
  awk -v many="$many" -v without="$without" -v with="$with" \
    'BEGIN { turn = (with - without) / 40000; printf "40000 empty goals  workers %2d  processor time %9.1f ms, without them %9.1f ms  %6.2f microseconds a goal, %5.2f a worker\n", many, with / 1e3, without / 1e3, turn, turn / many }'
done

#!/usr/bin/env bash
# Refuses memory to installs: one request a run, and also that one with all behind it, for each number up to the first that an install doesn't come to.
# The project has two modules that need one library, of which one needs another that is nowhere. Each run answers as an undisturbed one does, or
# with status 4 and the beginning of that text; each file of the repository is absent, as before, or as an undisturbed run leaves it; and the
# next run, to which nothing is refused, ends like an undisturbed one. A part of the runs begins with the repository of an earlier build.
# All numbers take some seven minutes of a processor, so neither ./test nor the CI run calls it. usage: refused_memory.sh [EVERY]: each EVERY-th
# number; 1 if absent. It needs gcc and python3. The program is the one that MVN names, or bin/mvn.
. "$(dirname "$0")/cases.sh"
find_program
every=${1-1}
[[ $every =~ ^[1-9][0-9]*$ ]] || stop "usage: refused_memory.sh [EVERY]"
here=$PWD/tests/refused_memory
gcc -O1 -Wall -shared -fPIC -o "$work/refuse.so" "$here/refuse.c" || stop "gcc makes no library of $here/refuse.c"
cd "$work" || exit 1
export MVN_REPO=$work/repository MVN_REMOTE=$work/remote

# GROUP, NAME, TEXT: a POM
pom() { printf '<project><modelVersion>4.0.0</modelVersion><groupId>%s</groupId><artifactId>%s</artifactId><version>1</version>%s</project>' "$@"; }

# NAME..: dependencies on these libraries
need() { echo "<dependencies>$(printf '<dependency><groupId>x</groupId><artifactId>%s</artifactId><version>1</version></dependency>' "$@")</dependencies>"; }

mkdir -p a/src/main/java b/src/main/java "$MVN_REMOTE/x/y/1"
pom demo root '<packaging>pom</packaging><modules><module>a</module><module>b</module></modules>' > pom.xml
pom demo a "$(need y no)" > a/pom.xml
pom x y '' > "$MVN_REMOTE/x/y/1/y-1.pom"
head -c 20000 /dev/zero | tr '\0' y > "$MVN_REMOTE/x/y/1/y-1.jar"
report='built demo:root:1
failed demo:a:1 missing x/no/1/no-1.jar
  note missing x:no:1
built demo:b:1
total 3 built 2 failed 1 skipped 0'

# START, TEXT: makes the folder START of what is in the repository: the start of the runs, and what an undisturbed run over it leaves and answers.
# The POM and the source of b have the text.
start() {
  mkdir -p "$1" repository
  cp -r repository "$1/start"
  pom demo b "<!-- $2 -->$(need y)" > b/pom.xml
  head -c 20000 /dev/zero | tr '\0' "${2:0:1}" > b/src/main/java/B.java
  "$mvn" install > "$1/said" 2>&1
  echo $? > "$1/status"
  [ "$(cat "$1/said" "$1/status")" = "$report"$'\n1' ] || stop "an undisturbed run: $(cat "$1/said" "$1/status")"
  cp -r repository "$1/new"
}

start before old
rm -rf repository
start empty new
# the repository that the earlier build left, without the library, so that this is fetched and all else is replaced
rm -rf repository
cp -r before/new repository
rm -r repository/x
start built new
! cmp -s {built/start,built/new}/demo/b/1/b-1.jar || stop "two sources make one jar, so no jar tells whose it is"

# the start, the number of workers, and which requests are refused from the number on
while read -r from workers way; do
  case="$way refused, by $workers over the repository $from"
  if told=$(python3 "$here/runs.py" "$mvn" "$work/refuse.so" "$from" "$workers" "$way" "$every" 2>&1); then
    pass "$case: $told"
  else
    fail "$case" "$told"
  fi
done << 'END'
empty 1 one
built 1 one
empty 2 one
built 2 one
empty 1 rest
built 2 rest
END
tell

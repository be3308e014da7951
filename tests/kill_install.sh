#!/usr/bin/env bash
# Shows that a killed install leaves no torn file, and that the next run ends as if nothing had happened: kills installs by one and by eight
# workers, of a project of eight modules that stand on one another or not and need libraries that are fetched. One module fails in its tests, one
# needs it and is skipped, and of one a library is nowhere. Half of the installs are killed at a random moment, up to half as late again as one
# takes, and half soon after a certain file is published, so that whatever the machine does most are killed while they run. After each kill every
# POM and every jar is absent, or has all its old bytes or all its new ones, and the next run says what an undisturbed one says, and leaves its
# files and no piece. Then the same over pieces of an earlier run, where each install is killed when a certain piece is gone.
# usage: kill_install.sh [KILLS], 40 if absent, and 10 if the program is UNPROVED. The program is the one that MVN names, or bin/mvn.
. "$(dirname "$0")/cases.sh"
find_program
kills=${1-$([ -z "$unproved" ] && echo 40 || echo 10)}
[[ $kills =~ ^[1-9][0-9]*$ ]] || stop "usage: kill_install.sh [KILLS]"
cd "$work" || exit 1
export MVN_REPO=$work/repository MVN_REMOTE=$work/remote
modules=(base core app free other broken after lost)

# GROUP, NAME, TEXT: a POM
pom() { printf '<project><modelVersion>4.0.0</modelVersion><groupId>%s</groupId><artifactId>%s</artifactId><version>1</version>%s</project>' "$@"; }

# MODULE, GROUP AND NAME OF WHAT IT NEEDS..
module() {
  local name=$1 needs=
  shift
  while [ $# != 0 ]; do
    needs+="<dependency><groupId>$1</groupId><artifactId>$2</artifactId><version>1</version></dependency>"
    shift 2
  done
  mkdir -p "$name/src/main/java"
  pom demo "$name" "<dependencies>$needs</dependencies>" > "$name/pom.xml"
}

pom demo root "<packaging>pom</packaging><modules>$(printf '<module>%s</module>' "${modules[@]}")</modules>" > pom.xml
for library in y z; do
  mkdir -p "$MVN_REMOTE/x/$library/1"
  head -c "$(bytes 1500000)" /dev/urandom > "$MVN_REMOTE/x/$library/1/$library-1.jar"
done
for library in y z gone; do
  mkdir -p "$MVN_REMOTE/x/$library/1"
  pom x "$library" '' > "$MVN_REMOTE/x/$library/1/$library-1.pom"
done
module base x y
module core demo base
module app demo core x z
module free x y
module other
module broken x z
module after demo broken
module lost x gone
mkdir -p broken/src/test/java
echo 'no luck' > broken/src/test/java/fail-test

# old OR new: the sources of all modules
write_sources() {
  local module
  for module in "${modules[@]}"; do
    head -c "$(bytes 300000)" /dev/zero | tr '\0' "${1:0:1}" > "$module/src/main/java/App.java"
  done
}

# FOLDER: its files with their sums
sums() { (cd "$1" 2> /dev/null && find . -type f | LC_ALL=C sort | xargs -r sha256sum); }

# what builds of two sources say and leave
for side in old new; do
  write_sources "$side"
  rm -rf "$MVN_REPO"
  begun=$(date +%s%N)
  "$mvn" install -T 8 > "$side.said"
  status=$?
  longest=$((($(date +%s%N) - begun) * 3 / 2000000 + 1))
  [ "$status" = 1 ] && [ "$(tail -n 1 "$side.said")" = 'total 9 built 6 failed 2 skipped 1' ] || stop "the install of $side: status $status, $(cat "$side.said")"
  sums "$MVN_REPO" > "$side.sums"
  rm -rf "$MVN_REPO/.staging"
  mv "$MVN_REPO" "$side.files"
done
jar=demo/app/1/app-1.jar
! cmp -s "old.files/$jar" "new.files/$jar" || stop "two sources make one jar, so no jar tells whose it is"

# the files that are there and have neither the bytes of the one side nor of the other; no piece is such a file
torn_files() { sums "$MVN_REPO" | grep -v ' ./.staging/' | LC_ALL=C sort | LC_ALL=C comm -13 both.sums -; }
LC_ALL=C sort -u old.sums new.sums > both.sums

# WORKERS, COMMAND: an install of the process `pid` that is killed when the command has ended; `killed` counts those that were
kill_one() {
  set -m
  "$mvn" install -T "$1" > /dev/null 2>&1 &
  pid=$!
  set +m
  "${@:2}"
  # the group of the processes of this one install
  kill -9 -- "-$pid" 2> /dev/null
  wait "$pid" 2> /dev/null
  [ $? != 137 ] || killed=$((killed + 1))
  [ -z "$(torn_files)" ] || torn=$((torn + 1))
}

# FILE: waits until it is published, and for a random part of the time until the next one is
published() {
  until_or_ended "$pid" -e "$MVN_REPO/$1"
  nap $((RANDOM % (longest / 40 + 2)))
}

# FILE: waits until it is gone
gone() { until_or_ended "$pid" ! -e "$1"; }

# SIDE: the next install, by as many workers as any before it
rerun() {
  "$mvn" install -T 8 > said
  [ $? = 1 ] && cmp -s said "$1.said" && sums "$MVN_REPO" | cmp -s - "$1.sums" || differ=$((differ + 1))
}

mapfile -t files < <(sed 's/^[^ ]*  //' new.sums)
torn=0
killed=0
changed=0
differ=0
for ((i = 0; i < kills; i++)); do
  [ $((i % 4)) -gt 1 ] || rm -rf "$MVN_REPO"
  side=$([ $((i % 2)) = 0 ] && echo old || echo new)
  write_sources "$side"
  workers=$((i % 3 == 0 ? 1 : 8))
  if [ $((i / 4 % 2)) = 1 ]; then
    kill_one "$workers" nap $((RANDOM % longest))
  else
    # the first and some others behind the jar of app
    file=${files[RANDOM % ${#files[@]}]}
    [ $((i % 5)) != 0 ] || file=$jar
    rm -f "$MVN_REPO/$file"
    kill_one "$workers" published "$file"
  fi
  [ ! -e "$MVN_REPO/$jar" ] || ! cmp -s "$MVN_REPO/$jar" "$side.files/$jar" || changed=$((changed + 1))
  rerun "$side"
done 2> /dev/null

# Where no install was killed, or none came as far as the last jar, nothing is shown.
if [ "$torn" = 0 ] && [ "$killed" != 0 ] && [ "$changed" != 0 ]; then
  pass "no file torn by $kills installs, $killed killed while they ran, the jar of app new after $changed"
else
  fail "no file torn by $kills installs" "torn after $torn, $killed killed while they ran, the jar of app new after $changed"
fi
if [ "$differ" = 0 ]; then pass 'each next install ends like an undisturbed one'; else fail 'each next install ends like an undisturbed one' "$differ of $kills differ"; fi

# 500 pieces of an earlier run for each worker, which are removed hand by hand. Should none be killed meanwhile, it is tried again.
differ=0
inside=0
for ((i = 0; i < kills / 4 + 5 || (inside == 0 && i < 60); i++)); do
  for hand in {0..7}; do
    mkdir -p "$MVN_REPO/.staging/$hand"
    (cd "$MVN_REPO/.staging/$hand" && touch old-{1..500}) || exit 1
  done
  piece=$MVN_REPO/.staging/$((RANDOM % 6))/old-$((RANDOM % 500 + 1))
  kill_one 8 gone "$piece"
  left=$(find "$MVN_REPO/.staging" -name 'old-*' | wc -l)
  [ "$left" = 0 ] || [ "$left" = 4000 ] || inside=$((inside + 1))
  rerun "$side"
done 2> /dev/null
if [ "$torn" = 0 ] && [ "$differ" = 0 ] && [ "$inside" != 0 ]; then
  pass "nor by $i over pieces of an earlier run, $inside killed while these were removed, and none is left by the next"
else
  fail "$i installs over pieces of an earlier run" "torn after $torn, $differ differ, $inside killed while these were removed"
fi
tell

#!/usr/bin/env bash
# Shows that two builds at once over one repository don't disturb each other: runs pairs of `mvn install -T 4` of one project of three modules,
# from two folders with different sources and POMs, which need a library that is fetched, and checks after each pair what the two answered
# and that no file is torn: each POM and jar has all bytes of the one or of the other, and the library's files those of the remote
# repository. Then the same with one of the two killed, at a random moment or when a certain file is there: the other has to answer as if it were
# alone. Last, one more install is not hindered by a leftover staged file, and leaves none. usage: two_builds.sh [PAIRS], of each kind; if absent,
# as many as there is time for in 15 seconds. The program is the one that MVN names, or bin/mvn.
. "$(dirname "$0")/cases.sh"
find_program
pairs=${1-}
[[ $pairs =~ ^[0-9]*$ ]] || stop "usage: two_builds.sh [PAIRS]"
cd "$work" || exit 1
export MVN_REPO=$work/repository MVN_REMOTE=$work/remote
modules=(base app web)

# GROUP, NAME, TEXT: a POM
pom() { printf '<project><modelVersion>4.0.0</modelVersion><groupId>%s</groupId><artifactId>%s</artifactId><version>1</version>%s</project>' "$@"; }

# GROUP, NAME: a dependency on it
need() { echo "<dependencies><dependency><groupId>$1</groupId><artifactId>$2</artifactId><version>1</version></dependency></dependencies>"; }

library=x/y/1/y-1
mkdir -p "$MVN_REMOTE/x/y/1"
head -c "$(bytes 3000000)" /dev/urandom > "$MVN_REMOTE/$library.jar"
pom x y '' > "$MVN_REMOTE/$library.pom"
report=$(printf 'built demo:%s:1\n' root "${modules[@]}"; echo 'total 4 built 4 failed 0 skipped 0')

# MODULE, KIND: its file in the repository
file() { echo "$MVN_REPO/demo/$1/1/$1-1.$2"; }

# what each of the two leaves when it is alone, and how many milliseconds it takes
for side in old new; do
  text="<!-- $([ "$side" = old ] && echo old || head -c 5000 /dev/zero | tr '\0' n) -->"
  mkdir "$side"
  pom demo root "$text<packaging>pom</packaging><modules>$(printf '<module>%s</module>' "${modules[@]}")</modules>" > "$side/pom.xml"
  for module in "${modules[@]}"; do
    mkdir -p "$side/$module/src/main/java"
    head -c "$(bytes 700000)" /dev/zero | tr '\0' "${side:0:1}" > "$side/$module/src/main/java/App.java"
    pom demo "$module" "$text$([ "$module" = app ] && need demo base || need x y)" > "$side/$module/pom.xml"
  done
  rm -rf "$MVN_REPO"
  begun=$(date +%s%N)
  (cd "$side" && "$mvn" install -T 4 > /dev/null) || stop "the install of $side failed"
  longest=$((($(date +%s%N) - begun) / 1000000 + 1))
  for module in "${modules[@]}"; do
    for kind in pom jar; do
      cp "$(file "$module" "$kind")" "$side.$module.$kind" || exit 1
      [ "$side" = old ] || ! cmp -s "old.$module.$kind" "new.$module.$kind" || stop "the two sides leave the same bytes"
    done
  done
done

# SIDE: starts its install in the background
begin() {
  (cd "$1" && exec "$mvn" install -T 4) > "$1.said" 2>&1 &
}

# SIDE, ITS STATUS: counts an answer that isn't that of an install
answered() {
  [ "$2" = 0 ] && [ "$(cat "$1.said")" = "$report" ] || { wrong=$((wrong + 1)); said="status $2, $(tail -n 2 "$1.said" | tr '\n' ' ')"; }
}

# counts each name that has neither the one's bytes nor the other's, or not the remote repository's
look() {
  local kind module name
  for kind in pom jar; do
    for module in "${modules[@]}"; do
      name=$(file "$module" "$kind")
      cmp -s "$name" "old.$module.$kind" || cmp -s "$name" "new.$module.$kind" || torn=$((torn + 1))
    done
    cmp -s "$MVN_REPO/$library.$kind" "$MVN_REMOTE/$library.$kind" || torn=$((torn + 1))
  done
}

# KIND OF PAIR, FUNCTION: runs it for as many pairs as are wanted, half of them over a new repository, and tells what came of them; for more
# while no two ran at once
try() {
  local until=$((SECONDS + 7))
  ran=0 torn=0 wrong=0 shown=0 said=
  while if [ -n "$pairs" ]; then [ "$ran" -lt "$pairs" ]; else [ "$SECONDS" -lt "$until" ]; fi || { [ "$shown" = 0 ] && [ "$ran" -lt 50 ]; }; do
    [ $((RANDOM % 2)) = 0 ] && rm -rf "$MVN_REPO"
    "$2"
    look
    ran=$((ran + 1))
  done
  # Where no two ran at once, or none was killed, nothing is shown.
  if [ "$torn" = 0 ] && [ "$wrong" = 0 ] && [ "$shown" != 0 ]; then
    pass "$1: no name torn and no answer wrong after $ran, $shown of them at once"
  else
    fail "$1" "after $ran: $torn names torn, $wrong answers wrong ($said), $shown at once"
  fi
}

# every other pair begins at once, and so is at work at once however fast the machine is
both() {
  local one two
  begin old
  one=$!
  [ $((ran % 2)) = 0 ] || nap $((RANDOM % (longest / 2 + 1)))
  begin new
  two=$!
  kill -0 "$one" 2> /dev/null && shown=$((shown + 1))
  wait "$one"
  answered old $?
  wait "$two"
  answered new $?
}

# every other time the one is killed when a file is there that was taken away before
one_killed() {
  local sides=(old new) file one two
  [ $((RANDOM % 2)) = 0 ] && sides=(new old)
  file=$(file "${modules[RANDOM % 3]}" jar)
  rm -f "$file"
  begin "${sides[0]}"
  one=$!
  begin "${sides[1]}"
  two=$!
  if [ $((ran % 2)) = 0 ]; then until_or_ended "$one" -e "$file"; else nap $((RANDOM % (longest + 1))); fi
  kill -9 "$one" 2> /dev/null
  wait "$one" 2> /dev/null
  [ $? = 137 ] && kill -0 "$two" 2> /dev/null && shown=$((shown + 1))
  wait "$two"
  answered "${sides[1]}" $?
}

try 'two builds at once' both
try 'two builds, of which one is killed' one_killed
begin new
wait $!
wrong=0
answered new $?
left=$(find "$MVN_REPO/.staging" -type f | wc -l)
differ=
for module in "${modules[@]}"; do
  for kind in pom jar; do cmp -s "$(file "$module" "$kind")" "new.$module.$kind" || differ+=" $module-1.$kind"; done
done
if [ "$wrong" = 0 ] && [ "$left" = 0 ] && [ -z "$differ" ]; then
  pass 'one more install ends like an undisturbed one, and leaves no piece'
else
  fail 'one more install ends like an undisturbed one' "$(cat new.said), $left pieces are left, these differ:$differ"
fi
tell

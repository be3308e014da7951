#!/usr/bin/env bash
# Runs the session of each folder of examples/ in a copy of it, and compares what each command writes. In the file `session` a line
# `$ COMMAND` is a command, the lines below it are what it writes, and `status N` is the last of them where its status isn't 0. `mvn` is the
# program that MVN names, or bin/mvn. An example with a file `needs` is left out where a program that it names isn't installed. The copies
# of all examples lie beside one another, so that one may use another's files.
. "$(dirname "$0")/cases.sh"
find_program
mkdir "$work/path"
ln -s "$mvn" "$work/path/mvn"
PATH=$work/path:$PATH
export LC_ALL=C

# EXAMPLE, COMMAND, WHAT IT WRITES
run() {
  local got
  got=$(cd "$work/$1" && bash -c "$2" 2>&1 || echo "status $?"; echo .)
  got=${got%.}
  if [ "$got" = "$3" ]; then pass "$1: $2"; else fail "$1: $2" "$(printf 'wanted %q, got %q' "$3" "$got")"; fi
}

for session in examples/*/session; do
  [ -f "$session" ] || stop "no example has a session"
done
for folder in examples/*/; do
  cp -R "$folder" "$work/$(basename "$folder")"
  rm -rf "$work/$(basename "$folder")/.m2"
done
for folder in examples/*/; do
  name=$(basename "$folder")
  [ -f "$folder/session" ] || { fail "$name" "it has no session"; continue; }
  absent=
  for program in $(cat "$folder/needs" 2> /dev/null); do
    command -v "$program" > /dev/null || absent+=" $program"
  done
  [ -z "$absent" ] || { echo "left out  $name: it needs$absent"; continue; }
  command=
  wanted=
  while IFS= read -r line || [ -n "$line" ]; do
    if [ "${line:0:2}" = '$ ' ]; then
      [ -z "$command" ] || run "$name" "$command" "$wanted"
      command=${line:2}
      wanted=
    else
      wanted+=$line$'\n'
    fi
  done < "$folder/session"
  run "$name" "$command" "$wanted"
done
tell

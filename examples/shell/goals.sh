#!/bin/sh
# Goals in a child, in shell: the jar holds the checksum and the size of the sources, and every other goal is done.
# mvn starts this program once for each goal. It reads a request from standard input to its end, one line of JSON and the bytes
# that the line counts, and writes an answer.
IFS= read -r line
goal=$(printf '%s\n' "$line" | sed -n 's/.*"goal":"\([^"]*\)".*/\1/p')
sum=$(cksum)
case $goal in
  jar)
    text="made by a shell: $sum"
    printf '{"answer":"produced","length":%d}\n%s' "${#text}" "$text"
    ;;
  *)
    printf '{"answer":"done"}\n'
    ;;
esac

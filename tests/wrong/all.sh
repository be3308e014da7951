#!/usr/bin/env bash
# Tries the wrong programs that no contract refuses: runs the scripts of this folder in turn, and ends with a line of counts. Each wrong program
# has to be caught, by a stored run, or by the comparison, the walk or the case that it is made for. It needs rt, python3 and strace, no proof and no
# built program, and takes half an hour or more. usage: tests/wrong/all.sh
. "$(dirname "$0")/../cases.sh"

# SCRIPT COMMAND..: runs it, prints its lines, and counts its cases
try() {
  local status
  echo "== tests/wrong/$1"
  "${@:2}" "tests/wrong/$1" < /dev/null 2>&1 | tee "$work/told"
  status=${PIPESTATUS[0]}
  if [[ $(tail -n 1 "$work/told") =~ ^${1%.*}:\ ([0-9]+)\ passed,\ ([0-9]+)\ failed$ ]]; then
    passed=$((passed + BASH_REMATCH[1]))
    failed=$((failed + BASH_REMATCH[2]))
    [ "$status" = 0 ] || [ "${BASH_REMATCH[2]}" != 0 ] || fail "$1" "it ended with status $status"
  else
    fail "$1" "it ended with status $status before its last line"
  fi
}

try run_wrongs.py python3
try lock_wrongs.py python3
try device_wrongs.sh bash
try turn_wrongs.sh bash
try crew_wrongs.sh bash
tell

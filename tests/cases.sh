# Common to the scripts of tests/ that try cases, each of which reads this first: a temporary folder, `work`, that is removed at the
# end, and functions that print and count the cases. Whoever calls a script may have any umask, language and variables.
set -u
. "$(dirname "${BASH_SOURCE[0]}")/program.sh"
umask 022
export LC_ALL=C
unset CDPATH MVN_REPO MVN_REMOTE MVN_GATE MVN_JDK
work=$(mktemp -d) && work=$(realpath "$work") || stop "no temporary folder can be made"
trap 'rm -rf "$work"' EXIT
passed=0
failed=0

# CASE
pass() {
  passed=$((passed + 1))
  echo "ok      $1"
}

# CASE, WHAT CAME
fail() {
  failed=$((failed + 1))
  echo "FAILED  $1: $2"
}

# NAME, WANTED STATUS, WANTED TEXT; the words follow: what the program answers to them where the script stands
want() {
  local name=$1 status=$2 text=$3
  shift 3
  local got code
  got=$("$mvn" "$@"; echo "status $?")
  code=${got##*status }
  got=${got%status *}
  if [ "$code" = "$status" ] && [ "$got" = "$text" ]; then
    pass "$name"
  else
    fail "$name" "$(printf 'wanted %s %q, got %s %q' "$status" "$text" "$code" "$got")"
  fi
}

# CASE..: names these as left out where the program is UNPROVED, since each takes a minute or more by such a program; else the status is 1
too_slow() {
  [ -n "$unproved" ] || return 1
  printf 'too slow  %s: left out, since the program is UNPROVED\n' "$@"
}

# BYTES: so many, or a twentieth where the program is UNPROVED, which takes so much longer for each
bytes() { echo $(($1 / (${#unproved} == 0 ? 1 : 20))); }

# PROCESS, CONDITION: waits until the condition, in words of `[`, holds, or this child has ended. It starts no process meanwhile, so whoever
# called it goes on at once.
until_or_ended() {
  until [ "${@:2}" ] || ! kill -0 "$1"; do :; done 2> /dev/null
}

# MILLISECONDS: waits for them
nap() { [ "$1" = 0 ] || sleep "$(printf '%d.%03d' $(($1 / 1000)) $(($1 % 1000)))"; }

# Makes the descriptor 9 the end of a pipe that nobody reads
unread_pipe() {
  mkfifo "$work/unread" && exec 8<> "$work/unread" 9> "$work/unread" 8>&- && rm "$work/unread" || stop "no pipe can be made"
}

# For cases in which root's rights would count: lets another user into `work`, and leaves in `as_other` the words before a command by which that user
# runs it, and in `mvn` a copy of the program there. Where this user isn't root, there are no such words.
as_other=()
another_user() {
  chmod 755 "$work"
  [ "$(id -u)" = 0 ] || return 0
  as_other=(setpriv --reuid 54321 --regid 54321 --clear-groups)
  cp "$mvn" "$work/mvn" && chmod 755 "$work/mvn" && mvn=$work/mvn || exit 1
  "${as_other[@]}" test -x "$mvn" || stop "no other user may enter $work: TMPDIR has to name a folder that all may enter"
}

# Makes two projects without modules in the current folder, `small` and `large`. The source of `large` has more bytes than two pipes hold.
small_and_large() {
  local project
  mkdir -p small/src/main/resources large/src/main/resources
  for project in small large; do
    printf '%s' '<project><modelVersion>4.0.0</modelVersion><groupId>demo</groupId><artifactId>app</artifactId><version>1.0</version></project>' \
      > "$project/pom.xml"
  done
  echo text > small/src/main/resources/text
  head -c 1000000 /dev/zero | tr '\0' x > large/src/main/resources/text
}

# The last line of a script, and its status
tell() {
  echo "$(basename "$0" .sh): $passed passed, $failed failed"
  [ "$failed" = 0 ] && [ "$passed" != 0 ]
}

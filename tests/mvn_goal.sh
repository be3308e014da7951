#!/usr/bin/env bash
# Runs the built program with the built-in goals as children, each the program mvn_goal, and that program alone. The program is the one that MVN
# names, or bin/mvn; mvn_goal is that of MVN_GOAL, or of crates/mvn_goal.
[ -z "${MVN_GOAL-}" ] || MVN_GOAL=$(realpath -m -- "$MVN_GOAL")
. "$(dirname "$0")/cases.sh"
find_program
mvn_goal=${MVN_GOAL:-$PWD/crates/mvn_goal/out/mvn_goal}
[ -x "$mvn_goal" ] || stop "no $mvn_goal here: call (cd crates/mvn_goal && rt run) first"
cd "$work" || exit 1
small_and_large

# The built-in goals as a child give the same files as in mvn itself: the jar is the digest of its goal's request, which has the outputs of
# the goals before it.
for project in small large; do
  inside=$(cd "$project" && rm -rf .m2 && "$mvn" install; cat .m2/repository/demo/app/1.0/*)
  outside=$(cd "$project" && rm -rf .m2 && MVN_GATE=$mvn_goal "$mvn" install; cat .m2/repository/demo/app/1.0/*)
  if [ "$inside" = "$outside" ] && [ "${inside%%$'\n'*}" = 'built demo:app:1.0' ]; then pass "$project"; else fail "$project" "$(printf 'wanted %q, got %q' "$inside" "$outside")"; fi
done
mkdir -p small/src/test/java
echo no luck > small/src/test/java/fail-test
got=$(cd small && rm -rf .m2 && MVN_GATE=$mvn_goal "$mvn" install; echo "status $?")
wanted=$'failed demo:app:1.0 goal maven-surefire-plugin:test default-test: no luck\ntotal 1 built 0 failed 1 skipped 0\nstatus 1'
if [ "$got" = "$wanted" ]; then pass 'a goal that fails'; else fail 'a goal that fails' "$(printf 'got %q' "$got")"; fi

# NAME, WANTED STATUS AND OUTPUT, COMMAND
alone() {
  local got
  got=$(eval "$3" 2> /dev/null; echo "status $?")
  if [ "$got" = "$2" ]; then pass "$1"; else fail "$1" "$(printf 'wanted %q, got %q' "$2" "$got")"; fi
}
line='{"artifactId":"app","classpath":[["x/y/1/y-1-.c.jar",null]],"configuration":[],"execution":"e","goal":"test","groupId":"demo","own":[],"phase":"test","plugin":"g:a:","sources":[],"version":"1.0"}'
alone 'a request' $'{"answer":"done"}\nstatus 0' "echo '$line' | $mvn_goal"
alone 'no input' 'status 2' "$mvn_goal < /dev/null"
alone 'no request' 'status 2' "echo '{}' | $mvn_goal"
alone 'a byte more' 'status 2' "{ echo '$line'; printf x; } | $mvn_goal"
alone 'input that fails' 'status 3' "$mvn_goal < ."
alone 'closed input' 'status 3' "$mvn_goal <&-"
alone 'a full device' 'status 3' "echo '$line' | $mvn_goal > /dev/full"
alone 'closed output' 'status 3' "echo '$line' | $mvn_goal >&-"
unread_pipe
alone 'a pipe that nobody reads' 'status 3' "echo '$line' | $mvn_goal >&9"
exec 9>&-
tell

#!/usr/bin/env bash
# Runs the built program with goals in children, each a program of a few lines whose deeds decide the report: what real children, pipes and
# signals do, which no clause can say. The program is the one that MVN names, or bin/mvn.
. "$(dirname "$0")/cases.sh"
find_program
cd "$work" || exit 1
mkdir bin
small_and_large

# the report where each goal is done, so that there is no jar
ran=$'failed demo:app:1.0 no artifact\ntotal 1 built 0 failed 1 skipped 0\nstatus 1'
built=$'built demo:app:1.0\ntotal 1 built 1 failed 0 skipped 0\nstatus 0'
fault=$'failed demo:app:1.0 fault gate\ntotal 1 built 0 failed 1 skipped 0\nstatus 3'

# TEXT: the report where the first goal fails with it
failed() {
  printf 'failed demo:app:1.0 goal maven-resources-plugin:resources default-resources: %s\n' "$1"
  printf 'total 1 built 0 failed 1 skipped 0\nstatus 1'
}

# NAME, PROJECT, WANTED, THE GOAL PROGRAM'S LINES
child() {
  local got
  printf '#!/bin/sh\n%s\n' "$4" > bin/goal
  chmod +x bin/goal
  got=$(cd "$2" && rm -rf .m2 && MVN_GATE=$work/bin/goal timeout 600 "$mvn" install 2> /dev/null; echo "status $?")
  if [ "$got" = "$3" ]; then pass "$1"; else fail "$1" "$(printf 'wanted %q, got %q' "$3" "$got")"; fi
}

done_line='{"answer":"done"}'
child 'a child that reads all and is done' small "$ran" "cat > /dev/null; echo '$done_line'"
child 'a child that makes a jar' small "$built" \
  "sed -n '1{/\"goal\":\"jar\"/q7}'; if [ \$? = 7 ]; then cat > /dev/null; printf '{\"answer\":\"produced\",\"length\":1}\nJ'; else echo '$done_line'; fi"
child 'a large request' large "$ran" "cat > /dev/null; echo '$done_line'"
child 'a failed goal' small "$(failed 'no luck')" "cat > /dev/null; echo '{\"answer\":\"failed\",\"text\":\"no luck\"}'"
child 'a child that ends with 7' small "$(failed 'child ended with 7')" "cat > /dev/null; echo '$done_line'; exit 7"
child 'a child that a signal ends' small "$(failed 'child ended with 137')" "cat > /dev/null; kill -9 \$\$"
child 'a child that writes something else' small "$(failed 'child gave no answer')" 'cat > /dev/null; echo x'
child 'a child that writes nothing' small "$(failed 'child gave no answer')" 'cat > /dev/null'
child 'a child that writes without end' small "$(failed 'child gave no answer')" 'cat > /dev/null; exec yes'
child 'a child that writes much before it reads' large "$(failed 'child gave no answer')" 'head -c 1000000 /dev/zero; cat > /dev/null'
child 'an answer before the request is read' large "$ran" "echo '$done_line'; cat > /dev/null"
child 'a child that writes without end and reads nothing' large "$(failed 'child gave no answer')" 'exec yes'
for size in small large; do
  child "a child that reads nothing, $size" $size "$ran" "echo '$done_line'"
  child "a child that ends at once, $size" $size "$(failed 'child ended with 3')" 'exit 3'
  child "a child that closes its input, $size" $size "$ran" "exec < /dev/null; sleep 0.1; echo '$done_line'"
done
child 'a child that closes its output' small "$(failed 'child gave no answer')" 'exec > /dev/null; cat > /dev/null'
child 'standard error is not read' small "$ran" "cat > /dev/null; head -c 1000000 /dev/zero >&2; echo '$done_line'"

# what a child sees of the descriptors: its own three, and the folder that ls reads
child 'a child has three descriptors' small "$(failed '0 1 2 3 ')" \
  'cat > /dev/null; printf "{\"answer\":\"failed\",\"text\":\"%s\"}\n" "$(ls /proc/self/fd | tr "\n" " ")"'

# each of the six goals sees as many descriptors and children of mvn as the first
child 'no pipe and no child is left' small "$ran" \
  "cat > /dev/null; echo \"\$(ls /proc/\$PPID/fd | wc -l) \$(wc -w < /proc/\$PPID/task/\$PPID/children)\" >> $work/seen; echo '$done_line'"
if [ "$(wc -l < seen)" = 6 ] && [ "$(sort -u seen | wc -l)" = 1 ] && [ "$(cut -d ' ' -f 2 seen | sort -u)" = 1 ]; then
  pass 'as many at each goal'
else
  fail 'as many at each goal' "$(tr '\n' ';' < seen)"
fi

# Two children write more than an answer has: one that reads nothing of a large request, and one that reads all. Neither ends then, but reads a pipe
# that nobody writes to until this case is over. Each goal behind them sees as many descriptors and children of mvn as each before them.
mkfifo never
mkdir several
modules=(before unread read after)
pom() { printf '<project><modelVersion>4.0.0</modelVersion><groupId>demo</groupId><artifactId>%s</artifactId><version>1.0</version>%s</project>' "$@"; }
pom root "<packaging>pom</packaging><modules>$(printf '<module>%s</module>' "${modules[@]}")</modules>" > several/pom.xml
for module in "${modules[@]}"; do
  mkdir "several/$module"
  pom "$module" '' > "several/$module/pom.xml"
done
cp -r large/src several/unread
long='goal maven-resources-plugin:resources default-resources: child gave no answer'
child 'children that write too much and stay' several "built demo:root:1.0
failed demo:before:1.0 no artifact
failed demo:unread:1.0 $long
failed demo:read:1.0 $long
failed demo:after:1.0 no artifact
total 5 built 1 failed 4 skipped 0
status 1" "case \$(head -c 24) in
*':\"unread\"'*) head -c 67174402 /dev/zero; exec cat $work/never ;;
*':\"read\"'*) cat > /dev/null; head -c 67174402 /dev/zero; exec cat $work/never ;;
esac
cat > /dev/null
echo \"\$(ls /proc/\$PPID/fd | wc -l) \$(cat /proc/\$PPID/task/*/children | wc -w)\" >> $work/seen_behind
echo '$done_line'"
exec 8<> never 8>&-
if [ "$(wc -l < seen_behind)" = 12 ] && [ "$(sort -u seen_behind | wc -l)" = 1 ] && [ "$(cut -d ' ' -f 2 seen_behind | sort -u)" = 1 ]; then
  pass 'as many descriptors and children behind them as before'
else
  fail 'as many descriptors and children behind them as before' "$(tr '\n' ';' < seen_behind)"
fi

# NAME, PROGRAM
absent() {
  local got
  got=$(cd small && MVN_GATE=$2 "$mvn" install 2> /dev/null; echo "status $?")
  if [ "$got" = "$fault" ]; then pass "$1"; else fail "$1" "$(printf 'got %q' "$got")"; fi
}
absent 'no such program' ./none
absent 'a program that may not be run' ./pom.xml
tell

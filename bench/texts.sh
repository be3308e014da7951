#!/usr/bin/env bash
# How fast texts are read, in MB/s of the built program `bench_elements`, each of 1 MiB or just below: a POM like those that
# people write, elements in 63 others, one long text, white space, references alone, empty elements of three attributes,
# properties that each have a name of their own, and one comment that doesn't end. A tenth of each is measured beside it: ten times its time is what linear costs.
# One process reads the text 100 times and lets go of each result before the next, as a build reads many POMs in one process. The time that is told is that of one
# reading: a hundredth of the process's time above that of the smallest text. Where xmllint is installed, its SAX reader runs in turn with it on the same bytes, 100 times in
# one process too, and the ratio is told, in which 0.5 is half of its speed. Of runs in turn the middle one counts, since the speed of a machine may change by a half in seconds. Behind it stands what a single reading costs in a process of its own, in which each page of
# memory is new. On Linux the memory of such a process is told, above that of the start and the text itself: the most that was resident, what still is when the program
# tells its answer and has freed no element yet, and how many times that the most is. The last lines tell what the model of a POM costs
# beside its text: the same program reads both of a POM of dependencies, as many times, and the time of the text alone is taken off.
. "$(dirname "$0")/common.sh"
want crates/bench_elements/out/bench_elements '(cd crates/bench_elements && rt run)'

# How often one process reads a text: as often as xmllint does where it is told to repeat
repeats=100
once() {
  case $reader in
    sax) xmllint --sax --noout --repeat in > out.sax 2>&1 || true ;;
    alone) "$program" < in > out ;;
    *) "$program" "$reader" "$repeats" < in > out ;;
  esac
}

# READER, TRIES: the nanoseconds of its run on the text
spent_by() {
  reader=$1
  least "$2"
}

# BYTES: a text of as many or a few less
dependencies() {
  awk -v most="$1" 'BEGIN {
    print "<?xml version=\"1.0\" encoding=\"UTF-8\"?>\n<project xmlns=\"http://maven.apache.org/POM/4.0.0\">\n  <modelVersion>4.0.0</modelVersion>\n  <dependencies>"
    for (i = 0; (i + 4) * 190 < most; i++)
      printf "    <!-- number %06d -->\n    <dependency>\n      <groupId>org.example.group</groupId>\n      <artifactId>artifact-%06d</artifactId>\n      <version>1.2.%06d</version>\n    </dependency>\n", i, i, i
    print "  </dependencies>\n</project>" }'
}
nested() {
  awk -v most="$1" 'BEGIN {
    printf "<r>"
    for (i = 0; (i + 1) * 441 < most; i++) {
      for (k = 0; k < 63; k++) printf "<b>"
      for (k = 0; k < 63; k++) printf "</b>"
    }
    printf "</r>" }'
}
long() { printf '<r>'; head -c $(($1 - 8)) /dev/zero | tr '\0' 'x'; printf '</r>'; }
references() { awk -v most="$1" 'BEGIN { printf "<r>"; for (i = 0; (i + 3) * 5 < most; i++) printf "&amp;"; printf "</r>" }'; }
unfinished() { printf '<r><!--'; head -c $(($1 - 8)) /dev/zero | tr '\0' '-'; }

white() { printf '<r>'; head -c $(($1 - 8)) /dev/zero | tr '\0' ' '; printf '</r>'; }
attributes() { awk -v most="$1" 'BEGIN { printf "<r>"; for (i = 0; (i + 1) * 47 + 7 < most; i++) printf "<b name=\"one\" second=\"two\" third=\"%010d\"/>", i; printf "</r>" }'; }
properties() { awk -v most="$1" 'BEGIN { printf "<r>\n"; for (i = 0; (i + 1) * 62 < most; i++) printf "    <some.property-%06d>value %06d</some.property-%06d>\n", i, i, i; printf "</r>" }'; }

# READER, READER: runs both in turn on the text, and leaves the nanoseconds of the middle run of each in `one` and `other`
in_turn() {
  : > times.one
  : > times.other
  for _ in $(seq 15); do
    spent_by "$1" 1 >> times.one
    spent_by "$2" 1 >> times.other
  done
  one=$(sort -n times.one | sed -n 8p)
  other=$(sort -n times.other | sed -n 8p)
}

# A POM whose dependencies stand in profiles of 1,000, since a list has at most 1,024 items
modelled() {
  awk -v most="$1" 'BEGIN {
    print "<?xml version=\"1.0\" encoding=\"UTF-8\"?>\n<project xmlns=\"http://maven.apache.org/POM/4.0.0\">\n  <modelVersion>4.0.0</modelVersion>\n  <groupId>demo</groupId>\n  <artifactId>app</artifactId>\n  <version>1.0</version>\n  <profiles>"
    for (i = 0; (i + 6) * 190 < most; i++) {
      if (i % 1000 == 0) printf "%s    <profile>\n    <dependencies>\n", i ? "    </dependencies>\n    </profile>\n" : ""
      printf "    <!-- number %06d -->\n    <dependency>\n      <groupId>org.example.group</groupId>\n      <artifactId>artifact-%06d</artifactId>\n      <version>1.2.%06d</version>\n    </dependency>\n", i, i, i
    }
    print "    </dependencies>\n    </profile>\n  </profiles>\n</project>" }'
}

# The kilobytes that were resident at most, and those that are when the program tells its answer, at which it waits since the pipe is full;
# nothing where the system doesn't tell them
memory() {
  local pid
  [ -r /proc/self/smaps_rollup ] || return 0
  rm -f full
  mkfifo full
  exec 3<> full
  dd if=/dev/zero of=full bs=4096 count=4096 oflag=nonblock 2> /dev/null || true
  "$program" < in >&3 &
  pid=$!
  for _ in $(seq 1000); do
    if [ "/proc/$pid/exe" -ef "$program" ] && grep -q '^State:[[:space:]]*S' "/proc/$pid/status"; then
      awk '/^VmHWM:|^Rss:/ { print $2 }' "/proc/$pid/status" "/proc/$pid/smaps_rollup" | tr '\n' ' '
      break
    fi
    sleep 0.01
  done
  kill "$pid" 2> /dev/null || true
  wait "$pid" 2> /dev/null || true
  exec 3>&-
}

# ALL, START: the same above the start and the text
above_start() {
  [ -n "$1" ] || return 0
  echo "$1 $2 $(wc -c < in)" | awk '{
    most = $1 - $3 - $5 / 1024; kept = $2 - $4 - $5 / 1024
    printf "%d KiB at most, %d kept", most, kept
    if (kept > 0) printf ", %.2f times", most / kept
  }'
}

printf '<r/>' > in
base=$(spent_by text 5)
base_alone=$(spent_by alone 15)
memory_base=$(memory)
if command -v xmllint > xmllint.path; then sax_base=$(spent_by sax 5); else sax_base=; fi
for kind in dependencies nested long white references attributes properties unfinished; do
  for most in 104857 1048576; do
    "$kind" "$most" > in
    alone=$(($(spent_by alone 15) - base_alone))
    ratio=
    if [ -z "$sax_base" ]; then
      spent=$(($(spent_by text 5) - base))
    else
      in_turn text sax
      spent=$((one - base))
      sax=$((other - sax_base))
      ratio=$(awk -v own="$spent" -v sax="$sax" 'BEGIN { printf "%5.2f of SAX", sax / own }')
    fi
    awk -v kind="$kind" -v bytes="$(wc -c < in)" -v spent="$((spent / repeats))" -v ratio="$ratio" -v alone="$alone" -v most="$(above_start "$(memory)" "$memory_base")" -v told="$(cat out)" \
      'BEGIN { printf "%-12s %7d bytes  %8.3f ms  %7.1f MB/s  %s  %8.2f ms alone  %s  %s\n", kind, bytes, spent / 1e6, bytes * 1e3 / spent, ratio, alone / 1e6, most, told }'
  done
done

for most in 104857 1048576; do
  modelled "$most" > in
  in_turn text model
  spent=$(((one - base) / repeats))
  both=$(((other - base) / repeats))
  awk -v bytes="$(wc -c < in)" -v spent="$spent" -v model="$((both - spent))" -v told="$(cat out)" \
    'BEGIN { printf "model        %7d bytes  %8.3f ms beside %8.3f ms of the text  %5.2f of its time  %s\n", bytes, model / 1e6, spent / 1e6, model / spent, told }'
done

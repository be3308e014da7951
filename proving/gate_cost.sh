#!/usr/bin/env bash
# Measures what a CI run (`rt ci`) costs, by crate: the processor time of its proofs, its tests and its wrong bodies, and its time by the clock.
#
#     proving/gate_cost.sh --run LOG [WORD..]   runs `rt ci` with these words, keeps what it says in LOG, and ends with its status; where the only
#                                               word is --anew and the run passed, it also writes proving/costs.txt
#     proving/gate_cost.sh --keep LOG           writes proving/costs.txt from such a log
#     proving/gate_cost.sh LOG                  prints the table of such a log
#
# `rt ci` prints no times. So --run looks once a second at the processes that it started, and adds to LOG, after all that
# `rt ci` says, a line `cost CRATE STEP SECONDS` for each crate and step, a line `cost all all SECONDS`, a line `clock CRATE SECONDS` for each
# crate and for `all`, and a line `machine ..` with the date, the commit, the kit and the machine. The figures of `cost` are
# processor seconds (user and system), whatever else runs on the machine; what a process used after the last look at it, less
# than a second, is missing in its step and counted in `rest`. Those of `clock` are the seconds in which some process worked on the crate. The steps:
#
#     proofs   the crate from nothing
#     tests    the crate from nothing once more, with its tests
#     seeds    the crate from nothing a third time, for its wrong bodies to begin with, and one check after them
#     edits    each wrong body; with a kit that makes no seeds (13b) the first of a crate is its third time from nothing, and the check after
#              them is counted here too
#     runs     the compilations of a program
#
# A kit whose `rt ci` keeps nothing (13b) takes no words, and measures from nothing always: then call --keep. One that keeps what passed (13f)
# takes [--anew] [NAME..] and doesn't do again what an earlier run kept: only with --anew are these the figures of a gate from nothing.
set -u
usage() {
  echo "usage: proving/gate_cost.sh [--keep] LOG, for a log that was written by: proving/gate_cost.sh --run LOG [WORD..]" >&2
  exit 2
}
[ $# -ge 1 ] || usage

if [ "$1" = --run ]; then
  [ $# -ge 2 ] || usage
  log=$(realpath -m "$2")
  shift 2
  cd "$(dirname "$0")/.." || exit 2
  : > "$log" || usage
  python3 - "$log" "$@" <<'PYTHON'
import collections, os, resource, subprocess, sys, time

log, words = sys.argv[1], sys.argv[2:]
TICKS = os.sysconf("SC_CLK_TCK")
seen = {}  # by process number and start: its step, and its seconds so far
clock = collections.Counter()  # by crate: the seconds in which some process worked on it


def processes():
    for number in filter(str.isdigit, os.listdir("/proc")):
        try:
            with open(f"/proc/{number}/stat") as it:
                fields = it.read().rpartition(")")[2].split()
            yield int(number), int(fields[1]), fields[19], sum(map(int, fields[11:13])) / TICKS
        except (OSError, IndexError):
            pass


def step_of(number):
    try:
        with open(f"/proc/{number}/cmdline") as it:
            argv = it.read().split("\0")
        room = os.readlink(f"/proc/{number}/cwd")
    except OSError:
        return None
    if "--crate-name" not in argv[:-1] or not os.path.basename(argv[0]).startswith("rattle"):
        return None
    crate = argv[argv.index("--crate-name") + 1]
    over = argv[argv.index("--incremental") + 1] if "--incremental" in argv[:-1] else ""
    # (a wrong body that is tried alone, or once more, has no folder over which it is checked)
    if "/rt-edit" in over or "/rt-edit-" in room:
        return crate, "seeds" if over.endswith("/seed") else "edits"
    if "--crate-checked" in argv:
        return crate, "runs"
    return crate, "tests" if any(it.endswith("_tests.o") for it in argv) else "proofs"


def machine():
    """The date, the commit, the kit and the machine, in one line."""
    def said(*argv):
        return subprocess.run(argv, capture_output=True, text=True).stdout.strip()
    with open("/proc/cpuinfo") as it:
        names = [line.partition(":")[2].strip() for line in it if line.startswith("model name")]
    memory = os.sysconf("SC_PAGE_SIZE") * os.sysconf("SC_PHYS_PAGES") / 2**30
    return ", ".join([time.strftime("%Y-%m-%d %H:%M"), "commit " + said("git", "rev-parse", "--short", "HEAD"), said("rt", "version"),
                      f"{os.cpu_count()} processors {names[0] if names else 'without a name'}", f"{memory:.0f} GiB"])


def look(root, passed):
    """Looks at all processes below this one, the given seconds after the look before."""
    found = list(processes())
    below = {root}
    while True:
        more = {it[0] for it in found if it[1] in below} - below
        if not more:
            break
        below |= more
    crates = set()
    for number, _, start, seconds in found:
        if number in below:
            step = step_of(number)
            if step:
                seen[number, start] = step, seconds
                crates.add(step[0])
    for crate in crates:
        clock[crate] += passed


told = machine()
begun = last = time.monotonic()
with open(log, "w") as out:
    gate = subprocess.Popen(["rt", "ci", *words], stdout=out, stderr=subprocess.STDOUT, stdin=subprocess.DEVNULL)
    while gate.poll() is None:
        now = time.monotonic()
        look(gate.pid, now - last)
        last = now
        time.sleep(1)
used = resource.getrusage(resource.RUSAGE_CHILDREN)
costs = collections.Counter()
for step, seconds in seen.values():
    costs[step] += seconds
with open(log, "a") as out:
    for (crate, step), seconds in sorted(costs.items()):
        out.write(f"cost {crate} {step} {seconds:.1f}\n")
    out.write(f"cost all all {used.ru_utime + used.ru_stime:.1f}\n")
    for crate, seconds in sorted(clock.items()):
        out.write(f"clock {crate} {seconds:.1f}\n")
    out.write(f"clock all {time.monotonic() - begun:.1f}\nmachine {told}\n")
sys.exit(gate.returncode)
PYTHON
  status=$?
  [ "$status" != 0 ] || [ "$*" != --anew ] || exec proving/gate_cost.sh --keep "$log"
  exit "$status"
fi

keep=false
[ "$1" != --keep ] || { keep=true; shift; }
[ $# = 1 ] || usage
log=$1
[ -f "$log" ] && [ -r "$log" ] || { echo "gate_cost: there is no log $log" >&2; usage; }
grep -qE '^cost all all [0-9.]+$' "$log" || { echo "gate_cost: $log has no figures: its run did not end, or was no --run" >&2; usage; }
if $keep; then
  costs=$(dirname "$0")/costs.txt
  {
    echo '# What each crate costs in a CI run from nothing (rt ci --anew), in seconds: of a processor for its proof, of a processor for all that is done'
    echo '# with it (proof, tests, wrong bodies, program), and by the clock for all of that. Written by proving/gate_cost.sh.'
    sed -n 's/^machine /# /p' "$log"
    awk '
      /^cost all all / { used = $4; next }
      /^cost [a-z0-9_]+ [a-z]+ [0-9.]+$/ { spent[$2] += $4; sum += $4; if ($3 == "proofs") { proof[$2] += $4; proofs += $4 } }
      /^clock all / { passed = $3; next }
      /^clock [a-z0-9_]+ [0-9.]+$/ { clock[$2] = $3 }
      END {
        sorted = "LC_ALL=C sort -k2,2rn -k1,1"
        printf "%-18s %8s %8s %8s\n", "crate", "proof", "all", "clock"
        for (name in spent) printf "%-18s %8.1f %8.1f %8.1f\n", name, proof[name], spent[name], clock[name] | sorted
        close(sorted)
        printf "%-18s %17.1f\n%-18s %8.1f %8.1f %8.1f\n", "rest", used - sum, "whole", proofs, used, passed
      }' "$log"
  } > "$costs"
  exit
fi
awk '
  /^cost all all / { total = $4 / 60; next }
  /^cost [a-z0-9_]+ [a-z]+ [0-9.]+$/ { spent[$2, $3] += $4 / 60; crates[$2] += $4 / 60; all[$3] += $4 / 60; sum += $4 / 60 }
  /^rt: must-fail [a-z0-9_]+\// { name = $3; sub(/\/.*/, "", name); tried[name]++; number++ }
  END {
    printf "%-18s %7s %7s %7s %7s %7s %7s %7s\n", "minutes", "proofs", "tests", "seeds", "edits", "runs", "all", "number"
    form = "%-18s %7.1f %7.1f %7.1f %7.1f %7.1f %7.1f %7d\n"
    for (name in crates)
      printf "%s\t" form, crates[name], name, spent[name, "proofs"], spent[name, "tests"], spent[name, "seeds"],
        spent[name, "edits"], spent[name, "runs"], crates[name], tried[name] | "sort -rn | cut -f2-"
    close("sort -rn | cut -f2-")
    printf "%-18s %55.1f\n", "rest", total - sum
    printf form, "whole", all["proofs"], all["tests"], all["seeds"], all["edits"], all["runs"], total, number
  }' "$log"

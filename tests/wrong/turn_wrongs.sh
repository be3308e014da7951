#!/usr/bin/env bash
# Tries bodies of the turn lock that wake nobody, wake too few, or wait without parking. No contract refuses them, since nothing is promised about
# waiting; the stored run of bench_low has to. `rt try` builds each from a copy, with no proof, and gives it that run's lines about turns one by
# one: it is caught where a line isn't answered as it is stored, or not within 15 seconds. Each takes one to four minutes. It needs rt.
# usage: tests/wrong/turn_wrongs.sh [NAME ..], of the names below; all if absent.
. "$(dirname "$0")/../cases.sh"
. tests/wrong/bodies.sh
stored=bench_low
cases=$work/lines
seconds=15
mkdir "$cases"
# they come last, and each is answered by a line
sed '1,/^measure turns$/d' crates/bench_low/stdin > "$work/given"
tail -n "$(wc -l < "$work/given")" crates/bench_low/stdout | paste -d'|' "$work/given" - | while IFS='|' read -r line told; do
  name=${line// /_}
  printf 'measure turns\n%s\n' "$line" > "$cases/$name"
  printf '%s\n' "$told" > "$cases/$name.stdout"
done

lock=turn_lock/src/lock.rt
wake='self.table.shared.wake_one(1);'
wrong as_it_is "$lock" "$wake" "$wake"
wrong give_wakes_nobody "$lock" "$wake" ''
wrong give_calls_no_rest "$lock" 'self.table.shared.wake_all(2);' ''
wrong rest_never_parks "$lock" 'self.table.shared.park(rt, 2, asked);' 'let _ = (rt, asked);'
wrong take_never_parks "$lock" 'self.table.shared.park(rt, 1, asked);' 'let _ = (rt, asked);'
wrong asks_not_again "$lock" 'let _for_others = self.ask(pass, 1);' ''
wrong wakes_one_that_rests "$lock" 'self.table.shared.wake_all(2);' 'self.table.shared.wake_one(2);'
tell

#!/usr/bin/env bash
# Tries bodies of the crew by which one worker does all, or keeps the others from their turns while it runs a goal or fetches. No contract
# refuses them, since nothing is promised about who works when; the stored run of build_rows has to. `rt try` builds each from a copy, with no
# proof, and gives it the first rows of workers at once one by one: it is caught where a row isn't answered as it is stored. Each takes some
# minutes. It needs rt. usage: tests/wrong/crew_wrongs.sh [NAME ..], of the names below; all if absent.
. "$(dirname "$0")/../cases.sh"
. tests/wrong/bodies.sh
stored=build_rows
cases=$work/rows
seconds=60
mkdir "$cases"
# what is stored for each row of goals, of a fetch and of a failure begins with the row
awk -v folder="$cases" '
  NR == FNR { if (sub(/^run /, "")) rows[$0]; next }
  $0 in rows { name = $0; gsub(/ /, "_", name); if (name !~ /^(goals|fetch|fails)/) name = ""; else print "run " $0 > (folder "/" name) }
  name != "" { print > (folder "/" name ".stdout") }' crates/build_rows/stdin crates/build_rows/stdout

half='let middle = first + front.len() as u32;'
asked='let answer = match ask_gate(alloc, gate, task.unit, call, paths, request) {'
fetched='match fetch_piece(task, remote, area, file) {'
wrong as_it_is crew/src/team.rt "$half" "$half"
wrong one_worker_does_all crew/src/team.rt "$half" "$half if first < u32::MAX { run(rt, team, lock, first, front, pass); run(rt, team, lock, middle, back, other); return; }"
wrong goal_in_a_turn crew_modules/src/goals.rt "$asked" \
  'let turn = lock.take(rt, pass); let told = ask_gate(alloc, gate, task.unit, call, paths, request); lock.give(pass, turn); let answer = match told {'
wrong fetch_in_a_turn crew_modules/src/fetching.rt "$fetched" \
  'let turn = lock.take(rt, pass); let told = fetch_piece(task, remote, area, file); lock.give(pass, turn); match told {'
tell

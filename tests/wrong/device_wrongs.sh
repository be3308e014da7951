#!/usr/bin/env bash
# Tries bodies of what calls the system that no contract refuses, since nothing is told there of bytes on a disk or of processes. One program has all
# of them, which ./build --try makes of a copy in some three minutes of a processor, with no proof. Each is caught by the case of a script of tests/
# that is made for it: this fails, and no other case of the script does. It needs rt and strace. usage: tests/wrong/device_wrongs.sh
. "$(dirname "$0")/../cases.sh"
. tests/wrong/bodies.sh
copy=$work/copy
copy_crates mvn_cli "$copy"
cp -r build tests proving "$copy"

# SCRIPT: its cases that fail with the wrong program
failures() { MVN=$copy/bin/mvn bash "tests/$1.sh" 2>&1 < /dev/null | sed -nE 's/^FAILED  ([^:]*):.*/\1/p'; }

# the body, its file, the line of it that is replaced, what stands there then, the script, and the case
bodies=(
  seal_without_sync outside_real/src/area.rt
  'Some(file) => file.sync_all().map_err(|e| fault_of(&e)),'
  'Some(file) => if self.next == u64::MAX { file.sync_all().map_err(|e| fault_of(&e)) } else { Ok(()) },'
  settle 'each piece is synced behind its last write and before it is published'

  drop_without_end children/src/child.rt
  'pub(crate) fn kill(&mut self) {'
  'pub(crate) fn kill(&mut self) { if self.taken < usize::MAX { return; }'
  children 'as many descriptors and children behind them as before'
)

for ((i = 0; i < ${#bodies[@]}; i += 6)); do
  put_body "$copy/crates/${bodies[i + 1]}" "${bodies[i + 2]}" "${bodies[i + 3]}" || stop "${bodies[i]}: its line doesn't stand in ${bodies[i + 1]} once"
done
"$copy/build" --try || stop 'no program was made of these bodies'
for ((i = 0; i < ${#bodies[@]}; i += 6)); do
  caught=$(failures "${bodies[i + 4]}")
  if [ "$caught" = "${bodies[i + 5]}" ]; then
    pass "${bodies[i]}: caught by $caught"
  else
    fail "${bodies[i]}" "tests/${bodies[i + 4]}.sh fails in: ${caught:-none of its cases}"
  fi
done
tell

#!/usr/bin/env bash
# Tries the wrong bodies of a crate that the gate doesn't try: `proving/tried.sh X` copies the crate X and the crates below it
# into a temporary folder, puts crates/X/tried/*.edit in the place of its must-fail edits there, runs `rt must-fail X`, and
# ends with its status. It tells what came of each edit: refused, NOT REFUSED (the contract is too weak, and the status isn't 0)
# or BAD EDIT (fix it). Run it after a change of X. It takes over what `rt check` kept in the folders out/ of the crates. It
# first proves what isn't kept.
set -u
usage() { echo "usage: proving/tried.sh CRATE (a crate of crates.txt with edits in crates/CRATE/tried/)" >&2; exit 2; }
[ $# = 1 ] || usage
crate=$1
cd "$(dirname "$0")/.." || exit 2
grep -q "^$crate:" crates.txt || { echo "tried: $crate is no crate of crates.txt" >&2; usage; }
ls "crates/$crate/tried/"*.edit > /dev/null 2>&1 || { echo "tried: crates/$crate/tried/ has no edits" >&2; usage; }

# the crate and those below it, each once
below() {
  local deps dep
  case " $found " in *" $1 "*) return ;; esac
  deps=$(sed -n "s/^$1://p" crates.txt)
  for dep in $deps; do
    [ -d "crates/$dep" ] && below "$dep"
  done
  found="$found $1"
}
found=
below "$crate"

work=$(mktemp -d)
trap 'rm -rf "$work"' EXIT
mkdir "$work/crates"
for name in $found; do
  cp -r --reflink=auto "crates/$name" "$work/crates/$name" || exit 2
  grep "^$name:" crates.txt >> "$work/crates.txt"
done
cp HANDLES "$work/" || exit 2
cd "$work" || exit 2
rm -rf "crates/$crate/must-fail"
mkdir "crates/$crate/must-fail"
mv "crates/$crate/tried/"*.edit "crates/$crate/must-fail/"

rt must-fail "$crate" > told 2>&1
status=$?
grep -v '^rt: must-fail ' told
grep '^rt: must-fail ' told | cut -c1-240
echo "$crate: $(grep -c ': refused, as it must be' told) refused, $(grep -c ': NOT REFUSED' told) NOT REFUSED, $(grep -c 'BAD EDIT: ' told) BAD, $(grep -c ': NOT TRIED' told) not tried, of $(ls "crates/$crate/must-fail" | wc -l)"
exit $status

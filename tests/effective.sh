#!/usr/bin/env bash
# Effective models of the small projects of tests/effective_rows, each worked out by hand from the POM Reference and Maven's guides:
# compares what the program `print_models` prints with what is written there. The program is the one that PRINT_MODELS names, or
# crates/print_models/out/print_models. It needs python3. The words of the command line name the rows to try; without one all are.
[ -z "${PRINT_MODELS-}" ] || PRINT_MODELS=$(realpath -m -- "$PRINT_MODELS")
. "$(dirname "$0")/cases.sh"
program=${PRINT_MODELS:-$PWD/crates/print_models/out/print_models}
[ -x "$program" ] || stop "no $program here: call (cd crates/print_models && rt run) first"
[ $# != 0 ] || set -- tests/effective_rows/*.txt

for row in "$@"; do
  name=$(basename "$row" .txt)
  if python3 tests/effective_rows.py "$program" "tests/effective_rows/$name.txt" "$work/$name" > "$work/told" 2>&1; then
    pass "$name: $(tail -n 1 "$work/told")"
  else
    fail "$name" "$(cat "$work/told")"
  fi
done
tell

# Common to the scripts of tests/wrong/ that try bodies which no contract refuses, with no proof. Where a stored run has to refuse them, `wrong` gives
# it to each body case by case. Who calls that sets `stored`, the crate of the program; `cases`, a folder with the files NAME and NAME.stdout of
# each case; and `seconds`, how long one may take. The words of the script are the names of the bodies to try; all if absent. cases.sh is read before.
command -v rt > /dev/null || stop "the command rt of the Rattle kit is not on the PATH"
wanted=" $* "

# CRATE, FOLDER: puts a copy of the crate and of all that it stands on into the folder
copy_crates() {
  local crate
  mkdir -p "$2/crates"
  cp HANDLES "$2"
  crate_lines "$1" > "$2/crates.txt"
  for crate in $(crate_names "$1"); do
    tar --exclude=out -C crates -cf - "$crate" | tar -C "$2/crates" -xf -
  done
}

# FILE, OLD, NEW: puts NEW in the place of OLD, which has to stand in the file in one line alone
put_body() {
  local body
  [ "$(grep -cF -- "$2" "$1")" = 1 ] || return 1
  body=$(cat "$1"; echo .)
  body=${body/"$2"/"$3"}
  printf '%s' "${body%.}" > "$1"
}

# NAME, FILE, OLD, NEW: the crates with NEW in the place of OLD. They are caught where a case isn't answered as it is stored; without a
# difference all cases have to be answered so
wrong() {
  [ "$wanted" = '  ' ] || [[ $wanted == *" $1 "* ]] || return
  local copy=$work/$1 caught
  copy_crates "$stored" "$copy"
  put_body "$copy/crates/$2" "$3" "$4" || { fail "$1" "its line doesn't stand in $2 once"; return; }
  (cd "$copy/crates/$stored" && rt try --seconds "$seconds" --cases "$cases") > "$work/told" 2>&1
  caught=$(sed -nE '/^case=/{/output=expected/!s/^case=([^ ]*).*/\1/p}' "$work/told" | tr '\n' ' ')
  if ! grep -q '^cases=' "$work/told"; then
    fail "$1" "$(tail -n 3 "$work/told" | tr '\n' ' ')"
  elif [ "$3" = "$4" ]; then
    if [ -z "$caught" ]; then pass "$1: all cases are answered"; else fail "$1" "not answered: $caught"; fi
  elif [ -n "$caught" ]; then
    pass "$1: caught by $caught"
  else
    fail "$1" 'not caught'
  fi
  rm -rf "$copy"
}

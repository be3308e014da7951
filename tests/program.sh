# What the scripts share: which files the program is made of, and where a built program is found. Whoever reads it by `.` stands at the
# top of the repository then; a relative path in MVN is one from where it was called.
[ -z "${MVN-}" ] || MVN=$(realpath -m -- "$MVN")
cd "$(dirname "${BASH_SOURCE[0]}")/.." || exit 1

# WHY: ends the script
stop() {
  echo "$(basename "$0"): $*" >&2
  exit 1
}

# NAME: the lines of crates.txt of this crate and of all that it stands on, in one form, `NAME: DEP DEP`, sorted; without a name all lines
crate_lines() {
  awk -v top="${1-}" '
    { sub(/#.*/, "") }
    NF {
      $1 = $1
      split($0, halves, / *: */)
      split(halves[1], words, " ")
      name = words[1]
      line[name] = $0
      below[name] = halves[2]
      gsub(/,/, " ", below[name])
      if (top == "" || name == top) wanted[++count] = name
      if (name == top) seen[name]
    }
    END {
      for (at = 1; at <= count; at++) {
        print line[wanted[at]]
        number = top == "" ? 0 : split(below[wanted[at]], words, " ")
        for (i = 1; i <= number; i++)
          if (words[i] in line && !(words[i] in seen)) { seen[words[i]]; wanted[++count] = words[i] }
      }
    }' crates.txt | LC_ALL=C sort
}

# NAME: as above, the names alone
crate_names() { crate_lines "${1-}" | sed 's/[ :].*//' | LC_ALL=C sort; }

# The folders that hold what the program is made of
source_folders() {
  local name part
  for name in $(crate_names mvn_cli); do
    for part in src specs proofs; do
      [ ! -d "crates/$name/$part" ] || echo "crates/$name/$part"
    done
  done
}

# The checksum of what the program is made of: the sources of mvn_cli and of the crates of this repository that it stands on, their lines of
# crates.txt, HANDLES, and the toolchain, as dist/ names it
sources_sum() {
  {
    crate_lines mvn_cli
    cat HANDLES dist/mvn.toolchain 2> /dev/null
    source_folders | xargs -I{} find {} -type f -not -name '.*' -not -name '*~' -print0 | LC_ALL=C sort -z | xargs -0 -r sha256sum
  } | sha256sum | cut -d' ' -f1
}

# PROGRAM: whether ./build --try made it. Such a program has a symbol of this name, wherever it is copied to.
is_unproved() { LC_ALL=C grep -qaF mvn_is_UNPROVED -- "$1"; }

# Leaves in `mvn` the path of the program to run: the one that MVN names, or else bin/mvn, which has to be of the sources as they are. Leaves
# a word in `unproved`, and tells so, where ./build --try made it.
unproved=
find_program() {
  mvn=${MVN-}
  if [ -n "$mvn" ]; then
    [ -f "$mvn" ] && [ -x "$mvn" ] || stop "there is no program $mvn"
  else
    mvn=$PWD/bin/mvn
    [ -x "$mvn" ] || stop "no bin/mvn here: call ./build first, or ./build --try after an edit"
    [ "$(cat bin/mvn.sources 2> /dev/null)" = "$(sources_sum)" ] \
      || stop "bin/mvn is not of the sources as they are: call ./build first, or ./build --try after an edit"
  fi
  ! is_unproved "$mvn" || unproved=UNPROVED
  [ -z "$unproved" ] || echo "$mvn is UNPROVED: ./build --try made it, without proofs" >&2
}

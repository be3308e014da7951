#!/usr/bin/env bash
# How the time of imports grows, in runs of the program `print_models`, the one that PRINT_MODELS names or the built one. `levels`:
# POMs at so many levels, two at each, of which each imports both of the next level. Each is built once, so twice the levels take twice
# the time and what more entries cost; built anew for each importer they would take twice the time with each level. `imports`: one POM that
# imports so many others. A run reads the POMs of a repository and builds the model of one module. The empty case is a module without
# imports. usage: bench/imports.sh
. "$(dirname "$0")/common.sh"
want_print_models
once() { "$program" < in > out; }

# ends the script where the module has no model, so that no refusal passes as speed
counted() { [[ $(cat out) == '1 models of 1 POMs, '* ]] || stop "of one module the program says: $(cat out)"; }

# ARTIFACT: an import
import() { printf '<dependency><groupId>bom</groupId><artifactId>%s</artifactId><version>1</version><type>pom</type><scope>import</scope></dependency>' "$1"; }

# FILE, GROUP, ARTIFACT, IMPORTED ARTIFACT..: a POM that manages one entry and imports others
pom() {
  local file=$1 group=$2 artifact=$3
  shift 3
  mkdir -p "$(dirname "$file")"
  {
    printf '<project><modelVersion>4.0.0</modelVersion><groupId>%s</groupId><artifactId>%s</artifactId><version>1</version>' "$group" "$artifact"
    printf '<packaging>pom</packaging><dependencyManagement><dependencies>'
    printf '<dependency><groupId>lib</groupId><artifactId>%s</artifactId><version>1</version></dependency>' "$artifact"
    for it in "$@"; do import "$it"; done
    printf '</dependencies></dependencyManagement></project>'
  } > "$file"
}

# FOLDER, ARTIFACT, IMPORTED ARTIFACT..: the same in a repository
bom() {
  local folder=$1 artifact=$2
  shift 2
  pom "$folder/bom/$artifact/1/$artifact-1.pom" bom "$artifact" "$@"
}

# PROJECT, REPOSITORY, COUNTED WORD, NUMBER: measures a run
measured() {
  printf 'count %s %s\n' "$1" "$2" > in
  local spent
  spent=$(($(least 5) - base))
  counted
  row "$3" "$4" "$spent"
}

pom p0/pom.xml demo root
mkdir -p r0
printf 'count p0 r0\n' > in
base=$(least 5)
counted
first=
for levels in 5 10 20 30; do
  pom "p$levels/pom.xml" demo root a1 b1
  for level in $(seq "$levels"); do
    next=("a$((level + 1))" "b$((level + 1))")
    [ "$level" != "$levels" ] || next=()
    bom "r$levels" "a$level" "${next[@]}"
    bom "r$levels" "b$level" "${next[@]}"
  done
  measured "p$levels" "r$levels" levels "$levels"
done
first=
for number in 250 500 1000; do
  pom "q$number/pom.xml" demo root $(seq -f 'one%g' "$number")
  for i in $(seq "$number"); do bom "s$number" "one$i"; done
  measured "q$number" "s$number" imports "$number"
done

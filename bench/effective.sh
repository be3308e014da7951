#!/usr/bin/env bash
# How the time of effective models grows with the number of modules, in runs of the program `print_models`, the one that PRINT_MODELS
# names or the built one: modules of ten dependencies each, over one parent that manages 200 dependencies and 40 plugins. A run reads the
# POMs and builds each model, on one processor. A ratio that is that of the numbers is a constant time a module, which is printed too. The
# empty case is a project of the parent alone. usage: bench/effective.sh [NUMBER OF MODULES ..]
. "$(dirname "$0")/common.sh"
want_print_models
once() { "$program" < in > out; }

# NUMBER: ends the script where not each of as many modules and their parent has a model, so that no refusal passes as speed
counted() {
  local poms=$(($1 + 1))
  [[ $(cat out) == "$poms models of $poms POMs, $(($1 * 10)) dependencies, "* ]] || stop "of $1 modules and their parent the program says: $(cat out)"
}

head='<project><modelVersion>4.0.0</modelVersion>'
gav='<groupId>demo</groupId><artifactId>root</artifactId><version>1.0</version>'

# FOLDER: the parent, which manages 200 dependencies and 40 plugins
parent() {
  mkdir -p "$1"
  {
    printf '%s%s<packaging>pom</packaging><dependencyManagement><dependencies>' "$head" "$gav"
    for i in $(seq 200); do
      printf '<dependency><groupId>org.lib</groupId><artifactId>lib%s</artifactId><version>1.%s</version></dependency>' "$i" "$i"
    done
    printf '</dependencies></dependencyManagement><build><pluginManagement><plugins>'
    for i in $(seq 40); do
      printf '<plugin><groupId>org.plug</groupId><artifactId>plug%s</artifactId><version>2.%s</version></plugin>' "$i" "$i"
    done
    printf '</plugins></pluginManagement></build></project>'
  } > "$1/pom.xml"
}

# FOLDER, NUMBER: a module with ten dependencies
module() {
  mkdir -p "$1/m$2"
  {
    printf '%s<parent>%s</parent><artifactId>m%s</artifactId><dependencies>' "$head" "$gav" "$2"
    for i in $(seq 10); do
      printf '<dependency><groupId>org.lib</groupId><artifactId>lib%s</artifactId></dependency>' $((($2 + i * 19) % 200 + 1))
    done
    printf '</dependencies></project>'
  } > "$1/m$2/pom.xml"
}

parent p0
printf 'count p0\n' > in
base=$(least 5)
counted 0
first=
[ $# != 0 ] || set -- 250 500 1000
for number in "$@"; do
  parent "p$number"
  for i in $(seq "$number"); do module "p$number" "$i"; done
  printf 'count p%s\n' "$number" > in
  spent=$(($(least 3) - base))
  counted "$number"
  row 'modules' "$number" "$spent"
  awk -v spent="$spent" -v number="$number" 'BEGIN { printf "  that is %.3f ms a module\n", spent / 1e6 / number }'
done

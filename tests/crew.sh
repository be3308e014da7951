#!/usr/bin/env bash
# Runs the built program with several workers. First on modules whose goals are children that wait for one another, or for files that other
# modules fetch and install: such a build ends well only if goals, fetches and installs go on at the same time. By one worker it can't,
# which is shown too. Then examples/shop and a generated project of 300 modules, of which some fail, are built by 1, 4 and 16 workers:
# report, status and repository are the same each time. usage: crew.sh [TIMES], how often by each number of workers, 1 if absent. The program
# is the one that MVN names, or bin/mvn.
. "$(dirname "$0")/cases.sh"
find_program
times=${1-1}
[[ $times =~ ^[1-9][0-9]*$ ]] || stop "usage: crew.sh [TIMES]"
here=$PWD
export MVN_REPO=$work/repository MVN_REMOTE=$work/remote BEGUN=$work/begun UNTIL TENTHS

# A goal notes that its module has begun, waits until UNTIL holds, and has a jar of one byte where one is asked for. It fails after TENTHS of
# a second, or if it has other files open than its own three and the folder that ls reads. Where UNTIL can hold, there is time for it on any machine.
cat > "$work/goal" << 'END'
#!/bin/sh
IFS= read -r line
cat > /dev/null
module=${line#*'"artifactId":"'}
module=${module%%\"*}
: > "$BEGUN/$module"
[ "$(echo $(ls /proc/self/fd))" = '0 1 2 3' ] || exit 8
until eval "$UNTIL"; do
  [ "$TENTHS" -gt 0 ] || exit 9
  TENTHS=$((TENTHS - 1))
  sleep 0.1
done
case $line in
  *'"goal":"jar"'*) printf '{"answer":"produced","length":1}\nJ' ;;
  *) echo '{"answer":"done"}' ;;
esac
END
chmod +x "$work/goal"

# NAME, MODULES, WORKERS, THOSE THAT FAIL: the goals of the project in this folder, over new repositories
waits() {
  local module failed=0 lines= got
  for module in $2; do
    if [[ " $4 " == *" $module "* ]]; then
      failed=$((failed + 1))
      lines+="failed demo:$module:1 goal maven-resources-plugin:resources default-resources: child ended with 9"$'\n'
    else
      lines+="built demo:$module:1"$'\n'
    fi
  done
  lines+="$(printf 'total 5 built %d failed %d skipped 0\nstatus %d' $((5 - failed)) "$failed" $((failed > 0)))"
  rm -rf "$MVN_REPO" "$BEGUN"
  mkdir "$BEGUN"
  TENTHS=$([ "$failed" = 0 ] && echo 1200 || echo 2)
  got=$(MVN_GATE=$work/goal "$mvn" install -T "$3"; echo "status $?")
  if [ "$got" = "$lines" ]; then pass "$1, by $3"; else fail "$1, by $3" "$got"; fi
}

# GROUP, NAME, TEXT: a POM
pom() { echo "<project><modelVersion>4.0.0</modelVersion><groupId>$1</groupId><artifactId>$2</artifactId><version>1</version>$3</project>"; }

mkdir -p "$MVN_REMOTE/x/y/1" "$work/p"
pom x y '' > "$MVN_REMOTE/x/y/1/y-1.pom"
head -c 100000 /dev/urandom > "$MVN_REMOTE/x/y/1/y-1.jar"
cd "$work/p" || exit 1
pom demo root '<packaging>pom</packaging><modules><module>a</module><module>b</module><module>c</module><module>d</module></modules>' > pom.xml
for module in a b c d; do
  mkdir "$module"
  pom demo "$module" '<dependencies><dependency><groupId>x</groupId><artifactId>y</artifactId><version>1</version></dependency></dependencies>' > "$module/pom.xml"
done
UNTIL='[ -e $BEGUN/a ] && [ -e $BEGUN/b ] && [ -e $BEGUN/c ] && [ -e $BEGUN/d ]'
name='each goal waits for those of three other modules, which need the same library'
waits "$name" 'root a b c d' 4 ''
waits "$name" 'root a b c d' 16 ''
waits "$name" 'root a b c d' 1 'a b c'
pom demo a '' > a/pom.xml
UNTIL='[ $module != a ] || { [ -e $BEGUN/b ] && cmp -s $MVN_REMOTE/x/y/1/y-1.jar $MVN_REPO/x/y/1/y-1.jar && [ -e $MVN_REPO/demo/d/1/d-1.jar ]; }'
name='a goal waits until other modules have fetched a library and are installed'
waits "$name" 'root a b c d' 2 ''
waits "$name" 'root a b c d' 4 ''
waits "$name" 'root a b c d' 1 'a'

build() { "$mvn" "$@"; }

# WORKERS: what a build of the project in this folder says and leaves in a new repository, and another one over that
told() {
  rm -rf .m2/repository
  for _ in 1 2; do
    build install -T "$1"
    echo "status $?"
    (cd .m2/repository && find . -type f | LC_ALL=C sort | xargs sha256sum)
  done
}

# NAME, LAST LINE OF THE REPORT: the project in this folder, by 1, 4 and 16 workers
alike() {
  local workers try
  told 1 > "$work/first"
  for workers in 1 4 16; do
    for try in $(seq "$times"); do
      told "$workers" > "$work/next"
      cmp -s "$work/first" "$work/next" || { fail "$1 by $workers" "$(diff "$work/first" "$work/next" | head -n 5)"; continue 2; }
    done
    if [ "$(grep -c "^$2$" "$work/next")" = 2 ]; then pass "$1 by $workers, $times alike"; else fail "$1 by $workers" "$(grep '^total' "$work/next")"; fi
  done
}

unset MVN_REPO MVN_REMOTE
cp -R "$here/examples/shop" "$work/shop"
cd "$work/shop" || exit 1
alike 'the shop' 'total 5 built 5 failed 0 skipped 0'

# a user who may start no thread: one does the work of all 16
another_user
chmod 777 . && rm -r .m2 || exit 1
build() { (ulimit -u 1 && exec "${as_other[@]}" "$mvn" "$@"); }
told 16 > ../next
if cmp -s ../first ../next; then pass 'the shop by 16 in one thread'; else fail 'the shop by 16 in one thread' "$(diff ../first ../next | head -n 5)"; fi
build() { "$mvn" "$@"; }

# 300 modules in groups of 25 over 40 libraries that are fetched; one module needs a file that is nowhere, and two fail in their tests
if ! too_slow '300 modules by 1' '300 modules by 4' '300 modules by 16'; then
  mkdir "$work/many"
  cd "$work/many" || exit 1
  "$here/bench/reactor_project.py" 300 40
  mv .m2/repository .m2/remote
  sed -i 's|</dependencies>|<dependency><groupId>ext</groupId><artifactId>gone</artifactId><version>1</version></dependency></dependencies>|' m240/pom.xml
  for module in 70 190; do
    mkdir -p "m$module/src/test/java"
    echo "no luck with $module" > "m$module/src/test/java/fail-test"
  done
  alike '300 modules' 'total 300 built 272 failed 3 skipped 25'
fi
tell

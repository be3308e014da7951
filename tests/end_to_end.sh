#!/usr/bin/env bash
# Runs the built program on folders of its own, and compares what it writes and its status. The program is the one that MVN names, or bin/mvn.
. "$(dirname "$0")/cases.sh"
find_program
cd "$work" || exit 1

pom='<project><modelVersion>4.0.0</modelVersion><groupId>demo</groupId><artifactId>app</artifactId><version>1.0</version></project>'
report=$'built demo:app:1.0\ntotal 1 built 1 failed 0 skipped 0\n'

want 'no pom.xml' 2 $'refused pom.xml rule 15 ModuleNotFound at pom.xml\n' validate
mkdir pom.xml
want 'a folder of that name' 2 $'refused pom.xml rule 15 ModuleNotFound at pom.xml\n' validate
rmdir pom.xml
ln -s pom.xml pom.xml
want 'a link to itself' 2 $'refused pom.xml rule 15 ModuleNotFound at pom.xml\n' validate
rm pom.xml
: > pom.xml
want 'an empty POM' 2 $'refused pom.xml rule 3 NotPomText at 0\n' validate
printf '%s' "$pom" > pom.xml
want 'one POM' 0 "$report" validate
want 'another word' 2 $'word 0 UnknownPhase\n' site
want 'no word' 2 $'word 0 NoPhase\n'
want 'a word that is not UTF-8' 2 $'word 0 NotUtf8\n' $'\xff\xfe'
want 'a goal as a word' 2 $'word 0 UnknownPhase\n' compiler:compile
want 'a word that Maven has' 2 $'word 0 UnknownWord\n' -o validate
want 'a value that is no number' 2 $'word 1 BadNumber\n' -T 1C validate
want 'more workers than there are' 2 $'word 1 TooManyWorkers\n' -T 17 validate
want 'an option without its value' 2 $'word 1 MissingValue\n' validate -P
want 'a second phase behind an option' 2 $'word 2 TwoPhases\n' validate -B install
want 'the phase deploy' 2 $'word 0 DeployPhase\n' deploy
want 'too many generated POMs' 2 $'word 1 BadNumber\n' --generated 1025 install
generated=$'generated 200\ntotal 200 built 200 failed 0 skipped 0\nclasspath entries 2690\nfiles 417\n'
want 'a generated project by eight workers' 0 "$generated" --generated 200 -T 8 install
want 'the same again' 0 "$generated" --generated 200 -T 8 install
want 'a generated project of one POM' 0 $'generated 1\ntotal 1 built 1 failed 0 skipped 0\nclasspath entries 0\nfiles 1\n' --generated 1 install
want 'as many workers as there are' 0 "$report" -T 16 -B -ntp validate
want 'a selected module' 0 "$report" validate -pl :app
want 'a module to begin from' 0 "$report" validate -rf .
want 'a selector that means none' 2 $'word 2 UnknownModule\n' validate -pl app
got=$("$mvn" validate --full | sed 's/^  model {"artifactId":"app",.*}$/  model/')
if [ "$got" = $'built demo:app:1.0\n  model\ntotal 1 built 1 failed 0 skipped 0' ]; then pass 'the full report'; else fail 'the full report' "$got"; fi
want 'upstreams of all modules' 0 "$report" validate -am -amd
want 'the version' 0 $'mvn 0.1.0 (POM model 4.0.0)\n' --version
head -c 1048577 /dev/zero > pom.xml
want 'a POM over the limit' 2 $'refused pom.xml rule 1 TooLarge at 1048576\n' validate
{ printf '%s' "$pom"; head -c $((1048576 - ${#pom})) /dev/zero | tr '\0' '\n'; } > pom.xml
want 'a POM at the limit' 0 "$report" validate

# Each of these fills a POM of 1,048,576 bytes, in an element that is skipped. None is answered by a want of memory.
# OPENING, PART, ENDING: the POM whose skipped element has these, the part as often as there is room, and spaces
fill() {
  LC_ALL=C awk -v before="${pom%</project>}<x>$1" -v part="$2" -v after="$3" -v behind='</x></project>' 'BEGIN {
    room = 1048576 - length(before) - length(after) - length(behind)
    printf "%s", before
    for (used = 0; used + length(part) <= room; used += length(part)) printf "%s", part
    printf "%s", after
    for (; used < room; used++) printf " "
    printf "%s", behind }' > pom.xml
}
fill '' '<a/>' ''
want '1 MiB of empty elements' 0 "$report" validate
fill '' '<a b="" c="" d="" e=""></a>' ''
want '1 MiB of elements with attributes' 0 "$report" validate
fill '<a' ' b=""' '/>'
want '1 MiB of attributes' 0 "$report" validate
fill '<' 'n' '/>'
want 'a name of 1 MiB' 0 "$report" validate
fill '<![CDATA[' 'x' ']]>'
want '1 MiB of CDATA' 0 "$report" validate
fill '<![CDATA[' $'\r' ']]>'
want '1 MiB of carriage returns in CDATA' 0 "$report" validate
fill '' $'\r\n' ''
want '1 MiB of line ends' 0 "$report" validate
fill '' '&amp;' ''
want '1 MiB of references' 0 "$report" validate
fill '<!--' 'x' '-->'
want 'a comment of 1 MiB' 0 "$report" validate
fill '' $'\xc3\xa9' ''
want '1 MiB of characters past ASCII' 0 "$report" validate
{
  printf '%s<build><plugins><plugin><artifactId>p</artifactId><configuration>' "${pom%</project>}"
  for _ in $(seq 59); do printf '<c>'; done
  for _ in $(seq 59); do printf '</c>'; done
  printf '</configuration></plugin></plugins></build></project>'
} > pom.xml
want 'a configuration of 59 levels' 0 "$report" validate
want 'two phases' 2 $'word 1 TwoPhases\n' validate validate
want 'a part of a phase' 2 $'word 0 UnknownPhase\n' valida

# POMs that aren't built: what is answered, and the POM, where V stands for the model's version and G, A and N for a group,
# an artifact and a version
while IFS='|' read -r answer text; do
  text=${text//<V>/<modelVersion>4.0.0<\/modelVersion>}
  text=${text//<G>/<groupId>demo<\/groupId>}
  text=${text//<A>/<artifactId>app<\/artifactId>}
  text=${text//<N>/<version>1<\/version>}
  printf '%s' "$text" > pom.xml
  want "$text" 2 "$answer"$'\n' validate
done << 'END'
refused pom.xml rule 8 MissingField at project/version|<project><V><G><A></project>
refused pom.xml rule 8 MissingField at project/version|<project><V><G><A><version> </version></project>
refused pom.xml rule 8 MissingField at project/groupId|<project><V><A></project>
refused pom.xml rule 8 MissingField at project/artifactId|<project><V><G><N></project>
refused pom.xml rule 7 ModelVersion at |<project></project>
refused pom.xml rule 7 ModelVersion at 4.0.1|<project><modelVersion>4.0.1</modelVersion></project>
refused pom.xml rule 6 RepeatedElement at project/groupId|<project><V><G><G></project>
refused pom.xml rule 5 RootNotProject at module|<module/>
refused pom.xml rule 3 NotPomText at 53|<project><V></project><project></project>
refused pom.xml rule 3 NotPomText at 43|<project><V></project
refused pom.xml rule 4 Doctype at 0|<!DOCTYPE project><project/>
refused pom.xml rule 2 Encoding at 30|<?xml version='1.0' encoding='UTF-16'?><project/>
refused pom.xml rule 8 MissingField at project/dependencies/dependency[1]/groupId|<project><V><dependencies><dependency/></dependencies></project>
refused pom.xml rule 9 BadName at a..b|<project><V><groupId>a..b</groupId><A><N></project>
refused pom.xml rule 11 ParentNotFound at demo:app:1|<project><V><parent><G><A><N></parent><artifactId>a</artifactId></project>
END
printf '\xef\xbb\xbf<?xml version="1.0"?>\r\n<!-- by hand -->\r\n%s\r\n' "${pom/<version>/<name>An app<\/name><version>}" > pom.xml
want 'a POM with more in it' 0 "$report" validate
printf '\xef\xbb\xbf<?xml version="1.0" encoding="UTF-8"?>\r\n<project xmlns="http://maven.apache.org/POM/4.0.0">\r\n  <modelVersion>4.0.0</modelVersion>\r\n  <groupId> demo </groupId>\r\n  <artifactId><![CDATA[app]]></artifactId>\r\n  <version>1&#46;0</version>\r\n  <packaging>jar</packaging>\r\n  <name>R&amp;D</name>\r\n  <build/>\r\n</project>\r\n' > pom.xml
want 'a POM with name spaces and references' 0 "$report" validate
printf '%s' "$pom" > pom.xml

# install: the POM and the jar lie in the repository, whole, and a second run changes no byte
folder=.m2/repository/demo/app/1.0
mkdir -p src/main/java/demo
echo 'class App {}' > src/main/java/demo/App.java
want 'the first install' 0 "$report" install
first=$(cd .m2/repository && find . -type f | sort | xargs sha256sum)
want 'the second install' 0 "$report" install
second=$(cd .m2/repository && find . -type f | sort | xargs sha256sum)
if [ "$first" = "$second" ] && cmp -s pom.xml "$folder/app-1.0.pom" && [ "$(wc -c < "$folder/app-1.0.jar")" = 65 ] \
  && [ "$(find .m2/repository -type f | wc -l)" = 2 ]; then
  pass 'the installed files'
else
  fail 'the installed files' "$first"
fi
echo '2 errors' > src/main/java/demo/fail-compile
want 'a failed goal' 1 $'failed demo:app:1.0 goal maven-compiler-plugin:compile default-compile: 2 errors\ntotal 1 built 0 failed 1 skipped 0\n' install
third=$(cd .m2/repository && find . -type f | sort | xargs sha256sum)
if [ "$first" = "$third" ]; then pass 'the repository after a failed goal'; else fail 'the repository after a failed goal' "$third"; fi
want 'a phase before the goal' 0 "$report" process-resources
want 'the phase of the goal' 1 $'failed demo:app:1.0 goal maven-compiler-plugin:compile default-compile: 2 errors\ntotal 1 built 0 failed 1 skipped 0\n' compile
want 'a phase behind it' 1 $'failed demo:app:1.0 goal maven-compiler-plugin:compile default-compile: 2 errors\ntotal 1 built 0 failed 1 skipped 0\n' package
rm src/main/java/demo/fail-compile

# links among the sources are followed at every level, to folders and to files, and a circle ends where it closes
sums() { (cd .m2/repository && find . -type f | sort | xargs sha256sum); }
mkdir -p src/main/java/part elsewhere/part
echo 'class Part {}' > elsewhere/part/Part.java
cp elsewhere/part/Part.java src/main/java/part/Part.java
want 'sources without links' 0 "$report" install
plain=$(sums)
[ "$plain" != "$first" ] || fail 'sources without links' 'the jar is as before'
# WHAT IS A LINK NOW: installs, and wants the same files
same() {
  want "$1" 0 "$report" install
  if [ "$(sums)" = "$plain" ]; then pass "$1, and the same jar"; else fail "$1, and the same jar" "$(sums)"; fi
}
rm -r src/main/java/part
ln -s ../../../elsewhere/part src/main/java/part
same 'a link to a folder of sources'
ln -s .. elsewhere/part/circle
ln -s missing elsewhere/part/nowhere
ln -s itself elsewhere/part/itself
same 'a circle of links, and links that lead nowhere and to themselves'
rm src/main/java/part elsewhere/part/circle elsewhere/part/nowhere elsewhere/part/itself
mkdir src/main/java/part
ln -s ../../../../elsewhere/part/Part.java src/main/java/part/Part.java
same 'a link to a file of sources'
mv src/main/java elsewhere/java
rm elsewhere/java/part/Part.java
ln -s ../../part/Part.java elsewhere/java/part/Part.java
ln -s ../../elsewhere/java src/main/java
same 'a link in the place of a folder of sources'
rm src/main/java
mv elsewhere/java src/main/java
rm -r src/main/java/part elsewhere
mkdir -p src/main/java/demo

# sources of one byte more than is allowed together; they are read whatever the phase
mkdir -p src/test/resources
truncate -s $((268435456 + 1 - $(wc -c < src/main/java/demo/App.java))) src/test/resources/big
want 'sources over the limit' 2 $'refused pom.xml rule 1 TooLarge at sources\n' install
want 'sources over the limit, whatever the phase' 2 $'refused pom.xml rule 1 TooLarge at sources\n' validate
truncate -s -1 src/test/resources/big
too_slow 'sources at the limit' || want 'sources at the limit' 0 "$report" install
rm -r src/test

# a folder in the place of the jar: the name stays as it was
rm -rf .m2
mkdir -p "$folder/app-1.0.jar/in"
want 'a folder in the place of the jar' 3 $'failed demo:app:1.0 fault shelf\ntotal 1 built 0 failed 1 skipped 0\n' install
if [ -d "$folder/app-1.0.jar/in" ]; then pass 'the folder stays'; else fail 'the folder stays' 'it is gone'; fi
rm -rf .m2 src

# a file in the place of the staging folder, and above it; a piece on a full disk, for which no file may get a byte
mkdir -p .m2/repository
: > .m2/repository/.staging
want 'a file in the place of the staging folder' 3 $'fault area\n' install
rm -r .m2
: > .m2
want 'a file in the place of the repository' 3 $'fault area\n' install
rm .m2
got=$(trap '' XFSZ; ulimit -f 0; "$mvn" install; echo "status $?")
if [ "$got" = $'failed demo:app:1.0 fault area\ntotal 1 built 0 failed 1 skipped 0\nstatus 3' ] && [ ! -e "$folder" ]; then
  pass 'a piece on a full disk'
else
  fail 'a piece on a full disk' "$got"
fi
rm -rf .m2

# variables that are empty count as absent
got=$(env MVN_REPO= MVN_REMOTE= PWD= "$mvn" install; echo "status $?")
if [ "$got" = "${report}status 0" ] && [ -f "$folder/app-1.0.jar" ]; then pass 'empty variables'; else fail 'empty variables' "$got"; fi
rm -rf .m2

# only at the root of a repository the name of the staging folder is taken
printf '%s' "${pom/>app</>.staging<}" > pom.xml
want 'an artifact named as the staging folder' 0 "${report/app/.staging}" install
if [ -f .m2/repository/demo/.staging/1.0/.staging-1.0.jar ]; then pass 'its jar'; else fail 'its jar' "$(find .m2)"; fi
rm -rf .m2
printf '%s' "$pom" > pom.xml

# a pipe that nobody reads, and a full device
status=$( { "$mvn" validate; echo $? >&2; } 2>&1 >/dev/full )
if [ "$status" = 3 ]; then pass 'a full device'; else fail 'a full device' "status $status"; fi
unread_pipe
"$mvn" validate >&9
status=$?
exec 9>&-
if [ "$status" = 3 ]; then pass 'a closed pipe'; else fail 'a closed pipe' "status $status"; fi

# files and folders without permission, for whoever is not root
another_user
chmod 000 pom.xml
got=$("${as_other[@]}" "$mvn" validate 2>&1; echo "status $?")
if [ "$got" = $'fault tree\nstatus 3' ]; then pass 'no permission to read'; else fail 'no permission to read' "$got"; fi
chmod 644 pom.xml
mkdir -p .m2/repository/demo
chmod 777 .m2 .m2/repository
chmod 555 .m2/repository/demo
got=$("${as_other[@]}" "$mvn" install 2>&1; echo "status $?")
if [ "$got" = $'failed demo:app:1.0 fault shelf\ntotal 1 built 0 failed 1 skipped 0\nstatus 3' ] \
  && [ -z "$(find .m2/repository/demo -mindepth 1)" ]; then pass 'no permission to publish'; else fail 'no permission to publish' "$got"; fi
chmod 777 .m2/repository/demo
mkdir -p .m2/remote/x/y/1
echo '<project><modelVersion>4.0.0</modelVersion><groupId>x</groupId><artifactId>y</artifactId><version>1</version></project>' > .m2/remote/x/y/1/y-1.pom
: > .m2/remote/x/y/1/y-1.jar
chmod 000 .m2/remote/x/y/1/y-1.jar
printf '%s' "${pom%</project>}<dependencies><dependency><groupId>x</groupId><artifactId>y</artifactId><version>1</version></dependency></dependencies></project>" > pom.xml
got=$("${as_other[@]}" "$mvn" install 2>&1; echo "status $?")
if [ "$got" = $'failed demo:app:1.0 fault remote\ntotal 1 built 0 failed 1 skipped 0\nstatus 3' ]; then pass 'no permission to fetch'; else fail 'no permission to fetch' "$got"; fi
chmod 644 .m2/remote/x/y/1/y-1.jar
got=$("${as_other[@]}" "$mvn" install 2>&1; echo "status $?")
if [ "$got" = "${report}status 0" ]; then pass 'and then with it'; else fail 'and then with it' "$got"; fi
tell

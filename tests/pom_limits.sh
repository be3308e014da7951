#!/usr/bin/env bash
# Gives the built program POMs of exactly 1,048,576 bytes, the most that is read, each full of one kind of thing in elements that are read,
# and lists of as many items as are read. There is memory for all of them, so each is answered by what the POM says, and none by a want
# of memory. tests/end_to_end.sh has the kinds of text in elements that are skipped. The program is the one that MVN names, or bin/mvn.
. "$(dirname "$0")/cases.sh"
find_program
cd "$work" || exit 1
limit=1048576
built=$'built demo:app:1.0\ntotal 1 built 1 failed 0 skipped 0\n'
unbound=$'built demo:app:1.0\n  note unbound p: default\ntotal 1 built 1 failed 0 skipped 0\n'
long=$'refused pom.xml rule 1 TooLarge at p\n'
jar=$'refused pom.xml rule 14 AggregatorPackaging at jar\n'
head='<project><modelVersion>4.0.0</modelVersion><groupId>demo</groupId><artifactId>app</artifactId><version>1.0</version>'

# OPENING, PART, ENDING: a POM of the limit with these in its project, the part as often as there is room, and line ends behind it
fill() {
  LC_ALL=C awk -v before="$head$1" -v part="$2" -v behind="$3</project>" -v limit="$limit" 'BEGIN {
    room = limit - length(before) - length(behind)
    many = int(room / length(part))
    printf "%s", before
    for (i = 0; i < many; i++) printf "%s", part
    printf "%s", behind
    for (used = many * length(part); used < room; used++) printf "\n" }' > pom.xml
}

# TEXT, COUNT: the text so often
times() { awk -v text="$1" -v count="$2" 'BEGIN { for (i = 0; i < count; i++) printf "%s", text }'; }

# NAME, STATUS, TEXT: what the program answers to pom.xml, which has as many bytes as may be
want() {
  local got code bytes
  bytes=$(wc -c < pom.xml)
  [ "$bytes" = "$limit" ] || { fail "$1" "the POM has $bytes bytes"; return; }
  got=$("$mvn" validate; echo "status $?")
  code=${got##*status }
  got=${got%status *}
  if [ "$code" = "$2" ] && [ "$got" = "$3" ]; then pass "$1"; else fail "$1" "$(printf 'wanted %s %q, got %s %q' "$2" "$3" "$code" "$got")"; fi
}

# NAME, STATUS, TEXT, OPENING, PART, ENDING: what is answered to such a POM
full() { fill "$4" "$5" "$6" && want "$1" "$2" "$3"; }

fill '<parent><groupId>' x '</groupId><artifactId>a</artifactId><version>1</version></parent>'
want 'a group of 1 MiB' 2 "refused pom.xml rule 11 ParentNotFound at $(tr -cd x < pom.xml):a:1"$'\n'
fill '<name>' x '</name>'
want 'a skipped text of 1 MiB' 0 "$built"
full 'a value of 1 MiB' 2 "$long" '<properties><p>' x '</p></properties>'
full 'a value of 1 MiB of references' 2 "$long" '<properties><p>' '&#233;' '</p></properties>'
full 'a value of 1 MiB of carriage returns' 0 "$built" '<properties><p>' $'\r' '</p></properties>'
full 'a value of 1 MiB of CDATA' 2 "$long" '<properties><p><![CDATA[' x ']]></p></properties>'
full 'a value of 1 MiB of CDATA parts' 2 "$long" '<properties><p>' '<![CDATA[x]]>' '</p></properties>'
full 'a value of 1 MiB of comments' 0 "$built" '<properties><p>' '<!--x-->' '</p></properties>'
full 'a name of a property of 1 MiB' 0 "$built" '<properties><' n '/></properties>'
full 'a module of 1 MiB' 2 "$jar" '<modules><module>' m '</module></modules>'
full '1 MiB of attributes at a configuration' 0 "$built" '<build><plugins><plugin><artifactId>p</artifactId><configuration' ' b=""' '/></plugin></plugins></build>'
full 'one attribute of 1 MiB' 0 "$built" '<build><plugins><plugin><artifactId>p</artifactId><configuration b="' x '"/></plugin></plugins></build>'
full 'a name of an attribute of 1 MiB' 0 "$built" '<build><plugins><plugin><artifactId>p</artifactId><configuration ' b '=""/></plugin></plugins></build>'
full 'a text of 1 MiB in a configuration' 0 "$built" '<build><plugins><plugin><artifactId>p</artifactId><configuration>' ' ' '</configuration></plugin></plugins></build>'

deep=$(times '<cccccc>' 59)$(times '</cccccc>' 59)
full 'configurations of 59 levels' 0 "$built" '<build><plugins>' "<plugin><artifactId>p</artifactId><configuration>$deep</configuration></plugin>" '</plugins></build>'
wide="<c>$(times '<c/>' 1024)</c>"
full 'a configuration of 1,024 empty elements in each of its elements' 0 "$built" '<build><plugins><plugin><artifactId>p</artifactId><configuration>' "$wide" '</configuration></plugin></plugins></build>'
one='<dependency><groupId>g</groupId><artifactId>a</artifactId><version>1</version></dependency>'
full '1 MiB of dependencies in profiles' 0 "$built" '<profiles>' "<profile><dependencies>$(times "$one" 12)</dependencies></profile>" '</profiles>'
cut='<exclusion><groupId>g</groupId></exclusion>'
full '1 MiB of exclusions' 2 $'refused pom.xml rule 19 VersionMissing at g:a:jar\n' '<dependencies>' "<dependency><groupId>g</groupId><artifactId>a</artifactId><exclusions>$(times "$cut" 24)</exclusions></dependency>" '</dependencies>'
goals="<execution><goals>$(times '<goal/>' 8)</goals></execution>"
full '1 MiB of goals' 0 "$unbound" '<build><plugins>' "<plugin><artifactId>p</artifactId><executions>$(times "$goals" 11)</executions></plugin>" '</plugins></build>'
full '1 MiB of profiles' 0 "$built" '<profiles>' "<profile><properties>$(times '<a>1</a>' 128)</properties></profile>" '</profiles>'

# A list of 1,024 items is read, and the next item is refused; the POM is filled up behind it.
fill "<modules>$(times '<module>m</module>' 1024)</modules><name>" x '</name>'
want '1,024 modules' 2 "$jar"
fill "<modules>$(times '<module>m</module>' 1025)</modules><name>" x '</name>'
want '1,025 modules' 2 $'refused pom.xml rule 1 TooLarge at project/modules\n'
fill "<build><plugins><plugin><artifactId>p</artifactId><configuration>$(times '<c/>' 1025)</configuration></plugin></plugins></build><name>" x '</name>'
want '1,025 elements of a configuration' 2 $'refused pom.xml rule 1 TooLarge at project/build/plugins/plugin[1]/configuration\n'

# Elements in 63 others, and one in 64 at the end
fill '<name>' "$(times '<a>' 62)$(times '</a>' 62)" '</name>'
want '1 MiB of elements in 63 others' 0 "$built"
fill '<name>' x "$(times '<a>' 63)$(times '</a>' 63)</name>"
place=$((limit - 63 * 4 - 3 - 7 - 10))
want 'an element in 64 others at the end' 2 "refused pom.xml rule 1 TooLarge at $place"$'\n'

# What is refused at the last byte
fill '<name>' x '</name>'
head -c $((limit - 1)) pom.xml > cut.xml
printf '<' >> cut.xml
mv cut.xml pom.xml
want 'a last byte that closes nothing' 2 "refused pom.xml rule 3 NotPomText at $((limit - 10))"$'\n'
fill '<modules>' "<module>$(times m 1010)</module>" '</modules><dependencies><dependency><groupId>g</groupId></dependency></dependencies>'
want 'a field that is missing behind 1 MiB of modules' 2 $'refused pom.xml rule 8 MissingField at project/dependencies/dependency[1]/artifactId\n'

tell

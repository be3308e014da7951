#!/usr/bin/env bash
# Tries each sentence of docs/POM.md about the text of a POM with the built program: the encodings, the places of rules 1 to 4, what is refused
# though it is XML, and what is read though it isn't. The program is the one that MVN names, or bin/mvn.
. "$(dirname "$0")/cases.sh"
find_program
cd "$work" || exit 1
elements='<modelVersion>4.0.0</modelVersion><groupId>demo</groupId><artifactId>app</artifactId><version>1.0</version>'
built=$'built demo:app:1.0\ntotal 1 built 1 failed 0 skipped 0'

# What stands in a line: OK, or a rule with its place; and the text, where %% stands for the elements of a project that is built, and `\x..` and
# `\n` are as printf has them
while IFS='|' read -r answer text; do
  case $answer in
    '' | '#'*) continue ;;
    OK) wanted=$built status=0 ;;
    *) wanted="refused pom.xml rule $answer" status=2 ;;
  esac
  printf '%b' "${text//%%/$elements}" > pom.xml
  got=$("$mvn" validate)
  code=$?
  if [ "$got" = "$wanted" ] && [ "$code" = "$status" ]; then pass "$text"; else fail "$text" "wanted $wanted, got $got with status $code"; fi
done << 'END'
# encodings
OK|<project>%%<name>\xc3\xa9</name></project>
OK|\xef\xbb\xbf<project>%%</project>
OK|<?xml version="1.0" encoding="utf-8"?><project>%%<name>\xc3\xa9</name></project>
OK|<?xml version="1.0" encoding="Us-Ascii"?><project>%%</project>
OK|<?xml version="1.0" encoding="iso-8859-1"?><project>%%<name>\xe9</name></project>
OK|\xef\xbb\xbf<?xml version="1.0" encoding="ISO-8859-1"?><project>%%<name>\xe9</name></project>
# the places of rule 2
2 Encoding at 30|<?xml version="1.0" encoding="UTF8"?><project>%%</project>
2 Encoding at 30|<?xml version="1.0" encoding="latin1"?><project>%%</project>
2 Encoding at 30|<?xml version="1.0" encoding="UTF-16"?><project>%%</project>
2 Encoding at 33|\xef\xbb\xbf<?xml version="1.0" encoding="UTF-16"?><project>%%</project>
2 Encoding at 0|\xff\xfe<\x00a\x00/\x00>\x00
2 Encoding at 15|<project><name>\xe9</name></project>
2 Encoding at 56|<?xml version="1.0" encoding="US-ASCII"?><project><name>\xe9</name></project>
# the places of rules 3 and 4
3 NotPomText at 0|
3 NotPomText at 3|\n \t
3 NotPomText at 9|<project></groupId></project>
3 NotPomText at 12|\xef\xbb\xbf<project></groupId></project>
3 NotPomText at 9|<project><a b=1/></project>
3 NotPomText at 9|<project><!-- -</project>
3 NotPomText at 9|<project>\x01</project>
3 NotPomText at 9|<project>
3 NotPomText at 20|<project></project> x
3 NotPomText at 0|<?xml version=1.0?><project/>
4 Doctype at 0|<!DOCTYPE project><project>%%</project>
4 Doctype at 14|<!-- x -->\n \x0d\n<!DOCTYPE project><project>%%</project>
# references
OK|<project>%%<name>&lt;&gt;&amp;&quot;&apos;&#233;&#xE9;</name></project>
3 NotPomText at 15|<project><name>&nbsp;</name></project>
3 NotPomText at 15|<project><name>&#1;</name></project>
3 NotPomText at 17|<project><name>a & b</name></project>
# read, though it isn't XML
OK|<project>%%<!-- a -- b ---></project>
OK|<project>%%<name>a]]>b</name></project>
OK|<??><project>%%<? ?></project>
OK|<project a="1" a="2">%%</project>
OK|<project a="b & c &nbsp;">%%</project>
OK|<?xml?><project>%%</project>
OK|<?xml version="9"?><project>%%</project>
OK|<?xml encoding="ISO-8859-1" a="b" encoding="UTF-16"?><project>%%<name>\xe9</name></project>
OK|\n<?xml version="1.0" encoding="UTF-16"?><project>%%</project>
OK|<!-- x --><?xml encoding="latin1"?><project>%%<?xml?></project>
OK|<project>%%<a\xc3\x97\xe2\x82\xac/></project>
# refused, though it is XML
3 NotPomText at 9|<project><:a/></project>
3 NotPomText at 0|<project :a="b"/>
OK|<project>%%<a:b:c/></project>
# a prefix is a part of the name
OK|<project>%%<m:groupId>other</m:groupId></project>
5 RootNotProject at m:project|<m:project>%%</m:project>
END

# rule 1, at the byte after the limit and at an element in 64 others
head -c 1048577 /dev/zero | tr '\0' ' ' > pom.xml
got=$("$mvn" validate)
if [ "$got" = 'refused pom.xml rule 1 TooLarge at 1048576' ]; then pass 'a byte over the limit'; else fail 'a byte over the limit' "$got"; fi
{ for _ in $(seq 65); do printf '<a>'; done; } > pom.xml
got=$("$mvn" validate)
if [ "$got" = 'refused pom.xml rule 1 TooLarge at 192' ]; then pass 'an element in 64 others'; else fail 'an element in 64 others' "$got"; fi

tell

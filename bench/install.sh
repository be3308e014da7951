#!/usr/bin/env bash
# How the time of `mvn install` grows with the bytes of the sources, and with their number, as ratios in one run. A ratio of
# the sizes is what a few passes cost; its square would be a rescan. The empty case is an install without sources.
. "$(dirname "$0")/common.sh"
want_mvn
printf '<project><modelVersion>4.0.0</modelVersion><groupId>demo</groupId><artifactId>app</artifactId><version>1.0</version></project>' > pom.xml
prepare() { rm -rf .m2; }
once() { "$program" install > out; }

base=$(least 7)
first=
mkdir -p src/main/java
for size in 8388608 16777216 33554432 67108864; do
  head -c "$size" /dev/zero > src/main/java/App.java
  row bytes "$size" $(($(least 7) - base))
done
rm -r src
first=
for count in 1000 2000 4000 8000; do
  mkdir -p src/main/java
  for ((i = 0; i < count; i++)); do echo "$i" > "src/main/java/$i.java"; done
  row files "$count" $(($(least 7) - base))
done

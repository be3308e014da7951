#!/usr/bin/env bash
# How the time of `mvn validate` grows with the bytes of one POM, nearly all of them white space, or profiles with dependencies, as
# ratios in one run. A ratio of the sizes is what one pass costs; its square would be a rescan. The empty case is a POM of 128
# bytes; each time is that of 20 runs.
. "$(dirname "$0")/common.sh"
want_mvn

# A POM of this many bytes, nearly all of them white space
pom() {
  local text='<project><modelVersion>4.0.0</modelVersion><groupId>demo</groupId><artifactId>app</artifactId><version>1.0</version></project>'
  printf '%s' "$text" > pom.xml
  head -c $(($1 - ${#text})) /dev/zero | tr '\0' ' ' >> pom.xml
}

once() { for _ in $(seq 20); do "$program" validate > out; done; }

pom 128
base=$(least 15)
first=
for size in 131072 262144 524288 1048576; do
  pom "$size"
  row 'bytes, 20 runs' "$size" $(($(least 15) - base))
done

# A POM of as many bytes or a few less: a profile of six dependencies has 1,138 bytes
profiles() {
  awk -v most="$1" 'BEGIN {
    printf "<project><modelVersion>4.0.0</modelVersion><groupId>demo</groupId><artifactId>app</artifactId><version>1.0</version><profiles>"
    for (i = 0; (i + 1) * 1138 + 200 < most; i++) {
      printf "<profile><id>p%06d</id><dependencies>", i
      for (k = 0; k < 6; k++)
        printf "<dependency><groupId>org.example.group</groupId><artifactId>artifact-%06d</artifactId><version>1.2.%06d</version><classifier>tests</classifier><scope>test</scope></dependency>", i, k
      printf "</dependencies></profile>"
    }
    print "</profiles></project>" }' > pom.xml
}
first=
for size in 131072 262144 524288 1048576; do
  profiles "$size"
  row 'bytes of profiles, 20 runs' "$(wc -c < pom.xml)" $(($(least 5) - base))
done

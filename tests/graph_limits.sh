#!/usr/bin/env bash
# Gives the built program repositories at the limits of a graph and one beyond: 4,096 and 4,097 available versions of an artifact, in one repository
# and in two, and 16,384 and 16,385 keys of dependencies. At the limit the project is built on, and one beyond it is refused by rule 29.
# The program is the one that MVN names, or bin/mvn.
. "$(dirname "$0")/cases.sh"
find_program
cd "$work" || exit 1
export MVN_REPO=$work/repository MVN_REMOTE=$work/remote
built=$'built demo:app:1.0\ntotal 1 built 1 failed 0 skipped 0\n'

# REPOSITORY, ARTIFACT:VERSION..: puts POMs without dependencies of these libraries of the group x into it
libraries() {
  local repository=$1/x one artifact version
  shift
  printf "$repository/%s\0" "${@/://}" | xargs -0 mkdir -p
  for one; do
    artifact=${one%:*}
    version=${one#*:}
    printf '<project><modelVersion>4.0.0</modelVersion><groupId>x</groupId><artifactId>%s</artifactId><version>%s</version></project>' \
      "$artifact" "$version" > "$repository/$artifact/$version/$artifact-$version.pom"
  done
}

# VERSION, ARTIFACT..: dependencies on this version of these libraries
on() {
  local version=$1
  shift
  echo "<dependencies>$(printf "<dependency><groupId>x</groupId><artifactId>%s</artifactId><version>$version</version></dependency>" "$@")</dependencies>"
}

# DEPENDENCIES: the project with these
project() {
  printf '<project><modelVersion>4.0.0</modelVersion><groupId>demo</groupId><artifactId>app</artifactId><version>1.0</version>%s</project>' "$1" > pom.xml
}

# no library has a jar, so an install says which version it chose
project "$(on '[1,)' y)"
libraries "$MVN_REPO" y:{1..4096}
highest=$'failed demo:app:1.0 missing x/y/4096/y-4096.jar\ntotal 1 built 0 failed 1 skipped 0\n'
want '4,096 versions in the local repository' 1 "$highest" install
libraries "$MVN_REMOTE" y:{4000..4096}
want 'some of which the remote one has too' 1 "$highest" install
too_many=$'refused pom.xml rule 29 GraphTooLarge at x:y\n'
libraries "$MVN_REMOTE" y:4097
want 'and one more in the remote one' 2 "$too_many" install
libraries "$MVN_REPO" y:4097
rm -r "$MVN_REMOTE"
want '4,097 versions in the local repository' 2 "$too_many" install
mv "$MVN_REPO" "$MVN_REMOTE"
want '4,097 versions in the remote repository' 2 "$too_many" install
project "$(on 4097 y)"
want 'of which one is stated' 0 "$built" validate

# 16 libraries, each of which needs 1,023 others, whose POMs are nowhere: 16,384 keys, and a note for each POM that is missing
libraries "$MVN_REPO" top-{1..16}:1
for number in {1..16}; do
  sed -i "s/<\/project>/$(on 1 "below-$number-"{1..1023} | sed 's/\//\\\//g')&/" "$MVN_REPO/x/top-$number/1/top-$number-1.pom"
done
project "$(on 1 top-{1..16})"
{
  head -n 1 <<< "$built"
  for number in {1..16}; do printf "  note missing x:below-$number-%s:1\n" {1..1023}; done | sort
  tail -n 1 <<< "${built%?}"
} > wanted
"$mvn" validate > said
status=$?
{ head -n 1 said; grep '^  note' said | sort; tail -n 1 said; } > sorted
if [ "$status" = 0 ] && cmp -s sorted wanted && [ "$(wc -l < said)" = "$(wc -l < wanted)" ]; then
  pass '16,384 keys'
else
  fail '16,384 keys' "status $status: $(diff sorted wanted | head -n 3)"
fi
too_many=$'refused pom.xml rule 29 GraphTooLarge at keys\n'
project "$(on 1 top-{1..16} more)"
want '16,385 keys' 2 "$too_many" validate
project "$(on 1 more top-{1..16})"
want '16,385 keys, the last of them below the last' 2 "$too_many" validate
tell

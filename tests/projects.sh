#!/usr/bin/env bash
# Runs the built program on projects that need an effective model: parents, properties, profiles, plugins, imports, and refusals with
# their POM, rule and place. The program is the one that MVN names, or bin/mvn.
. "$(dirname "$0")/cases.sh"
find_program

# The case's folder, new and empty, with these as POM of the project
project() {
  rm -rf "$work/p"
  mkdir "$work/p"
  cd "$work/p" || exit 1
  printf '<project><modelVersion>4.0.0</modelVersion>%s</project>' "$1" > pom.xml
}

# PATH, TEXT: another POM
other() {
  mkdir -p "$(dirname "$1")"
  printf '<project><modelVersion>4.0.0</modelVersion>%s</project>' "$2" > "$1"
}

built=$'\ntotal 1 built 1 failed 0 skipped 0\n'
unbuilt=$'\ntotal 1 built 0 failed 1 skipped 0\n'
app='<groupId>demo</groupId><artifactId>app</artifactId><version>1</version>'
above='<groupId>demo</groupId><artifactId>parent</artifactId><version>2</version>'
parent="$above<packaging>pom</packaging>"
child="<parent>$above</parent><artifactId>app</artifactId>"
beside="<parent>$above<relativePath>parent</relativePath></parent><artifactId>app</artifactId>"

project "$beside"
other parent/pom.xml "$parent"
want 'a parent by its path' 0 "built demo:app:2$built" validate
project "$child"
other .m2/repository/demo/parent/2/parent-2.pom "$parent"
want 'a parent in the local repository' 0 "built demo:app:2$built" validate
project "$child"
other .m2/remote/demo/parent/2/parent-2.pom "$parent"
want 'a parent in the remote repository' 0 "built demo:app:2$built" validate
project "$child"
want 'a parent that is nowhere' 2 $'refused pom.xml rule 11 ParentNotFound at demo:parent:2\n' validate
project "$beside"
other parent/pom.xml "$above"
want 'a parent whose packaging is not pom' 2 $'refused pom.xml rule 10 ParentPackaging at demo:parent:2\n' validate
project "$child"
other .m2/repository/demo/parent/2/parent-2.pom "$parent<build>"
want 'a parent that is no POM text' 2 $'refused demo:parent:2 rule 3 NotPomText at 150\n' validate

project '<groupId>demo</groupId><artifactId>app</artifactId><version>${v}</version><properties><v>3</v></properties>'
want 'a version by a property' 0 "built demo:app:3$built" validate
project '<groupId>demo</groupId><artifactId>app</artifactId><version>${v}</version>'
want 'a property that is nowhere' 2 $'refused pom.xml rule 18 Unresolved at v\n' validate
project '<groupId>demo</groupId><artifactId>app</artifactId><version>${v}</version><properties><v>3</v></properties><profiles><profile><id>four</id><activation><activeByDefault>true</activeByDefault></activation><properties><v>4</v></properties></profile></profiles>'
want 'a profile that is active by default' 0 "built demo:app:4$built" validate


# what the command line defines stands over the POM's properties, and a profile that it chooses is active
project '<groupId>demo</groupId><artifactId>app</artifactId><version>${v}</version><properties><v>3</v></properties>'
want 'a property of the command line' 0 "built demo:app:5$built" validate -Dv=5
want 'the later of two' 0 "built demo:app:6$built" -D v=5 validate -Dv=6
project '<groupId>demo</groupId><artifactId>app</artifactId><version>${v}</version><properties><v>3</v></properties><profiles><profile><id>four</id><properties><v>4</v></properties></profile><profile><id>five</id><activation><activeByDefault>true</activeByDefault></activation><properties><v>5</v></properties></profile></profiles>'
want 'the profile that is active by default' 0 "built demo:app:5$built" validate
want 'a profile that is chosen in its place' 0 "built demo:app:4$built" validate -P four
want 'a profile that is switched off' 0 "built demo:app:3$built" validate -P=-five
want 'a profile that there is none of' 0 "built demo:app:5$built" validate -Pnone

jar='<plugin><artifactId>maven-jar-plugin</artifactId><executions><execution><id>default-jar</id><phase>none</phase><goals><goal>jar</goal></goals></execution></executions></plugin>'
project "$app<build><pluginManagement><plugins>$jar</plugins></pluginManagement></build>"
want 'a managed execution without a phase' 1 "failed demo:app:1 no artifact$unbuilt" install
project "$app<build><plugins><plugin><groupId>demo</groupId><artifactId>app</artifactId></plugin></plugins></build>"
want 'a plugin that is the module itself' 0 "built demo:app:1$built" validate
project "$app<build><sourceDirectory>code</sourceDirectory></build>"
mkdir code
echo no luck > code/fail-test
want 'sources in another folder' 1 "failed demo:app:1 goal maven-surefire-plugin:test default-test: no luck$unbuilt" install

bom='<dependencyManagement><dependencies><dependency><groupId>demo</groupId><artifactId>bom</artifactId><version>1</version><type>pom</type><scope>import</scope></dependency></dependencies></dependencyManagement>'
project "$app$bom"
other .m2/repository/demo/bom/1/bom-1.pom '<groupId>demo</groupId><artifactId>bom</artifactId><version>1</version><packaging>pom</packaging>'
want 'an import from the local repository' 0 "built demo:app:1$built" validate
project "$app$bom"
want 'an import that is nowhere' 2 $'refused pom.xml rule 25 ImportNotFound at demo:bom:1\n' validate

project "$app<packaging>thing</packaging>"
want 'a packaging that is unknown' 2 $'refused pom.xml rule 31 UnknownPackaging at thing\n' validate
project "$app<packaging>pom</packaging>"
want 'the packaging pom' 0 "built demo:app:1$built" install
[ "$(ls .m2/repository/demo/app/1)" = app-1.pom ] && pass 'it installs its POM alone' || fail 'it installs its POM alone' "$(ls .m2/repository/demo/app/1)"
project "$app<modules><module>a</module></modules>"
want 'modules below a jar' 2 $'refused pom.xml rule 14 AggregatorPackaging at jar\n' validate
project "$app<packaging>pom</packaging><modules><module>a</module></modules>"
want 'a module that is nowhere' 2 $'refused pom.xml rule 15 ModuleNotFound at a\n' validate
project "$app<dependencies><dependency><groupId>g</groupId><artifactId>a</artifactId><version>1</version></dependency></dependencies>"
want 'a dependency whose POM is missing' 0 $'built demo:app:1\n  note missing g:a:1'"$built" validate
want 'a dependency whose file a goal reads' 1 $'failed demo:app:1 missing g/a/1/a-1.jar\n  note missing g:a:1'"$unbuilt" install
cd "$work" || exit 1
tell

#!/usr/bin/env bash
# Runs the built program on projects of several modules: which modules there are, their order, which are built, what one has of another,
# failures that skip what stands on them, notes, the full report, and refusals. The program is the one that MVN names, or bin/mvn.
. "$(dirname "$0")/cases.sh"
find_program
here=$PWD

# FOLDER OR POM FILE, TEXT: a POM there
pom() {
  local file=$1
  [ "${file%.xml}" != "$file" ] || file=$1/pom.xml
  mkdir -p "$(dirname "$file")"
  printf '<project><modelVersion>4.0.0</modelVersion>%s</project>' "$2" > "$file"
}

# NAME, VERSION: coordinates in the group demo
gav() { echo "<groupId>demo</groupId><artifactId>$1</artifactId><version>${2-1.0}</version>"; }

# NAME, TEXT: a module in the folder of this name, without a parent
alone() { pom "$1" "$(gav "$1")${2-}"; }

# NAME, TEXT: a module in the folder of this name, whose parent is the root
child() { pom "$1" "<parent>$(gav root)</parent><artifactId>$1</artifactId>${2-}"; }

# FOLDERS: as a list of modules
modules() { echo "<modules>$(printf '<module>%s</module>' $1)</modules>"; }

# FOLDERS, TEXT: the case's folder, new and empty, with a root that has these modules
project() {
  rm -rf "$work/p" "$work/beside"
  mkdir "$work/p"
  cd "$work/p" || exit 1
  pom . "$(gav root)<packaging>pom</packaging>$(modules "$1")${2-}"
}

# NAME, TEXT: a dependency on a module
need() { echo "<dependency>$(gav "$1")${2-}</dependency>"; }

# NAMES: dependencies on these modules
on() {
  local name text=
  for name in $1; do text+=$(need "$name"); done
  echo "<dependencies>$text</dependencies>"
}

# GROUP, NAME, VERSION: a dependency on a library
lib() { echo "<dependencies><dependency><groupId>$1</groupId><artifactId>$2</artifactId><version>$3</version></dependency></dependencies>"; }

# FOLDER OF A REPOSITORY, GROUP, NAME, VERSION, TEXT: a POM in it
stored() { pom "$1/$2/$3/$4/$3-$4.pom.xml" "<groupId>$2</groupId><artifactId>$3</artifactId><version>$4</version>$5"; mv "$1/$2/$3/$4/$3-$4.pom.xml" "$1/$2/$3/$4/$3-$4.pom"; }

# CASE, NAMES; the words follow: these modules are built, in this order, and nothing else is said
order() {
  local name=$1 modules=$2 text= count=0 m
  shift 2
  for m in $modules; do
    text+="built demo:$m:1.0"$'\n'
    count=$((count + 1))
  done
  want "$name" 0 "${text}total $count built $count failed 0 skipped 0"$'\n' "$@"
}

# CASE, LINE; the words follow: that line with status 2
refused() {
  local name=$1 line=$2
  shift 2
  want "$name" 2 "$line"$'\n' "$@"
}

# CASE, WANTED TEXT, TEXT THAT CAME
same() { if [ "$2" = "$3" ]; then pass "$1"; else fail "$1" "$(printf 'wanted %q, got %q' "$2" "$3")"; fi; }

files() { (cd .m2/repository && find . -type f | LC_ALL=C sort); }
sums() { (cd .m2/repository && find . -type f | LC_ALL=C sort | xargs sha256sum); }

# --- a project, and its second run
project 'a b c'
child a
child b "$(on a)"
child c
order 'a phase before install' 'root a b c' verify
same 'it installs nothing' '' "$(find .m2 -type f 2> /dev/null)"
order 'four modules' 'root a b c' install
same 'their files' "./demo/a/1.0/a-1.0.jar
./demo/a/1.0/a-1.0.pom
./demo/b/1.0/b-1.0.jar
./demo/b/1.0/b-1.0.pom
./demo/c/1.0/c-1.0.jar
./demo/c/1.0/c-1.0.pom
./demo/root/1.0/root-1.0.pom" "$(files)"
cmp -s b/pom.xml .m2/repository/demo/b/1.0/b-1.0.pom && pass 'a POM as it is' || fail 'a POM as it is' 'another'
first=$(sums)
order 'a second run' 'root a b c' install
same 'the same bytes' "$first" "$(sums)"
order 'any number of workers' 'root a b c' install -T 16
same 'the same bytes of any number' "$first" "$(sums)"

# --- what a module has of another: each output of a built-in goal is the digest of its request, which tests/reactor_jars.py makes anew
project 'c b a t'
child a
child b "$(on a)"
child c "$(on b)"
child t "<dependencies>$(need a '<type>test-jar</type><scope>test</scope>')$(need b '<scope>runtime</scope>')</dependencies>"
order 'modules on one another' 'root a b c t' install
python3 "$here/tests/reactor_jars.py" a:: b:a:a c:b,a:b,a t::a/tests,b,a > "$work/wanted"
for m in a b c t; do echo "$m $(cat ".m2/repository/demo/$m/1.0/$m-1.0.jar")"; done > "$work/got"
same 'the jars by a plain program' "$(cat "$work/wanted")" "$(cat "$work/got")"

# --- the order
project 'c b a'
child a
child b
child c
order 'modules that need nothing, as they are listed' 'root c b a' validate
project 'b a'
child a
child b "$(on a)"
order 'a dependency first' 'root a b' validate
project 'b a'
child a
child b "<dependencies>$(need a '<scope>test</scope>')</dependencies>"
order 'of any scope' 'root a b' validate
project 'b a'
child a
child b "<dependencies><dependency>$(gav a '[1.0,2.0)')</dependency></dependencies>"
order 'by a range that has the version' 'root a b' validate
project 'b a'
child a
child b "<dependencies><dependency>$(gav a 0.9)</dependency></dependencies>"
want 'another version is no module' 0 $'built demo:root:1.0\nbuilt demo:b:1.0\n  note missing demo:a:0.9\nbuilt demo:a:1.0\ntotal 3 built 3 failed 0 skipped 0\n' validate
project 'b a'
child a '<packaging>pom</packaging>'
pom b "<parent>$(gav a)<relativePath>../a</relativePath></parent><artifactId>b</artifactId>"
order 'a parent first' 'root a b' validate
project 'b a'
child a
child b "<build><plugins><plugin>$(gav a)</plugin></plugins></build>"
order 'a plugin first' 'root a b' validate
project 'b a'
child a
child b '<build><plugins><plugin><groupId>demo</groupId><artifactId>a</artifactId></plugin></plugins></build>'
order 'a plugin without a version first' 'root a b' validate
project 'b a'
child a
child b "<build><plugins><plugin>$(gav p)$(on a)</plugin></plugins></build>"
order 'what a plugin needs first' 'root a b' validate
project 'b a'
child a
child b "<build><extensions><extension>$(gav a)</extension></extensions></build>"
order 'an extension first' 'root a b' validate
project 'b a'
child a
child b "<dependencyManagement>$(on a)</dependencyManagement><build><pluginManagement><plugins><plugin>$(gav a)</plugin></plugins></pluginManagement></build>"
order 'what is managed gives no order' 'root b a' validate
project 'a b bom' "<dependencyManagement><dependencies>$(need bom '<type>pom</type><scope>import</scope>')</dependencies></dependencyManagement>"
alone bom "<packaging>pom</packaging><dependencyManagement>$(on b)</dependencyManagement>"
child a '<dependencies><dependency><groupId>demo</groupId><artifactId>b</artifactId></dependency></dependencies>'
child b
order 'versions from a BOM that is a module' 'root b a bom' install
project 'a b'
child a "$(lib x x 1)"
child b
stored .m2/repository x x 1 "$(on b)"
order 'a module that a library of the repository needs first' 'root b a' validate

# --- circles
project 'a b'
child a "$(on b)"
child b "$(on a)"
refused 'a circle of two' 'refused a/pom.xml rule 30 ReactorCycle at demo:a:1.0 -> demo:b:1.0 -> demo:a:1.0' validate
refused 'a circle comes before a word' 'refused a/pom.xml rule 30 ReactorCycle at demo:a:1.0 -> demo:b:1.0 -> demo:a:1.0' validate -pl :zz
project 'c a b'
child a "$(on b)"
child b "$(on c)"
child c "$(on a)"
# a stands on b and, by what b needs, on c too: the way goes on to the one that is listed first
refused 'a circle of three' 'refused c/pom.xml rule 30 ReactorCycle at demo:c:1.0 -> demo:a:1.0 -> demo:c:1.0' validate
project 'a'
child a "$(on a)"
refused 'a module on itself' 'refused a/pom.xml rule 30 ReactorCycle at demo:a:1.0 -> demo:a:1.0' validate
project 'a b'
child a "<packaging>pom</packaging>$(on b)"
pom b "<parent>$(gav a)<relativePath>../a</relativePath></parent><artifactId>b</artifactId>"
refused 'a parent on its child, which has the dependency too' 'refused a/pom.xml rule 30 ReactorCycle at demo:a:1.0 -> demo:b:1.0 -> demo:a:1.0' validate
project 'a b'
child a "<build><plugins><plugin>$(gav b)</plugin></plugins></build>"
child b "$(on a)"
order 'a plugin closes no circle' 'root a b' validate
project 'a b' "<build><plugins><plugin>$(gav p)$(on b)</plugin></plugins></build>"
child a
child b
order 'a plugin of the parent, and what it needs is its child' 'root b a' validate

# --- which modules there are
project 'g c'
child g "<packaging>pom</packaging>$(modules 'a b')"
pom g/a "<parent>$(gav g)</parent><artifactId>a</artifactId>"
pom g/b "<parent>$(gav g)</parent><artifactId>b</artifactId>"
child c
order 'modules in deeper folders, each before the next' 'root g a b c' validate
order 'one of them by its folder' 'b' validate -pl g/b
order 'with what it stands on' 'root g b' validate -pl g/b -am
project 'a/other.xml ./b/ c\d'
pom a/other.xml "$(gav a)"
alone b
pom c/d "$(gav d)"
order 'a POM file, and paths with steps that fold' 'root a b d' validate
order 'a POM file by its path' 'a d' validate -pl a/other.xml,c/d/pom.xml
project '../beside a'
mkdir -p ../beside/src/main/java
pom ../beside "$(gav beside)"
child a "$(on beside)"
order 'a module beside the project' 'root beside a' install
order 'by its path' 'beside' validate -pl ../beside
project 'a' "<profiles><profile><id>more</id>$(modules b)</profile><profile><id>on</id><activation><property><name>c</name></property></activation>$(modules c)</profile></profiles>"
child a
child b
child c
order 'without a profile' 'root a' validate
order 'modules of a profile' 'root a b' validate -P more
order 'of two, as the POM has them' 'root a b c' validate -Dc -Pmore
refused 'a module of a profile that is off' 'word 2 UnknownModule' validate -pl b
project 'a'
pom a "$(gav a)<profiles><profile><id>gone</id><properties><v>2</v></properties></profile></profiles><properties><v>1</v></properties>$(lib x y '${v}')"
stored .m2/repository x y 2 ''
want 'a profile of a module' 0 $'built demo:root:1.0\nbuilt demo:a:1.0\n  note missing x:y:1\ntotal 2 built 2 failed 0 skipped 0\n' validate
order 'switched on for all POMs' 'root a' validate -P gone

# --- refusals of the modules, with the POM
project 'a missing'
child a
refused 'a module that is nowhere' 'refused pom.xml rule 15 ModuleNotFound at missing' validate
mkdir missing
refused 'a folder without a POM' 'refused pom.xml rule 15 ModuleNotFound at missing' validate
: > a/pom.xml
refused 'a module that is no POM comes before a later one that is nowhere' 'refused a/pom.xml rule 3 NotPomText at 0' validate
project 'missing a'
mkdir a
: > a/pom.xml
refused 'and behind an earlier one' 'refused pom.xml rule 15 ModuleNotFound at missing' validate
project 'a a'
child a
refused 'a module that is listed twice' 'refused pom.xml rule 16 DuplicateProject at a/pom.xml' validate
project 'a ./a/pom.xml'
child a
refused 'by two paths' 'refused pom.xml rule 16 DuplicateProject at a/pom.xml' validate
project 'a'
child a "<packaging>pom</packaging>$(modules ..)"
refused 'a module that lists the root' 'refused a/pom.xml rule 16 DuplicateProject at pom.xml' validate
project 'a b'
child a
pom b "$(gav a)"
refused 'two modules of the same coordinates' 'refused b/pom.xml rule 16 DuplicateProject at a/pom.xml' validate
pom b "$(gav a)$(lib x y '[1')"
refused 'the models come before it' 'refused b/pom.xml rule 20 BadRange at [1' validate
project 'a'
child a "$(modules b)"
refused 'modules below a jar' 'refused a/pom.xml rule 14 AggregatorPackaging at jar' validate
project '${m}'
refused 'an expression in a module' 'refused pom.xml rule 18 Unresolved at ${m}' validate
project 'a b'
child a
pom b '<artifactId>b</artifactId>'
refused 'a module without a group' 'refused b/pom.xml rule 8 MissingField at project/groupId' validate
project 'a b'
child a
pom b "<parent>$(gav gone)</parent><artifactId>b</artifactId>"
refused 'a module whose parent is nowhere' 'refused b/pom.xml rule 11 ParentNotFound at demo:gone:1.0' validate
project 'a b'
child a
child b '<dependencies><dependency><groupId>demo</groupId><artifactId>a</artifactId></dependency></dependencies>'
refused 'a dependency without a version' 'refused b/pom.xml rule 19 VersionMissing at demo:a:jar' validate
project 'a b'
child a
child b '<packaging>bundle</packaging>'
refused 'a packaging that is unknown' 'refused b/pom.xml rule 31 UnknownPackaging at bundle' validate
project 'a b'
child a "$(on b)"
child b "$(lib x y '[3,)')"
refused 'a range without a version' 'refused a/pom.xml rule 27 EmptyRange at x:y:jar' validate
stored .m2/remote x y 3.1 ''
order 'a version of the remote repository' 'root b a' validate
project 'a'
child a "<dependencies><dependency><groupId>x</groupId><artifactId>y</artifactId><version>1</version></dependency><dependency><groupId>x</groupId><artifactId>z</artifactId><version>1</version></dependency></dependencies>"
stored .m2/repository x z 1 "$(lib x y '[2]')"
stored .m2/repository x y 1 ''
refused 'a version outside a range' 'refused a/pom.xml rule 28 RangeConflict at x:y:jar' validate
project ''
{ printf '<project><modelVersion>4.0.0</modelVersion>%s<packaging>pom</packaging><modules>' "$(gav root)"; printf '<module>m%d</module>' $(seq 1023); printf '</modules></project>'; } > pom.xml
mkdir $(seq -f m%g 1024)
for i in $(seq 1024); do echo "<project><modelVersion>4.0.0</modelVersion><parent><groupId>demo</groupId><artifactId>root</artifactId><version>1.0</version></parent><artifactId>m$i</artifactId></project>" > "m$i/pom.xml"; done
order 'as many modules as a project may have' "root $(seq -f m%g -s ' ' 1023)" validate
sed -i 's|</modules>|<module>m1024</module></modules>|' pom.xml
refused 'one more' 'refused pom.xml rule 1 TooLarge at modules' validate

# --- a plan of more events than a build may have: 1,023 modules that each fetch 513 libraries
if ! too_slow 'a plan of too many events' 'sources that are too large come before it'; then
  project "$(seq -f m%g -s ' ' 1023)"
  head='<project><modelVersion>4.0.0</modelVersion>'
  need=
  for i in $(seq 512); do
    mkdir -p ".m2/repository/x/l$i/1"
    echo "$head<groupId>x</groupId><artifactId>l$i</artifactId><version>1</version></project>" > ".m2/repository/x/l$i/1/l$i-1.pom"
    need+="<dependency><groupId>x</groupId><artifactId>l$i</artifactId><version>1</version></dependency>"
  done
  stored .m2/repository x all 1 "<dependencies>$need</dependencies>"
  for i in $(seq 1023); do
    mkdir "m$i"
    echo "$head<parent>$(gav root)</parent><artifactId>m$i</artifactId><dependencies><dependency><groupId>x</groupId><artifactId>all</artifactId><version>1</version></dependency></dependencies></project>" > "m$i/pom.xml"
  done
  refused 'a plan of too many events' 'refused pom.xml rule 29 GraphTooLarge at events' compile
  mkdir -p m1/src/main/java
  truncate -s 268435457 m1/src/main/java/A.java
  refused 'sources that are too large come before it' 'refused pom.xml rule 1 TooLarge at sources' compile
fi

# --- which modules are built
project 'a b c d'
child a
child b "$(on a)"
child c "$(on b)"
alone d
order 'a folder' 'a' validate -pl a
order 'a name' 'b' validate -pl :b
order 'a group and a name' 'c' validate -pl demo:c
order 'a POM' 'd' validate -pl d/pom.xml
order 'the root' 'root' validate -pl .
order 'a path with steps' 'a' validate -pl ./b/../a/
order 'several, in the order of the build' 'a c' validate -pl :c,a
order 'an option for each' 'a c' validate -pl c --projects a
order 'one that is named twice' 'a' validate -pl a,:a,demo:a
order 'spaces and empty items' 'a c' validate -pl ', a ,,c'
order 'the value behind a sign' 'a' validate -pl=a
order 'what it stands on' 'root a b' validate -pl b -am
order 'what stands on it' 'b c' validate --also-make-dependents -pl :b
order 'both' 'root a b c' validate -pl b -am -amd
order 'without a selection all are built' 'root a b c d' validate -am -amd
order 'from a module on' 'c d' validate -rf c
order 'from a module of the selected on' 'b c' validate -pl :b -amd -rf :b
order 'from a later one on' 'c' validate -pl :b -amd --resume-from=demo:c
refused 'a module that there is none of' 'word 1 UnknownModule' -pl :zz validate
refused 'another group' 'word 2 UnknownModule' validate -pl other:a
refused 'a path that leads nowhere' 'word 1 UnknownModule' -pl a,e validate
refused 'a part of a name' 'word 2 UnknownModule' validate -pl demo
refused 'to begin with a module that there is none of' 'word 1 UnknownModule' -rf e validate
refused 'to begin with one that is not selected' 'word 3 UnknownModule' -pl :a -rf :c validate
refused 'to begin with two' 'word 1 UnknownModule' -rf a,b validate
refused 'the first of two that there are none of' 'word 1 UnknownModule' -rf :x -pl :y validate
refused 'a module that is left out' 'word 2 BadSelector' validate -pl '!a'
refused 'another one' 'word 2 BadSelector' validate -pl a,-b
refused 'no module' 'word 2 BadSelector' validate -pl ,
refused 'to begin twice' 'word 2 Repeated' -rf a -rf b validate
project 'a x y'
child a
pom x "<groupId>x</groupId><artifactId>n</artifactId><version>1</version>"
pom y "<groupId>y</groupId><artifactId>n</artifactId><version>1</version>"
want 'all modules of a name' 0 $'built x:n:1\nbuilt y:n:1\ntotal 2 built 2 failed 0 skipped 0\n' validate -pl :n
want 'to begin with the first of them' 0 $'built x:n:1\nbuilt y:n:1\ntotal 2 built 2 failed 0 skipped 0\n' validate -rf :n
refused 'unless it is not selected' 'word 3 UnknownModule' -pl y -rf :n validate

# --- a failure skips what stands on it, and nothing else
project 'a b c'
child a
child b "$(on a)"
child c
mkdir -p a/src/test/java
echo '1 test failed' > a/src/test/java/fail-test
broken=$'failed demo:a:1.0 goal maven-surefire-plugin:test default-test: 1 test failed\nskipped demo:b:1.0 after demo:a:1.0\n'
for words in install '-T 1 install' '-T 2 install' '-T 16 install' '--fail-at-end install'; do
  want "a goal that fails: $words" 1 $'built demo:root:1.0\n'"$broken"$'built demo:c:1.0\ntotal 4 built 2 failed 1 skipped 1\n' $words
done
same 'the files of the others' "./demo/c/1.0/c-1.0.jar
./demo/c/1.0/c-1.0.pom
./demo/root/1.0/root-1.0.pom" "$(files)"
order 'a phase before that goal' 'root a b c' test-compile
want 'it and what stands on it' 1 "$broken"$'total 2 built 0 failed 1 skipped 1\n' -pl demo:a -amd install
want 'a module with what it stands on' 1 "built demo:root:1.0"$'\n'"$broken"$'total 3 built 1 failed 1 skipped 1\n' -pl :b -am install
order 'a module that has nothing to do with it' 'c' -pl c install
project 'a b c'
child a
child b "$(on a)"
child c "$(on b)"
mkdir -p a/src/main/java
: > a/src/main/java/fail-compile
want 'what stands on it over another module' 1 $'built demo:root:1.0\nfailed demo:a:1.0 goal maven-compiler-plugin:compile default-compile: \nskipped demo:b:1.0 after demo:a:1.0\nskipped demo:c:1.0 after demo:a:1.0\ntotal 4 built 1 failed 1 skipped 2\n' install
child b "<dependencies>$(need a '<scope>test</scope>')</dependencies>"
want 'over one whose need it has not' 1 $'built demo:root:1.0\nfailed demo:a:1.0 goal maven-compiler-plugin:compile default-compile: \nskipped demo:b:1.0 after demo:a:1.0\nskipped demo:c:1.0 after demo:b:1.0\ntotal 4 built 1 failed 1 skipped 2\n' install
project 'a b' '<build><plugins><plugin><artifactId>maven-enforcer-plugin</artifactId><inherited>false</inherited><executions><execution><id>rules</id><goals><goal>enforce</goal></goals></execution></executions></plugin></plugins></build>'
child a
alone b
mkdir -p src/main/java
echo 'not today' > src/main/java/fail-enforce
want 'a root that fails skips its children' 1 $'failed demo:root:1.0 goal maven-enforcer-plugin:enforce rules: not today\nskipped demo:a:1.0 after demo:root:1.0\nbuilt demo:b:1.0\ntotal 3 built 1 failed 1 skipped 1\n' install
project 'a b c'
child a '<build><plugins><plugin><artifactId>maven-jar-plugin</artifactId><executions><execution><id>default-jar</id><phase>none</phase></execution></executions></plugin></plugins></build>'
child b "$(on a)"
child c
want 'a module without a jar' 1 $'built demo:root:1.0\nfailed demo:a:1.0 no artifact\nskipped demo:b:1.0 after demo:a:1.0\nbuilt demo:c:1.0\ntotal 4 built 2 failed 1 skipped 1\n' install
order 'it need not have one before install' 'root a b c' verify
project 'a b c'
child a
child b "$(on a)"
child c
export MVN_GATE=./none
want 'a program of goals that is not there' 3 $'built demo:root:1.0\nfailed demo:a:1.0 fault gate\nskipped demo:b:1.0 after demo:a:1.0\nfailed demo:c:1.0 fault gate\ntotal 4 built 1 failed 2 skipped 1\n' install
unset MVN_GATE
order 'the next run' 'root a b c' install
project 'a d'
child a
child d
mkdir -p .m2/repository/demo/a/1.0/a-1.0.pom
want 'a file that can not be published' 3 $'built demo:root:1.0\nfailed demo:a:1.0 fault shelf\nbuilt demo:d:1.0\ntotal 3 built 2 failed 1 skipped 0\n' install

# --- notes
project 'a b'
child a '<build><plugins><plugin><groupId>x</groupId><artifactId>y</artifactId><version>1</version><executions><execution><goals><goal>z</goal></goals></execution></executions></plugin></plugins></build>'
child b
want 'a goal that no phase runs' 0 $'built demo:root:1.0\nbuilt demo:a:1.0\n  note unbound y:z default\nbuilt demo:b:1.0\ntotal 3 built 3 failed 0 skipped 0\n' install
project 'a'
child a "$(lib x y 1)"
want 'a library whose POM is missing' 0 $'built demo:root:1.0\nbuilt demo:a:1.0\n  note missing x:y:1\ntotal 2 built 2 failed 0 skipped 0\n' validate
mkdir -p .m2/repository/x/y/1
echo '<project>' > .m2/repository/x/y/1/y-1.pom
want 'a library whose POM is refused' 0 $'built demo:root:1.0\nbuilt demo:a:1.0\n  note refused x:y:1 rule 3\ntotal 2 built 2 failed 0 skipped 0\n' validate

# --- libraries: a file that a module's classpath needs is that of the local repository, or is fetched from the remote one
project 'a b c p'
child a "$(lib x y 1)"
child b "$(on a)"
child c
child p "<packaging>pom</packaging>$(lib x y 1)"
stored .m2/repository x y 1 ''
lost=$'built demo:root:1.0\nfailed demo:a:1.0 missing x/y/1/y-1.jar\nskipped demo:b:1.0 after demo:a:1.0\nbuilt demo:c:1.0\nbuilt demo:p:1.0\ntotal 5 built 3 failed 1 skipped 1\n'
want 'a library that is nowhere ends its module alone' 1 "$lost" install
want 'its file is read by the first goal with a classpath' 1 "$lost" compile
want 'by any number of workers' 1 "$lost" install -T 4
order 'no goal before it reads a file' 'root a b c p' process-resources
want 'a module that is not built in this run' 1 $'failed demo:b:1.0 missing demo/a/1.0/a-1.0.pom\ntotal 1 built 0 failed 1 skipped 0\n' compile -pl b
order 'nor is it needed before' 'b' process-resources -pl b
order 'others are built' 'root c' install -pl c,:root
order 'a POM module has no goal that reads it' 'p' install -pl p
refused 'the word comes first' 'word 2 UnknownModule' install -pl :zz
: > .m2/repository/x/y/1/y-1.jar
order 'a library of the local repository' 'root a b c p' install
order 'a module of an earlier run, by its files in the repository' 'b' install -pl b

project 'a b c'
child a "$(lib x y 1)"
child b "$(on a)"
child c "$(lib x y 1)"
stored .m2/remote x y 1 ''
echo 'a library' > .m2/remote/x/y/1/y-1.jar
order 'a library of the remote repository' 'root a b c' install
for file in x/y/1/y-1.pom x/y/1/y-1.jar; do
  cmp -s ".m2/remote/$file" ".m2/repository/$file" && pass "it is fetched as it is: $file" || fail "it is fetched as it is: $file" 'another'
done
first=$(sums)
for count in 2 4 16; do
  rm -r .m2/repository
  order "fetched by $count workers" 'root a b c' install -T "$count"
  same "the same bytes of $count workers" "$first" "$(sums)"
done
echo 'another' > .m2/remote/x/y/1/y-1.jar
order 'a file that is there is not fetched again' 'root a b c' install
same 'it stays' "$first" "$(sums)"
rm -r .m2/remote
order 'nor is the remote repository needed then' 'root a b c' install
same 'all stays' "$first" "$(sums)"

# the first goal removes the remote repository: c has what a fetched
stored .m2/remote x y 1 ''
echo 'a library' > .m2/remote/x/y/1/y-1.jar
rm -r .m2/repository
printf '#!/bin/sh\nrm -rf .m2/remote\ncat > /dev/null\necho '\''{"answer":"done"}'\''\n' > goals
chmod +x goals
export MVN_GATE=./goals
order 'what a module fetched the next one has' 'root a b c' test
unset MVN_GATE

project 'a b c'
child a "$(lib x y 1)"
child b "$(on a)"
child c
stored .m2/remote x y 1 ''
truncate -s 134217729 .m2/remote/x/y/1/y-1.jar
want 'a library over the limit' 1 $'built demo:root:1.0\nfailed demo:a:1.0 missing x/y/1/y-1.jar\nskipped demo:b:1.0 after demo:a:1.0\nbuilt demo:c:1.0\ntotal 4 built 2 failed 1 skipped 1\n' install
same 'it is not fetched' '' "$(ls .m2/repository/x/y/1 | grep jar)"
project 'a'
child a "$(lib x y 1)"
mkdir -p .m2/remote/x/y/1
echo 'a library' > .m2/remote/x/y/1/y-1.jar
want 'a library without a POM' 0 $'built demo:root:1.0\nbuilt demo:a:1.0\n  note missing x:y:1\ntotal 2 built 2 failed 0 skipped 0\n' compile
project 'a c'
child a
child c "<dependencies><dependency><groupId>x</groupId><artifactId>y</artifactId><version>1</version></dependency><dependency><groupId>x</groupId><artifactId>z</artifactId><version>1</version></dependency></dependencies>"
stored .m2/remote x y 1 ''
stored .m2/remote x z 1 ''
truncate -s 134217728 .m2/remote/x/y/1/y-1.jar
truncate -s 1 .m2/remote/x/z/1/z-1.jar
want 'files over the limit of a classpath' 1 $'built demo:root:1.0\nbuilt demo:a:1.0\nfailed demo:c:1.0 classpath too large\ntotal 3 built 2 failed 1 skipped 0\n' compile

# --- the full report
project 'a b'
child a '<properties><v>1</v></properties>'
child b "<dependencies>$(need a)<dependency><groupId>x</groupId><artifactId>y</artifactId><version>1</version><scope>provided</scope></dependency></dependencies>"
got=$(PWD=/w "$mvn" validate --full)
same 'the lines of a full report' 'built demo:root:1.0
built demo:a:1.0
built demo:b:1.0
  note missing x:y:1
  compile demo/a/1.0/a-1.0.jar
  compile x/y/1/y-1.jar
  runtime demo/a/1.0/a-1.0.jar
  test demo/a/1.0/a-1.0.jar
  test x/y/1/y-1.jar
total 3 built 3 failed 0 skipped 0' "$(grep -v '^  model ' <<< "$got")"
bound() { printf '{"artifactId":"maven-%s-plugin","dependencies":[],"executions":[{"goals":["%s"],"id":"default-%s","phase":"%s"}],"groupId":"org.apache.maven.plugins"}' "$1" "$2" "$2" "$3"; }
two() { printf '{"artifactId":"maven-%s-plugin","dependencies":[],"executions":[{"goals":["%s"],"id":"default-%s","phase":"%s"},{"goals":["%s"],"id":"default-%s","phase":"%s"}],"groupId":"org.apache.maven.plugins"}' "$1" "$2" "$2" "$3" "$4" "$4" "$5"; }
model='  model {"artifactId":"a","build":{"directory":"/w/a/target","finalName":"a-1.0","outputDirectory":"/w/a/target/classes","resources":["/w/a/src/main/resources"],"sourceDirectory":"/w/a/src/main/java","testOutputDirectory":"/w/a/target/test-classes","testResources":["/w/a/src/test/resources"],"testSourceDirectory":"/w/a/src/test/java"},"dependencies":[],"extensions":[],"groupId":"demo","managed":[],"modules":[],"packaging":"jar","parent":"demo:root:1.0","pluginManagement":[],"plugins":['
model+=$(two resources resources process-resources testResources process-test-resources),$(two compiler compile compile testCompile test-compile),
model+=$(bound surefire test test),$(bound jar jar package),$(bound install install install),$(bound deploy deploy deploy)
model+='],"properties":{"v":"1"},"version":"1.0"}'
same 'the model of a module' "$model" "$(grep '"artifactId":"a","build"' <<< "$got")"
same 'as many models as modules' 3 "$(grep -c '^  model ' <<< "$got")"
same 'of one module' $'built demo:b:1.0\n  note missing x:y:1' "$("$mvn" validate --full -pl b | head -n 2)"
cd "$work" || exit 1

# --- the file of each POM is opened once, also the root's, which is the parent of the others: by a trace of system calls, if strace is installed
# and may trace
if ! command -v strace > /dev/null; then
  echo "        not traced: strace is not installed (on Debian: apt-get install strace)"
elif ! strace -o "$work/trace" true 2> "$work/why"; then
  echo "        not traced: strace may not trace here: $(head -n 1 "$work/why")"
else
  project 'a b'
  child a
  child b "$(on a)"
  strace -f -o "$work/trace" -e trace=open,openat "$mvn" validate > "$work/said" 2>&1
  same 'the projects whose POMs are traced are built' 'total 3 built 3 failed 0 skipped 0' "$(tail -n 1 "$work/said")"
  same 'the file of each POM is opened once' $'a/pom.xml\nb/pom.xml\npom.xml' \
    "$(sed -n 's,.*"\(\./\)*\([^"]*pom\.xml\)".* = [0-9].*,\2,p' "$work/trace" | sort)"

  # and so is a source file that several modules have
  project 'a b c'
  shared='<build><sourceDirectory>../shared/src</sourceDirectory></build>'
  child a "$shared"
  child b "$shared"
  child c "$shared"
  mkdir -p shared/src/x c/src/main/resources
  echo 'class A {}' > shared/src/x/A.java
  echo 'class B {}' > shared/src/B.java
  echo c > c/src/main/resources/c.java
  strace -f -o "$work/trace" -e trace=open,openat "$mvn" validate > "$work/said" 2>&1
  same 'modules that share a source folder are built' 'total 4 built 4 failed 0 skipped 0' "$(tail -n 1 "$work/said")"
  same 'a source file of several modules is opened once' $'c/src/main/resources/c.java\nshared/src/B.java\nshared/src/x/A.java' \
    "$(sed -n 's,.*"\(\./\)*\([^"]*\.java\)".* = [0-9].*,\2,p' "$work/trace" | LC_ALL=C sort)"
  cd "$work" || exit 1

  # and so the file of a POM of the repository that is a parent, an import and a library
  project 'a b'
  stored .m2/repository x p 1 '<packaging>pom</packaging>'
  p='<groupId>x</groupId><artifactId>p</artifactId><version>1</version>'
  pom a "<parent>$p<relativePath/></parent>$(gav a)"
  import="<dependency>$p<type>pom</type><scope>import</scope></dependency>"
  alone b "<dependencyManagement><dependencies>$import</dependencies></dependencyManagement>$(lib x p 1)"
  strace -f -o "$work/trace" -e trace=open,openat "$mvn" validate > "$work/said" 2>&1
  same 'the projects over one POM of the repository are built' 'total 3 built 3 failed 0 skipped 0' "$(tail -n 1 "$work/said")"
  same 'the file of a POM that is a parent, an import and a library is opened once' 1 \
    "$(grep -c '"[^"]*/p-1\.pom".* = [0-9]' "$work/trace")"
  cd "$work" || exit 1
fi

# --- generated projects, whose reports tests/reactor_graphs.py computes anew
if told=$(python3 "$here/tests/reactor_graphs.py" "$mvn" 300); then pass "generated projects: $told"; else fail 'generated projects' "$told"; fi
tell

#!/usr/bin/env bash
# Shows that an install whose status is 0 has synced every folder from the repository's root to its files, also the folders that an earlier
# run made before it was stopped, and each file before its name was published. First without a tool: a folder that may not be read can't be synced,
# so each of them, made unreadable, is a fault. Then by a trace of system calls, if strace is installed and may trace: a first install is killed in its
# first rename, and the next one syncs each folder after its last rename and before it answers; and an install that fetches too syncs each piece
# after its last write and before the rename that publishes it.
# The program is the one that MVN names, or bin/mvn.
. "$(dirname "$0")/cases.sh"
find_program
another_user
cd "$work" || exit 1

# FILE: what a trace says of the pieces, a line for each: `synced`, or why not, and the name that it is published under. A piece whose writes aren't
# seen counts as not synced.
pieces() {
  awk '
    { file = $0; sub(/^[^<]*</, "", file); sub(/>.*/, "", file) }
    / (write|pwrite64|writev|ftruncate)\(/ { is[file] = "written" }
    / (fsync|fdatasync)\(/ && / = 0$/ && is[file] == "written" { is[file] = "synced" }
    / rename(at|at2)?\(/ && / = 0$/ {
      split($0, names, "\"")
      print is[names[2]] == "" ? "unseen" : is[names[2]], names[4]
    }' "$1"
}

printf '<project><modelVersion>4.0.0</modelVersion><groupId>demo</groupId><artifactId>app</artifactId><version>1.0</version></project>' > pom.xml
repository=$work/m2/repository
chain=("$repository" "$repository/demo" "$repository/demo/app" "$repository/demo/app/1.0")
report=$'built demo:app:1.0\ntotal 1 built 1 failed 0 skipped 0'
export MVN_REPO=$repository

for folder in "${chain[@]}"; do
  rm -rf m2
  mkdir -p "${chain[3]}" "$repository/.staging/0"
  chmod -R 777 m2
  chmod 333 "$folder"
  got=$("${as_other[@]}" "$mvn" install 2>&1; echo "status $?")
  chmod 777 "$folder"
  name=${folder#"$work/"}
  if [ "$got" = "$report"$'\nfault settle\nstatus 3' ]; then pass "$name is settled though it was there"; else fail "$name is settled though it was there" "$got"; fi
done

if ! command -v strace > /dev/null; then
  echo "        not traced: strace is not installed (on Debian: apt-get install strace)"
elif ! strace -o trace true 2> why; then
  echo "        not traced: strace may not trace here: $(head -n 1 why)"
else
  rm -rf m2
  { strace -f -o trace -e trace=rename -e inject=rename:signal=KILL:when=1 "$mvn" install > said 2>&1; } 2> /dev/null
  status=$?
  if [ "$status" = 137 ] && [ -d "${chain[3]}" ] && [ ! -s said ]; then
    pass 'an install is killed in its first rename'
  else
    fail 'an install is killed in its first rename' "status $status: $(cat said)"
  fi
  strace -f -y -o trace -e trace=rename,fsync,write "$mvn" install > said 2>&1
  status=$?
  # what is synced between the last rename and the answer, each folder once and in any order
  awk '/ rename\(/ { split("", synced) } / fsync\(/ { sub(/.* fsync\([0-9]*</, ""); sub(/>.*/, ""); synced[$0] } /total 1 built/ { for (folder in synced) print folder; exit }' \
    trace | sort > synced
  printf '%s\n' "${chain[@]}" | sort > wanted
  if [ "$status" = 0 ] && [ "$(cat said)" = "$report" ] && [ -z "$(comm -13 synced wanted)" ]; then
    pass 'the next install syncs every folder from the root to its files'
  else
    fail 'the next install syncs every folder from the root to its files' "status $status, not synced: $(comm -13 synced wanted | tr '\n' ' ')"
  fi

  # over a new repository: two files of the module and two that are fetched, one of them by several writes
  rm -rf m2
  mkdir -p remote/x/y/1
  printf '<project><modelVersion>4.0.0</modelVersion><groupId>x</groupId><artifactId>y</artifactId><version>1</version></project>' > remote/x/y/1/y-1.pom
  head -c 1000000 /dev/zero > remote/x/y/1/y-1.jar
  library='<dependency><groupId>x</groupId><artifactId>y</artifactId><version>1</version></dependency>'
  sed -i "s|</project>|<dependencies>$library</dependencies>&|" pom.xml
  calls=write,pwrite64,writev,ftruncate,fsync,fdatasync,rename,renameat,renameat2
  MVN_REMOTE=$work/remote strace -f -y -o trace -e trace=$calls "$mvn" install > said 2>&1
  status=$?
  pieces trace | sort > published
  for name in demo/app/1.0/app-1.0 x/y/1/y-1; do printf "synced $repository/$name.%s\n" jar pom; done > wanted
  if [ "$status" = 0 ] && [ "$(cat said)" = "$report" ] && cmp -s published wanted; then
    pass 'each piece is synced behind its last write and before it is published'
  else
    fail 'each piece is synced behind its last write and before it is published' "status $status, published: $(tr '\n' ' ' < published)"
  fi
fi
tell

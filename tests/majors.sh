#!/usr/bin/env bash
# Classes of Java SE 18 to 21. Compiles the example application for Java 17, patches each class to the majors 62 to 65, migrates
# it, and compares what `javap -v -p` prints of each class before and after: nothing but renamed texts may differ. A class of
# major 66 is refused. Then the same with classes that a compiler writes for Java 21 itself: of the example application, and,
# where such a JDK has its own sources, of a module of it. Each part is skipped with a line where no JDK for it is. A JDK that
# compiles for Java 21 is the argument, or the first that is found below /usr/lib/jvm.
set -u
given=${1:-}
cd "$(dirname "$0")/.."
. tests/common.sh
needs javac javap
source=$PWD/examples/first/source
rules=$PWD/examples/first/rules
cd "$place" || exit 1

# renamed: standard input with the API's package renamed, in both spellings
renamed() {
  sed 's,javax\([./]\)servlet\([./;>:<" ]\|$\),jakarta\1servlet\2,g'
}

# said FILE: what javap prints of a class but for the file's own line, time and digest, and what it warns of its version
said() {
  "$javap" -v -p "$1" 2>/dev/null | grep -v '^Classfile \|^  Last modified \|^  SHA-256 checksum '
}

# patch MAJOR FILE..: writes the major version into class files
patch() {
  local major=$1 file
  shift
  for file in "$@"; do
    printf "\\x00\\x$(printf '%02x' "$major")" | dd of="$file" bs=1 seek=6 conv=notrunc status=none
  done
}

# migrate FROM TO: the run's exit status; its report stands in `report`
migrate() {
  "$program" run --rules "$rules" --from "$1" --to "$2" --ledger "ledger-$2" >report
  printf '%s\n' "$?"
}

# compared FROM TO: each class of FROM beside its image
compared() {
  local class
  while read -r class; do
    said "$1/$class" | renamed >wanted
    said "$2/$class" >got
    same "$1/$class" wanted got
  done < <(cd "$1" && find . -name '*.class' | sort)
}

printf '0\n' >wanted_status
javap=javap
mkdir -p api web
javac --release 17 -d api $(find "$source/api" -name '*.java') || exit 1
javac --release 17 -g -parameters -cp api -d web $(find "$source/web" -name '*.java') || exit 1

# ---- the majors, patched

for major in 62 63 64 65; do
  cp -r web "from$major"
  patch "$major" $(find "from$major" -name '*.class')
  migrate "from$major" "to$major" >got_status
  same "the exit status of major $major" wanted_status got_status
  compared "from$major" "to$major"
done
mkdir from66
cp $(find web -name '*.class' | sort | head -1) from66/A.class
patch 66 from66/A.class
migrate from66 to66 >got_status
printf '2\n' >wanted
same "the exit status of major 66" wanted got_status
printf 'refused A.class malformed version at=6\n' >wanted
head -1 report >got
same "what is said of major 66" wanted got

# ---- classes as a compiler writes them for Java 21

javac21=
for jdk in $given /usr/lib/jvm/*; do
  if [ -x "$jdk/bin/javac" ] && "$jdk/bin/javac" --help 2>&1 | grep -A3 -e '--release <release>' | grep -q '\b21\b'; then
    javac21=$jdk/bin/javac javap=$jdk/bin/javap sources=$jdk/lib/src.zip
    break
  fi
done
if [ -z "$javac21" ]; then
  echo "skipped: no JDK that compiles for Java 21 is here"
else
  mkdir api21 from21
  "$javac21" --release 21 -d api21 $(find "$source/api" -name '*.java') || exit 1
  "$javac21" --release 21 -g -parameters -cp api21 -d from21 $(find "$source/web" -name '*.java') || exit 1
  migrate from21 to21 >got_status
  same "the exit status of classes for Java 21" wanted_status got_status
  compared from21 to21
  if [ ! -f "$sources" ]; then
    echo "skipped: the JDK for Java 21 is without its sources"
  else
    unzip -q "$sources" 'java.logging/*' -d jdk
    "$javac21" -nowarn -g --source 21 --target 21 --patch-module java.logging=jdk/java.logging -d module21 \
      $(find jdk/java.logging -name '*.java' ! -name module-info.java) 2>errors || { cat errors >&2; exit 1; }
    migrate module21 module_out >got_status
    same "the exit status of a module of the JDK" wanted_status got_status
    (cd module21 && find . -type f -exec sha256sum {} + | sort) >wanted
    (cd module_out && find . -type f -exec sha256sum {} + | sort) >got
    same "a module of the JDK, which no rule changes" wanted got
    echo "a module of the JDK: $(find module21 -name '*.class' | wc -l) classes"
  fi
fi

ended

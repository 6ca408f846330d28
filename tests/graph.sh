#!/usr/bin/env bash
# Migrates real libraries as one application, and asks of its classes what the graph promises, by a reader of class files of its
# own (class_names.py), which is compared with jdeps: the number of links of each class is the number of classes of the
# application that it names; each reference from a class of the application to another follows; no name that named no class
# before names one afterwards; and a second migration changes nothing. Then applications in which two names would become one, or
# a class would be left behind, small ones and libraries: status, line, and that nothing was written. The libraries are those of
# the list below that are installed, or those that the words name; with fewer than 1,000 classes the test is skipped with a line.
# A library is an archive /usr/share/java/NAME.jar.
#
# apt-get install openjdk-17-jdk-headless libtomcat9-java libtomcat10-java libspring-web-java libspring-web-servlet-java \
#   libjetty9-java libmail-java libjsf-api-java libgeronimo-validation-1.1-spec-java libgeronimo-jpa-2.0-spec-java \
#   libtaglibs-standard-spec-java libtaglibs-standard-impl-java libcommons-fileupload-java libcommons-email-java
set -u
cd "$(dirname "$0")/.."
. tests/common.sh
needs javac jdeps unzip python3
top=$PWD
java=/usr/share/java
if [ $# = 0 ]; then
  set -- spring3-core spring3-beans spring3-context spring3-web spring3-web.servlet jsf-api javax.mail commons-fileupload \
    commons-email taglibs-standard-spec taglibs-standard-impl geronimo-validation-1.1-spec geronimo-jpa_2.0_spec
  for part in annotations-api api catalina coyote el-api jasper jasper-el jaspic-api jni jsp-api juli servlet-api util util-scan \
    websocket websocket-api; do
    set -- "$@" "tomcat9-$part"
  done
  for part in http io security server servlet util webapp; do
    set -- "$@" "jetty9-$part"
  done
fi
cd "$place" || exit 1
: >nothing
mkdir old
libraries=0
for name in "$@"; do
  if [ -f "$java/$name.jar" ]; then
    "$top/tools/unpack.py" "$java/$name.jar" "old/$name.jar" 2>unpacked || { cat unpacked >&2; exit 1; }
    libraries=$((libraries + 1))
  fi
done
rm -f old/*.entries
classes=$(find old -name '*.class' 2>/dev/null | wc -l)
[ "$classes" -ge 1000 ] || lacks "only $classes classes of libraries are here"

# graph WORD..: what the reader says
graph() {
  python3 "$top/tests/graph.py" "$@"
}

# migrated NAME STATUS RULES FROM: a run with a new ledger, which ends so; its report is NAME.report, its target NAME
migrated() {
  local status
  "$program" run --rules "$3" --from "$4" --to "$1" --ledger "$1.ledger" >"$1.report" 2>"$1.said"
  status=$?
  [ "$status" = "$2" ] || head -5 "$1.report" "$1.said" >&2
  printf '%s\n' "$2" >wanted
  printf '%s\n' "$status" >got
  same "$1: the status" wanted got
}

# ---- real libraries

rules=$top/rules/jakarta-ee-9
graph jdeps old >got || echo failed >>got
same "references that jdeps finds" nothing got
printf 'no line\n' >wanted
graph answer old "$rules" >got || exit 1
same "nothing stands against the names" wanted got
migrated new 0 "$rules" old
echo "$libraries libraries: $(tail -1 new.report)"
graph compare old new "$rules" new.report >got || echo failed >>got
same "links and references" nothing got

# ---- a second migration changes nothing

migrated again 0 "$rules" new
diff -r new again >got 2>&1
same "a second migration" nothing got
graph compare new again "$rules" again.report >got || echo failed >>got
same "links and references of a second migration" nothing got
tail -1 again.report | sed 's/.* renamed=/renamed=/' >got
printf 'renamed=0 added=0\n' >wanted
same "what a second migration renames" wanted got

# ---- some classes aren't selected, and name no class that is renamed

cp -r "$rules" selected
printf 'spring3-core.jar/*=!\n*/javax/mail/*=!\njavax.mail.jar/*=!\n' >selected/selection.properties
rm -rf part && mkdir part
for name in spring3-core spring3-beans spring3-context tomcat9-servlet-api tomcat9-catalina; do
  [ -d "old/$name.jar" ] && cp -r "old/$name.jar" part/
done
printf 'no line\n' >wanted
graph answer part selected >got || exit 1
same "nothing stands against the names of a part" wanted got
migrated some 0 selected part
graph compare part some selected some.report >got || echo failed >>got
same "links and references beside classes that aren't selected" nothing got

# refused NAME CODE RULES FROM: a run that ends with this status and the line of the file `wanted`, and writes nothing
refused() {
  cp wanted line
  migrated "$1" "$2" "$3" "$4"
  same "$1: the line" line "$1.report"
  ls -d "$1" "$1.ledger"* >got 2>/dev/null
  same "$1: nothing was written" nothing got
}

# ---- two names that would become one

# compiled FOLDER NAME [BODY]: a class of its own, compiled to a folder
compiled() {
  local file=src/${2//.//}.java
  mkdir -p "$(dirname "$file")" "$1"
  printf 'package %s; public class %s { %s }\n' "${2%.*}" "${2##*.}" "${3:-}" >"$file"
  javac -nowarn -cp src -d "$1" "$file" || exit 1
}

mkdir small
printf 'javax.x=jakarta.x\n' >small/renames.properties
compiled clash/a.jar javax.x.C
compiled clash/b.jar jakarta.x.C
printf 'migrate: 25 name clash jakarta/x/C javax/x/C jakarta/x/C\n' >wanted
refused two-defined 25 small clash

# One is defined, and another class names the other.
mkdir -p use
compiled use/b.jar jakarta.x.C
mkdir -p elsewhere
compiled elsewhere user.U 'javax.x.C c;'
mkdir -p use/a.jar/user && cp elsewhere/user/U.class use/a.jar/user/
printf 'migrate: 25 name clash jakarta/x/C javax/x/C jakarta/x/C\n' >wanted
refused one-defined 25 small use

# Neither is defined.
compiled elsewhere user.V 'javax.x.C c; jakarta.x.C d;'
mkdir -p none/user && cp elsewhere/user/V.class none/user/
migrated none-defined 0 small none
printf 'class links=1\n' >wanted
sed -n 's/^written .* \(class\) .* \(links=.*\)$/\1 \2/p' none-defined.report >got
same "names that no class defines" wanted got

# Two servlet APIs.
if [ -f "$java/tomcat10-servlet-api.jar" ] && [ -d old/tomcat9-servlet-api.jar ]; then
  mkdir both
  cp -r old/tomcat9-servlet-api.jar both/
  "$top/tools/unpack.py" "$java/tomcat10-servlet-api.jar" both/tomcat10-servlet-api.jar 2>/dev/null || exit 1
  rm -f both/*.entries
  graph answer both "$rules" >wanted || exit 1
  grep -q '^migrate: 25 ' wanted || { echo "two servlet APIs have no clash" >&2; exit 1; }
  cat wanted
  refused two-servlet-apis 25 "$rules" both
fi

# ---- a class that would be left behind

mkdir alone
cp small/renames.properties alone/
printf 'a.jar/*=!\n' >alone/selection.properties
mkdir -p left
compiled left/a.jar javax.x.C
printf 'migrate: 26 stranded a.jar/javax/x/C.class javax/x/C\n' >wanted
refused left-by-its-own-name 26 alone left

# It names a class of another archive.
mkdir -p named/b.jar named/a.jar/user
cp -r left/a.jar/javax named/b.jar/
cp elsewhere/user/U.class named/a.jar/user/
printf 'migrate: 26 stranded a.jar/user/U.class javax/x/C\n' >wanted
refused left-by-a-name 26 alone named

# The same, where it names a class that no class defines.
mkdir -p free/a.jar/user
cp elsewhere/user/U.class free/a.jar/user/
migrated free-of-names 0 alone free
printf 'written a.jar/user/U.class a.jar/user/U.class copy\n' >wanted
head -1 free-of-names.report >got
same "a class that isn't selected and names no class of the application" wanted got

# A library that the selection leaves out of the others.
if [ -d old/tomcat9-jasper.jar ] && [ -d old/tomcat9-jsp-api.jar ]; then
  cp -r "$rules" without
  printf 'tomcat9-jasper.jar/*=!\n' >without/selection.properties
  graph answer old without >wanted || exit 1
  grep -q '^migrate: 26 ' wanted || { echo "no class of the library is stranded" >&2; exit 1; }
  cat wanted
  refused left-library 26 without old
fi

ended

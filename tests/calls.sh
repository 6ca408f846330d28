#!/usr/bin/env bash
# Asks `calls` which instructions use a package. First of small classes: every instruction that names a member, packages that begin
# alike, tables at every remainder of four, texts with odd characters, code that doesn't read, other words. The lines are written by
# hand. Then of real libraries and a module of a JDK as one application, for three packages: what is printed is, byte for byte, what
# `javap -c -p -v` shows of every class, with the indices of its constant pool looked up. At last before and after a migration of
# the libraries: no use of a package that moved is left, and every one stands under the new name. The libraries are those of the list
# below that are installed; with fewer than 5,000 classes these parts are skipped with a line. A library is an archive
# /usr/share/java/NAME.jar. `javap` takes a minute or two.
#
# apt-get install openjdk-17-jdk-headless libspring-core-java libspring-beans-java libspring-context-java libspring-web-java \
#   libspring-web-servlet-java libtomcat9-java libjetty9-java libhibernate-validator-java libopenjpa-java libmail-java libjsf-api-java \
#   libcommons-fileupload-java libcommons-email-java libtaglibs-standard-spec-java libtaglibs-standard-impl-java \
#   libgeronimo-validation-1.1-spec-java libgeronimo-jpa-2.0-spec-java
set -u
cd "$(dirname "$0")/.."
. tests/common.sh
needs python3
top=$PWD
java=/usr/share/java
cd "$place" || exit 1

# calls FROM PACKAGE: runs the program; out, err and status hold what it answered
calls() {
  migrate calls --from "$1" --package "$2"
}

# long NAME WANTED GOT: the two files, which may be long, are equal
long() {
  if cmp -s "$2" "$3"; then
    passed=$((passed + 1))
  else
    failed=$((failed + 1))
    echo "differs: $1" >&2
    diff "$2" "$3" | head -20 >&2
  fi
}

# alike NAME WANTED STATUS: the last run's standard output and its status
alike() {
  check "$1: status" "$3" "$status"
  long "$1" "$2" out
}

# ---- small classes that read

python3 "$top/tests/calls.py" made . || exit 1

calls good a.b
cat >wanted <<'LINES'
site p\20q/N\c3\a9.class m\c3\a9\5c (La/b/\c3\a9;)V at=0 op=b8 a/b/\c3\a9\20\5c \c0\80\20!~\7f (La/b/\c3\a9\20;)V
site p-1/Places.class all ()V at=28 op=b8 a/b/C m ()V
site p-1/Places.class all ()V at=56 op=b8 a/b/C m ()V
site p-1/Places.class all ()V at=88 op=b8 a/b/C m ()V
site p-1/Places.class all ()V at=120 op=b8 a/b/C m ()V
site p-1/Places.class all ()V at=140 op=b8 a/b/C m ()V
site p-1/Places.class all ()V at=160 op=b8 a/b/C m ()V
site p-1/Places.class all ()V at=184 op=b8 a/b/C m ()V
site p-1/Places.class all ()V at=208 op=b8 a/b/C m ()V
site p-1/Places.class all ()V at=214 op=b8 a/b/C m ()V
site p-1/Places.class all ()V at=220 op=b8 a/b/C m ()V
site p-1/Places.class all ()V at=225 op=b8 a/b/C m ()V
site p-1/Places.class all ()V at=231 op=b8 a/b/C m ()V
site p-1/Places.class all ()V at=238 op=b8 a/b/C m ()V
site p-1/Places.class all ()V at=247 op=b8 a/b/C m ()V
site p-1/Places.class all ()V at=255 op=b8 a/b/C m ()V
site p-1/Places.class all ()V at=260 op=b8 a/b/C m ()V
site p-1/Places.class all ()V at=265 op=b8 a/b/C m ()V
site p-1/Places.class all ()V at=270 op=b8 a/b/C m ()V
site p-1/Places.class all ()V at=277 op=b8 a/b/C m ()V
site p.jar/Opcodes.class in ()V at=0 op=b2 a/b/In in I
site p.jar/Opcodes.class in ()V at=3 op=b3 a/b/In in I
site p.jar/Opcodes.class in ()V at=6 op=b4 a/b/In in I
site p.jar/Opcodes.class in ()V at=9 op=b5 a/b/In in I
site p.jar/Opcodes.class in ()V at=12 op=b6 a/b/In in ()V
site p.jar/Opcodes.class in ()V at=15 op=b7 a/b/In in ()V
site p.jar/Opcodes.class in ()V at=18 op=b8 a/b/In in ()V
site p.jar/Opcodes.class in ()V at=21 op=b9 a/b/In in ()V
site p/Packages.class all ()V at=0 op=b6 a/b/C m ()V
site p/Packages.class all ()V at=3 op=b6 a/b/c/D m ()V
site p/Packages.class all ()V at=21 op=b6 [La/b/C; m ()V
site p/Packages.class all ()V at=24 op=b6 [[La/b/c/D; m ()V
sites classes=5 refused=0 sites=32
LINES
alike 'classes that read' wanted 0
has 'classes that read: what is said beside it' 'migrate: 32 instructions use members of the package'

calls good a
check 'the package above' 'sites classes=5 refused=0 sites=45' "$(tail -1 out)"

# ends_alone NAME FROM PACKAGE LINES: a run that prints these lines and refuses no class
ends_alone() {
  calls "$2" "$3"
  ends "$1" 0 "$4"
}
ends_alone 'a package of one class' good a.bc 'site p/Packages.class all ()V at=6 op=b6 a/bc/E m ()V
site p/Packages.class all ()V at=27 op=b6 [La/bc/E; m ()V
sites classes=5 refused=0 sites=2'
ends_alone 'a package that holds one of its name' good b 'site p/Packages.class all ()V at=15 op=b6 b/C m ()V
sites classes=5 refused=0 sites=1'
ends_alone 'a class is no package' good a.b.C 'sites classes=5 refused=0 sites=0'
ends_alone 'the type of an array of numbers is no package' good I 'sites classes=5 refused=0 sites=0'
mkdir empty
ends_alone 'no files' empty a.b 'sites classes=0 refused=0 sites=0'
check 'no files: nothing is said beside it' '' "$(cat err)"

# ---- small classes that don't

calls bad a.b
cat >wanted <<'LINES'
refused 00.class code opcode at=161
refused 01.class code opcode at=163
refused 02.class code opcode at=162
refused 03.class code short at=161
refused 04.class code short at=162
refused 05.class code short at=161
refused 06.class code short at=161
refused 07.class code short at=161
refused 08.class code short at=161
refused 09.class code short at=161
refused 10.class code switch at=162
refused 11.class code switch at=161
refused 12.class code operand at=162
refused 13.class code operand at=163
refused 14.class code operand at=162
refused 15.class code operand at=162
refused cut.class malformed truncated at=166
refused text.class malformed magic at=0
refused two.class code short at=198
site z/Opcodes.class in ()V at=0 op=b2 a/b/In in I
site z/Opcodes.class in ()V at=3 op=b3 a/b/In in I
site z/Opcodes.class in ()V at=6 op=b4 a/b/In in I
site z/Opcodes.class in ()V at=9 op=b5 a/b/In in I
site z/Opcodes.class in ()V at=12 op=b6 a/b/In in ()V
site z/Opcodes.class in ()V at=15 op=b7 a/b/In in ()V
site z/Opcodes.class in ()V at=18 op=b8 a/b/In in ()V
site z/Opcodes.class in ()V at=21 op=b9 a/b/In in ()V
sites classes=20 refused=19 sites=8
LINES
alike "classes that don't read" wanted 2

cp -r "$top/examples/first/app" changed
at=$(python3 "$top/tests/calls.py" code changed/WEB-INF/classes/web/Hello.class ca) || exit 1
calls changed javax.servlet
ends 'a first code byte that is no opcode' 2 "refused WEB-INF/classes/web/Hello.class code opcode at=$at
sites classes=2 refused=1 sites=0"

# ---- words, folders, limits

# wrong NAME WORD..: words that ask for nothing
wrong() {
  local name=$1
  shift
  migrate "$@"
  check "$name: status" 20 "$status"
  check "$name: output" 'migrate: 20 usage: ' "$(head -c 19 out)"
}
wrong 'no package' calls --from good
wrong 'no folder' calls --package a.b
wrong 'an empty package' calls --from good --package=
wrong 'a package with an empty part' calls --from good --package a..b
wrong 'a package with slashes' calls --from good --package a/b
wrong 'a package with all below it' calls --from good --package 'a.*'
wrong 'a package that begins with a digit' calls --from good --package 1a
wrong 'an option of another task' calls --from good --package a --rules r
wrong 'an option twice' calls --from good --package a --package b

calls missing a.b
ends 'a missing folder' 11 'migrate: 11 folder fault done=0'
mkdir large
truncate -s 67108865 large/x.class
calls large a.b
ends 'a class of one byte too many' 23 'migrate: 23 limit file-size x.class'
mv large/x.class large/x
ends_alone 'a file of as many that is no class' large a.b 'sites classes=0 refused=0 sites=0'
rm -r large

# ---- real libraries

# skip WHY: ends the test behind the small classes
skip() {
  echo "skipped: $1"
  skipped=1
  ended
  exit
}
command -v javac >/dev/null || skip "no JDK is here"
set -- spring3-core spring3-beans spring3-context spring3-web spring3-web.servlet jsf-api javax.mail commons-fileupload \
  commons-email taglibs-standard-spec taglibs-standard-impl geronimo-validation-1.1-spec geronimo-jpa_2.0_spec \
  openjpa-kernel openjpa-persistence hibernate-validator
for part in annotations-api api catalina coyote el-api jasper jasper-el jaspic-api jni jsp-api juli servlet-api util util-scan \
  websocket websocket-api; do
  set -- "$@" "tomcat9-$part"
done
for part in http io security server servlet util webapp; do
  set -- "$@" "jetty9-$part"
done
mkdir app
libraries=0
for name in "$@"; do
  if [ -f "$java/$name.jar" ]; then
    "$top/tools/unpack.py" "$java/$name.jar" "app/$name.jar" 2>unpacked || { cat unpacked >&2; exit 1; }
    libraries=$((libraries + 1))
  fi
done
rm -f app/*.entries
classes=$(find app -name '*.class' | wc -l)
[ "$classes" -ge 5000 ] || skip "only $classes classes of libraries are here"
mkdir both javap
jdk=$(dirname "$(dirname "$(readlink -f "$(command -v javac)")")")
if [ -f "$jdk/jmods/java.xml.jmod" ]; then
  "$jdk/bin/jmod" extract --dir both/java.xml "$jdk/jmods/java.xml.jmod" || exit 1
else
  echo "skipped: no module of a JDK is here"
  skipped=1
fi
mv app both/app
python3 "$top/tests/calls.py" sites both javap javax.servlet javax.xml java.util.concurrent || exit 1
for package in javax.servlet javax.xml java.util.concurrent; do
  calls both "$package"
  alike "$package as javap finds it" "javap/$package" 0
  echo "$package, $libraries libraries: $(tail -1 out)"
done
mv both/app app

# ---- before and after a migration

"$program" run --rules "$top/rules/jakarta-ee-9" --from app --to new --ledger ledger >report
check 'the migration: status' 0 "$?"

# uses: of the sites of the last run how often each member is used, at which place and by which method, without classes and descriptors
uses() {
  sed -n 's/^site [^ ]* \([^ ]*\) [^ ]* \(at=[^ ]* op=[^ ]*\) [^ ]* \([^ ]*\) .*/\1 \2 \3/p' out | LC_ALL=C sort
}
for package in servlet el mail persistence validation; do
  calls app "jakarta.$package"
  check "jakarta.$package before" "sites classes=$classes refused=0 sites=0" "$(cat out)"
  calls app "javax.$package"
  uses >wanted
  before=$(tail -1 out)
  calls new "javax.$package"
  check "javax.$package afterwards" "sites classes=$classes refused=0 sites=0" "$(cat out)"
  calls new "jakarta.$package"
  check "jakarta.$package afterwards: how many" "$before" "$(tail -1 out)"
  check "jakarta.$package afterwards: there are some" 1 "$([ -s wanted ] && echo 1)"
  uses >got
  long "jakarta.$package afterwards: which" wanted got
  echo "$package: $before"
done

ended

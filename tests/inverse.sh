#!/usr/bin/env bash
# Asks `invert` for the rules that take renames back. First small rule folders: the file, or what stands against it. Then the renames of
# the ready rules: the file is what tests/inverse.py makes of them, and its own inverse is the renames again, but for those that change
# nothing. At last real libraries as one application, migrated by these renames and back: each class is as before, as `javap -v -p`
# prints it with indices of the constant pool left out where their meaning stands beside them, and each other file has its bytes;
# of a manifest each header, which may be folded elsewhere. What already has a new name would come back with an old one, so libraries
# in which one of the new packages is named (in a class, a path or any other file) are left out. The libraries are those of the list
# below that are installed; with fewer than 20 of them the part is skipped with a line. A library is an archive /usr/share/java/NAME.jar.
#
# apt-get install openjdk-17-jdk-headless libspring-core-java libspring-beans-java libspring-context-java libspring-web-java \
#   libspring-web-servlet-java libtomcat9-java libjetty9-java libhibernate-validator-java libopenjpa-java libmail-java libjsf-api-java \
#   libcommons-fileupload-java libcommons-email-java libtaglibs-standard-spec-java libtaglibs-standard-impl-java \
#   libgeronimo-validation-1.1-spec-java libgeronimo-jpa-2.0-spec-java
set -u
cd "$(dirname "$0")/.."
. tests/common.sh
needs python3
top=$PWD
java=/usr/share/java
cd "$place" || exit 1

# inverts NAME STATUS LINES RENAMES [FILE TEXT]..: what `invert` answers to these renames, with further rule files beside them. The
# texts are formats of printf.
inverts() {
  local name=$1 wanted=$2 lines=$3
  rm -rf rules && mkdir rules
  printf "$4" >rules/renames.properties
  shift 4
  while [ $# -gt 0 ]; do
    printf "$2" >"rules/$1"
    shift 2
  done
  migrate invert --rules rules
  ends "$name" "$wanted" "$lines"
}

# ---- rules that can be taken back

inverts 'an exception is not taken over' 0 'jakarta.servlet.*=javax.servlet
jakarta.transaction.*=javax.transaction' 'javax.transaction.*=jakarta.transaction\njavax.transaction.xa=javax.transaction.xa\njavax.servlet.*=jakarta.servlet\n'
inverts 'packages without those below them' 0 'y=b
z=a' 'a=z\nb=y\n'
inverts 'keys in byte order' 0 'x$=b
x.*=a
xy=c' 'a.*=x\nb=x$\nc=xy\n'
inverts 'letters above ASCII' 0 'é=a.ü' 'a.ü=é\n'
inverts 'comments, blanks, escapes, a key twice' 0 'c=a' '# x\na=b\n\n \\u0061 : c  \n'
inverts 'targets that begin alike' 0 'b.*=a
bc=c' 'a.*=b\nc=bc\n'
inverts 'a package two segments below another' 0 'b=a
b.x.y=c' 'a=b\nc=b.x.y\n'
inverts 'other rule files without a key' 0 'b=a' 'a=b\n' direct.properties '# nothing\n' versions.properties '' selection.properties '\n'

# ---- what stands against it

inverts 'one target' 31 'migrate: 31 overlap a b' 'a=x\nb=x\n'
inverts 'a target whose front another gives' 31 'migrate: 31 overlap a c' 'a=b\nc=b.x\n'
inverts 'the same, with the keys exchanged' 31 'migrate: 31 overlap c d' 'd=b.x\nc=b\n'
inverts 'the same, where the first key comes behind' 31 'migrate: 31 overlap c a' 'a=b.x\nc=b\n'
inverts 'a target far below another' 31 'migrate: 31 overlap a.* c' 'a.*=b\nc=b.x.y\n'
inverts 'one target, of one package and of all below another' 31 'migrate: 31 overlap a.* b' 'a.*=x\nb=x\n'
inverts 'the least of many pairs' 31 'migrate: 31 overlap a d' 'c=x\nb=x\na=y\nd=y\ne=y\n'
inverts 'an exception overlaps nothing' 0 'x=b' 'b=x\nx=x\n'
inverts 'no change' 31 'migrate: 31 nothing' 'a=a\n'
inverts 'no change of many' 31 'migrate: 31 nothing' 'a=a\nb.*=b\n'
inverts 'versions' 31 'migrate: 31 not renames versions.properties' 'a=b\n' versions.properties 'b=1\n'
inverts 'bundles' 31 'migrate: 31 not renames bundles.properties' 'a=b\n' bundles.properties 'x=y\n'
inverts 'direct strings' 31 'migrate: 31 not renames direct.properties' 'a=b\n' direct.properties 'x=y\n'
inverts 'a selection' 31 'migrate: 31 not renames selection.properties' 'a=b\n' selection.properties 'x=!\n'
inverts 'texts' 31 'migrate: 31 not renames text.properties' 'a=b\n' text.properties '*.txt=t.properties\n' t.properties 'a=b\n'
inverts 'the first of two files' 31 'migrate: 31 not renames direct.properties' 'a=b\n' selection.properties 'x=!\n' direct.properties 'x=y\n'
inverts 'other rules before no change' 31 'migrate: 31 not renames versions.properties' 'a=a\n' versions.properties 'b=1\n'
inverts 'other rules before an overlap' 31 'migrate: 31 not renames versions.properties' 'a=x\nb=x\n' versions.properties 'b=1\n'
inverts 'no renames' 22 'migrate: 22 no renames' ''
inverts 'a chain' 22 'migrate: 22 chain 1 a b' 'a=b\nb=c\n'
inverts 'a key that is no package' 22 'migrate: 22 bad key renames.properties a..b' 'a..b=c\n'
head -c 1048577 /dev/zero | tr '\0' '#' >rules/renames.properties
migrate invert --rules rules
ends 'a rule file of one byte too many' 23 'migrate: 23 limit rule-size renames.properties'
migrate invert --rules missing
ends 'a missing folder' 11 'migrate: 11 folder fault done=0'
for words in '' '--rules' '--rules rules --from a' '--rules rules --rules rules' 'rules'; do
  migrate invert $words
  check "invert $words: status" 20 "$status"
  check "invert $words: output" 'migrate: 20 usage: ' "$(head -c 19 out)"
done
migrate invert --rules "$top/rules/jakarta-ee-9"
ends 'the ready rules' 31 'migrate: 31 not renames versions.properties'

# ---- the renames of the ready rules

mkdir renames back again
cp "$top/rules/jakarta-ee-9/renames.properties" renames/
migrate invert --rules renames
check 'the renames of the ready rules: status' 0 "$status"
cp out back/renames.properties
python3 "$top/tests/inverse.py" inverse renames/renames.properties >wanted
same 'the renames of the ready rules' wanted out
migrate invert --rules back
check 'the inverse of the inverse: status' 0 "$status"
cp out again/renames.properties
python3 "$top/tests/inverse.py" changing renames/renames.properties >wanted
same 'the inverse of the inverse' wanted out

# there_and_back FROM: migrates an application by the renames to FROM-new, and by their inverse to FROM-back
there_and_back() {
  "$program" run --rules renames --from "$1" --to "$1-new" --ledger "$1-new.ledger" >there
  check "$1: there" 0 "$?"
  "$program" run --rules back --from "$1-new" --to "$1-back" --ledger "$1-back.ledger" >again.report
  check "$1: and back" 0 "$?"
}

# ---- a name that is new already comes back with the old one

mkdir -p old/META-INF/services
printf 'javax.servlet.Filter\njavax.transaction.xa.XAResource\n' >old/META-INF/services/javax.servlet.Filter
printf 'jakarta.servlet.Filter\njakarta.none.Filter\n' >old/META-INF/services/jakarta.none.Filter
there_and_back old
printf 'META-INF/services/jakarta.none.Filter: other bytes\n' >wanted
python3 "$top/tests/inverse.py" compare old old-back >got 2>counts
same 'a name that is new already' wanted got
printf 'javax.servlet.Filter\njakarta.none.Filter\n' >wanted
same 'what comes of it' wanted old-back/META-INF/services/jakarta.none.Filter

# ---- real libraries

# skip WHY: ends the test behind the small rules
skip() {
  echo "skipped: $1"
  skipped=1
  ended
  exit
}
command -v javap >/dev/null || skip "no JDK is here"
set -- spring3-core spring3-beans spring3-context spring3-web spring3-web.servlet jsf-api javax.mail commons-fileupload \
  commons-email taglibs-standard-spec taglibs-standard-impl geronimo-validation-1.1-spec geronimo-jpa_2.0_spec \
  openjpa-kernel openjpa-persistence openjpa-persistence-jdbc hibernate-validator
for part in annotations-api api catalina coyote el-api jasper jasper-el jaspic-api jni jsp-api juli servlet-api util util-scan \
  websocket websocket-api; do
  set -- "$@" "tomcat9-$part"
done
for part in http io jaas rewrite security server servlet servlets util webapp; do
  set -- "$@" "jetty9-$part"
done
mkdir all app
for name in "$@"; do
  if [ -f "$java/$name.jar" ]; then
    "$top/tools/unpack.py" "$java/$name.jar" "all/$name.jar" 2>unpacked || { cat unpacked >&2; exit 1; }
  fi
done
rm -f all/*.entries
python3 "$top/tests/inverse.py" free all renames/renames.properties >names || exit 1
libraries=$(wc -l <names)
[ "$libraries" -ge 20 ] || skip "only $libraries libraries are here in which no new package is named"
echo "$libraries libraries; left out, since a new package is named in them: $(ls all | grep -vxFf names | tr '\n' ' ')"
while read -r name; do mv "all/$name" app/; done <names

there_and_back app
check 'none is refused there' 'refused=0' "$(tail -1 there | grep -o 'refused=[0-9]*')"
check 'none is refused on the way back' 'refused=0' "$(tail -1 again.report | grep -o 'refused=[0-9]*')"
changed=$(grep -c ' class renamed=[1-9]' there)
check 'at least 1,000 classes were changed in between' yes "$([ "$changed" -ge 1000 ] && echo yes || echo "$changed")"
check 'and a manifest' yes "$(grep -q ' manifest changed=[1-9]' there && echo yes)"
check 'and a service file, by its path or its lines' yes \
  "$(awk '$1 == "written" && $4 == "service" && ($2 != $3 || $5 != "changed=0") { print "yes"; exit }' there)"
: >nothing
python3 "$top/tests/inverse.py" compare app app-back >got || echo failed >>got
same 'classes and other files, there and back' nothing got
echo "there: $(tail -1 there), $changed classes changed"
echo "back: $(tail -1 again.report)"

ended

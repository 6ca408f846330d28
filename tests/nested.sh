#!/usr/bin/env bash
# Migrates a real folder of nested archives that were unpacked, and compares the report, the targets and the exit status with
# what the rules say; then tries rule files with one fault each. The expected lines are written by hand.
set -u
cd "$(dirname "$0")/.."
. tests/common.sh
cd "$place" || exit 1

# put PATH TEXT: a file of this text
put() {
  mkdir -p "$(dirname "$1")"
  printf "$2" >"$1"
}

# ---- an application of nested archives

put rules/renames.properties 'javax.servlet.*=jakarta.servlet\n'
put rules/selection.properties 'legacy/*=!\n'
put rules/text.properties '*web.xml=webxml.properties\n'
put rules/webxml.properties 'javax.servlet.=jakarta.servlet.\n'

put app/META-INF/MANIFEST.MF 'Manifest-Version: 1.0\r\n'
put app/META-INF/services/javax.servlet.ServletContainerInitializer 'web.Init # first\njavax.servlet.X\n'
put app/META-INF/versions/11/javax/servlet/F.class 'no class'
put app/legacy/javax/servlet/Old.class 'not selected'
put app/lib/javax.servlet.jar/META-INF/services/javax.servlet.Filter 'javax.servlet.http.F\r\n'
put app/lib/javax.servlet.jar/META-INF/services/bad 'web.Init x\n'
put app/lib/javax.servlet.jar/javax/servlet/notes.txt 'notes'
put app/shop.war/WEB-INF/classes/javax/servlet/F.class 'no class'
put app/shop.war/WEB-INF/classes/javax/servlet/messages.properties 'a=b'
put app/shop.war/WEB-INF/lib/a.jar 'PK'
put app/shop.war/WEB-INF/web.xml '<listener-class>javax.servlet.L</listener-class>'
put app/x/javax/servlet/readme.txt 'stays'

cat >wanted <<'TXT'
written META-INF/MANIFEST.MF META-INF/MANIFEST.MF manifest changed=0
written META-INF/services/javax.servlet.ServletContainerInitializer META-INF/services/jakarta.servlet.ServletContainerInitializer service changed=1
refused META-INF/versions/11/javax/servlet/F.class malformed magic at=0
written legacy/javax/servlet/Old.class legacy/javax/servlet/Old.class copy
refused lib/javax.servlet.jar/META-INF/services/bad bad-line at=0
written lib/javax.servlet.jar/META-INF/services/javax.servlet.Filter lib/javax.servlet.jar/META-INF/services/jakarta.servlet.Filter service changed=1
written lib/javax.servlet.jar/javax/servlet/notes.txt lib/javax.servlet.jar/jakarta/servlet/notes.txt copy
refused shop.war/WEB-INF/classes/javax/servlet/F.class malformed magic at=0
written shop.war/WEB-INF/classes/javax/servlet/messages.properties shop.war/WEB-INF/classes/jakarta/servlet/messages.properties copy
written shop.war/WEB-INF/lib/a.jar shop.war/WEB-INF/lib/a.jar copy
written shop.war/WEB-INF/web.xml shop.war/WEB-INF/web.xml text changed=1
written x/javax/servlet/readme.txt x/javax/servlet/readme.txt copy
total files=12 written=9 kept=0 refused=3 renamed=0 added=0
status 2
TXT
"$program" run --ledger=l --workers 4 --to out --from=app --rules rules >got
echo "status $?" >>got
same "the report of an application of nested archives" wanted got

mkdir -p wanted_out
(
  cd wanted_out || exit 1
  put META-INF/services/jakarta.servlet.ServletContainerInitializer 'web.Init # first\njakarta.servlet.X\n'
  put legacy/javax/servlet/Old.class 'not selected'
  put lib/javax.servlet.jar/META-INF/services/jakarta.servlet.Filter 'jakarta.servlet.http.F\r\n'
  put lib/javax.servlet.jar/jakarta/servlet/notes.txt 'notes'
  put shop.war/WEB-INF/classes/jakarta/servlet/messages.properties 'a=b'
  put shop.war/WEB-INF/lib/a.jar 'PK'
  put x/javax/servlet/readme.txt 'stays'
  put META-INF/MANIFEST.MF 'Manifest-Version: 1.0\r\n'
  put shop.war/WEB-INF/web.xml '<listener-class>jakarta.servlet.L</listener-class>'
)
diff -r wanted_out out >differences 2>&1
: >nothing
same "the target folder" nothing differences

# ---- one fault each: the words of the report, and the exit status

# ends NAME STATUS LINE [WORD..]: the run prints this line alone and ends with this status
ends() {
  name=$1 status=$2 line=$3
  shift 3
  printf '%s\nstatus %s\n' "$line" "$status" >wanted
  rm -rf out
  "$program" "$@" >got
  echo "status $?" >>got
  same "$name" wanted got
  if [ -e out ]; then failed=$((failed + 1)); echo "something was written: $name" >&2; fi
}

# faulty NAME LINE FILE TEXT [FILE TEXT..]: the rule files end the run with this line
faulty() {
  name=$1 line=$2
  shift 2
  rm -rf r
  while [ $# -gt 0 ]; do put "r/$1" "$2"; shift 2; done
  ends "$name" 22 "$line" run --rules r --from app --to out --ledger l2
}

usage='migrate: 20 usage: migrate run --rules R --from A --to B --ledger L [--workers N] [--verify] or migrate generate --count N [--workers N] [--sql] or migrate calls --from A --package P or migrate compare --rules R --from A --other B or migrate invert --rules R'
ends "no words" 20 "$usage"
ends "an option twice" 20 "$usage" run --rules rules --from app --to out --ledger l2 --rules rules
ends "an option without its value" 20 "$usage" run --rules rules --from app --to out --ledger
ends "more workers than 64" 20 "$usage" run --rules rules --from app --to out --ledger l2 --workers 65
ends "a root that leads upward" 20 "$usage" run --rules rules --from app --to ../out --ledger l2
ends "a target in the source" 21 'migrate: 21 nested roots app app/x' run --rules rules --from app --to app/x --ledger l2

faulty "no file of renames" 'migrate: 22 no renames' versions.properties 'a=1\n'
faulty "an empty file of renames" 'migrate: 22 no renames' renames.properties ''
faulty "an escape without its digits" 'migrate: 22 properties renames.properties escape 1' renames.properties 'a\\u12=b\n'
faulty "bytes that are no UTF-8" 'migrate: 22 properties direct.properties not-utf8 2' renames.properties 'a=b\n' direct.properties 'a=\377\n'
faulty "a key with an empty segment" 'migrate: 22 bad key renames.properties a..b' renames.properties 'a..b=c\n'
faulty "a value that is a below rule" 'migrate: 22 bad value renames.properties a' renames.properties 'a=b.*\n'
faulty "a text rule file that is missing" 'migrate: 22 missing text *.xml x.properties' renames.properties 'a=b\n' text.properties '*.xml=x.properties\n'
faulty "two renames in a chain" 'migrate: 22 chain 1 a b' renames.properties 'a=b\nb=c\n'
faulty "a rename that meets itself" 'migrate: 22 chain 1 a.* a.*' renames.properties 'a.*=a.x\n'
faulty "a direct rule into a rename" 'migrate: 22 chain 4 x a' renames.properties 'a=b\n' direct.properties 'x=a.C\n'
faulty "two bundle updates in a chain" 'migrate: 22 chain 5 a b' renames.properties 'x=y\n' bundles.properties 'a=b\nb=c\n'

rm -rf clash
put clash/javax/servlet/a.txt '1'
put clash/jakarta/servlet/a.txt '2'
ends "two files of one target" 24 'migrate: 24 path clash jakarta/servlet/a.txt javax/servlet/a.txt' run --rules rules --from clash --to out --ledger l2

# ---- limits, and an empty source

large=67108865
mkdir large
head -c $large /dev/zero >large/x.class
ends "a class of one byte too many" 23 'migrate: 23 limit file-size x.class' run --rules rules --from large --to out --ledger l2
mv large/x.class large/x
"$program" run --rules rules --from large --to out --ledger l2 >got
echo "status $?" >>got
printf 'written x x copy\ntotal files=1 written=1 kept=0 refused=0 renamed=0 added=0\nstatus 0\n' >wanted
same "a file that is copied, of one byte more than a class may have" wanted got
rm -rf large

# a relative path of 1,025 bytes: five folders of 200 bytes, each with its `/`, and a name of 20 bytes
folder=$(printf '%0200d' 0)
path=$folder/$folder/$folder/$folder/$folder/$(printf '%020d' 0)
mkdir -p "long/${path%/*}"
: >"long/$path"
ends "a path of ${#path} bytes" 23 "migrate: 23 limit path-length $path" run --rules rules --from long --to out --ledger l2
rm -rf long

mkdir empty
ends "a source without files" 0 'total files=0 written=0 kept=0 refused=0 renamed=0 added=0' run --rules rules --from empty --to out --ledger l3

ends "a count of 0" 20 "$usage" generate --count 0

ended

#!/usr/bin/env bash
# Migrates the classes of a JDK by 1, 2, 3, 8 and 64 workers, beside archives that are copied in parts, texts, a service file, a
# manifest and classes that are refused: the status, the report and the target folder are the same, byte by byte, by each number.
# A second run over the ledger of each, by another number of workers, keeps every file that was written, and changes nothing in
# the target; the report that it must print is made from the lines of the first.
#
# Usage: tests/workers.sh [JDK], the home of a JDK for Java 21 or an earlier one; by default that which `javac` belongs to.
# Without one with at least 6,000 classes it is skipped with a line. It writes about 1.5 GB below the temporary folder.
set -u
if [ $# -gt 0 ]; then
  jdk=$(realpath "$1")
elif command -v javac >/dev/null; then
  jdk=$(dirname "$(dirname "$(readlink -f "$(command -v javac)")")")
else
  jdk=
fi
cd "$(dirname "$0")/.."
. tests/common.sh
[ -f "$jdk/lib/modules" ] && [ -x "$jdk/bin/jimage" ] || lacks "no JDK with its modules is here"
cd "$place" || exit 1

# ---- the application: the modules of the JDK as archives, and files of each other kind

"$jdk/bin/jimage" extract --dir modules "$jdk/lib/modules" || exit 1
classes=$(find modules -name '*.class' | wc -l)
[ "$classes" -ge 6000 ] || lacks "only $classes classes are here"
object=modules/java.base/java/lang/Object.class
mkdir -p rules app/META-INF/services app/lib app/texts app/odd
for bytes in 0 1 10 100 1000; do
  head -c "$bytes" "$object" >"app/odd/$bytes.class"
done
for module in modules/*; do
  mv "$module" "app/${module#modules/}.jar"
done
cp -L "$jdk/lib/jrt-fs.jar" /usr/share/java/*.jar app/lib/ 2>/dev/null
: >app/lib/empty.jar
head -c 1048576 "$jdk/lib/modules" >app/lib/a-part.jar
head -c 70000000 "$jdk/lib/modules" >app/lib/large.jar
for i in $(seq 100); do
  seq -f "<class>javax.crypto.Class%g</class>" "${i}00" >"app/texts/$i.xml"
done
printf 'javax.crypto.Provider\n' >app/META-INF/services/javax.crypto.Service
printf 'Manifest-Version: 1.0\r\nImport-Package: javax.crypto\r\n\r\n' >app/META-INF/MANIFEST.MF
printf 'java.util.*=renamed.util\njava.util=java.util\njavax.*=jakarta\njavax=javax\n' >rules/renames.properties
printf '*.xml=packages.properties\n' >rules/text.properties
printf 'javax.crypto.=jakarta.crypto.\n' >rules/packages.properties

# same_run NAME WANTED GOT: the two files are equal; where they aren't, what the last run wrote on standard error is shown too
same_run() {
  local before=$failed
  same "$@"
  [ "$failed" = "$before" ] || cat errors >&2
}

# migrated NUMBER ORDER: a run by so many workers, from `app` to out-ORDER; its report is the file `report`, and what it writes on
# standard error the file `errors`. Some classes are refused
migrated() {
  "$program" run --rules rules --from app --to "out-$2" --ledger "ledger-$2" --workers "$1" >report 2>errors
  printf '%s\n' "$?" >got
  printf '2\n' >wanted
  same_run "the status by $1 workers" wanted got
}

# states ORDER: each file and folder below out-ORDER with its number on the disk, its size and the time at which it was written
states() {
  find "out-$1" -printf '%p %i %s %T@\n' | LC_ALL=C sort
}

# kept: the report of a run that keeps all that the report on standard input has as written
kept() {
  sed -e 's/^written \([^ ]* [^ ]*\) .*/kept \1/' \
    -e 's/^total \(files=[0-9]*\) written=\([0-9]*\) kept=0 \(refused=[0-9]*\) .*/total \1 written=0 kept=\2 \3 renamed=0 added=0/'
}

# ---- runs by each number of workers, and second runs by another

for numbers in '1 64' '2 1' '3 8' '8 2' '64 3'; do
  first=${numbers% *} second=${numbers#* }
  migrated "$first" "$first"
  cp report "report-$first"
  if [ "$first" = 1 ]; then
    printf 'app/odd/%s.class\n' 0 1 10 100 1000 >wanted
    grep '^refused ' report | sed 's,^refused \([^ ]*\) .*,app/\1,' >got
    same_run "what is refused" wanted got
    # A package of the rules that the JDK's classes have: so the rules change something.
    grep -c '^written java.base.jar/javax/crypto/.* java.base.jar/jakarta/crypto/.* class renamed=[1-9]' report >got
    find app/java.base.jar/javax/crypto -name '*.class' | wc -l >wanted
    same_run "classes of a package that is renamed" wanted got
  else
    same_run "the report by $first workers" report-1 report
    diff -r out-1 "out-$first" >got 2>&1
    : >wanted
    same_run "the target by $first workers" wanted got
  fi
  states "$first" >before
  migrated "$second" "$first"
  kept <"report-$first" >wanted
  same_run "the report of a second run by $second workers" wanted report
  states "$first" >after
  same_run "the target of a second run by $second workers" before after
  [ "$first" = 1 ] || rm -rf "out-$first"
done
echo "$classes classes: $(tail -1 report-1)"

ended

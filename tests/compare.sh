#!/usr/bin/env bash
# Asks `compare` whether another application is what the rules make of one. First of the small example and of made-up folders: files
# that are missing, more or changed, classes that are cut, changed or written with another constant pool, which of two differences is
# told, more files than the workers are handed at once, odd paths, refused files, other words, limits. The lines are written by hand.
# Then of real libraries, each migrated by the ready rules:
#
# - beside what the run wrote: the same;
# - beside what Apache Tomcat's migration tool for Jakarta EE writes, where that is here;
# - beside the run's classes as ASM writes them again, which arranges the constant pool anew, and some attributes, too; and the same
#   where ASM had written the library before the run, so that the pool alone is arranged anew, and in each class; where ASM is here;
# - beside the run's files with one class changed, for each library in each of the ways of tests/compare.py: in a code, the entry that
#   an instruction names, a name, a string, a flag, the order of two members, an annotation; and classes that are none any more.
#
# What is wanted comes of `javap -v -p` of both sides (tests/compare.py) and of their bytes, never of the program: of each library the
# line for all files, the line for its class files alone, and that it is the same where only classes are exchanged that javap prints
# alike. The libraries are those of the list below that are installed; with fewer than 12 these parts are skipped with a line. A library
# is an archive /usr/share/java/NAME.jar. `javap` takes a few minutes. The program reads 1 GiB of empty files for one of the limits.
#
# apt-get install openjdk-17-jdk-headless libasm-java tomcat-jakartaee-migration libspring-web-java libtomcat9-java libjetty9-java \
#   libhibernate-validator-java libopenjpa-java libmail-java libjsf-api-java libcommons-fileupload-java libcommons-email-java \
#   libtaglibs-standard-spec-java libtaglibs-standard-impl-java libgeronimo-validation-1.1-spec-java libgeronimo-jpa-2.0-spec-java
set -u
cd "$(dirname "$0")/.."
. tests/common.sh
needs python3
top=$PWD
java=/usr/share/java
asm=$java/asm.jar
cd "$place" || exit 1

# helper WORD..: what tests/compare.py answers
helper() {
  python3 "$top/tests/compare.py" "$@"
}

# compares RULES FROM OTHER: runs the program; out, err and status hold what it answered
compares() {
  migrate compare --rules "$1" --from "$2" --other "$3"
}

# equal NAME RULES FROM OTHER FILES: these are the same, of so many files
equal() {
  compares "$2" "$3" "$4"
  ends "$1" 0 "same files=$5"
}

# files FOLDER: how many there are below it
files() {
  find "$1" -type f | wc -l
}

# ---- the example, and other files

first=$top/examples/first
"$program" run --rules "$first/rules" --from "$first/app" --to new --ledger ledger >report
check 'the example: status of the run' 0 "$?"
tree new >before

# fresh: other becomes what the run wrote
fresh() {
  rm -rf other
  cp -r new other
}

# differs NAME PATH WHAT: what `compare` answers of the example beside other
differs() {
  compares "$first/rules" "$first/app" other
  ends "$1" 3 "differs $2 $3"
}

hello=WEB-INF/classes/web/Hello.class
pair='WEB-INF/classes/web/Hello$Pair.class'
service=WEB-INF/classes/META-INF/services/jakarta.servlet.Greeting
equal 'what the run wrote' "$first/rules" "$first/app" new "$(files new)"
cp -r new other
mkdir -p other/empty/folder
equal 'with a folder without files' "$first/rules" "$first/app" other "$(files new)"

fresh && echo more >other/WEB-INF/zz.txt
differs 'a file more' WEB-INF/zz.txt extra
fresh && rm other/readme.txt
differs 'a file less' readme.txt missing
fresh && rm -r other/WEB-INF/classes/web
differs 'a folder less' "$pair" missing
for path in readme.txt META-INF/MANIFEST.MF WEB-INF/web.xml "$service"; do
  fresh && printf ' ' >>"other/$path"
  differs "a byte more in $path" "$path" bytes
done
fresh && truncate -s 0 other/readme.txt
differs 'an empty file' readme.txt bytes
fresh && cp "$first/app/WEB-INF/web.xml" other/WEB-INF/
differs 'a descriptor that was left as it was' WEB-INF/web.xml bytes
fresh && mv "other/$service" "other/${service%/*}/javax.servlet.Greeting"
differs 'a service file under its old path' "$service" missing
fresh && rm other/readme.txt && mkdir other/readme.txt && echo x >other/readme.txt/x
differs 'a folder in place of a file' readme.txt missing
fresh && : >other/x.class
differs 'a file more that is named as a class' x.class extra
fresh && for by in 3 1 2; do echo x >"other/a$by"; done
differs 'many files more' a1 extra

# ---- one class of it

fresh && printf x >>"other/$hello"
differs 'a class with a byte more' "$hello" malformed
fresh && truncate -s 0 "other/$hello"
differs 'an empty class' "$hello" malformed
fresh && echo 'no class' >"other/$hello"
differs 'a text in place of a class' "$hello" malformed
fresh && cp "other/$pair" "other/$hello"
differs 'another class in its place' "$hello" tree
fresh && cp "$first/app/$hello" "other/$hello"
differs 'a class that was left as it was' "$hello" tree

# way NAME: the example's class, changed in this way
way() {
  fresh && helper put "$1" "other/$hello" || exit 1
}
for way in code index-in-code name flag flag-of-class order version; do
  way "$way" && differs "the class, $way" "$hello" tree
done
for way in tag index-of-name cut; do
  way "$way" && differs "the class, $way" "$hello" malformed
done
way doubled && equal 'the class, doubled' "$first/rules" "$first/app" other "$(files new)"
helper put doubled "other/$hello" && equal 'the class, doubled twice' "$first/rules" "$first/app" other "$(files new)"
helper put code "other/$hello" && differs 'the class, doubled twice, code' "$hello" tree

# ---- which of two is told

way cut && echo x >>other/readme.txt
differs 'a class before a text' "$hello" malformed
way code && echo x >>other/WEB-INF/web.xml
differs 'a class before a descriptor' "$hello" tree
way code && rm "other/$pair"
differs 'a class that is missing before one that is changed' "$pair" missing
way code && : >"other/${hello%.class}\$A.class"
differs 'a class more before one that is changed' "${hello%.class}\$A.class" extra
way code && : >other/a
differs 'a class before a file more' "$hello" tree
way cut && helper put code "other/$pair"
differs 'a changed class before one that is cut' "$pair" tree
fresh && echo x >>other/META-INF/MANIFEST.MF && rm other/readme.txt
differs 'a manifest before a file that is missing' META-INF/MANIFEST.MF bytes

tree new >after
same 'nothing was written' before after

# ---- more files than the workers are handed at once

mkdir many && for n in $(seq -w 0 2049); do echo "$n" >"many/f$n"; done
cp -r many others
equal '2,050 files' "$first/rules" many others 2050
for n in 0000 1022 1023 1024 1025 2047 2048 2049; do
  printf ' ' >>"others/f$n"
  compares "$first/rules" many others
  ends "2,050 files, a byte more in f$n" 3 "differs f$n bytes"
  rm "others/f$n"
  compares "$first/rules" many others
  ends "2,050 files without f$n" 3 "differs f$n missing"
  cp "many/f$n" others/
  : >"others/f${n}a"
  compares "$first/rules" many others
  ends "2,050 files, one more behind f$n" 3 "differs f${n}a extra"
  rm "others/f${n}a"
done
printf ' ' >>others/f1024 && rm others/f1023
compares "$first/rules" many others
ends '2,050 files, one missing before one that is changed' 3 'differs f1023 missing'
rm -r many others

# ---- paths in the order of the targets, and odd ones

mkdir -p rules moved/a other-moved
echo 'a=z' >rules/renames.properties
echo x >moved/a/x.txt
echo m >moved/m.txt
compares rules moved other-moved
ends 'no files at the other side' 3 'differs m.txt missing'
cp moved/m.txt other-moved/
compares rules moved other-moved
ends 'a file whose path moves' 3 'differs z/x.txt missing'
mkdir other-moved/z && cp moved/a/x.txt other-moved/z/
equal 'a file whose path moved' rules moved other-moved 2
compares rules moved moved
ends 'a file whose path stayed' 3 'differs a/x.txt extra'
mkdir none none-either
equal 'no files' rules none none-either 0
compares rules none moved
ends 'no files of its own' 3 'differs a/x.txt extra'

odd=$'b \303\251\\\n'
shown='b\20\c3\a9\5c\0a'
mkdir odd odd-other
echo x >"odd/$odd"
compares rules odd odd-other
ends 'an odd path that is missing' 3 "differs $shown missing"
compares rules odd-other odd
ends 'an odd path more' 3 "differs $shown extra"
echo y >"odd-other/$odd"
compares rules odd odd-other
ends 'an odd path with other bytes' 3 "differs $shown bytes"
cp "odd/$odd" odd-other/
equal 'an odd path' rules odd odd-other 1

# ---- files without an image, and classes that aren't selected

mkdir -p refused/META-INF/services refused-other
printf 'a.B\nc d\n' >refused/META-INF/services/x.Y
echo 'no class' >refused/b.class
echo x >refused/t.txt
compares rules refused refused-other
ends 'refused files' 2 'refused META-INF/services/x.Y bad-line at=4
refused b.class malformed magic at=0'
rm -r refused/META-INF
cp refused/t.txt refused-other/
compares rules refused refused-other
ends 'a refused file that the other side lacks' 2 'refused b.class malformed magic at=0'
cp refused/b.class refused-other/
compares rules refused refused-other
ends 'a refused file with the same bytes' 2 'refused b.class malformed magic at=0'
echo 'b.class=!' >rules/selection.properties
equal "a file that isn't selected, with the same bytes" rules refused refused-other 2
echo 'another' >refused-other/b.class
compares rules refused refused-other
ends "a file that isn't selected, with other bytes" 3 'differs b.class bytes'
cp "new/$hello" refused-other/b.class
compares rules refused refused-other
ends "no class, and a class in its place" 3 'differs b.class bytes'
cp "new/$hello" refused/b.class
helper put doubled refused-other/b.class
equal "a class that isn't selected, doubled" rules refused refused-other 2
helper put flag refused-other/b.class
compares rules refused refused-other
ends "a class that isn't selected, flag" 3 'differs b.class tree'
echo 'no class' >refused-other/b.class
compares rules refused refused-other
ends "a class that isn't selected, and no class in its place" 3 'differs b.class malformed'
rm rules/selection.properties

# ---- words, folders, limits

# wrong NAME WORD..: words that ask for nothing
wrong() {
  local name=$1
  shift
  migrate "$@"
  check "$name: status" 20 "$status"
  check "$name: output" 'migrate: 20 usage: ' "$(head -c 19 out)"
}
wrong 'no other side' compare --rules rules --from moved
wrong 'no application' compare --rules rules --other moved
wrong 'no rules' compare --from moved --other moved
wrong 'an empty other side' compare --rules rules --from moved --other=
wrong 'an option of another task' compare --rules rules --from moved --other moved --to x
wrong 'an option of another task without a value' compare --rules rules --from moved --other moved --verify
wrong 'an option twice' compare --rules rules --from moved --other moved --other moved
wrong 'the option of another task' run --rules rules --from moved --to x --ledger y --other moved

compares rules missing moved
ends 'a missing application' 11 'migrate: 11 folder fault done=0'
compares rules moved missing
ends 'a missing other side' 11 'migrate: 11 folder fault done=0'
compares missing moved moved
ends 'missing rules' 11 'migrate: 11 folder fault done=0'
compares none moved moved
ends 'rules without renames' 22 'migrate: 22 no renames'

# against NAME STATUS LINE FROM OTHER: what stands against a comparison by these rules
against() {
  compares rules "$4" "$5"
  ends "$1" "$2" "migrate: $2 $3"
}
mkdir -p clash/a clash/z names stranded large large-other
echo x >clash/a/x
echo x >clash/z/x
against 'two files of one target' 24 'path clash a/x z/x' clash moved
cp "new/$hello" names/a.class
sed 's,web/Hello,wob/Hello,g' "new/$hello" >names/b.class
echo 'wob=web' >rules/renames.properties
against 'two classes of one name' 25 'name clash web/Hello wob/Hello web/Hello' names moved
truncate -s 67108865 large-other/x
against 'the same, beside a file of one byte too many' 25 'name clash web/Hello wob/Hello web/Hello' names large-other
cp "new/$hello" stranded/a.class
echo 'web=wob' >rules/renames.properties
echo 'a.class=!' >rules/selection.properties
against "a class that isn't selected, whose name changes" 26 'stranded a.class web/Hello' stranded moved
rm rules/selection.properties
echo 'a=z' >rules/renames.properties

against 'a file of one byte too many at the other side' 23 'limit file-size x' moved large-other
against 'a file of one byte too many' 23 'limit file-size x' large-other moved
mv large-other/x large/x.class
against 'a class of one byte too many' 23 'limit file-size x.class' large moved
rm large/x.class
head -c 34000000 /dev/zero | tr '\0' a >large/x.txt
echo '*.txt=text' >rules/text.properties
echo 'a=bb' >rules/text
against 'an image of too many bytes' 23 'limit file-size x.txt' large large
rm large/x.txt rules/text rules/text.properties
for by in 1 2 3 4 5 6 7 8; do
  truncate -s 67108864 large/$by large-other/$by
done
equal 'as many bytes as both may have' rules large large-other 8
: >large-other/z
compares rules large large-other
ends 'and an empty file' 3 'differs z extra'
echo >large-other/z
against 'one byte too many of both' 23 'limit both z' large large-other
rm -r large large-other

# ---- real libraries

# skip WHY: ends the test behind the small applications
skip() {
  echo "skipped: $1"
  skipped=$((skipped + 1))
  ended
  exit
}
command -v javac >/dev/null || skip "no JDK is here"
set -- taglibs-standard-spec taglibs-standard-impl commons-fileupload commons-email javax.mail jsf-api geronimo-validation-1.1-spec \
  geronimo-jpa_2.0_spec jetty9-servlet jetty9-servlets jetty9-webapp spring3-web tomcat9-servlet-api tomcat9-el-api tomcat9-jasper \
  tomcat9-websocket openjpa-persistence hibernate-validator
mkdir old migrated
found=
for name in "$@"; do
  if [ -f "$java/$name.jar" ]; then
    "$top/tools/unpack.py" "$java/$name.jar" "old/$name.jar" 2>unpacked || { cat unpacked >&2; exit 1; }
    found="$found $name"
  fi
done
set -- $found
[ $# -ge 12 ] || skip "only $# libraries are here"
rm -f old/*.entries

# migrates FROM TO NAME..: migrates each library by itself
migrates() {
  local from=$1 to=$2 name
  shift 2
  for name in "$@"; do
    "$program" run --rules "$top/rules/jakarta-ee-9" --from "$from/$name.jar" --to "$to/$name.jar" --ledger "ledger-$to-$name" >"report-$name"
    check "$name from $from: status of the run" 0 "$?"
  done
}

# answers NAME LINE FROM OTHER: `compare` by the ready rules prints this line, with its status
answers() {
  local wanted=3
  case $2 in same*) wanted=0 ;; esac
  compares "$top/rules/jakarta-ee-9" "$3" "$4"
  ends "$1" "$wanted" "$2"
}

# ---- beside what the run wrote

migrates old migrated "$@"
for name in "$@"; do
  answers "$name beside what the run wrote" "same files=$(files "migrated/$name.jar")" "old/$name.jar" "migrated/$name.jar"
done
"$program" run --rules "$top/rules/jakarta-ee-9" --from old --to whole --ledger whole-ledger >whole-report
check 'all libraries as one application: status of the run' 0 "$?"
answers 'all libraries as one application' "same files=$(files whole)" old whole
changed=$(grep -h '^written' report-* | grep -c ' class renamed=[1-9]')
check 'at least 1,000 classes were changed by the rules' yes "$([ "$changed" -ge 1000 ] && echo yes || echo "$changed")"

# ---- beside what others write

# beside WHO FROM IMAGES OTHERS: each library of FROM, whose images are IMAGES, beside OTHERS; "$alike" is how many classes of all say
# the same in other bytes
beside() {
  local who=$1 from=$2 images=$3 others=$4 name kind line
  rm -rf mixed
  helper wanted "$images" "$others" mixed >wanted-lines 2>counts || { cat counts >&2; exit 1; }
  echo "$who: $(tail -1 counts)"
  while read -r name kind line; do
    if [ "$kind" = all ]; then
      answers "$name beside $who" "$line" "$from/$name" "$others/$name"
      answers "$name beside $who, but for what javap prints otherwise" "same files=$(files "$images/$name")" "$from/$name" "mixed/$name"
    else
      rm -rf classes && mkdir classes
      cp -r "$from/$name" classes/from
      cp -r "$others/$name" classes/other
      find classes -type f ! -name '*.class' -delete
      answers "$name beside $who, its classes alone" "$line" classes/from classes/other
    fi
  done <wanted-lines
  alike=$(awk 'END { print $4 }' counts)
}

if command -v javax2jakarta >/dev/null; then
  mkdir peer packed
  for name in "$@"; do
    javax2jakarta -profile=EE "$java/$name.jar" "packed/$name.jar" >peer.log 2>&1 || { cat peer.log >&2; exit 1; }
    "$top/tools/unpack.py" "packed/$name.jar" "peer/$name.jar" 2>unpacked || { cat unpacked >&2; exit 1; }
  done
  rm -f peer/*.entries
  beside "Tomcat's tool" old migrated peer
else
  echo "skipped: no javax2jakarta is here"
  skipped=$((skipped + 1))
fi

if [ -f "$asm" ]; then
  javac -cp "$asm" -d rewrite "$top/tests/Rewrite.java" || exit 1
  # again FROM TO [constants]: the files below FROM, with each class as ASM writes it
  again() {
    java -cp "rewrite:$asm" Rewrite "$@" || exit 1
  }
  again migrated asm
  beside ASM old migrated asm
  check 'ASM: at least 500 classes say the same in other bytes' yes "$([ "$alike" -ge 500 ] && echo yes || echo "$alike")"
  again old old-asm
  mkdir migrated-asm
  migrates old-asm migrated-asm "$@"
  again migrated-asm asm-twice constants
  beside 'ASM behind ASM' old-asm migrated-asm asm-twice
  check 'ASM behind ASM: at least 2,500 classes say the same in other bytes' yes "$([ "$alike" -ge 2500 ] && echo yes || echo "$alike")"
else
  echo "skipped: no ASM is here"
  skipped=$((skipped + 1))
fi

# ---- with one class changed

helper change migrated changed >changes || exit 1
while read -r what way name path; do
  cp "migrated/$name/$path" kept
  cp "changed/$way/$name/$path" "migrated/$name/$path"
  if [ "$what" = same ]; then
    answers "$way in $name" "same files=$(files "migrated/$name")" "old/$name" "migrated/$name"
  else
    answers "$way in $name" "differs $path $what" "old/$name" "migrated/$name"
  fi
  cp kept "migrated/$name/$path"
done <changes
ways=$(cut -d ' ' -f 2 changes | sort -u | wc -l)
check 'each way was tried' "$(helper ways | wc -l)" "$ways"
echo "$(wc -l <changes) classes changed in $ways ways, of $# libraries"

ended

#!/usr/bin/env bash
# Compiles the example application, migrates it, and runs it in a JVM beside the renamed API. Then compares what `javap -v -p`
# prints of each class before and after: nothing but renamed texts may differ. Skipped where no JDK is.
set -u
cd "$(dirname "$0")/.."
. tests/common.sh
needs javac javap
source=$PWD/examples/first/source
rules=$PWD/examples/first/rules
cd "$place" || exit 1

# renamed: standard input with the API's package renamed, in both spellings
renamed() {
  sed 's,javax\([./]\)servlet\([./;>:<" ]\|$\),jakarta\1servlet\2,g'
}

# ---- the API, and the same API under its new name

mkdir -p new old_api new_api app/WEB-INF/classes/META-INF/services
(cd "$source/api" && find . -name '*.java') | while read -r file; do
  new=new/$(printf '%s' "$file" | sed 's,javax/servlet,jakarta/servlet,')
  mkdir -p "$(dirname "$new")"
  renamed <"$source/api/$file" >"$new"
done
javac --release 17 -d old_api $(find "$source/api" -name '*.java') || exit 1
javac --release 17 -d new_api $(find new -name '*.java') || exit 1

# ---- the application, with all that the compiler writes for debuggers

javac --release 17 -g -parameters -cp old_api -d app/WEB-INF/classes $(find "$source/web" -name '*.java') || exit 1
printf 'web.Hello\n' >app/WEB-INF/classes/META-INF/services/javax.servlet.Greeting
"$program" run --rules "$rules" --from app --to out --ledger ledger >report
status=$?
printf '0\n' >wanted
printf '%s\n' "$status" >got
same "the exit status" wanted got

java -cp app/WEB-INF/classes:old_api web.Hello | renamed >wanted
java -cp out/WEB-INF/classes:new_api web.Hello >got 2>&1
same "what the application prints in a JVM" wanted got

# said FILE: what javap prints of a class but for the file's own line, time and digest
said() {
  javap -v -p "$1" | grep -v '^Classfile \|^  Last modified \|^  SHA-256 checksum '
}

while read -r class; do
  said "app/$class" | renamed >wanted
  said "out/$class" >got
  same "$class" wanted got
done < <(cd app && find . -name '*.class' | sort)

# ---- a second migration changes nothing

"$program" run --rules "$rules" --from out --to again --ledger ledger2 >report
diff -r out again >differences 2>&1
: >nothing
same "a second migration" nothing differences

ended

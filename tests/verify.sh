#!/usr/bin/env bash
# Runs the built program with --verify over targets that somebody changed, cut, extended, removed, exchanged for a folder or a
# pipe, or took the permission of, and over a ledger of the first format. The expected lines are written by hand.
set -u
cd "$(dirname "$0")/.."
. tests/common.sh
needs sqlite3
trap 'chmod -R u+w "$place"; rm -rf "$place"' EXIT
cd "$place" || exit 1

# check NAME WANTED GOT: the two texts are equal
check() {
  if [ "$2" = "$3" ]; then passed=$((passed + 1)); else failed=$((failed + 1)); printf 'differs: %s\nwanted: %s\ngot: %s\n' "$1" "$2" "$3" >&2; fi
}

# run WORD..: what a run prints, and its exit status
run() {
  "$program" run --rules rules --from app --to out --ledger ledger "$@" 2>said
  echo "status $?"
}

# sums: each target with the digest of its content
sums() {
  (cd out && find . -type f -exec sha256sum {} + | sort -k 2)
}

mkdir -p rules app/META-INF/services
printf 'javax.servlet=jakarta.servlet\n' >rules/renames.properties
printf 'javax.servlet.Filter\n' >app/META-INF/services/javax.servlet.Filter
head -c 3000000 /dev/urandom >app/large.bin
printf 'hello' >app/readme.txt

filter='META-INF/services/javax.servlet.Filter META-INF/services/jakarta.servlet.Filter'
all_kept="kept $filter
kept large.bin large.bin
kept readme.txt readme.txt
total files=3 written=0 kept=3 refused=0 renamed=0 added=0
status 0"
large_written="kept $filter
written large.bin large.bin copy
kept readme.txt readme.txt
total files=3 written=1 kept=2 refused=0 renamed=0 added=0
status 0"
filter_written="written $filter service changed=1
kept large.bin large.bin
kept readme.txt readme.txt
total files=3 written=1 kept=2 refused=0 renamed=0 added=0
status 0"

run >/dev/null
whole=$(sums)
check 'nothing was touched' "$all_kept" "$(run --verify)"

# mended NAME WANTED: a run with --verify prints this, and the targets are whole again
mended() {
  check "$1: without --verify all is kept" "$all_kept" "$(run)"
  check "$1" "$2" "$(run --verify)"
  check "$1: the targets are whole" "$whole" "$(sums)"
  check "$1: then all is kept" "$all_kept" "$(run --verify)"
}

target=out/META-INF/services/jakarta.servlet.Filter

printf 'X' | dd of=out/large.bin bs=1 seek=1500000 conv=notrunc status=none
mended 'one byte in the middle' "$large_written"
truncate -s 2999999 out/large.bin
mended 'a target that was cut' "$large_written"
truncate -s 0 out/large.bin
mended 'a target that was emptied' "$large_written"
printf 'X' >>out/large.bin
mended 'a target that was extended' "$large_written"
printf '\n' >>$target
mended 'a service file with a line more' "$filter_written"
cp app/META-INF/services/javax.servlet.Filter $target
mended 'the source in place of its image' "$filter_written"
rm out/large.bin
mended 'a target that is gone' "$large_written"
rm -r out/META-INF
mended 'a folder that is gone' "$filter_written"
rm -r out
mended 'a target folder that is gone' "written $filter service changed=1
written large.bin large.bin copy
written readme.txt readme.txt copy
total files=3 written=3 kept=0 refused=0 renamed=0 added=0
status 0"

# ---- what can't be looked at is a folder fault, and changes nothing

# faulty NAME CAUSE: a run with --verify ends with 11 and says why on standard error
faulty() {
  check "$1" 'migrate: 11 folder fault done=0
status 11' "$(run --verify)"
  case "$(cat said)" in *"$2"*) passed=$((passed + 1)) ;; *) failed=$((failed + 1)); printf '%s: standard error lacks %s: %s\n' "$1" "$2" "$(cat said)" >&2 ;; esac
}

rm out/large.bin && mkdir out/large.bin
faulty 'a folder in place of a target' 'out/large.bin'
rmdir out/large.bin && mkfifo out/large.bin
faulty 'a pipe in place of a target' 'out/large.bin'
rm out/large.bin
mended 'the pipe is gone' "$large_written"
if [ "$(id -u)" != 0 ]; then
  chmod a-r out/large.bin
  faulty 'a target that may not be read' 'out/large.bin'
  chmod u+r out/large.bin
fi

# ---- a ledger of the first format knows no outputs: --verify writes each file again

sqlite3 ledger 'CREATE TABLE written (target BLOB NOT NULL PRIMARY KEY, source BLOB NOT NULL, digest BLOB NOT NULL) STRICT' \
  'INSERT INTO written SELECT target, source, digest FROM rows2' 'DROP TABLE rows2'
check 'the first format: all is kept' "$all_kept" "$(run)"
check 'the first format: a look finds no outputs' "written $filter service changed=1
written large.bin large.bin copy
written readme.txt readme.txt copy
total files=3 written=3 kept=0 refused=0 renamed=0 added=0
status 0" "$(run --verify)"
check 'and notes them' "$all_kept" "$(run --verify)"

# ---- the word

for words in '--verify=1' '--verify=' '--verify --verify'; do
  check "$words" 'status 20' "$(run $words | tail -1)"
done

ended

#!/usr/bin/env bash
# Runs the built program over a small application with a ledger on disk: the file opens with sqlite3 and holds the expected
# rows, a second run keeps every file, other rules end with 27, and each file that can't be a ledger ends the run with 12 and
# stays as it is. `generate` says the same over a database in memory as over a plain list. The expected lines are written by hand.
set -u
cd "$(dirname "$0")/.."
. tests/common.sh
needs sqlite3
trap 'chmod -R u+w "$place"; rm -rf "$place"' EXIT
cd "$place" || exit 1

# run RULES TO LEDGER: what a run prints, and its exit status, without what it says beside it
run() {
  "$program" run --rules "$1" --from app --to "$2" --ledger "$3" 2>/dev/null
  echo "status $?"
}

mkdir -p rules others app/META-INF/services app/sub
printf 'javax.servlet=jakarta.servlet\n' >rules/renames.properties
printf 'javax.servlet=jakarta.other\n' >others/renames.properties
printf 'javax.servlet.Filter\n' >app/META-INF/services/javax.servlet.Filter
printf 'hello' >app/readme.txt
printf '' >app/sub/empty

# ---- a first run, and what sqlite3 finds

report='written META-INF/services/javax.servlet.Filter META-INF/services/jakarta.servlet.Filter service changed=1
written readme.txt readme.txt copy
written sub/empty sub/empty copy
total files=3 written=3 kept=0 refused=0 renamed=0 added=0
status 0'
check 'first run' "$report" "$(run rules out ledger)"
cp -r . "$place.seen"
seen=$place.seen/ledger
check 'integrity' ok "$(sqlite3 "$seen" 'PRAGMA integrity_check')"
check 'tables' 'folder
header
rows2' "$(sqlite3 "$seen" "SELECT name FROM sqlite_schema WHERE type = 'table' ORDER BY name")"
check 'kinds' 'blob|blob|blob|blob' "$(sqlite3 "$seen" 'SELECT DISTINCT typeof(target), typeof(source), typeof(digest), typeof(output) FROM rows2')"
check 'folder' "$PWD" "$(sqlite3 "$seen" 'SELECT CAST(path AS TEXT) FROM folder')"
check 'header' 'app|out|32' "$(sqlite3 "$seen" 'SELECT CAST(from_root AS TEXT), CAST(to_root AS TEXT), length(rules) FROM header')"
wanted=
for pair in META-INF/services/jakarta.servlet.Filter:META-INF/services/javax.servlet.Filter readme.txt:readme.txt sub/empty:sub/empty; do
  wanted="$wanted${pair%%:*}|${pair#*:}|$(sha256sum "app/${pair#*:}" | cut -c1-64 | tr a-f A-F)|$(sha256sum "out/${pair%%:*}" | cut -c1-64 | tr a-f A-F)
"
done
check 'rows' "${wanted%?}" "$(sqlite3 "$seen" 'SELECT CAST(target AS TEXT), CAST(source AS TEXT), hex(digest), hex(output) FROM rows2 ORDER BY target')"
rm -rf "$place.seen"

# ---- later runs

kept='kept META-INF/services/javax.servlet.Filter META-INF/services/jakarta.servlet.Filter
kept readme.txt readme.txt
kept sub/empty sub/empty
total files=3 written=0 kept=3 refused=0 renamed=0 added=0
status 0'
before=$(tree out)
check 'second run' "$kept" "$(run rules out ledger)"
check 'second run leaves the target' "$before" "$(tree out)"
check 'other rules' 'status 27' "$(run others out ledger | tail -1)"
check 'another target' 'status 27' "$(run rules out2 ledger | tail -1)"
check 'the ledger is as it was' "$kept" "$(run rules out ledger)"
printf 'changed' >app/readme.txt
check 'a changed file' 'kept META-INF/services/javax.servlet.Filter META-INF/services/jakarta.servlet.Filter
written readme.txt readme.txt copy
kept sub/empty sub/empty
total files=3 written=1 kept=2 refused=0 renamed=0 added=0
status 0' "$(run rules out ledger)"
check 'then all is kept' 'total files=3 written=0 kept=3 refused=0 renamed=0 added=0
status 0' "$(run rules out ledger | tail -2)"
# A ledger that sqlite3 wrote last is read too.
sqlite3 ledger "DELETE FROM rows2 WHERE target = CAST('readme.txt' AS BLOB)"
check 'a row that sqlite3 removed' 'written readme.txt readme.txt copy' "$(run rules out ledger | grep readme)"

# ---- a ledger of format 1, whose rows have no outputs

# old FILE: the same ledger in format 1, of the tables that its first programs made
old() {
  sqlite3 "$1" 'CREATE TABLE written (target BLOB NOT NULL PRIMARY KEY, source BLOB NOT NULL, digest BLOB NOT NULL) STRICT' \
    'INSERT INTO written SELECT target, source, digest FROM rows2' 'DROP TABLE rows2'
}

old ledger
check 'format 1: all is kept' "$kept" "$(run rules out ledger)"
cp -r . "$place.seen"
check 'format 1: the tables' 'folder
header
rows2' "$(sqlite3 "$seen" "SELECT name FROM sqlite_schema WHERE type = 'table' ORDER BY name")"
check 'format 1: the rows' '3|0' "$(sqlite3 "$seen" 'SELECT count(*), count(output) FROM rows2')"
rm -rf "$place.seen"

# first FILE: the same ledger as the first programs made it, which note no working folder
first() {
  old "$1"
  sqlite3 "$1" 'DROP TABLE folder'
}

# elsewhere TO LEDGER: the status of a run in another working folder, whose source has the same name
elsewhere() {
  (cd elsewhere && "$program" run --rules "$place/rules" --from app --to "$1" --ledger "$place/$2" >/dev/null 2>&1; echo "status $?")
}

mkdir elsewhere
cp -r app elsewhere/app
cp ledger earliest && cp ledger-wal earliest-wal && first earliest
before=$(tree .)
check 'format 1, of another run' 'status 27' "$(elsewhere other earliest)"
check 'format 1, of another run: all is as it was' "$before" "$(tree .)"
check 'format 1: its own run goes on' "$kept" "$(run rules out earliest 2>&1)"
check 'format 1: from then on it belongs to the working folder' 'status 12' "$(elsewhere out earliest)"
rm -rf elsewhere earliest*

# ---- a generated application, whose ledger is a database in memory

before=$(tree .)
check 'generate over SQL' 'total files=2 written=2 kept=0 refused=0 renamed=5 added=0
status 0' "$("$program" generate --count 1 --sql; echo "status $?")"
for workers in 1 4; do
  wanted=$("$program" generate --count 200 --workers "$workers"; echo "status $?")
  check "generate with $workers workers" 'total files=201 written=201 status 0' "$(sed 's/ kept=.*//' <<<"$wanted" | paste -sd' ')"
  check "generate over SQL with $workers workers" "$wanted" "$("$program" generate --count 200 --workers "$workers" --sql; echo "status $?")"
done
check 'generate makes no file' "$before" "$(tree .)"

# ---- files that can't be a ledger

# refused NAME LEDGER: the run ends with 12 and leaves every file as it was
refused() {
  local before after
  before=$(tree .)
  check "$1" 'migrate: 12 ledger fault done=0
status 12' "$(run rules new "$2" 2>/dev/null)"
  after=$(tree .)
  check "$1: all is as it was" "$before" "$after"
}

mkdir folder
printf 'no database' >text
head -c 5000 /dev/urandom >noise
sqlite3 foreign 'CREATE TABLE note (id INTEGER PRIMARY KEY, title TEXT)' 'INSERT INTO note VALUES (1, "a")'
sqlite3 alike 'CREATE TABLE header (a)' 'CREATE TABLE written (target BLOB PRIMARY KEY, source BLOB, digest BLOB)'
cp ledger damaged
printf 'XXXXXXXXXXXXXXXX' | dd of=damaged bs=1 seek=100 conv=notrunc status=none
refused 'a missing folder' missing/ledger
refused 'a folder in its place' folder
refused 'a file below a file' text/ledger
refused 'a text' text
refused 'noise' noise
refused 'other tables' foreign
refused 'tables of the same names' alike
refused 'a damaged ledger' damaged

# ---- without permission, and on a full disk: only where this machine can set them up

if [ "$(id -u)" = 0 ] && command -v setpriv >/dev/null; then
  mkdir closed && chmod 755 . closed
  as_nobody='setpriv --reuid=65534 --regid=65534 --clear-groups'
  if $as_nobody test -x "$program" -a -r rules/renames.properties; then
    program="$as_nobody $program"
    run() {
      $program run --rules "$1" --from app --to "$2" --ledger "$3"
      echo "status $?"
    }
    refused 'a folder without permission' closed/ledger
    cp ledger closed/ledger && chmod 600 closed/ledger
    refused 'a file without permission' closed/ledger
    chmod 644 closed/ledger
    refused 'a file that may only be read' closed/ledger
    program=${program#"$as_nobody "}
  fi
fi
mkdir small
if mount -t tmpfs -o size=400k none small 2>/dev/null; then
  for i in $(seq 4000); do printf '%s' "$i" >"app/sub/file-with-a-name-that-takes-some-room-$i"; done
  ending=$(run rules full small/ledger 2>/dev/null | tail -2)
  case $ending in
    'migrate: 12 ledger fault done='*'
status 12') passed=$((passed + 1)) ;;
    *) failed=$((failed + 1)); echo "differs: a full disk: $ending" >&2 ;;
  esac
  cp small/ledger* . && umount small
  cp ledger seen && [ -e ledger-wal ] && cp ledger-wal seen-wal
  check 'integrity on a full disk' ok "$(sqlite3 seen 'PRAGMA integrity_check')"
  # A copy has the digest of its source at its target.
  sqlite3 seen "SELECT lower(hex(digest)) || '  full/' || CAST(target AS TEXT) FROM rows2 WHERE target = source" >sums
  check 'true rows on a full disk' '' "$(sha256sum --quiet -c sums 2>&1)"
  check 'the run goes on elsewhere' 'status 0' "$(run rules full ledger | tail -1)"
fi
if mount -t tmpfs -o size=340k none small 2>/dev/null; then
  # All rows wait until they are committed behind the last file, and have no room then: no report precedes the fault.
  mkdir many
  for i in $(seq 900); do printf '%s' "$i" >"many/$(printf '%0200d' "$i")"; done
  check 'a full disk at the end' 'migrate: 12 ledger fault done=900
status 12' "$("$program" run --rules rules --from many --to last --ledger small/ledger 2>/dev/null; echo "status $?")"
  check 'whose files were written' '' "$(diff -r many last)"
  cp small/ledger* . && umount small
  check 'and whose ledger opens' 'status 0' "$("$program" run --rules rules --from many --to last --ledger ledger >got; echo "status $?")"
  check 'without a row' 'total files=900 written=900 kept=0 refused=0 renamed=0 added=0' "$(tail -1 got)"
fi

ended

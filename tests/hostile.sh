#!/usr/bin/env bash
# Uses the built program where everything around it is hostile: odd names, links, pipes, sockets and devices; what may not be read or
# written; full disks; ledgers that are none; sources that change while they are read; standard streams that are closed, full or cut
# off; little memory, and files that take much of it. Each case ends with a status and a line by name, changes nothing else, and leaves a
# true ledger, and once its cause is gone a run brings the target to that of a run that never met it. The expected lines are written by
# hand.
#
# Usage: tests/hostile.sh [COUNT], where COUNT is how many empty files the largest source has: 100,000 where it isn't given, none for
# 0. It needs python3; what else a case needs (the root user, strace, gcc) is told where the case is skipped.
set -u
if [ "$(id -u)" = 0 ] && [ -z "${own_mounts:-}" ] && unshare -m true 2>/dev/null; then
  # What is mounted here goes with this script.
  own_mounts=1 exec unshare -m "$0" "$@"
fi
many=${1:-100000}
cd "$(dirname "$0")/.."
. tests/common.sh
needs python3
python=$(python3 -c 'import sys; print(sys.executable)')
examples=$PWD/examples/first ledgers=$PWD/tests/ledgers.py modes=$PWD/tools/modes.py
trap 'clear_place; rm -rf "$place"' EXIT
chmod 755 "$place"
cd "$place" || exit 1

# skip NAME WHY: a case that can't be set up here
skip() {
  skipped=$((skipped + 1))
  echo "skipped: $1: $2"
}

# clear_place: nothing is mounted or locked any more
clear_place() {
  cd "$place" || exit 1
  umount disk to 2>/dev/null
  chmod -R u+rwX . 2>/dev/null
}

# fresh: rules, an application, and nothing else but the target that a run makes of them
fresh() {
  clear_place
  find . -mindepth 1 -maxdepth 1 ! -name wanted ! -name wanted.so -exec rm -rf {} +
  cp -r "$examples/rules" "$examples/app" .
  seq 60000 >app/large.txt
  ledger=ledger expected=
}

# over: runs over the application, by 1 and by 4 workers in turn
turn=0
over() {
  turn=$((turn + 1))
  migrate run --rules rules --from app --to to --ledger "$ledger" --workers $((turn % 2 * 3 + 1))
}

# around: what stands around the target and the ledger: each path with its kind, mode, size and content
around() {
  find . -mindepth 1 -regex '\./\(out\|err\|trace\|to\|disk\|wanted\|ledger[^/]*\)' -prune -o \
    -printf '%y %m %s %p %l\n' -type f -exec sha256sum {} + 2>&1 | LC_ALL=C sort
}

# seen: what is untrue of the ledger, and which files of the target are no images
seen() {
  [ -e to ] || [ -e "$ledger" ] || return
  "$python" "$ledgers" app to "$ledger" wanted
}

# left NAME BEFORE: all stands as it did around the target; the ledger is true; the target holds images, and the expected others
left() {
  check "$1: nothing else is changed" "$2" "$(around)"
  check "$1: a true ledger, and images" "$expected" "$(seen)"
}

# hostile NAME STATUS LINE SAID: a run ends with this status and line, and says this
hostile() {
  local before
  before=$(around)
  over
  ends "$1" "$2" "$3"
  [ -z "$4" ] || has "$1: $4" "$4"
  left "$1" "$before"
}

# gone NAME: the cause is gone, and a run completes with the target of a run that never met it
gone() {
  expected=
  over
  check "$1: then a run completes" 0 "$status"
  check "$1: with the same target" '' "$(diff -r wanted to 2>&1)"
  check "$1: and a true ledger" '' "$(seen)"
}

fault='migrate: 11 folder fault done=0'
ledger_fault='migrate: 12 ledger fault done=0'
output_fault='migrate: 13 output fault'

fresh
over
check 'a plain run' 0 "$status"
mv to wanted
report=$(cat out)

# ---- names

# named PATH: a file of this path in the application, which holds its own path
named() {
  mkdir -p "app/$(dirname -- "$1")"
  printf '%s' "$1" >"app/$1"
}

# letters COUNT LETTER: a name of so many letters
letters() {
  head -c "$1" /dev/zero | tr '\0' "$2"
}

# of LENGTH: a path of so many bytes, in five segments
of() {
  local part
  part=$(letters 200 l)
  printf '%s/%s/%s/%s/%s' "$part" "$part" "$part" "$part" "$(letters $(($1 - 804)) m)"
}

fresh
rm -r app
for name in 'a blank' ' before' 'behind ' $'a\nline' $'a\rreturn' $'a\ttab' 'back\slash' '\-' '\0a' "a'quote" 'a"quote' '*' '?' '[a]' '{a,b}' \
  '$HOME' '`id`' ';' '&' '|' '<' '>' '#' '!' '%s%n' '-' '--' '-rf' '~' '...' '..x' 'x..' '.x' ':' '=' ',' $'\x01\x1b[31m' $'\x7f' \
  'é' $'e\xcc\x81' '日本' '😀' $'\xe2\x80\xae' $'\xef\xbf\xbf' $'\xef\xbb\xbf' "$(letters 251 n)"; do
  named "$name.txt"
  named "$name/$name"
done 2>/dev/null
named "$(of 1024)"
count=$(find app -type f -printf x | wc -c)
over
check 'odd names: status' 0 "$status"
check 'odd names: all are written' "total files=$count written=$count kept=0 refused=0 renamed=0 added=0" "$(tail -1 out)"
check 'odd names: a line each' $((count + 1)) "$(wc -l <out)"
check 'odd names: nothing raw in the report' 0 "$(LC_ALL=C grep -c '[^ -~]' out)"
check 'odd names: the same content' '' "$(diff -r app to 2>&1)"
check 'odd names: the report names each' '' "$("$modes" app to out 2>&1)"
over
check 'odd names: all are kept' "total files=$count written=0 kept=$count refused=0 renamed=0 added=0" "$(tail -1 out)"

for bytes in $'\xff' $'ok\xc0\x80' $'\xed\xa0\x80' $'\xf4\x90\x80\x80' $'cut\xe2\x82'; do
  shown=$(printf '%s' "$bytes" | od -An -tx1)
  fresh; printf 'x' >"app/WEB-INF/$bytes"
  hostile "a file named$shown" 11 "$fault" "migrate: listing app/WEB-INF: a name in it isn't UTF-8"
  rm "app/WEB-INF/$bytes"; mkdir "app/$bytes"
  hostile "a folder named$shown" 11 "$fault" "migrate: listing app: a name in it isn't UTF-8"
  rmdir "app/$bytes"
  gone "a name of$shown"
done
fresh; printf 'x' >rules/$'\xff'
hostile 'a rule file whose name is no text' 11 "$fault" "migrate: listing rules: a name in it isn't UTF-8"
rm rules/$'\xff'
gone 'a rule file whose name is no text'

fresh; named "$(of 1025)"
hostile 'a path of 1,025 bytes' 23 "migrate: 23 limit path-length $(of 1025)" 'has more than 1,024 bytes'
rm -r app/lll*
gone 'a path of 1,025 bytes'
fresh; named "x.jar/javax/servlet/$(of 1002)"
over
check 'a target of 1,024 bytes' 0 "$status"
fresh; path=x.jar/javax/servlet/$(of 1003); named "$path"
hostile 'a target of 1,025 bytes' 23 "migrate: 23 limit path-length $path" 'has more than 1,024 bytes'
rm -r app/x.jar
gone 'a target of 1,025 bytes'

# deep NAME COUNT [FILE]: so many folders of this name in one another below the application, and a file in the last
deep() {
  "$python" - "$@" <<'PY'
import os
import sys
os.chdir("app")
for _ in range(int(sys.argv[2])):
    os.mkdir(sys.argv[1])
    os.chdir(sys.argv[1])
for name in sys.argv[3:]:
    open(name, "w").close()
PY
}

fresh; rm -r app; mkdir app; deep d 511 f
over
check '511 folders in one another: status' 0 "$status"
check '511 folders in one another: the same content' '' "$(diff -r app to 2>&1)"
fresh; deep d 1000 f
hostile '1,000 folders in one another' 23 "migrate: 23 limit path-length $(printf 'd/%.0s' $(seq 1000))f" 'has more than 1,024 bytes'
rm -r app/d; deep d 1000
gone '1,000 folders in one another without a file'
fresh; deep "$(letters 255 d)" 17
hostile 'a path that the system itself refuses' 11 "$fault" 'File name too long'
rm -r app/ddd*
gone 'a path that the system itself refuses'

# ---- what is neither a file nor a folder

link="it is a symbolic link, which isn't followed"
special='it is neither a file nor a folder'

# odd KIND PATH: makes what is neither a file nor a folder, and says how it is told
odd() {
  case $1 in
    'a link to a file') ln -s readme.txt "$2" && told=$link ;;
    'a link to a folder') ln -s "$place/app/WEB-INF" "$2" && told=$link ;;
    'a link to the folder above') ln -s .. "$2" && told=$link ;;
    'a link to itself') ln -s "$(basename "$2")" "$2" && told=$link ;;
    'a link to nowhere') ln -s nowhere "$2" && told=$link ;;
    'a pipe') mkfifo "$2" && told=$special ;;
    'a socket') "$python" -c 'import socket, sys; socket.socket(socket.AF_UNIX).bind(sys.argv[1])' "$2" && told=$special ;;
    'a character device') mknod "$2" c 1 3 2>/dev/null && told=$special ;;
    'a block device') mknod "$2" b 7 250 2>/dev/null && told=$special ;;
  esac || { skip "$1 at $2" 'it can not be made here'; return 1; }
}
kinds=('a link to a file' 'a link to a folder' 'a link to the folder above' 'a link to itself' 'a link to nowhere' 'a pipe' 'a socket'
  'a character device' 'a block device')

for kind in "${kinds[@]}"; do
  for path in app/zz app/WEB-INF/classes/web/odd.class rules/zz; do
    fresh
    odd "$kind" "$path" || continue
    hostile "$kind at $path" 11 "$fault" "migrate: listing $path: $told"
    check "$kind at $path is listed beforehand" "$path" "$(find app rules ! -type f ! -type d)"
    rm "$path"
    gone "$kind at $path"
  done
  # In place of the file that a run must read.
  fresh
  rm rules/renames.properties
  odd "$kind" rules/renames.properties || continue
  hostile "$kind as the renames" 11 "$fault" "migrate: listing rules/renames.properties: $told"
  rm rules/renames.properties; cp "$examples/rules/renames.properties" rules
  gone "$kind as the renames"
done

fresh; rm rules/renames.properties; mkdir rules/renames.properties
hostile 'a folder as the renames' 22 'migrate: 22 no renames' 'has no `renames.properties`'
rmdir rules/renames.properties; cp "$examples/rules/renames.properties" rules
gone 'a folder as the renames'
fresh; rm rules/webxml.properties; mkdir rules/webxml.properties; printf 'a=b\n' >rules/webxml.properties/file
hostile 'a folder as the text rules' 22 'migrate: 22 missing text *web.xml webxml.properties' 'names a file'
rm -r rules/webxml.properties; cp "$examples/rules/webxml.properties" rules
gone 'a folder as the text rules'
for kind in 'a pipe' 'a socket' 'a character device' 'a link to nowhere' 'a link to itself'; do
  for root in app rules; do
    fresh; mv $root beside
    odd "$kind" $root || continue
    over
    ends "$kind as $root" 11 "$fault"
    tried=listing
    [ "$kind" != 'a link to itself' ] || tried='finding the place of'
    has "$kind as $root" "migrate: $tried $root: "
    rm $root; mv beside $root
    gone "$kind as $root"
  done
done

# ---- without permission

nobody='setpriv --reuid=65534 --regid=65534 --clear-groups'

# locked NAME MODE PATH STATUS LINE SAID: what was prepared, with a path without permission, and run by a user who isn't root
prepare=:
locked() {
  fresh
  $prepare
  chown -R 65534:65534 "$place"
  chmod "$2" "$3"
  as=$nobody
  hostile "$1" "$4" "$5" "$6"
  chmod 755 "$3"
  gone "$1"
  as=
}

if [ "$(id -u)" = 0 ] && command -v setpriv >/dev/null && $nobody test -x "$program"; then
  locked 'an unreadable file' 000 app/readme.txt 11 "$fault" 'migrate: reading app/readme.txt: Permission denied'
  locked 'an unreadable folder' 000 app/WEB-INF 11 "$fault" 'migrate: listing app/WEB-INF: Permission denied'
  locked 'a folder that may be listed alone' 444 app/WEB-INF 11 "$fault" ': Permission denied'
  locked 'a folder that may be entered alone' 111 app/WEB-INF 11 "$fault" 'migrate: listing app/WEB-INF: Permission denied'
  locked 'an unreadable source' 000 app 11 "$fault" 'migrate: listing app: Permission denied'
  locked 'an unreadable rule file' 000 rules/text.properties 11 "$fault" 'migrate: reading rules/text.properties: Permission denied'
  locked 'unreadable rules' 000 rules 11 "$fault" 'migrate: listing rules: Permission denied'
  locked 'a folder without room for the ledger' 555 . 12 "$ledger_fault" 'migrate: opening the ledger ledger: Permission denied'
  prepare='mkdir to'
  locked 'a target that may not be written' 555 to 11 "$fault" 'migrate: making to/META-INF/MANIFEST.MF: Permission denied'
  prepare='mkdir -p to/WEB-INF'
  locked 'a folder of the target that may not be written' 555 to/WEB-INF 11 'migrate: 11 folder fault done=1' \
    'migrate: making to/WEB-INF/classes/META-INF/services/jakarta.servlet.Greeting: Permission denied'
  prepare=over
  locked 'a ledger that may only be read' 444 ledger 12 "$ledger_fault" 'migrate: opening the ledger ledger: Permission denied'
  locked 'a ledger that may only be written' 222 ledger 12 "$ledger_fault" 'migrate: opening the ledger ledger: Permission denied'
else
  skip 'files and folders without permission' 'they need the root user and setpriv'
fi

# ---- roots that are one by another way

# whole: each path here but the run's own, with its kind and its content
whole() {
  find . -mindepth 1 \( -path ./out -o -path ./err \) -prune -o -printf '%y %p %l\n' -type f -exec sha256sum {} + 2>&1 | LC_ALL=C sort
}

# placed NAME STATUS LINE SAID RULES FROM TO LEDGER: a run over these roots ends so, and nothing is changed
placed() {
  local name=$1 wanted=$2 line=$3 said=$4 before
  shift 4
  before=$(whole)
  migrate run --rules "$1" --from "$2" --to "$3" --ledger "$4"
  ends "$name" "$wanted" "$line"
  has "$name: $said" "$said"
  check "$name: nothing is changed" "$before" "$(whole)"
}

# completes NAME RULES FROM TO LEDGER: a run over these roots ends well, with the target of any other
completes() {
  local name=$1
  shift
  migrate run --rules "$1" --from "$2" --to "$3" --ledger "$4"
  ends "$name" 0 "$report"
  check "$name: the same target" '' "$(diff -r "$place/wanted" "$3" 2>&1)"
}

# within NAME SAID LEDGER: a run over a target with a folder that is mounted there ends before it makes a file below that, and source and
# rules stay
within() {
  local before
  before=$(tree app; tree rules)
  migrate run --rules rules --from app --to to --ledger "$3"
  ends "$1" 11 'migrate: 11 folder fault done=1'
  has "$1: $2" "migrate: making to/WEB-INF/classes/META-INF/services/jakarta.servlet.Greeting: $2"
  check "$1: source and rules stay" "$before" "$(tree app; tree rules)"
}

nested='no root may lie where another would be changed'

if [ "$(id -u)" = 0 ] && command -v setpriv >/dev/null && $nobody test -x "$program"; then
  # A folder above that may not be entered: what lies above it is seen by the path of the working folder.
  fresh; mkdir -p above/inner free; mv rules app above/inner; chown -R 65534:65534 above/inner free; chmod 700 above
  cd above/inner || exit 1
  as=$nobody
  completes 'below a folder that may not be entered' rules app to "$place/free/ledger"
  ln -s app link
  placed 'below such a folder: a target that is a link to the source' 21 'migrate: 21 nested roots app link' "$nested" \
    rules app link "$place/free/other"
  ln -s "$place/above/inner/app" away
  placed 'below such a folder: a target that is a link through it' 11 "$fault" \
    'migrate: finding the place of away: Permission denied' rules app away "$place/free/other"
  as=
  # Two in one another: the inner one isn't seen by that path.
  fresh; mkdir -p a/b/inner free; mv rules app a/b/inner; chown -R 65534:65534 a/b/inner free; chmod 700 a a/b
  cd a/b/inner || exit 1
  as=$nobody
  ln -s app link
  placed 'below two such folders' 11 "$fault" 'migrate: finding the place of rules: Permission denied' \
    rules app link "$place/free/ledger"
  as=
  fresh; mkdir above free; cp -r rules app above; chown -R 65534:65534 app rules free; chmod 700 above
  as=$nobody
  for root in rules app; do
    placed "$root in a folder that may not be entered" 11 "$fault" "migrate: finding the place of above/$root: Permission denied" \
      "$([ $root = rules ] && echo above/)rules" "$([ $root = app ] && echo above/)app" free/to free/ledger
  done
  placed 'a target in such a folder' 11 "$fault" 'migrate: finding the place of above/to: Permission denied' rules app above/to free/ledger
  placed 'a ledger in such a folder' 12 "$ledger_fault" 'migrate: finding the place of above/ledger: Permission denied' \
    rules app free/to above/ledger
  as=
else
  skip 'roots whose place is not told' 'they need the root user and setpriv'
fi

# far: links one behind another, of which the last, l3, leads to a folder whose path has more than 4,096 bytes
far() {
  "$python" - "$(letters 250 n)" <<'PY'
import os
import sys
top = os.getcwd()
for i in range(18):
    os.mkdir(sys.argv[1])
    os.chdir(sys.argv[1])
os.mkdir("ledgers")
open("ledgers/ledger", "w").close()
os.chdir(top)
step = "/".join([sys.argv[1]] * 6)
for i, front in enumerate(["", "l1/", "l2/"]):
    os.symlink(front + step, f"l{i + 1}")
PY
}

fresh; far; cp -r rules l3
completes 'rules far behind links' l3/rules app to ledger
ln -s app link
placed 'rules far behind links, and a target that is a link to the source' 21 'migrate: 21 nested roots app link' "$nested" \
  l3/rules app link ledger
placed 'rules far behind links, and a ledger behind a link in the source' 21 'migrate: 21 nested roots link/l app' "$nested" \
  l3/rules app to2 link/l
fresh; far; ln -s l3/ledgers/ledger ledger
placed 'a ledger that is a link to a file far behind links' 12 "$ledger_fault" \
  'migrate: finding the place of ledger: File name too long' rules app to ledger

# ---- targets

fresh; printf 'x' >to
expected=
hostile 'a file as the target' 11 "$fault" 'migrate: making to/META-INF/MANIFEST.MF: Not a directory'
rm to
gone 'a file as the target'
fresh; mkdir to; printf 'x' >to/WEB-INF; expected='other WEB-INF'
hostile "a file in a folder's place" 11 'migrate: 11 folder fault done=1' \
  'migrate: making to/WEB-INF/classes/META-INF/services/jakarta.servlet.Greeting: Not a directory'
rm to/WEB-INF
gone "a file in a folder's place"
for inside in '' /full/of/files; do
  fresh; mkdir -p "to/large.txt$inside"
  hostile "a folder in a file's place" 11 'migrate: 11 folder fault done=5' 'migrate: making to/large.txt: Is a directory'
  rm -r to/large.txt
  gone "a folder in a file's place"
done
for kind in 'a link to a folder' 'a link to the folder above' 'a link to itself' 'a link to nowhere'; do
  fresh; mkdir to; odd "$kind" to/WEB-INF
  hostile "$kind in a folder's place" 11 'migrate: 11 folder fault done=1' \
    "migrate: making to/WEB-INF/classes/META-INF/services/jakarta.servlet.Greeting: $link"
  rm to/WEB-INF
  gone "$kind in a folder's place"
done
for kind in "${kinds[@]}" 'another name of a file'; do
  fresh; mkdir to beside; printf 'mine' >beside/mine
  case $kind in
    'another name of a file') ln beside/mine to/large.txt ;;
    'a link to a file') ln -s ../beside/mine to/large.txt ;;
    *) odd "$kind" to/large.txt || continue ;;
  esac
  hostile "$kind in a file's place" 0 "$report" ''
  check "$kind in a file's place: it is exchanged" 'regular file 1' "$(stat -c '%F %h' to/large.txt)"
  check "$kind in a file's place: what it led to stays" mine "$(cat beside/mine)"
  gone "$kind in a file's place"
done
for kind in 'a link to nowhere' 'a link to itself' 'a pipe' 'a socket' 'a character device'; do
  fresh; odd "$kind" to || continue
  over
  check "$kind as the target: status" 11 "$status"
  check "$kind as the target: output" "$fault" "$(cat out)"
  tried='making to/META-INF/MANIFEST.MF'
  [ "$kind" != 'a link to itself' ] || tried='finding the place of to'
  has "$kind as the target: which" "migrate: $tried: "
  rm to
  gone "$kind as the target"
done

# ---- a disk that takes upper and lower case for the same

# A library that is loaded before the C library makes `to` one: each part of a path below it is taken for the entry that it equals but
# for case.
cat >folding.c <<'C'
#define _GNU_SOURCE
#include <dirent.h>
#include <dlfcn.h>
#include <fcntl.h>
#include <stdarg.h>
#include <string.h>
#include <strings.h>
#include <sys/stat.h>

static const char *found(const char *path, char *out) {
    if (strncmp(path, "to/", 3) != 0) {
        return path;
    }
    strcpy(out, "to");
    for (const char *part = path + 3; *part != 0; part += *part == '/') {
        char name[4096];
        size_t length = strcspn(part, "/");
        memcpy(name, part, length);
        name[length] = 0;
        DIR *folder = opendir(out);
        struct dirent *entry = NULL;
        while (folder != NULL && (entry = readdir(folder)) != NULL && strcasecmp(entry->d_name, name) != 0) {
        }
        strcat(strcat(out, "/"), entry != NULL ? entry->d_name : name);
        if (folder != NULL) {
            closedir(folder);
        }
        part += length;
    }
    return out;
}

int openat(int fd, const char *path, int flags, ...) {
    char out[8192];
    va_list rest;
    va_start(rest, flags);
    int mode = va_arg(rest, int);
    va_end(rest);
    int (*next)(int, const char *, int, ...) = dlsym(RTLD_NEXT, "openat");
    return next(fd, found(path, out), flags, mode);
}

int open(const char *path, int flags, ...) {
    va_list rest;
    va_start(rest, flags);
    int mode = va_arg(rest, int);
    va_end(rest);
    return openat(AT_FDCWD, path, flags, mode);
}

int statx(int fd, const char *path, int flags, unsigned mask, struct statx *to) {
    char out[8192];
    int (*next)(int, const char *, int, unsigned, struct statx *) = dlsym(RTLD_NEXT, "statx");
    return next(fd, found(path, out), flags, mask, to);
}

int mkdir(const char *path, mode_t mode) {
    char out[8192];
    int (*next)(const char *, mode_t) = dlsym(RTLD_NEXT, "mkdir");
    return next(found(path, out), mode);
}

int unlink(const char *path) {
    char out[8192];
    int (*next)(const char *) = dlsym(RTLD_NEXT, "unlink");
    return next(found(path, out));
}
C
if gcc -shared -fPIC -o /dev/null folding.c -ldl 2>/dev/null; then
  gcc -shared -fPIC -o wanted.so folding.c -ldl
  for pair in 'One.txt one.txt' 'One/same.txt one/same.txt' 'x/One/1 x/one/1'; do
    read -r first second <<<"$pair"
    fresh; named "$first"; named "$second"
    as="env LD_PRELOAD=$place/wanted.so"
    for time in 'first' 'second'; do
      over
      check "$second beside $first on a disk that folds, $time run: status" 11 "$status"
      has "$second beside $first on a disk that folds, $time run" "migrate: making to/$second: the disk takes it for a file of another name that is there"
      check "$second beside $first on a disk that folds, $time run: the first stays" "$first" "$(cat "to/$first")"
    done
    rm "app/$second"; rm ledger
    over
    check "$first alone on a disk that folds: it is made anew" 0 "$status"
    check "$first alone on a disk that folds: with its content" "$first" "$(cat "to/$first")"
    as=
  done
else
  skip 'a disk that takes upper and lower case for the same' 'it needs gcc'
fi

# ---- disks

# Folders that are mounted in one another.
written='the target or the ledger lies in it'
read='the source, the rules or the ledger lies in it, or it lies in one of them'
fresh
migrate run --rules rules --from app --to to --ledger ledger
if ln ledger app/notes 2>/dev/null; then
  placed 'the ledger in the source under another name' 11 "$fault" "migrate: listing app/notes: $written" rules app to ledger
else
  skip 'a ledger that stands in the source under another name' 'this disk gives a file one name'
fi
fresh; mkdir to
if [ "$(id -u)" = 0 ] && [ -n "${own_mounts:-}" ] && mount --bind app/WEB-INF to 2>/dev/null; then
  placed 'a folder of the source mounted as the target' 11 "$fault" "migrate: listing app/WEB-INF: $written" rules app to ledger
  placed 'a folder of the source mounted above the target' 11 "$fault" "migrate: listing app/WEB-INF: $written" rules app to/x/y ledger
  placed 'a folder of the source mounted above the ledger' 11 "$fault" "migrate: listing app/WEB-INF: $written" rules app to2 to/ledger
  umount to
  mkdir rules/more; mount --bind rules/more to
  placed 'a folder of the rules mounted as the target' 11 "$fault" "migrate: listing rules/more: $written" rules app to ledger
  placed 'a folder of the rules mounted above the ledger' 11 "$fault" "migrate: listing rules/more: $written" rules app to2 to/ledger
  umount to; rmdir rules/more
  mkdir app/in; mount --bind to app/in
  placed 'the target mounted in the source' 11 "$fault" "migrate: listing app/in: $written" rules app to ledger
  placed 'the folder of the target mounted in the source' 11 "$fault" "migrate: listing app/in: $written" rules app to/new ledger
  umount app/in; mount --bind . app/in
  placed 'a folder above all mounted in the source' 11 "$fault" "migrate: listing app/in: $written" rules app to ledger
  umount app/in; mkdir free; mount --bind free app/in
  completes 'another folder mounted in the source' rules app to ledger
  umount app/in; rmdir app/in
  for below in WEB-INF WEB-INF/classes; do
    fresh; mkdir -p "to/$below"; mount --bind "app/$below" "to/$below"
    within "a folder of the source mounted in the target at $below" "$read" ledger
    umount "to/$below"
  done
  for root in app rules .; do
    fresh; mkdir -p to/WEB-INF; mount --bind "$root" to/WEB-INF
    within "$root mounted in the target" "$read" ledger
    umount to/WEB-INF
  done
  fresh; mkdir -p to/WEB-INF free; mount --bind free to/WEB-INF
  within 'the folder of the ledger mounted in the target' "$read" free/ledger
  umount to/WEB-INF
  fresh; mkdir -p to/WEB-INF free; mount --bind free to/WEB-INF
  completes 'another folder mounted in the target' rules app to ledger
  umount to/WEB-INF
else
  skip 'folders that are mounted in one another' 'they need the root user and mounts of their own'
fi
clear_place

mkdir disk
if [ "$(id -u)" = 0 ] && [ -n "${own_mounts:-}" ] && mount -t tmpfs none disk 2>/dev/null; then
  fresh; mkdir to; mount -t tmpfs -o ro none to
  hostile 'a target on a disk that may only be read' 11 "$fault" 'migrate: making to/META-INF/MANIFEST.MF: Read-only file system'
  mount -o remount,rw to
  gone 'a target on a disk that may only be read'
  fresh; mkdir to; mount -t tmpfs -o size=200k none to; expected='other large.txt'
  hostile 'a full target' 11 'migrate: 11 folder fault done=5' 'migrate: writing to/large.txt: No space left on device'
  mount -o remount,size=10m to
  gone 'a full target'
  fresh; mkdir to; mount -t tmpfs -o nr_inodes=8 none to
  hostile 'a target without room for another name' 11 'migrate: 11 folder fault done=2' ': No space left on device'
  mount -o remount,nr_inodes=100 to
  gone 'a target without room for another name'
  fresh; mkdir disk; mount -t tmpfs -o ro none disk; ledger=disk/ledger
  hostile 'a ledger on a disk that may only be read' 12 "$ledger_fault" 'migrate: opening the ledger disk/ledger: Read-only file system'
  mount -o remount,rw disk
  over
  mount -o remount,ro disk
  hostile 'a ledger that was written, on such a disk' 12 "$ledger_fault" 'migrate: opening the ledger disk/ledger: Read-only file system'
  mount -o remount,rw disk
  gone 'a ledger on a disk that may only be read'
  for size in $(seq 4 4 64); do
    fresh; mkdir disk; mount -t tmpfs -o size="${size}k" none disk; ledger=disk/ledger
    before=$(around)
    over
    case $status:$(head -c 23 out) in
      12:'migrate: 12 ledger faul') check "a ledger on a disk of $size KiB" 12 "$status" ;;
      *) check "a ledger on a disk of $size KiB" "$report" "$(cat out)" ;;
    esac
    left "a ledger on a disk of $size KiB" "$before"
    mount -o remount,size=10m disk
    gone "a ledger on a disk of $size KiB"
  done
  clear_place
else
  skip 'disks that are full, or may only be read' 'they need the root user and mounts of their own'
fi

# ---- ledgers

# noledger NAME SAID: the run ends with 12 and leaves what stands at the ledger
noledger() {
  local before
  before=$(stat -c '%F %s %Y %h' ledger 2>&1; [ -f ledger ] && sha256sum ledger)
  over
  ends "$1" 12 "$ledger_fault"
  has "$1: $2" "migrate: opening the ledger ledger: $2"
  check "$1: it stays" "$before" "$(stat -c '%F %s %Y %h' ledger 2>&1; [ -f ledger ] && sha256sum ledger)"
  check "$1: nothing stands beside it" '' "$(ls -d to ledger-* .migrate-* 2>/dev/null)"
}

# database WORDS: a database of another program, made by these words
database() {
  "$python" -c 'import sqlite3, sys; sqlite3.connect("ledger", isolation_level=None).executescript(sys.argv[1])' "$1"
}

for kind in 'a pipe' 'a socket' 'a character device' 'a block device'; do
  fresh; odd "$kind" ledger || continue
  noledger "$kind as the ledger" "$special"
  rm ledger; gone "$kind as the ledger"
done
fresh; ln -s ledger ledger
over
ends 'a link to itself as the ledger' 12 "$ledger_fault"
has 'a link to itself as the ledger: which' 'migrate: finding the place of ledger: Too many levels of symbolic links'
check 'a link to itself as the ledger: nothing is made' '' "$(ls -d to ledger-* .migrate-* 2>/dev/null)"
rm ledger; gone 'a link to itself as the ledger'
fresh; ln -s nowhere ledger
noledger 'a link to nowhere as the ledger' "it can't be opened or made"
rm ledger; gone 'a link to nowhere as the ledger'
fresh; mkdir beside; ln -s beside ledger
noledger 'a link to a folder as the ledger' 'it is a folder'
rm ledger; gone 'a link to a folder as the ledger'
fresh; ln -s app/readme.txt ledger
over
ends 'a link to a file of the source as the ledger' 21 'migrate: 21 nested roots ledger app'
rm ledger; gone 'a link to a file of the source as the ledger'
fresh; mkdir ledger
noledger 'a folder as the ledger' 'it is a folder'
rmdir ledger; gone 'a folder as the ledger'
for text in 'no database' 'SQLite format 3' 'S' "$(seq 9999)"; do
  fresh; printf '%s' "$text" >ledger
  noledger "a ledger of ${#text} bytes that is none" 'it is no database, or a damaged one'
  rm ledger; gone "a ledger of ${#text} bytes that is none"
done
for words in 'CREATE TABLE note (id INTEGER PRIMARY KEY, title TEXT); INSERT INTO note VALUES (1, "a")' 'CREATE TABLE header (a)' \
  'CREATE TABLE header (a); CREATE TABLE written (target BLOB PRIMARY KEY, source BLOB, digest BLOB); CREATE TABLE folder (path BLOB)' \
  'PRAGMA user_version = 7; CREATE VIEW header AS SELECT 1'; do
  fresh; database "$words"
  noledger "a database with $words" 'it is a database with other tables'
  rm ledger; gone "a database with $words"
done

# A ledger that is damaged is refused and stays, or is read for what it still says.
fresh; over
"$python" -c 'import sqlite3; it = sqlite3.connect("ledger"); it.execute("PRAGMA wal_checkpoint(TRUNCATE)"); it.close()'
cp ledger wanted.ledger; size=$(stat -c %s ledger)
# damaged NAME: the ledger at this place is damaged so
damaged() {
  local sum
  sum=$(sha256sum ledger)
  over
  case $status in
    12) check "$1" "$ledger_fault $sum" "$(cat out) $(sha256sum ledger)" ;;
    *) check "$1" 0 "$status" ;;
  esac
  check "$1: the target stays" '' "$(diff -r wanted to)"
}
for at in $(seq 1 511 $((size - 1))); do
  rm -rf to ledger*; cp -r wanted to; head -c "$at" wanted.ledger >ledger
  damaged "a ledger that is cut off at $at"
  [ "$status" = 12 ] || check "a ledger that is cut off at $at: it is true" '' "$(seen)"
done
for at in $(seq 0 512 $((size - 1))); do
  rm -rf to ledger*; cp -r wanted to; cp wanted.ledger ledger
  dd if=/dev/zero of=ledger bs=512 count=1 seek=$((at / 512)) conv=notrunc status=none
  damaged "a ledger with zeros at $at"
done
# What stands where the ledger's log, or another file beside it, is wanted, isn't followed and isn't waited for.
for end in wal journal shm; do
  for kind in "${kinds[@]}" folder noise; do
    fresh; over
    rm -f "ledger-$end"; mkdir beside; printf 'mine' >beside/mine; printf 'more' >>app/readme.txt
    case $kind in
      'a link to a file') ln -s beside/mine "ledger-$end" ;;
      folder) mkdir "ledger-$end" ;;
      noise) seq 9999 >"ledger-$end" ;;
      *) odd "$kind" "ledger-$end" || continue ;;
    esac
    over
    case $status in
      12) check "$kind as ledger-$end" "$ledger_fault" "$(cat out)" ;;
      *) check "$kind as ledger-$end" 0 "$status" ;;
    esac
    check "$kind as ledger-$end: what it leads to stays" mine "$(cat beside/mine)"
    [ -e nowhere ] && check "$kind as ledger-$end: nothing is made by it" '' nowhere
    rm -rf "ledger-$end"
    cp "$examples/app/readme.txt" app
    [ "$status" = 0 ] && [ "$end" = wal ] || gone "$kind as ledger-$end"
  done
done
fresh; over
rm -r to ledger
over
check 'a log whose ledger is gone' "$report" "$(cat out)"
check 'a log whose ledger is gone: a true ledger, and images' '' "$(seen)"

# ---- two runs at once

# paused CALL NUMBER [PATH]: starts a run, and waits until it stands still at the call of this name and number, over this path
paused() {
  local front=
  [ $# -lt 3 ] || front="-P $3"
  strace -f -qq -o trace $front -e trace="$1" -e inject="$1:signal=STOP:when=$2" \
    "$program" run --rules rules --from app --to to --ledger "$ledger" >paused 2>err.paused &
  runner=$!
  for _ in $(seq 500); do
    stopped=$(sed -n 's/^\([0-9]*\) *--- stopped by SIGSTOP.*/\1/p' trace 2>/dev/null | head -1)
    [ -z "$stopped" ] || return 0
    sleep 0.02
  done
  check "a run stands still at $1" 'it does' "it doesn't"
  kill -KILL $(ps -o pid= --ppid "$runner") "$runner"
  return 1
}

# resumed: the run goes on to its end; out, err and status hold what it answered
resumed() {
  kill -CONT "$stopped"
  wait "$runner"
  status=$?
  mv paused out; mv err.paused err
}

if command -v strace >/dev/null; then
  fresh; paused mkdir 1 && {
    over
    ends 'a second run over one ledger' 12 "$ledger_fault"
    has 'a second run over one ledger' 'migrate: opening the ledger ledger: another program has it open'
    resumed
    check 'the first run over one ledger' 0 "$status"
    gone 'two runs over one ledger'
  }
else
  skip 'a run that stands still while another begins' 'it needs strace'
fi
fresh
for i in $(seq 300); do printf '%s' "$i" >"app/file$i"; done
for i in 1 2 3 4 5 6; do
  ("$program" run --rules rules --from app --to to --ledger ledger >"out.$i" 2>/dev/null; echo "$?" >"status.$i") &
done
wait
check 'six runs at once: each has its line' '' "$(for i in 1 2 3 4 5 6; do
  case $(cat "status.$i"):$(tail -1 "out.$i") in
    0:'total files='*) ;;
    12:"$ledger_fault") ;;
    *) cat "status.$i" "out.$i" ;;
  esac
done)"
cp -r wanted wanted.more; cp app/file* wanted.more
check 'six runs at once: a true ledger' '' "$("$python" "$ledgers" app to ledger wanted.more | grep untrue)"
over
check 'six runs at once: then a run completes' 0 "$status"
check 'six runs at once: with the same target' '' "$(diff -r wanted.more to)"

# ---- a source that changes while it is read

# between: a run stands still between the two readings, at the first write to its ledger
between() {
  paused pwrite64 1
}

# restored: source and rules are as they were
restored() {
  rm -rf app rules beside
  cp -r "$examples/app" "$examples/rules" .
  seq 60000 >app/large.txt
}

# changing NAME STATUS LINE SAID CHANGE..: a change between the two readings, how the run ends, and what it says; `begun` is the target
# that it began
changing() {
  local name=$1 status_wanted=$2 line=$3 said=$4
  shift 4
  fresh
  between || return
  eval "$*"
  resumed
  ends "$name" "$status_wanted" "$line"
  [ -z "$said" ] || has "$name: $said" "$said"
  check "$name: a true ledger, and images" "${begun:+other $begun}" "$(seen)"
  restored
  gone "$name"
}

# moved NAME PATH CHANGE..: a change between the two readings of this file, which ends the run with both digests
moved() {
  local name=$1 path=$2 first second
  shift 2
  fresh
  first=$(sha256sum <"app/$path" | cut -c1-64)
  eval "$*"
  second=$(sha256sum <"app/$path" | cut -c1-64)
  changing "$name" 28 "migrate: 28 moved $path $first $second" 'changed while the run read it' "$*"
}

if command -v strace >/dev/null; then
  begun=readme.txt
  moved 'a file of which a byte changes' readme.txt 'printf J | dd of=app/readme.txt conv=notrunc status=none'
  moved 'a file that is emptied' readme.txt ': >app/readme.txt'
  moved 'a file that gets shorter' readme.txt 'truncate -s -1 app/readme.txt'
  moved 'a file that another one replaces' readme.txt 'seq 9 >new; mv new app/readme.txt'
  begun=
  moved 'a class of which a byte changes' WEB-INF/classes/web/Hello.class \
    'printf J | dd of=app/WEB-INF/classes/web/Hello.class bs=1 seek=200 conv=notrunc status=none'
  moved 'a manifest that is emptied' META-INF/MANIFEST.MF ': >app/META-INF/MANIFEST.MF'
  # What is added behind the bytes of the first reading isn't read.
  changing 'a file that grows' 0 "$report" '' 'printf more >>app/readme.txt'
  changing 'a class that grows' 0 "$report" '' 'printf more >>app/WEB-INF/classes/web/Hello.class'
  changing 'a file that is touched' 0 "$report" '' 'touch app/readme.txt'
  changing 'a file that another one of its content replaces' 0 "$report" '' 'cp app/readme.txt new; mv new app/readme.txt'
  changing 'a new file' 0 "$report" '' 'printf x >app/new'
  changing 'rules that go' 0 "$report" '' 'mv rules beside'
  late='migrate: 11 folder fault done=6'
  begun=readme.txt
  changing 'a file that is removed' 11 "$late" 'migrate: reading app/readme.txt: No such file or directory' 'rm app/readme.txt'
  changing 'a file that a folder replaces' 11 "$late" 'migrate: reading app/readme.txt: it is a folder' \
    'rm app/readme.txt; mkdir app/readme.txt'
  changing 'a file that a link replaces' 11 "$late" "migrate: reading app/readme.txt: $link" \
    'mkdir beside; mv app/readme.txt beside; ln -s ../beside/readme.txt app/readme.txt'
  for kind in 'a pipe' 'a socket' 'a character device'; do
    fresh; odd "$kind" odd || continue
    changing "a file that $kind replaces" 11 "$late" "migrate: reading app/readme.txt: $special" "odd '$kind' odd; mv odd app/readme.txt"
  done
  begun=
  changing 'a folder that is removed' 11 "$fault" 'migrate: reading app/META-INF/MANIFEST.MF: No such file or directory' 'rm -r app/META-INF'
  changing 'a folder that a file replaces' 11 "$fault" 'migrate: reading app/META-INF/MANIFEST.MF: Not a directory' \
    'rm -r app/META-INF; printf x >app/META-INF'
  changing 'a source that is removed' 11 "$fault" 'migrate: reading app/META-INF/MANIFEST.MF: No such file or directory' 'rm -r app'

  # Between the look at a file and its opening, at the first reading and at the second. The first look is that of the listing, and
  # behind each opening comes another.
  for number in 2 4; do
    for kind in 'a character device' 'another file'; do
      fresh; printf 'more' >odd
      [ "$kind" = 'another file' ] || { rm odd; odd "$kind" odd; } || continue
      paused statx "$number" app/readme.txt || continue
      mv app/readme.txt old; mv odd app/readme.txt
      resumed
      check "$kind behind look $number: status" 11 "$status"
      has "$kind behind look $number" 'migrate: reading app/readme.txt: another file took its place while it was opened'
      check "$kind behind look $number: a true ledger, and images" '' "$(seen | grep -v '^other readme.txt$')"
      mv old app/readme.txt
      gone "$kind behind look $number"
    done
  done

  # While a file of several parts is read: at its first reading, and at its second, from which its target is written.
  for change in 'printf more >>app/large.txt' 'truncate -s 1500000 app/large.txt' \
    'printf J | dd of=app/large.txt bs=1 seek=3000000 conv=notrunc status=none'; do
    for number in 2 8; do
      fresh; seq 600000 >app/large.txt; cp app/large.txt old; cp -r wanted wanted.large
      paused read "$number" "$place/app/large.txt" || continue
      eval "$change"
      resumed
      case $status in
        28) check "reading $number, $change" 'migrate: 28 moved large.txt' "$(cut -d' ' -f1-4 out)" ;;
        *) check "reading $number, $change" 0 "$status" ;;
      esac
      cp app/large.txt wanted.large
      check "reading $number, $change: a true ledger" '' "$("$python" "$ledgers" app to ledger wanted.large | grep untrue)"
      cp old app/large.txt; cp old wanted.large/large.txt
      over
      check "reading $number, $change: then a run completes" 0 "$status"
      check "reading $number, $change: with the same target" '' "$(diff -r wanted.large to)"
    done
  done
else
  skip 'sources that change while they are read' 'it needs strace'
fi

# ---- standard streams

# streams NAME STATUS LINE: the run that ended so left images alone, and a run with its streams prints what it kept
streams() {
  check "$1: status" "$2" "$status"
  check "$1: a true ledger, and images" '' "$(seen)"
  check "$1: all is written" '' "$(diff -r wanted to 2>&1)"
  gone "$1"
  check "$1: and then is kept" 'total files=7 written=0 kept=7 refused=0 renamed=0 added=0' "$(tail -1 out)"
}
words='run --rules rules --from app --to to --ledger ledger'
fresh; "$program" $words >&- 2>err; status=$?
has 'no output' 'standard output took no more'
streams 'no output' 13
fresh; "$program" $words >/dev/full 2>err; status=$?
has 'a full output' 'standard output took no more'
streams 'a full output' 13
fresh; "$program" $words 2>err | true; status=${PIPESTATUS[0]}
has 'an output that nobody reads' 'standard output took no more'
streams 'an output that nobody reads' 13
fresh; mkfifo pipe; head -c 10 pipe >/dev/null & "$program" $words >pipe 2>err; status=$?; wait
case $status in 0 | 13) streams 'an output that ends' "$status" ;; *) streams 'an output that ends' '0 or 13' ;; esac
for closed in '<&-' '2>&-' '<&- 2>&-'; do
  fresh; eval "\"\$program\" \$words $closed >out"; status=$?
  check "with $closed: the report" "$report" "$(cat out)"
  streams "with $closed" 0
done
fresh; printf 'PK' >app/x.jar; "$program" $words 2>&- >out; status=$?
check 'notes without standard error: status' 0 "$status"
check 'notes without standard error: the archive' PK "$(cat to/x.jar)"
fresh; "$program" $words <&- >&- 2>&-; status=$?
streams 'without any stream' 13
fresh; "$program" $words 2>/dev/full >out; status=$?
check 'a full standard error: the report' "$report" "$(cat out)"
streams 'a full standard error' 0
fresh; ln -s nowhere app/link; "$program" $words >&- 2>err; status=$?
check 'a fault without output' 11 "$status"
has 'a fault without output: which' "migrate: listing app/link: $link"

# into NAME REDIRECTION TOLD: a run whose streams go into its ledger ends before it begins, and the ledger stays; where TOLD is `said`
# standard error says so, and where it is `printed` standard output does
into() {
  local before
  fresh; over
  before=$(sha256sum ledger)
  eval "\"\$program\" \$words $2"; status=$?
  check "$1: status" 12 "$status"
  check "$1: the ledger stays" "$before" "$(sha256sum ledger)"
  case $3 in
    said) has "$1" 'migrate: opening the ledger ledger: standard output or standard error is written into it' ;;
    printed) check "$1: the line on the other stream" "$ledger_fault" "$(cat out)" ;;
  esac
  gone "$1"
}
into 'the report behind the ledger' '>>ledger 2>err' said
into 'the report over the ledger' '1<>ledger 2>err' said
into "the report behind the ledger's log" '>>ledger-wal 2>err' said
into 'notes behind the ledger' '2>>ledger >out' printed
into 'all behind the ledger' '>>ledger 2>&1' ''
fresh; over; "$program" $words >ledger 2>err; status=$?
check 'a ledger that is cut for the report: status' 12 "$status"
check 'a ledger that is cut for the report: nothing is written into it' 0 "$(stat -c %s ledger)"
gone 'a ledger that is cut for the report'
fresh; migrate run --rules rules --from app --to to --ledger ledger "--verify=$(printf '\033')[2J"
check 'a word with an escape: status' 20 "$status"
has 'a word with an escape: it is told as paths are' '\1b[2J'
check 'a word with an escape: none is written' 0 "$(LC_ALL=C grep -c "$(printf '\033')" err)"

# ---- little memory, and few files at once

# bounded NAME: a run in bounds ended well, or with the line of a status by name, and leaves a true ledger
bounded() {
  case $status:$(tail -1 out) in
    0:'total files=7 written='* | 10:'migrate: 10 out of memory' | 11:'migrate: 11 folder fault done='* | 12:'migrate: 12 ledger fault done='*) ;;
    *) check "$1" 'a line by name' "$status: $(cat out err)" ;;
  esac
  check "$1: a true ledger" '' "$(seen | grep untrue)"
  gone "$1"
}

# with BOUND VALUE: a run over an application with this bound of its shell
with() {
  fresh
  { (ulimit "$1" "$2"; exec "$program" $words) >out 2>err; } 2>/dev/null
  status=$?
}

# Where the system can't load the program, it says nothing.
short=0
for kib in $(seq 1000 200 200000); do
  with -v "$kib"
  [ "$status" != 0 ] || break
  [ -s out ] || [ "$short" != 0 ] || continue
  short=$((short + 1))
  bounded "memory of $kib KiB"
done
bounded "memory of $kib KiB, which suffices"
check 'some runs had too little memory' some "$([ "$short" -gt 0 ] && echo some)"
for files in $(seq 3 12); do
  with -n "$files"
  # With so few the system can't load it.
  [ "$status" = 127 ] || bounded "$files open files"
done

# With too small a stack the system ends the program by a signal before it writes anything; a stack of 1 MiB is enough.
for kib in 64 256; do
  with -s "$kib"
  check "a stack of $kib KiB: nothing is written" '' "$(ls -d to ledger* 2>/dev/null)"
done
with -s 1024
check 'a stack of 1 MiB' 0 "$status"
gone 'a stack of 1 MiB'

# With little memory the workers are fewer: where one is enough, 64 are.
fresh
for i in $(seq 3000); do mkdir -p "app/l$i.jar/web"; cp app/WEB-INF/classes/web/Hello.class "app/l$i.jar/web"; done
mv wanted old; over; mv to wanted
for kib in 100000 200000 400000; do
  ends=
  for i in $(seq 20); do
    rm -rf to ledger
    (ulimit -v $kib; exec "$program" $words --workers 64) >out 2>err
    ends+="$? "
  done
  check "64 workers in $kib KiB: each of 20 runs" "$(printf '0 %.0s' $(seq 20))" "$ends"
  check "64 workers in $kib KiB: the same target" '' "$(diff -r wanted to 2>&1)"
done
rm -rf wanted; mv old wanted

# ---- rules by which a text grows, and a source that nearly stands everywhere

# texted TEXT SOURCE TARGET: an application of one text and a text rule, each by an expression
texted() {
  fresh; rm -r app; mkdir app
  printf 'text.txt=grown.properties\n' >rules/text.properties
  "$python" - "$@" <<'PY'
import sys
text, source, target = map(eval, sys.argv[1:])
with open("rules/grown.properties", "w") as rules:
    rules.write(f"{source}={target}\n")
with open("app/text.txt", "w") as file:
    file.write(text)
PY
}

texted '"a" * 65536' '"a"' '"b" * 1024'
over
check 'an image of as many bytes as a file may have: status' 0 "$status"
check 'an image of as many bytes as a file may have' "$(head -c 67108864 /dev/zero | tr '\0' b | sha256sum)" "$(sha256sum <to/text.txt)"
for many_bytes in 65537 4194304; do
  texted "\"a\" * $many_bytes" '"a"' '"b" * 1024'
  over
  ends "an image of $many_bytes times 1,024 bytes" 10 'migrate: 10 out of memory'
  check "an image of $many_bytes times 1,024 bytes: no target" '' "$(ls to 2>/dev/null)"
done
texted '("a" * 499999 + "b") * 134' '"a" * 500000' '"c"'
over
check 'a source that nearly stands everywhere: status' 0 "$status"
check 'a source that nearly stands everywhere: the text stays' '' "$(cmp app/text.txt to/text.txt 2>&1)"

# ---- files that take much memory

# in_eight_times NAME: a run completes, and its memory is never more than eight times the bytes of its rules and its application
in_eight_times() {
  "$python" - "$program" $words >out 2>err <<'PY'
import os
import subprocess
import sys
read = sum(os.path.getsize(os.path.join(folder, name)) for root in ("rules", "app") for folder, _, names in os.walk(root) for name in names)
run = subprocess.Popen(sys.argv[1:])
_, status, usage = os.wait4(run.pid, 0)
times = usage.ru_maxrss * 1024 / read
print("ended", os.waitstatus_to_exitcode(status), "within" if times <= 8 else f"with {times:.1f} times")
PY
  check "$1: status, and memory" 'ended 0 within' "$(tail -1 out)"
}

fresh; rm -r app; mkdir app
"$python" - <<'PY'
from struct import pack
def utf8(text):
    return pack(">BH", 1, len(text)) + text.encode()
# Entry 1 is the class's name, 3 its superclass's, 5 the attribute's, 6 the annotation's type, 7 to 14 strings, and then 300 names.
texts = ["javax.servlet.http.Cookie", "plain", "javax.servlet", "java.lang.String", "javax/servlet", "a b c", "javax.el.EL", "x"]
names = [f"m{i}" for i in range(300)]
pool = [utf8("p/Strings"), pack(">BH", 7, 1), utf8("java/lang/Object"), pack(">BH", 7, 3), utf8("RuntimeVisibleAnnotations"), utf8("Lp/Marks;")]
pool += map(utf8, texts + names)
strings = b"".join(b"s" + pack(">H", 7 + i % len(texts)) for i in range(65535))
body = pack(">HHH", 1, 6, len(names)) + b"".join(pack(">H", 15 + i) + b"[" + pack(">H", 65535) + strings for i in range(len(names)))
with open("app/Strings.class", "wb") as file:
    file.write(pack(">IHHH", 0xCAFEBABE, 0, 65, len(pool) + 1) + b"".join(pool) + pack(">HHHHHH", 0x21, 2, 4, 0, 0, 0))
    file.write(pack(">HHI", 1, 5, len(body)) + body)
PY
in_eight_times 'a class of 19,660,500 strings in annotations'

fresh; rm -r app; mkdir app
echo 'name.of.a.package1x7' >app/texts1.txt
"$python" - <<'PY'
with open("rules/text.properties", "w") as texts:
    for i in range(300):
        texts.write(f"texts{i}.txt=grown{i}.properties\n")
        with open(f"rules/grown{i}.properties", "w") as rules:
            rules.writelines(f"name.of.a.package{i}x{j}=another.name{j}\n" for j in range(18000))
PY
in_eight_times '300 files of text rules'
check '300 files of text rules: the text' another.name7 "$(cat to/texts1.txt 2>&1)"

# ---- many files

if [ "$many" -gt 0 ]; then
  fresh; rm -r app; mkdir app
  "$python" - "$many" <<'PY'
import os
import sys
for i in range(int(sys.argv[1])):
    if i % 1000 == 0:
        os.mkdir(f"app/d{i // 1000}")
    open(f"app/d{i // 1000}/f{i}", "w").close()
PY
  over
  check 'empty files: status' 0 "$status"
  check 'empty files: all are written' "total files=$many written=$many kept=0 refused=0 renamed=0 added=0" "$(tail -1 out)"
  check 'empty files: the same paths' '' "$(diff <(cd app && find . -type f | LC_ALL=C sort) <(cd to && find . -type f -empty | LC_ALL=C sort))"
  over
  check 'empty files: all are kept' "total files=$many written=0 kept=$many refused=0 renamed=0 added=0" "$(tail -1 out)"
fi

ended

#!/usr/bin/env bash
# Runs the built program in each way in which it can be used wrongly, and compares the exit status, standard output byte by
# byte, and standard error. The expected lines are written by hand.
set -u
cd "$(dirname "$0")/.."
. tests/common.sh
trap 'chmod -R u+rwX "$place"; rm -rf "$place"' EXIT
chmod 755 "$place"
top=$PWD
cd "$place" || exit 1

usage='migrate: 20 usage: migrate run --rules R --from A --to B --ledger L [--workers N] [--verify] or migrate generate --count N [--workers N] [--sql] or migrate calls --from A --package P or migrate compare --rules R --from A --other B or migrate invert --rules R'

# repeated NAME: standard error begins with the line of the status, as it stands on standard output
repeated() {
  check "$1: the line of the status, again" "$(cat out)" "$(head -1 err)"
}

# ---- words

# wrong NAME SAID WORD..: words that ask for nothing, and what is said of them
wrong() {
  local name=$1 said=$2
  shift 2
  migrate "$@"
  ends "$name" 20 "$usage"
  has "$name: $said" "$said"
  has "$name: hint" 'these words ask for nothing that can be done'
  repeated "$name"
}

wrong 'no words' 'no words are given'
wrong 'help' 'migrate run --rules R --from A --to B --ledger L [--workers N] [--verify]' --help
wrong 'help as a word' 'docs/REFERENCE.md' help
wrong 'help behind a task' 'migrate generate --count N' run -h
wrong 'the version' 'version 1.0' --version
wrong 'another task' '`migrate` is no task' migrate
wrong 'an option that is none' '`--form` is no option of `run`: is `--from` meant?' run --rules r --form a --to b --ledger l
wrong 'an option twice' "the argument '--from" run --rules r --from a --from b --to b --ledger l
wrong 'a lacking option' '--ledger' run --rules r --from a --to b
wrong 'a lacking value' '`--ledger` has no value' run --rules r --from a --to b --ledger
wrong 'a value with a dash' '`--to` has no value' run --rules r --from a --to -b --ledger l
wrong 'a loose word' '`b` stands where an option is wanted' run --rules r --from a b --ledger l
wrong 'one dash' '`-f` stands where an option is wanted' run -f a
wrong 'a root above' '`../app` leads to a folder above' run --rules r --from ../app --to b --ledger l
wrong 'an empty root' '`` is no root' run --rules r --from= --to b --ledger l
wrong 'too many workers' '`65` is no number of workers' run --rules r --from a --to b --ledger l --workers 65
wrong 'no count' '`0` is no count' generate --count 0
wrong 'a long count' '`20001` is no count' generate --count 20001
wrong 'a value of an option without one' "unexpected value 'yes' for '--verify'" run --rules r --from a --to b --ledger l --verify=yes
wrong 'a word behind an option without a value' '`yes` stands where an option is wanted' run --rules r --from a --to b --ledger l --verify yes
wrong 'an option without a value twice' "the argument '--verify' cannot be used multiple times" run --rules r --from a --to b --ledger l --verify --verify
wrong 'an option of run behind generate' '`--verify` is no option of `generate`: it has --count --workers' generate --count 1 --verify
wrong 'two letters exchanged' '`--legder` is no option of `run`: is `--ledger` meant?' run --legder l
wrong 'an option of other tools' '`--dry-run` is no option of `run`: it has --rules' run --rules r --from a --to b --ledger l --dry-run
wrong 'a word of bytes' "isn't in UTF-8" run --rules $'\xff' --from a --to b --ledger l

# ---- an application

# fresh: rules, an application, and nothing else
fresh() {
  chmod -R u+rwX . 2>/dev/null
  rm -rf rules app to to2 ledger* work other sub
  mkdir -p rules app/WEB-INF/classes
  printf 'javax.servlet.*=jakarta.servlet\n' >rules/renames.properties
  printf 'hello, javax.servlet' >app/readme.txt
  printf '<a/>' >app/WEB-INF/web.xml
}

report='written WEB-INF/web.xml WEB-INF/web.xml copy
written readme.txt readme.txt copy
total files=2 written=2 kept=0 refused=0 renamed=0 added=0'

fresh
migrate run --rules rules --from app --to to --ledger ledger
ends 'a plain run' 0 "$report"
check 'a plain run says what came of it, and nothing else' 'migrate: 2 files, 2 written, 0 kept; nothing is left to look at' "$(cat err)"
migrate run --rules rules --from app --to to --ledger ledger
check 'a second run says the same of what it kept' 'migrate: 2 files, 0 written, 2 kept; nothing is left to look at' "$(cat err)"

# ---- what failed

folder_fault='migrate: 11 folder fault done=0'

# fault NAME SAID [HINT]: a run over the application ends with 11 and says this
fault() {
  migrate run --rules rules --from app --to to --ledger ledger
  ends "$1" 11 "$folder_fault"
  has "$1: $2" "$2"
  has "$1: hint" "${3:-the run stopped}"
  repeated "$1"
}

fresh; ln -s readme.txt app/link
fault 'a symbolic link' 'migrate: listing app/link: it is a symbolic link'
fresh; mkfifo app/WEB-INF/pipe
fault 'a pipe' 'migrate: listing app/WEB-INF/pipe: it is neither a file nor a folder'
fresh; rm -r app; printf 'PK' >app
unpack='an archive is unpacked first: tools/unpack.py ARCHIVE FOLDER'
fault 'a source that is a WAR file' 'migrate: listing app: Not a directory' "$unpack"
hasnt 'a source that is a WAR file: nothing was begun' 'what was done is kept'
fresh; rm -r rules; printf 'PK' >rules
fault 'rules that are a file' 'migrate: listing rules: Not a directory' "$unpack"
migrate calls --from rules --package javax.servlet
check 'calls in a WAR file: status' 11 "$status"
has 'calls in a WAR file: hint' "$unpack"
fresh; rm -r app
fault 'a missing source' 'migrate: listing app: No such file or directory' 'there is no such folder, so nothing was begun'
hasnt 'a missing source: nothing was begun' 'what was done is kept'
fresh; rm -r rules
fault 'missing rules' 'migrate: listing rules: No such file or directory' 'there is no such folder, so nothing was begun'
fresh; printf 'x' >$'app/WEB-INF/\xff'
fault 'a name that is no UTF-8' "migrate: listing app/WEB-INF: a name in it isn't UTF-8"
fresh; printf 'x' >to
fault 'a file in place of the target' 'migrate: making to/WEB-INF/web.xml: Not a directory'
fresh; mkdir -p to/readme.txt
migrate run --rules rules --from app --to to --ledger ledger
ends 'a folder in place of a file' 11 'migrate: 11 folder fault done=1'
has 'a folder in place of a file: which' 'migrate: making to/readme.txt: Is a directory'
fresh; mkdir -p other to; ln -s ../other to/WEB-INF
fault 'a folder of the target that is a link' 'migrate: making to/WEB-INF/web.xml: it is a symbolic link'
check 'and nothing is written through it' '' "$(ls other)"
fresh; mkdir other; ln -s other to
migrate run --rules rules --from app --to to --ledger ledger
ends 'a target that is a link itself' 0 "$report"

if [ "$(id -u)" = 0 ] && command -v setpriv >/dev/null; then
  as='setpriv --reuid=65534 --regid=65534 --clear-groups'
  if $as test -x "$program"; then
    fresh; chmod 777 .; chmod 600 app/readme.txt
    fault 'an unreadable file' 'migrate: reading app/readme.txt: Permission denied'
    fresh; chmod 755 .; chmod 700 app/WEB-INF
    fault 'an unreadable folder' 'migrate: listing app/WEB-INF: Permission denied'
    fresh; chmod 755 .; mkdir sub
    migrate run --rules rules --from app --to sub/to --ledger /dev/shm/edge-ledger-$$
    ends 'a target without permission' 11 "$folder_fault"
    has 'a target without permission: which' 'migrate: making sub/to/WEB-INF/web.xml: Permission denied'
    rm -f /dev/shm/edge-ledger-$$*
    migrate run --rules rules --from app --to to --ledger sub/ledger
    ends 'a ledger without permission' 12 'migrate: 12 ledger fault done=0'
    has 'a ledger without permission: which' 'migrate: opening the ledger sub/ledger: Permission denied'
  fi
  as=
fi

# ---- a source that changes while it is read

# Large files are read first, and meanwhile the last file is exchanged for a pipe.
ended=
for delay in 0.1 0.3 0.6 1; do
  fresh
  for i in 1 2 3 4; do truncate -s 4M "app/large-$i"; done
  printf 'x' >app/zz
  (sleep "$delay"; mkfifo pipe && mv pipe app/zz) &
  migrate run --rules rules --from app --to to --ledger ledger
  wait
  case $status in
    0) ended="$ended whole" ;;
    11) grep -qx 'migrate: \(reading\|listing\) app/zz: it is neither a file nor a folder' err && ended="$ended pipe" ;;
    *) ended="$ended $status" ;;
  esac
done
check 'a source that turns into a pipe never waits' '' "$(tr ' ' '\n' <<<"$ended" | grep -v -e '^$' -e whole -e pipe)"
check 'and is told in each run' 4 "$(wc -w <<<"$ended")"

# ---- files of length 0, as those of /proc

fresh
if [ -d /proc/sys/kernel/keys ]; then
  for name in $(ls /proc/sys/kernel/keys); do printf 'written %s %s copy\n' "$name" "$name"; done | LC_ALL=C sort >wanted
  count=$(wc -l <wanted)
  printf 'total files=%s written=%s kept=0 refused=0 renamed=0 added=0\n' "$count" "$count" >>wanted
  migrate run --rules rules --from /proc/sys/kernel/keys --to to --ledger ledger
  ends 'files of length 0' 0 "$(cat wanted)"
  check 'files of length 0: content' '' "$(for name in $(ls /proc/sys/kernel/keys); do cmp "/proc/sys/kernel/keys/$name" "to/$name"; done 2>&1)"
fi

# ---- roots that are one on the disk

# nested NAME FIRST SECOND RULES FROM TO LEDGER: the run ends with 21 and changes nothing
nested() {
  local before after
  before=$(find . -not -name out -not -name err -type f | LC_ALL=C sort | xargs sha256sum)
  migrate run --rules "$4" --from "$5" --to "$6" --ledger "$7"
  ends "$1" 21 "migrate: 21 nested roots $2 $3"
  has "$1: hint" 'no root may lie where another would be changed'
  repeated "$1"
  after=$(find . -not -name out -not -name err -type f | LC_ALL=C sort | xargs sha256sum)
  check "$1: nothing is changed" "$before" "$after"
}

fresh
nested 'an absolute target' app "$place/app" rules app "$place/app" ledger
nested 'an absolute target below the source' app "$place/app/x/y" rules app "$place/app/x/y" ledger
nested 'an absolute source below the target' "$place/app/WEB-INF" app rules "$place/app/WEB-INF" app ledger
ln -s app to
nested 'a target that is a link to the source' app to rules app to ledger
ln -s ../app/WEB-INF rules/app && rm rules/app
ln -s app/WEB-INF to2
nested 'a target that is a link into the source' app to2/new rules app to2/new ledger
rm to2
nested 'a target in the rules' rules "$place/rules/x" rules app "$place/rules/x" ledger
nested 'a ledger in the source' "$place/app/l" app rules app to2 "$place/app/l"
nested 'a ledger in the target' "$place/to2/l" to2 rules app to2 "$place/to2/l"
nested 'a ledger in the rules' "$place/rules/l" rules rules app to2 "$place/rules/l"
nested 'as they are written' app app/x rules app app/x ledger
if mkdir other && mount --bind app other 2>/dev/null; then
  nested 'a folder that is mounted twice' app other rules app other ledger
  umount other
fi

# ---- one ledger from two working folders

fresh
mkdir -p work/rules work/app
cp rules/* work/rules; cp -r app/. work/app
migrate run --rules rules --from app --to to --ledger "$place/ledger"
ends 'a first working folder' 0 "$report"
cd work || exit 1
migrate run --rules rules --from app --to to --ledger "$place/ledger"
ends 'another working folder' 12 'migrate: 12 ledger fault done=0'
has 'another working folder: why' 'its relative roots belong to another working folder'
check 'another working folder: nothing is written' '' "$(ls -d to 2>/dev/null)"
cd "$place" || exit 1
migrate run --rules rules --from app --to to --ledger "$place/ledger"
check 'the first one again' 'total files=2 written=0 kept=2 refused=0 renamed=0 added=0' "$(tail -1 out)"
fresh
migrate run --rules rules --from "$place/app" --to "$place/to" --ledger ledger
mkdir work; cd work || exit 1
migrate run --rules ../rules --from "$place/app" --to "$place/to" --ledger ../ledger
check 'relative rules above' 20 "$status"
migrate run --rules "$place/rules" --from "$place/app" --to "$place/to" --ledger "$place/ledger"
check 'absolute roots from anywhere' 'total files=2 written=0 kept=2 refused=0 renamed=0 added=0' "$(tail -1 out)"
cd "$place" || exit 1

# ---- kept on trust

fresh
migrate run --rules rules --from app --to to --ledger ledger
migrate run --rules rules --from app --to to --ledger ledger
hasnt 'kept, and there' 'files were kept'
rm to/readme.txt
migrate run --rules rules --from app --to to --ledger ledger
check 'kept on trust: status' 0 "$status"
has 'kept on trust' 'the target folder holds fewer than these'
has 'kept on trust: the way on' 'run again with `--verify`'
check 'kept on trust: the last line' 'migrate: 2 files, 0 written, 2 kept; 1 note above' "$(tail -1 err)"
rm -r to
migrate run --rules rules --from app --to to --ledger ledger
check 'kept without a target: output' 'kept WEB-INF/web.xml WEB-INF/web.xml
kept readme.txt readme.txt
total files=2 written=0 kept=2 refused=0 renamed=0 added=0' "$(cat out)"
has 'kept without a target' 'the target folder holds fewer than these'

# ---- what was not looked into

fresh
mkdir -p app/lib app/META-INF
for i in $(seq -w 12); do printf 'PK' >"app/lib/a$i.jar"; done
printf 'PK' >app/lib/B.WAR
printf 'x' >app/META-INF/SIGNER.SF
printf 'x' >app/META-INF/SIGNER.RSA
printf '\xef\xbb\xbfjavax.servlet javax.ejb.EJB javax.jms' >app/readme.txt
printf '\xef\xbb\xbfjavax.servlet=jakarta.servlet\njavax.ejb.EJB=jakarta.ejb.EJB\njavax.jms=jakarta.jms\n' >rules/renames.properties
migrate run --rules rules --from app --to to --ledger ledger
check 'what was not looked into: status' 0 "$status"
has 'archives' 'archives were copied unread'
has 'the first archive' 'migrate:   lib/B.WAR'
check 'at most ten archives' 10 "$(grep -c '^migrate:   lib/' err)"
has 'the other archives' 'migrate:   and 3 more'
has 'signatures' 'migrate:   META-INF/SIGNER.SF'
has 'signatures: the way on' 'remove them from the target'
has 'a byte order mark' 'have a byte order mark'
has 'a key with a mark' 'migrate:   renames.properties:1 \ef\bb\bfjavax.servlet'
has 'a key as of a class' 'migrate:   renames.properties:2 javax.ejb.EJB'
hasnt 'a key as it should be' 'javax.jms'
check 'what was not looked into: the last line' 'migrate: 17 files, 17 written, 0 kept; 4 notes above' "$(tail -1 err)"

# ---- rules without effect

fresh
mkdir -p app/lib.jar
printf 'x' >app/lib.jar/a
printf 'javax.servlet=jakarta.servlet\njavax.jms=jakarta.jms\n\njavax.servlet=\\\n  jakarta.servlet\n' >rules/renames.properties
printf '\xef\xbb\xbf*.txt=texts\nWEB-INF/web.xlm=texts\nWEB-INF/web.xml=texts\n' >rules/text.properties
printf 'a=b\n' >rules/texts
printf '# none\nlib.jra/*=!\nlib.jar/*=!\nMETA-INF/*=!\n*/META-INF/*=!\n' >rules/selection.properties
printf 'a=b' >rules/selections.properties
migrate run --rules rules --from app --to to --ledger ledger
check 'rules without effect: status' 0 "$status"
has 'a key that stands twice' 'migrate:   renames.properties:1 javax.servlet'
hasnt 'the key that counts' 'renames.properties:4'
has 'a mark in another rule file' 'migrate:   text.properties:1 \ef\bb\bf*.txt'
has 'a file that nothing names' 'migrate:   selections.properties'
hasnt 'a file that is named' 'migrate:   texts'
has 'a pattern of a selection that fits nothing' 'migrate:   selection.properties:2 lib.jra/*'
has 'a pattern of texts that fits nothing' 'migrate:   text.properties:2 WEB-INF/web.xlm'
hasnt 'a pattern that fits' 'selection.properties:3'
hasnt 'a pattern of texts that fits' 'text.properties:3'
hasnt 'a pattern for any application' 'META-INF'
has 'a rename that nothing meets' 'migrate:   renames.properties:2 javax.jms'
check 'rules without effect: the last line' 'migrate: 3 files, 3 written, 0 kept; 5 notes above' "$(tail -1 err)"
fresh
for i in $(seq 12); do printf 'x' >"rules/file$i"; done
migrate run --rules rules --from app --to to --ledger ledger
check 'at most ten files' 10 "$(grep -c '^migrate:   file' err)"
has 'the other files' 'migrate:   and 2 more'

# ---- rules that nothing meets

# class NAME: the bytes of a class of this name
class() {
  printf '\312\376\272\276\0\0\0\064\0\005\001\0'
  printf "\\$(printf '%03o' "${#1}")%s" "$1"
  printf '\007\0\001\001\0\020java/lang/Object\007\0\003\0\041\0\002\0\004\0\0\0\0\0\0\0\0'
}

renames='renames whose package stands in no file of the source, nor in the path of one, so that these lines have no effect'
direct='direct rules whose old text stands in no file of the source, so that these lines have no effect'
versions='versions of packages that stand in no file of the target, so that these lines have no effect'
bundles='bundles whose old name stands in no file of the source, so that these lines have no effect'

# folded TEXT: a manifest with this text in a header, each byte on a line of its own
folded() {
  printf 'Manifest-Version: 1.0\r\nX: '
  printf '%s' "$1" | sed 's/./\r\n &/g'
  printf '\r\n'
}

# each kind of rule, of which some are met and some aren't, and the lines that are told of those
fresh
mkdir -p app/x.jar/META-INF app/x.jar/org/path
printf 'x' >app/x.jar/org/path/file
folded 'Bundle-SymbolicName: old.folded' >app/x.jar/META-INF/MANIFEST.MF
printf '\0org/slashes/C\0org.dots\0a key\0old.named\0twice.it\0' >app/binary
cat >rules/renames.properties <<'end'
# of packages
org.slashes=new.slashes
org.nowhere.*=new.nowhere
org.dots.*=new.dots
org.path=new.path
org.kept=org.kept
org.kept.too.*=org.kept.too
org.none=new.none
twice.none=new.first
twice.none=new.second
end
printf 'a\\ key=a new key\nno\\ key=another\norg/none=org/other\nkept=kept\n' >rules/direct.properties
printf 'new.none=[1,2)\nnew.files=[2,3)\nnew.folded=[3,4)\n' >rules/versions.properties
printf 'old.named=new.named;2\nold.folded=new.folded\nold.none=new.none;1\nold.kept=old.kept\n' >rules/bundles.properties
printf 'new/files' >app/a
folded 'Import-Package: new.folded' >app/b
mkdir -p app/y.jar/META-INF
mv app/b app/y.jar/META-INF/MANIFEST.MF
migrate run --rules rules --from app --to to --ledger ledger
check 'rules that nothing meets: status' 0 "$status"
check 'rules that nothing meets' "migrate: keys stand in one rule file again, so that these lines have no effect:
migrate:   renames.properties:9 twice.none
migrate: $renames:
migrate:   renames.properties:3 org.nowhere.*
migrate:   renames.properties:8 org.none
migrate:   renames.properties:10 twice.none
migrate: $direct:
migrate:   direct.properties:2 no\\20key
migrate:   direct.properties:3 org/none
migrate: $versions:
migrate:   versions.properties:1 new.none
migrate: $bundles:
migrate:   bundles.properties:3 old.none
migrate: 7 files, 7 written, 0 kept; 5 notes above" "$(cat err)"

# the same rules in files that are for any application
for file in renames direct versions bundles; do
  printf '# for any application\r\n' | cat - "rules/$file.properties" >rules/new
  mv rules/new "rules/$file.properties"
done
migrate run --rules rules --from app --to to2 --ledger ledger2
check 'rules for any application' 'migrate: keys stand in one rule file again, so that these lines have no effect:
migrate:   renames.properties:10 twice.none
migrate: 7 files, 7 written, 0 kept; 1 note above' "$(cat err)"

# a class that uses a package
fresh
class javax/servlet/N >app/WEB-INF/classes/N.class
printf 'hello' >app/readme.txt
migrate run --rules rules --from app --to to --ledger ledger
hasnt 'a rename that a class meets' "$renames"

# a text on both sides of the end of a part of 1,048,576 bytes, and behind the first 67,108,864 bytes of a file, which no rule reads
for offset in 1048570 1048576 2097140 67108850; do
  fresh
  { head -c "$offset" /dev/zero; printf 'javax.servlet'; } >app/readme.txt
  migrate run --rules rules --from app --to to --ledger ledger
  hasnt "a text at $offset" "$renames"
done
fresh
{ head -c 67108864 /dev/zero; printf 'javax.servlet'; } >app/readme.txt
migrate run --rules rules --from app --to to --ledger ledger
has 'a text behind what is looked at' 'migrate:   renames.properties:1 javax.servlet.*'

# texts of which one begins with another, which stand one behind another, and that begin as they go on
fresh
printf 'aaa.b.c abab.d ab.ab' >app/readme.txt
printf 'aa.b=x1\na.b=x2\na.b.c.*=x3\na.b.c.d=x4\nab.d=x5\nabab=x6\nababa=x7\nb.c=x8\n' >rules/renames.properties
migrate run --rules rules --from app --to to --ledger ledger
check 'texts within texts' "migrate: $renames:
migrate:   renames.properties:4 a.b.c.d
migrate:   renames.properties:7 ababa
migrate: 2 files, 2 written, 0 kept; 1 note above" "$(cat err)"

# at most ten of a kind, and of those that begin in more than 64 ways the first
fresh
for i in $(seq -w 70); do printf 'p%sx.a=q%s\n' "$i" "$i"; done >rules/renames.properties
migrate run --rules rules --from app --to to --ledger ledger
check 'at most ten renames' 10 "$(grep -c '^migrate:   renames.properties:' err)"
has 'the first of them' 'migrate:   renames.properties:1 p01x.a'
has 'the other renames' 'migrate:   and 54 more'

# more bytes than are looked at
fresh
printf 'org.none=org.new\n' >rules/renames.properties
for i in $(seq 17); do truncate -s 64M "app/large$i"; done
migrate run --rules rules --from app --to to --ledger ledger
check 'a large application: status' 0 "$status"
check 'a large application: nothing is told' 'migrate: 19 files, 19 written, 0 kept; nothing is left to look at' "$(cat err)"

# the ready rules, most of which nothing meets
for ready in jakarta-ee-9 jakarta-ee-9-jsr305 jakarta-ee-10; do
  fresh
  migrate run --rules "$top/rules/$ready" --from app --to to --ledger ledger
  check "nothing is told of $ready" 'migrate: 2 files, 2 written, 0 kept; nothing is left to look at' "$(cat err)"
done

# ---- files that need a look

fresh
printf '\xff\xfea\0b\0' >app/wide.properties
printf '\xfe\xff\0a\0b' >app/wider.properties
printf 'ab' >app/narrow.properties
printf '\xff\xfea\0b\0' >app/wide.txt
printf '*.properties=texts\n' >rules/text.properties
printf 'ab=c\n' >rules/texts
migrate run --rules rules --from app --to to --ledger ledger
check 'texts in UTF-16: status' 0 "$status"
has 'texts in UTF-16' 'texts are in UTF-16, in which no text rule fits anything'
has 'a text in UTF-16' 'migrate:   wide.properties'
has 'another text in UTF-16' 'migrate:   wider.properties'
hasnt 'a text in UTF-8' 'migrate:   narrow.properties'
hasnt 'a text without rules' 'wide.txt'

# ---- refused files

fresh
printf '\xca\xfe\xba\xbe\x00\x00\x00\x42' >app/WEB-INF/classes/New.class
printf 'no class' >app/WEB-INF/classes/No.class
migrate run --rules rules --from app --to to --ledger ledger
check 'refused: status' 2 "$status"
has 'the target is not ready' "the target isn't ready to be used"
has 'counts by reason' "migrate: refused: 1 classes of a release that isn't read, 1 classes that aren't well-formed"
has 'its release' 'migrate:   WEB-INF/classes/New.class is of Java 22'
check 'refused: the last line' 'migrate: 4 files, 2 written, 0 kept; 2 refused: see their lines in the report' "$(tail -1 err)"

# ---- rules

# badrules NAME LINE SAID TEXT [PLACE..]: rules of this text end with 22; each place stands on standard error
badrules() {
  local name=$1 line=$2 said=$3 place
  fresh
  printf "$4" >rules/renames.properties
  migrate run --rules rules --from app --to to --ledger ledger
  ends "$name" 22 "$line"
  has "$name: $said" "$said"
  repeated "$name"
  shift 4
  for place in "$@"; do has "$name: $place" "migrate:   $place"; done
}

badrules 'no renames' 'migrate: 22 no renames' 'has no `renames.properties`' ''
badrules 'bytes' 'migrate: 22 properties renames.properties not-utf8 1' "isn't in UTF-8" 'a\xff=b\n' 'renames.properties:1'
badrules 'bytes below' 'migrate: 22 properties renames.properties not-utf8 5' "isn't in UTF-8" 'a=b\n\n\xff=b\n' 'renames.properties:3'
badrules 'an escape' 'migrate: 22 properties renames.properties escape 2' 'four hexadecimal digits' 'a=\\u12\n' 'renames.properties:1'
badrules 'a key' 'migrate: 22 bad key renames.properties a..b' "a key of \`renames.properties\` isn't a package" '# c\na..b=c\n' 'renames.properties:2 a..b'
badrules 'a value' 'migrate: 22 bad value renames.properties a' "a value of a rule file hasn't" 'b=b\n\na=b..c\n' 'renames.properties:3 a'
badrules 'a chain' 'migrate: 22 chain 1 a b' 'the first rename gives a package that the second renames' 'b=c\n a=b\n' 'renames.properties:2 a' 'renames.properties:1 b'
badrules 'a byte order mark before a comment' 'migrate: 22 bad key renames.properties \ef\bb\bf#' 'have a byte order mark' '\xef\xbb\xbf# all\na=b\n' 'renames.properties:1 \ef\bb\bf#'
fresh
mv rules/renames.properties rules/rename.properties
migrate run --rules rules --from app --to to --ledger ledger
ends 'renames in a file of another name' 22 'migrate: 22 no renames'
has 'renames in a file of another name: which' 'migrate:   rename.properties'
fresh
printf 'javax.servlet=javax.servlet.old\n' >rules/direct.properties
migrate run --rules rules --from app --to to --ledger ledger
check 'a direct rule in a chain: status' 22 "$status"
repeated 'a direct rule in a chain'
has 'a direct rule in a chain: its line' 'migrate:   direct.properties:1 javax.servlet'
printf 'jakarta.servlet=c\n' >rules/renames.properties
printf 'a=b\n' >>rules/renames.properties
printf 'b=c\n' >>rules/renames.properties
rm rules/direct.properties
migrate invert --rules rules
ends 'an inverse of a chain' 22 'migrate: 22 chain 1 a b'
has 'an inverse of a chain: its line' 'migrate:   renames.properties:3 b'

# ---- limits, clashes, another run

fresh
head -c 67108865 /dev/zero >app/Large.class
migrate run --rules rules --from app --to to --ledger ledger
ends 'a large class' 23 'migrate: 23 limit file-size Large.class'
has 'a large class: hint' 'one that is migrated may have 67,108,864 bytes'
fresh
head -c 67108865 /dev/zero >app/large
migrate run --rules rules --from app --to to --ledger ledger
grep '^written large ' out >large-line
mv large-line out
ends 'a large file that is copied' 0 'written large large copy'
cmp app/large to/large >out 2>&1
ends 'a large file that is copied: its bytes' 0 ''
fresh
mkdir -p app/x.jar/javax/servlet app/x.jar/jakarta/servlet
printf 'a' >app/x.jar/javax/servlet/n; printf 'b' >app/x.jar/jakarta/servlet/n
migrate run --rules rules --from app --to to --ledger ledger
ends 'a clash' 24 'migrate: 24 path clash x.jar/jakarta/servlet/n x.jar/javax/servlet/n'
has 'a clash: hint' 'would get one target'

# nonnull RULES: an application with an annotation of JSR 305 is migrated by this rule
nonnull() {
  fresh
  mkdir -p app/lib.jar/javax/annotation
  class javax/annotation/Nonnull >app/lib.jar/javax/annotation/Nonnull.class
  printf '%s\n' "$1" >rules/renames.properties
  migrate run --rules rules --from app --to to --ledger ledger
  check "JSR 305 under $1: status" 0 "$status"
}
nonnull 'javax.annotation=jakarta.annotation'
has 'JSR 305 that moved' 'annotations of JSR 305 moved with the package javax.annotation'
has 'JSR 305 that moved: which' 'migrate:   lib.jar/javax/annotation/Nonnull.class'
nonnull 'javax.annotation.sql=jakarta.annotation.sql'
has 'JSR 305 that stayed' 'annotations of JSR 305 stay in javax.annotation'
has 'a rename of no package of the application' 'migrate:   renames.properties:1 javax.annotation.sql'
check 'JSR 305 that stayed: the last line' 'migrate: 3 files, 3 written, 0 kept; 2 notes above' "$(tail -1 err)"
nonnull 'javax.servlet=jakarta.servlet'
hasnt 'JSR 305 under other rules' 'JSR 305'

fresh
mkdir -p app/a.jar/javax/servlet app/b.jar/jakarta/servlet
class javax/servlet/N >app/a.jar/javax/servlet/N.class
class jakarta/servlet/N >app/b.jar/jakarta/servlet/N.class
migrate run --rules rules --from app --to to --ledger ledger
ends 'two names' 25 'migrate: 25 name clash jakarta/servlet/N javax/servlet/N jakarta/servlet/N'
has 'two names: hint' 'would get one name'
check 'two names: nothing is written' '' "$(ls -d to ledger* 2>/dev/null)"
fresh
mkdir -p app/a.jar/javax/servlet
class javax/servlet/N >app/a.jar/javax/servlet/N.class
printf 'a.jar/*=!\n' >rules/selection.properties
migrate run --rules rules --from app --to to --ledger ledger
ends 'a class left behind' 26 'migrate: 26 stranded a.jar/javax/servlet/N.class javax/servlet/N'
has 'a class left behind: hint' 'names a class of the source that is renamed'
check 'a class left behind: nothing is written' '' "$(ls -d to ledger* 2>/dev/null)"
fresh
migrate run --rules rules --from app --to to --ledger ledger
# sqlite3 moves what the log holds into the file, and takes the log away.
command -v sqlite3 >/dev/null && sqlite3 ledger 'PRAGMA wal_checkpoint' >/dev/null && rm -f ledger-shm
log=$(ls ledger-wal 2>/dev/null)
migrate run --rules rules --from app --to to2 --ledger ledger
check 'another target: status' 27 "$status"
has 'another target: hint' 'the ledger belongs to a run with another target'
check 'another target leaves no new log' "$log" "$(ls ledger-wal 2>/dev/null)"
printf 'javax.jms=jakarta.jms\n' >>rules/renames.properties
migrate run --rules rules --from app --to to --ledger ledger
has 'other rules: hint' 'the ledger belongs to a run with other rules'
migrate run --rules rules --from app/WEB-INF --to to2 --ledger ledger
has 'all others: hint' 'the ledger belongs to a run with other source, target and rules'
has 'what to do' 'another one starts anew'

# ---- ledgers

# ledger NAME: a ledger of this name is a file of this name
named() {
  fresh
  migrate run --rules rules --from app --to to --ledger "$1"
  ends "a ledger named ${1:0:20}" 0 "$report"
  check "a ledger named ${1:0:20} is a file" 'SQLite format 3' "$(head -c 15 "./$1")"
  migrate run --rules rules --from app --to to --ledger "$1"
  check "a ledger named ${1:0:20} keeps" 'total files=2 written=0 kept=2 refused=0 renamed=0 added=0' "$(tail -1 out)"
  rm -f "./$1" "./${1:0:247}-wal" ./.migrate-*
}
named ':memory:'
named 'file:x'
named 'file:x?mode=memory'
named "$(printf 'l%.0s' $(seq 247))"
# A name that leaves no room for the log's: while it is opened, the file has a short one, by which its log is called.
for letters in 248 255; do
  long=$(printf 'l%.0s' $(seq "$letters"))
  short=.migrate-$(printf '%s' "$long" | sha256sum | cut -c1-32)
  named "$long"
  fresh
  migrate run --rules rules --from app --to to --ledger "$long"
  check "a ledger of $letters bytes and its log" "$short-wal
$long" "$(LC_ALL=C ls -A | grep -e '^l*$' -e '^\.migrate-')"
  mv "$long" "$short"
  migrate run --rules rules --from app --to to --ledger "$long"
  check "a ledger of $letters bytes that a killed program left keeps" 'total files=2 written=0 kept=2 refused=0 renamed=0 added=0' "$(tail -1 out)"
  check "which has its name again" "$short-wal
$long" "$(LC_ALL=C ls -A | grep -e '^l*$' -e '^\.migrate-')"
  rm -f "$long" "$short-wal"
done

# noledger NAME LEDGER SAID: the run ends with 12 and says why
noledger() {
  migrate run --rules rules --from app --to to --ledger "$2"
  ends "$1" 12 'migrate: 12 ledger fault done=0'
  has "$1: $3" "$3"
}
fresh
long=$(printf 'l%.0s' $(seq 256))
noledger 'a ledger whose name has 256 bytes' "$long" 'File name too long'
long=${long:1}
short=.migrate-$(printf '%s' "$long" | sha256sum | cut -c1-32)
printf 'no ledger' >"$short"
noledger 'a ledger whose short name another file has' "$long" 'it is no database, or a damaged one'
printf '' >"$long"
noledger 'a ledger that is there, whose short name another file has' "$long" 'File exists'
check 'which stays' 'no ledger' "$(cat "$short")"
check 'and leaves no log' '' "$(ls "$short-wal" 2>/dev/null)"
rm -f "$long" "$short"
mkdir sub; printf 'no database' >sub/text
noledger 'a ledger in a missing folder' missing/ledger 'migrate: opening the ledger missing/ledger: No such file or directory'
noledger 'a folder as a ledger' sub 'migrate: opening the ledger sub: it is a folder'
noledger 'a text as a ledger' sub/text 'migrate: opening the ledger sub/text: it is no database'
noledger 'a ledger below a file' sub/text/l 'migrate: opening the ledger sub/text/l: Not a directory'
mkfifo sub/pipe
noledger 'a pipe as a ledger' sub/pipe 'migrate: opening the ledger sub/pipe: it is neither a file nor a folder'

# ---- output

fresh
"$program" run --rules rules --from app --to to --ledger ledger >/dev/full 2>err
check 'a full output: status' 13 "$?"
has 'a full output' 'standard output took no more'
check 'a full output: the line of the status' 'migrate: 13 output fault' "$(head -1 err)"
"$program" run --rules rules --from app --to to --ledger ledger 2>/dev/full >out
status=$?
ends 'standard error that takes nothing' 0 'kept WEB-INF/web.xml WEB-INF/web.xml
kept readme.txt readme.txt
total files=2 written=0 kept=2 refused=0 renamed=0 added=0'

ended

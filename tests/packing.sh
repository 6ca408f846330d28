#!/usr/bin/env bash
# Unpacks an archive of archives, migrates it and packs it again: names with blanks, dots and letters beyond ASCII, empty
# folders, stored entries, a signed archive, and a file that is named like an archive. The expected lines are written by hand.
set -u
cd "$(dirname "$0")/.."
. tests/common.sh
needs python3 unzip
tools=$PWD/tools
cd "$place" || exit 1

python3 - <<'PY'
import io
import warnings
import zipfile


warnings.simplefilter("ignore")


def archive(entries):
    room = io.BytesIO()
    with zipfile.ZipFile(room, "w") as made:
        for name, content, stored in entries:
            info = zipfile.ZipInfo(name, (2020, 2, 3, 4, 5, 6))
            info.external_attr = (0o40755 << 16 | 0x10) if name.endswith("/") else (0o755 if name.endswith(".sh") else 0o644) << 16
            info.compress_type = zipfile.ZIP_STORED if stored else zipfile.ZIP_DEFLATED
            made.writestr(info, content)
    return room.getvalue()


inner = archive([
    ("a file.txt", b"inner" * 9, False),
    ("META-INF/MANIFEST.MF", b"Manifest-Version: 1.0\r\n\r\n", False),
    ("META-INF/services/javax.servlet.Filter", b"javax.servlet.F\n", True),
])
signed = archive([
    ("META-INF/MANIFEST.MF", b"Manifest-Version: 1.0\r\n\r\nName: x\r\nSHA-256-Digest: AA==\r\n\r\n", False),
    ("META-INF/SIGNER.SF", b"", False),
    ("META-INF/SIGNER.RSA", b"", False),
    ("lib/deep.war", inner, True),
])
open("app.ear", "wb").write(archive([
    ("lib/", b"", True),
    ("lib/signed one.jar", signed, True),
    ("lib/text.jar", b"no archive", False),
    (".hidden/.file", b"hidden", False),
    ("empty folder/", b"", True),
    ("javax/servlet/caf\u00e9.txt", b"text", True),
    ("run.sh", b"old", False),
    ("run.sh", b"#!/bin/sh\n", False),
    ("META-INF/MANIFEST.MF", b"Manifest-Version: 1.0\r\n\r\n", False),
]))
PY
mkdir rules
printf 'javax.servlet.*=jakarta.servlet\n' >rules/renames.properties

"$tools/unpack.py" app.ear app 2>got
cat app/run.sh >>got
cat >wanted <<'END'
stands twice, and the last is taken: run.sh
signed, and its signature files are left out: lib/signed\20one.jar
no archive, and stays a file: lib/text.jar
#!/bin/sh
END
same "what is said of the archive" wanted got

(cd app && find . | LC_ALL=C sort) >got
cat >wanted <<'END'
.
./.hidden
./.hidden/.file
./META-INF
./META-INF/MANIFEST.MF
./empty folder
./javax
./javax/servlet
./javax/servlet/café.txt
./lib
./lib/signed one.jar
./lib/signed one.jar/META-INF
./lib/signed one.jar/META-INF/MANIFEST.MF
./lib/signed one.jar/lib
./lib/signed one.jar/lib/deep.war
./lib/signed one.jar/lib/deep.war/META-INF
./lib/signed one.jar/lib/deep.war/META-INF/MANIFEST.MF
./lib/signed one.jar/lib/deep.war/META-INF/services
./lib/signed one.jar/lib/deep.war/META-INF/services/javax.servlet.Filter
./lib/signed one.jar/lib/deep.war/a file.txt
./lib/text.jar
./run.sh
END
same "the folders" wanted got

"$program" run --rules rules --from app --to new --ledger ledger >report
"$tools/modes.py" app new report
(cd new && find . -type f -printf '%m %TY-%Tm-%Td %p\n' | LC_ALL=C sort -k3 | grep -E 'run.sh|caf') >got
printf '644 2020-02-03 ./jakarta/servlet/café.txt\n755 2020-02-03 ./run.sh\n' >wanted
same "modes and times" wanted got

# listed ARCHIVE: each entry's method, time, mode and name
listed() {
  python3 - "$1" <<'PY'
import sys
import warnings
import zipfile

for it in zipfile.ZipFile(sys.argv[1]).infolist():
    method = "stored" if it.compress_type == zipfile.ZIP_STORED else "deflated"
    print(method, "%d-%02d-%02d" % it.date_time[:3], "%o" % (it.external_attr >> 16 & 0o777), it.filename)
PY
}

"$tools/pack.py" new new.ear app.entries report
listed new.ear >got
cat >wanted <<'END'
deflated 2020-02-03 644 META-INF/MANIFEST.MF
stored 1980-01-01 755 .hidden/
deflated 2020-02-03 644 .hidden/.file
stored 1980-01-01 755 META-INF/
stored 2020-02-03 755 empty folder/
stored 1980-01-01 755 jakarta/
stored 1980-01-01 755 jakarta/servlet/
stored 2020-02-03 644 jakarta/servlet/café.txt
stored 2020-02-03 755 lib/
stored 2020-02-03 644 lib/signed one.jar
deflated 2020-02-03 644 lib/text.jar
deflated 2020-02-03 755 run.sh
END
same "the entries" wanted got
unzip -q new.ear 'lib/signed one.jar' -d once
unzip -q 'once/lib/signed one.jar' lib/deep.war -d twice
listed twice/lib/deep.war >got
cat >wanted <<'END'
deflated 2020-02-03 644 META-INF/MANIFEST.MF
stored 1980-01-01 755 META-INF/
stored 1980-01-01 755 META-INF/services/
stored 2020-02-03 644 META-INF/services/jakarta.servlet.Filter
deflated 2020-02-03 644 a file.txt
END
same "the entries of an archive in an archive in it" wanted got

find new -exec touch {} +
"$tools/pack.py" new again.ear app.entries report
cmp new.ear again.ear >got 2>&1
: >wanted
same "the same bytes each time" wanted got

# ---- an entry that would lie outside the folder

python3 -c 'import zipfile; zipfile.ZipFile("bad.jar", "w").writestr("../out.txt", "x")'
"$tools/unpack.py" bad.jar bad >got 2>&1
echo "status $?" >>got
printf 'unpack.py: ../out.txt would lie outside the folder\nstatus 1\n' >wanted
same "an entry outside the folder" wanted got

ended

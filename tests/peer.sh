#!/usr/bin/env bash
# Migrates the same libraries with Apache Tomcat's migration tool (Debian: tomcat-jakartaee-migration, profile EE) and with this
# program (rules/jakarta-ee-9), and compares each class as `javap -v -p` prints it. Prints a page: a table, the differences by
# kind with what each kind means, the strings that are left though they name an API's class or package, and the switch
# statements over strings whose label is renamed. It fails where a difference is of no kind that the page explains, and where a
# string is left. The libraries are those of the list below that are installed, or those that the words name; with fewer than
# five the test is skipped with a line that names the packages of Debian 12. A library is an archive /usr/share/java/NAME.jar.
set -u
packages="openjdk-17-jdk-headless tomcat-jakartaee-migration libtaglibs-standard-impl-java libtaglibs-standard-spec-java
  libtomcat9-java libcommons-fileupload-java libcommons-email-java libspring-web-java libspring-web-servlet-java libmail-java
  libjsf-api-java libgeronimo-validation-1.1-spec-java libgeronimo-jpa-2.0-spec-java libjetty9-java libopenjpa-java
  libhibernate-validator-java"

# skipped WHY: ends the test, with what to install
skipped() {
  echo "skipped: $1; apt-get install" $packages
  exit 0
}

cd "$(dirname "$0")/.."
for word in java javac javap unzip python3 javax2jakarta; do
  command -v "$word" >/dev/null || skipped "no $word is here"
done
. tests/common.sh
top=$PWD
[ $# -gt 0 ] || set -- taglibs-standard-spec taglibs-standard-impl commons-fileupload commons-email javax.mail jsf-api \
  geronimo-validation-1.1-spec geronimo-jpa_2.0_spec jetty9-servlet \
  jetty9-webapp spring3-web tomcat9-websocket tomcat9-jasper openjpa-persistence hibernate-validator
found=
for name in "$@"; do
  [ -f "/usr/share/java/$name.jar" ] && found="$found $name"
done
set -- $found
[ $# -ge 5 ] || skipped "only $# libraries are here"
cd "$place" || exit 1
mkdir old peer ours packed

# ---- a library of its own, whose switch must be found

mkdir -p switch
cat >Labels.java <<'END'
public class Labels {
    static int number(String name) {
        switch (name) {
            case "javax.servlet.error.status_code": return 1;
            case "other": return 2;
            default: return 0;
        }
    }
}
END
javac -d switch Labels.java || exit 1
(cd switch && jar cf ../packed/labels.jar Labels.class)
for name in "$@"; do cp "/usr/share/java/$name.jar" packed/; done
set -- "$@" labels

# ---- both tools

for name in "$@"; do
  "$top/tools/unpack.py" "packed/$name.jar" "old/$name.jar" || exit 1
  javax2jakarta -profile=EE "packed/$name.jar" "peer-$name.jar" >peer.log 2>&1 || { cat peer.log >&2; exit 1; }
  "$top/tools/unpack.py" "peer-$name.jar" "peer/$name.jar" || exit 1
done
rm -f old/*.entries peer/*.entries
"$program" run --rules "$top/rules/jakarta-ee-9" --from old --to ours --ledger ledger >report
tail -1 report
grep '^refused' report

python3 "$top/tests/peer.py" "$place" "$@" | tee page
[ "${PIPESTATUS[0]}" = 0 ] || exit 1

# The switch of the library that was made for it is in the list.
grep '^labels ' page >got
printf 'labels Labels.class: javax.servlet.error.status_code -> jakarta.servlet.error.status_code\n' >wanted
same "the switch that must be found" wanted got
ended

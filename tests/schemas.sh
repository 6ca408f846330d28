#!/usr/bin/env bash
# Checks each descriptor of the example's web application against the schema that it names, before and after its migration: the
# schemas of Java EE 8 and of Jakarta EE 9 are in Debian's libtomcat10-java. A descriptor whose schema isn't there is named. A
# namespace that moved without its version must be found invalid. Skipped with a line where a package is missing.
set -u
cd "$(dirname "$0")/.."
. tests/common.sh
needs java javac unzip python3
java=/usr/share/java
for jar in tomcat9-servlet-api tomcat10-servlet-api taglibs-standard-impl; do
  [ -f "$java/$jar.jar" ] || lacks "$java/$jar.jar isn't here"
done
program_of_schemas=$PWD/tests/Schemas.java
examples/war/run.sh "$place/war" >"$place/built" || { cat "$place/built" >&2; exit 1; }
cd "$place" || exit 1
unzip -q -j "$java/tomcat10-servlet-api.jar" 'jakarta/servlet/resources/*' -d schemas

# checked FOLDER: how many descriptors are valid, how many not
checked() {
  java "$program_of_schemas" schemas "$1" >lines
  cat lines >&2
  echo "valid $(grep -c '^valid: ' lines) invalid $(grep -c '^invalid: ' lines)"
}

checked war/app 2>/dev/null >got
printf 'valid 10 invalid 0\n' >wanted
same "the descriptors before" wanted got
checked war/new >got
same "the descriptors after" wanted got

mkdir torn
sed 's/version="5.0"/version="4.0"/' war/new/WEB-INF/web.xml >torn/web.xml
checked torn 2>/dev/null >got
printf 'valid 0 invalid 1\n' >wanted
same "a descriptor of the old version in the new namespace" wanted got

ended

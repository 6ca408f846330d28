#!/usr/bin/env bash
# A web application of Java EE 8, from its sources to a packed archive of Jakarta EE 9.1:
#
#     examples/war/run.sh [WORK]
#
# compiles the application beside the API of Java EE 8, packs it as WORK/shop-ee8.war, unpacks that to WORK/app, with each
# archive in it as a folder, migrates it with the ready rules to WORK/new, and packs that as WORK/shop.war. WORK is build/war
# where it isn't given. On Debian 12 the packages libtomcat9-java, libtaglibs-standard-spec-java,
# libtaglibs-standard-impl-java and libjsr305-java have the API, the Standard Tag Library and JSR 305.
set -eu
cd "$(dirname "$0")/../.."
top=$PWD
example=$top/examples/war
work=${1:-build/war}
program=crates/migrate/out/migrate
[ -x "$program" ] || examples/first/run.sh >/dev/null
command -v javac >/dev/null || { echo "run.sh needs a JDK" >&2; exit 1; }
command -v python3 >/dev/null || { echo "run.sh needs python3" >&2; exit 1; }

java=/usr/share/java
api=
for jar in $java/tomcat9-servlet-api.jar $java/tomcat9-jsp-api.jar $java/tomcat9-el-api.jar $java/tomcat9-annotations-api.jar; do
  [ -f "$jar" ] || { echo "run.sh needs $jar: apt-get install libtomcat9-java" >&2; exit 1; }
  api=$api:$jar
done
for jar in $java/taglibs-standard-spec.jar $java/taglibs-standard-impl.jar; do
  [ -f "$jar" ] || { echo "run.sh needs $jar: apt-get install libtaglibs-standard-spec-java libtaglibs-standard-impl-java" >&2; exit 1; }
done
[ -f "$java/jsr305.jar" ] || { echo "run.sh needs $java/jsr305.jar: apt-get install libjsr305-java" >&2; exit 1; }

rm -rf "$work"
mkdir -p "$work"
work=$(cd "$work" && pwd)

# ---- the old archive, laid out with each archive in it as a folder

laid=$work/laid
lib=$laid/WEB-INF/lib
mkdir -p "$lib/plugin.jar/META-INF/services" "$lib/plugin.jar/lib/inner.jar/META-INF" "$laid/WEB-INF/classes" "$laid/META-INF"
cp -r "$example/web/." "$laid/"
mkdir "$laid/uploads of today"
javac --release 11 -cp "$api:$java/jsr305.jar" -d "$laid/WEB-INF/classes" "$example"/source/shop/*.java
cp "$example"/source/shop/*.properties "$laid/WEB-INF/classes/shop/"
javac --release 11 -cp "$api" -d "$lib/plugin.jar" "$example"/plugin/plug/*.java
javac --release 11 -cp "$api" -d "$lib/plugin.jar/lib/inner.jar" "$example"/inner/stock/*.java
cp "$example/plugin/MANIFEST.MF" "$lib/plugin.jar/META-INF/"
echo 'plug.Register' >"$lib/plugin.jar/META-INF/services/javax.servlet.ServletContainerInitializer"
printf 'Manifest-Version: 1.0\r\n\r\n' | tee "$laid/META-INF/MANIFEST.MF" >"$lib/plugin.jar/lib/inner.jar/META-INF/MANIFEST.MF"
for name in taglibs-standard-spec taglibs-standard-impl jsr305; do
  tools/unpack.py "$java/$name.jar" "$lib/$name.jar"
  rm "$lib/$name.jar.entries"
done
tools/pack.py "$laid" "$work/shop-ee8.war"

# ---- the recipe: unpack, migrate, pack

tools/unpack.py "$work/shop-ee8.war" "$work/app"
"$program" run --rules rules/jakarta-ee-9 --from "$work/app" --to "$work/new" --ledger "$work/ledger" >"$work/report"
tools/modes.py "$work/app" "$work/new" "$work/report"
tools/pack.py "$work/new" "$work/shop.war" "$work/app.entries" "$work/report"

tail -1 "$work/report"
echo "packed: $work/shop.war"

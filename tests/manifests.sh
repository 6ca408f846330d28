#!/usr/bin/env bash
# Migrates the manifests of the jars that Debian's packages have installed, and reads each before and after as a JDK does, with
# java.util.jar.Manifest, and where bnd is there with bnd's Parameters too: attribute by attribute and clause by clause nothing
# but renamed packages may differ. Skipped where no JDK or no jar is.
set -u
cd "$(dirname "$0")/.."
. tests/common.sh
needs javac
[ -d /usr/share/java ] || lacks "no jars are here"
reader=$PWD/tests/ReadManifests.java
bnd=$(ls /usr/share/java/bndlib.jar /usr/share/java/bnd-libg.jar /usr/share/java/bnd-annotation.jar /usr/share/java/slf4j-api.jar /usr/share/java/osgi.core.jar /usr/share/java/osgi.annotation.jar 2>/dev/null | paste -sd:)
cd "$place" || exit 1

javac -d reader "$reader" || exit 1
# read_manifests WORD..: what the reader says
read_manifests() {
  java -cp "reader${bnd:+:$bnd}" ReadManifests "$@"
}

# ---- each manifest, in a folder that stands for its jar

folders=$(for folder in /usr/share/java /usr/share/maven-repo /usr/lib/eclipse /usr/share/eclipse /usr/lib/jvm; do
  [ -d "$folder" ] && echo "$folder"
done)
mkdir from
count=$(read_manifests collect from $folders)
[ "$count" -ge 200 ] || echo "only $count manifests are here: install more packages of libraries"

# ---- packages that many bundles import and export, under new names of other lengths

mkdir rules
cat >rules/renames.properties <<'END'
javax.servlet.*=jakarta.servlet
org.osgi.framework.*=org.example.renamed.osgi.core
org.apache.commons.*=com.commons
org.slf4j=org.slf4j.api.of.another.length
END
# renamed: standard input with the same packages renamed; the name of a section is a path
renamed() {
  perl -pe '
    if (/^  section /) {
      s,^(  section )javax/servlet/,$1jakarta/servlet/,;
      s,^(  section )org/osgi/framework/,$1org/example/renamed/osgi/core/,;
      s,^(  section )org/apache/commons/,$1com/commons/,;
      s,^(  section )org/slf4j/([^/ ]* \|),$1org/slf4j/api/of/another/length/$2,;
      next;
    }
    next unless /^  (main \| (Import-Package|Export-Package|DynamicImport-Package|Main-Class|Premain-Class|Agent-Class|Launcher-Agent-Class|Bundle-Activator) \||clause (Import|Export|DynamicImport)-?Package)/i;
    my $class = /^  main \| (Main|Premain|Agent|Launcher-Agent)-Class|^  main \| Bundle-Activator/i;
    s/(?<![\w.\$])javax\.servlet(?=[.;,"\s}=\]]|$)/jakarta.servlet/g;
    s/(?<![\w.\$])org\.osgi\.framework(?=[.;,"\s}=\]]|$)/org.example.renamed.osgi.core/g;
    s/(?<![\w.\$])org\.apache\.commons(?=[.;,"\s}=\]]|$)/com.commons/g;
    s/(?<![\w.\$])org\.slf4j(?=[;,"\s}=\]]|$)/org.slf4j.api.of.another.length/g unless $class;
    s/(?<![\w.\$])org\.slf4j(?=\.\w+\s*$)/org.slf4j.api.of.another.length/ if $class;
  '
}

# ordered: the sections of each manifest in the order of their names, which renaming changes
ordered() {
  awk '/^[^ ]/ { count++ } { print count "\t" $0 }' | LC_ALL=C sort -s -t "$(printf '\t')" -k1,1n -k2,2 | cut -f2-
}

"$program" run --rules rules --from from --to out --ledger ledger >report
status=$?
printf '0\n' >wanted
printf '%s\n' "$status" >got
same "the exit status" wanted got

read_manifests say from | renamed | ordered >wanted
read_manifests say out | ordered >got
same "what a JDK reads of $count manifests" wanted got

# ---- no line is longer than 72 bytes where none was

find out -name MANIFEST.MF -print0 | xargs -0 awk 'FNR == 1 { file = FILENAME } { sub(/\r$/, "") } length($0) > 72 { print file }' | sort -u | sed 's,^out/,,' >long_after
find from -name MANIFEST.MF -print0 | xargs -0 awk 'FNR == 1 { file = FILENAME } { sub(/\r$/, "") } length($0) > 72 { print file }' | sort -u | sed 's,^from/,,' >long_before
comm -13 long_before long_after >got
: >wanted
same "lines of more than 72 bytes" wanted got

# ---- a second migration changes nothing

"$program" run --rules rules --from out --to again --ledger ledger2 >report2
diff -r out again >got 2>&1
same "a second migration" wanted got

echo "$count manifests, $(grep -c 'manifest changed=[1-9]' report) of them changed"
ended

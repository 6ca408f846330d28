# Sourced by the benches over a JDK's classes. Takes the home of a JDK from the bench's argument, and without one that which
# `javac` belongs to. Unpacks the JDK's modules into "$place/classes", where "$place" is a temporary folder that goes when the
# bench ends. Where no JDK with its modules is, it says so, and ends the bench.
if [ $# -gt 0 ]; then
    jdk=$1
elif command -v javac >/dev/null; then
    jdk=$(dirname "$(dirname "$(readlink -f "$(command -v javac)")")")
else
    jdk=
fi
if [ -z "$jdk" ] || [ ! -f "$jdk/lib/modules" ] || [ ! -x "$jdk/bin/jimage" ]; then
    echo "$0: skipped, since no JDK with its modules is here"
    exit 0
fi
place=$(mktemp -d)
trap 'rm -rf "$place"' EXIT
"$jdk/bin/jimage" extract --dir "$place/classes" "$jdk/lib/modules"

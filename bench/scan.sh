#!/bin/sh
# Reads every class file of a JDK with the desk's class reader, and prints what it counted, and its rate beside that of `cat`
# over the same files.
#
# Usage: bench/scan.sh [JDK], the home of a JDK; by default that which `javac` belongs to. Without one it says so, and ends.
# It needs python3 and `rt` on the path, and writes into a temporary folder.
set -eu
cd "$(dirname "$0")/.."
. bench/jdk.sh
find "$place/classes" -name '*.class' | sort >"$place/list"

(cd crates/bench && rt run -- scan <stdin >/dev/null)
python3 bench/scan.py crates/bench/out/bench "$place/list"

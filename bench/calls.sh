#!/bin/sh
# Times `migrate calls` over the classes of a JDK against reading each of them with the desk's class reader, as bench/scan.sh does.
#
# Usage: bench/calls.sh [JDK], the home of a JDK; by default that which `javac` belongs to. Without one it says so, and ends.
# It needs python3 and `rt` on the path, and writes into a temporary folder.
set -eu
cd "$(dirname "$0")/.."
program=$PWD/crates/migrate/out/migrate
[ -x "$program" ] || { echo "build the program first: examples/first/run.sh" >&2; exit 1; }
. bench/jdk.sh
find "$place/classes" -name '*.class' | sort >"$place/list"

(cd crates/bench && rt run -- scan <stdin >/dev/null)
python3 bench/calls.py "$program" crates/bench/out/bench "$place"

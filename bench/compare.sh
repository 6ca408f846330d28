#!/bin/sh
# Times `migrate compare` over the classes of a JDK against reading those of both sides with the desk's class reader, as bench/scan.sh
# does: over 3,000 classes and over all of them, beside what a run by the ready rules wrote, and beside the same classes with other
# constant pools; and how the time a class grows between the two.
#
# Usage: bench/compare.sh [JDK], the home of a JDK; by default that which `javac` belongs to. Without one it says so, and ends.
# It needs python3 and `rt` on the path, and writes about 600 MB into a temporary folder.
set -eu
cd "$(dirname "$0")/.."
program=$PWD/crates/migrate/out/migrate
[ -x "$program" ] || { echo "build the program first: examples/first/run.sh" >&2; exit 1; }
. bench/jdk.sh

(cd crates/bench && rt run -- scan <stdin >/dev/null)
python3 -B bench/compare.py "$program" crates/bench/out/bench rules/jakarta-ee-9 "$place"

#!/bin/sh
# Times the scan of classes and the building of their graph against reading the same classes, generated ones and those of a JDK;
# how they grow with the number of classes, and building alone; and the memory over 200,000 classes with 3,200,000 held names.
# Where valgrind is installed (apt-get install valgrind), the instructions too, which other work on the machine does not change.
#
# Usage: bench/graph.sh [JDK], the home of a JDK; by default that which `javac` belongs to. Without one it says so, and ends.
# It needs python3 and `rt` on the path, and writes into a temporary folder.
set -eu
cd "$(dirname "$0")/.."
. bench/jdk.sh
find "$place/classes" -name '*.class' ! -name module-info.class | sort >"$place/list"
program=crates/bench/out/bench
[ -x "$program" ] || (cd crates/bench && rt run -- scan <stdin >/dev/null)
python3 bench/graph.py "$program" "$place/list"

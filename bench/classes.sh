#!/usr/bin/env bash
# Migrates 6,000 class files of a JDK, and prints the program's wall time as a ratio to `cp -r` plus `sha256sum` of the same
# files, and its peak memory beside their size. The runs of the two alternate, and the least time of each counts.
#
# Usage: bench/classes.sh [JDK], the home of a JDK; by default that which `javac` belongs to. Without one it says so, and ends.
set -eu
cd "$(dirname "$0")/.."
program=$PWD/crates/migrate/out/migrate
[ -x "$program" ] || { echo "build the program first: examples/first/run.sh" >&2; exit 1; }
. bench/jdk.sh
python3 -B bench/classes.py "$program" "$place"

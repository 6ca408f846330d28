#!/usr/bin/env bash
# Migrates 6,000 and 26,000 class files of a JDK by 1, 2 and 4 workers, and prints the program's wall time as a ratio to `cp -r`
# plus `sha256sum` of the same files, its peak memory beside their size, and how the time a file grows between the two. All of
# them alternate, and the least time of each counts. All files stand on the memory file system /dev/shm where it has 2 GiB free.
#
# Usage: bench/run.sh [JDK], the home of a JDK; by default that which `javac` belongs to. Without one it says so, and ends.
set -eu
cd "$(dirname "$0")/.."
program=$PWD/crates/migrate/out/migrate
[ -x "$program" ] || { echo "build the program first: examples/first/run.sh" >&2; exit 1; }
free=$(df --output=avail -B1M /dev/shm 2>/dev/null | tail -1)
[ "${free:-0}" -lt 2048 ] || export TMPDIR=/dev/shm
. bench/jdk.sh
echo "the files stand below $(dirname "$place")"
python3 -B bench/run.py "$program" "$place"

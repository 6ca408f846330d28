#!/usr/bin/env bash
# Migrates 111,889 files, each class of a JDK again and again below folders of their own, by 1 and 4 workers, and prints the program's
# peak memory, and the time a file to that among 6,000 classes. All of them alternate, and the least time and the greatest memory of
# each count. All files stand on the memory file system /dev/shm where it has 4 GiB free.
#
# Usage: bench/many.sh [JDK], the home of a JDK; by default that which `javac` belongs to. Without one it says so, and ends.
set -eu
cd "$(dirname "$0")/.."
program=$PWD/crates/migrate/out/migrate
[ -x "$program" ] || { echo "build the program first: examples/first/run.sh" >&2; exit 1; }
free=$(df --output=avail -B1M /dev/shm 2>/dev/null | tail -1)
[ "${free:-0}" -lt 4096 ] || export TMPDIR=/dev/shm
. bench/jdk.sh
echo "the files stand below $(dirname "$place")"
python3 -B bench/many.py "$program" "$place"

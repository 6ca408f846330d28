#!/usr/bin/env bash
# Migrates 1,000 files of 64 KiB, and prints the program's wall time as a ratio to `cp -r` of the same
# files plus reading every byte once more, and its peak memory beside the size of the files; and, since a
# run takes the digest of each file, the time of `sha256sum` as the same ratio. The runs of the three
# alternate, and the least time of each counts.
set -eu
cd "$(dirname "$0")/.."
program=$PWD/crates/migrate/out/migrate
[ -x "$program" ] || { echo "build the program first: examples/first/run.sh" >&2; exit 1; }
place=$(mktemp -d)
trap 'rm -rf "$place"' EXIT
python3 bench/first_path.py "$program" "$place"

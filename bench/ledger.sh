#!/bin/sh
# Times runs over 30,000 small files with the ledger on disk beside the same runs with the ledger in memory, and prints the
# ratios: a first run, and a run that keeps every file, each with all folders on disk and in memory (/dev/shm). Beside them a
# run with --verify that keeps every file, as a ratio to sha256sum over source and target; and, where another program is
# named, as that of an earlier state, a first run as a ratio to its. Before them, 20,000 rows that are put, found and put again
# in a ledger in memory that is an SQL database, as ratios to the same in one that is a table.
#
# Usage: bench/ledger.sh [PROGRAM]
#
# It needs python3 and three programs built: `rt run` in crates/migrate, `rt run -- scan <stdin` in crates/bench, and
# `rt run <stdin` in crates/test_runs, which runs the desk over real folders with its ledger in memory.
set -eu
here=$(cd "$(dirname "$0")/.." && pwd)
for name in migrate bench test_runs; do
    [ -x "$here/crates/$name/out/$name" ] || { echo "build crates/$name first" >&2; exit 1; }
done
disk=$(mktemp -d)
memory=$(mktemp -d -p /dev/shm)
trap 'rm -rf "$disk" "$memory"' EXIT
python3 "$here/bench/ledger.py" "$here/crates/migrate/out/migrate" "$here/crates/bench/out/bench" \
    "$here/crates/test_runs/out/test_runs" "$disk" "$memory" "$@"

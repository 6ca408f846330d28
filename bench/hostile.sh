#!/bin/sh
# Reads classes that name one long text again and again, and prints the time of each as a ratio to a class of the same size
# that names short texts instead (aim: at most 3). Where the program is built, it also migrates one whose descriptors change.
#
# Usage: bench/hostile.sh. It needs python3 and `rt` on the path, and writes into a temporary folder.
set -eu
cd "$(dirname "$0")/.."
place=$(mktemp -d)
trap 'rm -rf "$place"' EXIT

(cd crates/bench && rt run -- scan <stdin >/dev/null)
python3 bench/hostile.py crates/bench/out/bench crates/migrate/out/migrate "$place"

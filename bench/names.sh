#!/bin/sh
# Times the readers of descriptors and signatures against a plain pass that only sums the bytes.
#
# Usage: bench/names.sh [JMOD..], each a module file of a JDK; by default three modules of the JDK that `javac` belongs to.
# It needs python3, a JDK with its jmods, and `rt` on the path, and writes into a temporary folder.
set -eu
here=$(cd "$(dirname "$0")/.." && pwd)
work=$(mktemp -d)
trap 'rm -rf "$work"' EXIT

jdk=$(dirname "$(dirname "$(readlink -f "$(command -v javac)")")")
if [ $# -eq 0 ]; then
    set -- "$jdk/jmods/java.base.jmod" "$jdk/jmods/java.desktop.jmod" "$jdk/jmods/jdk.compiler.jmod"
fi
for module in "$@"; do
    "$jdk/bin/jmod" extract --dir "$work/classes/$(basename "$module" .jmod)" "$module"
done
python3 "$here/bench/texts.py" "$work/classes" 100000 >"$work/texts"
grep '^[fm]' "$work/texts" >"$work/descriptors"
grep '^[CMF]' "$work/texts" >"$work/signatures"
python3 "$here/bench/long.py" "$work"

(cd "$here/crates/bench" && rt run -- scan <stdin >/dev/null)
python3 "$here/bench/ratios.py" "$here/crates/bench/out/bench" "$work"

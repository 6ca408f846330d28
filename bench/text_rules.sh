#!/bin/sh
# Times text rules over 100 MB of XML: ten rules against `sed` with the same replacements, and 10,000 rules that begin alike
# against ten. The program migrates a text of 50 MB twice.
#
# It needs python3, sed, and `rt` on the path, and writes into a temporary folder.
set -eu
here=$(cd "$(dirname "$0")/.." && pwd)
work=$(mktemp -d)
trap 'rm -rf "$work"' EXIT

program=$here/crates/bench/out/bench
[ -x "$program" ] || (cd "$here/crates/bench" && rt run -- scan <stdin >/dev/null)
python3 "$here/bench/text_rules.py" "$program" "$work"

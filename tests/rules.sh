#!/usr/bin/env bash
# Runs the fifteen migrations of docs/RULES.md, ten by rules of their own and five by the ready rules, and compares each report,
# target, string and annotation with what stands there; and the commands of its last sections with what they print. Then looks whether the ready rules are what tools/rules.py writes,
# whether the gate tries the same files, and whether they say that they are for any application.
set -u
cd "$(dirname "$0")/.."
. tests/common.sh
needs python3 javac javap
python3 tests/rules.py docs/RULES.md "$program" rules "$place/migrations" || failed=1
mkdir "$place/written"
python3 tools/rules.py "$place/written"
: >"$place/nothing"
diff -r "$place/written" rules >"$place/got" 2>&1
same "the ready rules and tools/rules.py" "$place/nothing" "$place/got"
diff -r crates/test_runs/data/rules rules >"$place/got" 2>&1
same "the ready rules that the gate tries" "$place/nothing" "$place/got"
for file in rules/*/{renames,direct,versions,bundles}.properties; do
  check "$file is for any application" '# for any application' "$(head -1 "$file")"
done
ended

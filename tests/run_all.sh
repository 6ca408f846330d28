#!/usr/bin/env bash
# Runs each script of this folder that is a test by itself, one behind the other, and prints its name, its last line and how long it
# took; what else it said stands in build/tests/NAME.log. The status is 0 where none failed.
#
#     tests/run_all.sh [NAME..]
set -u
cd "$(dirname "$0")/.."
[ -x crates/migrate/out/migrate ] || { echo "build the program first: examples/first/run.sh" >&2; exit 1; }
mkdir -p build/tests
[ $# -gt 0 ] || set -- rules nested texts classes packing ledger verify edge hostile majors manifests schemas server bundled graph peer calls inverse compare workers kills growths
failed=0
for name in "$@"; do
  script=tests/$name.sh
  [ -f "$script" ] || script=tests/$name.py
  from=$SECONDS
  "$script" >"build/tests/$name.log" 2>&1
  status=$?
  [ "$status" = 0 ] || failed=$((failed + 1))
  printf '%-10s %s (status %s, %s s)\n' "$name" "$(tail -1 "build/tests/$name.log")" "$status" "$((SECONDS - from))"
done
[ "$failed" = 0 ]

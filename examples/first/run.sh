#!/usr/bin/env bash
# Builds the program where it isn't built yet, and migrates the example application to build/first.
set -eu
cd "$(dirname "$0")/../.."
program=crates/migrate/out/migrate
[ -x "$program" ] || tools/build.sh
rm -rf build/first build/first.ledger build/first.ledger-wal
mkdir -p build
"$program" run --rules examples/first/rules --from examples/first/app --to build/first --ledger build/first.ledger
echo "migrated to build/first:" >&2
(cd build/first && find . -type f | sort) >&2

#!/usr/bin/env bash
# Migrates an empty application by each set of ready rules, and by their renames alone, and prints the program's wall time: what it
# takes to read a set and to build it. The sets alternate, and the least time of ten runs counts.
set -eu
cd "$(dirname "$0")/.."
program=$PWD/crates/migrate/out/migrate
[ -x "$program" ] || { echo "build the program first: examples/first/run.sh" >&2; exit 1; }
place=$(mktemp -d)
trap 'rm -rf "$place"' EXIT
python3 - "$program" rules "$place" "${1:-10}" <<'PY'
import os
import shutil
import subprocess
import sys
import time

program, ready, place, runs = sys.argv[1:]
os.makedirs(f"{place}/app")
os.makedirs(f"{place}/renames")
sets = {name: f"{ready}/{name}" for name in sorted(os.listdir(ready))}
shutil.copy(f"{ready}/jakarta-ee-9/renames.properties", f"{place}/renames/")
sets["the renames of jakarta-ee-9 alone"] = f"{place}/renames"
least = {}
for run in range(int(runs)):
    for number, (name, rules) in enumerate(sets.items()):
        shutil.rmtree(f"{place}/new", ignore_errors=True)
        words = [program, "run", "--rules", rules, "--from", f"{place}/app", "--to", f"{place}/new"]
        words += ["--ledger", f"{place}/{run}-{number}"]
        start = time.monotonic()
        subprocess.run(words, check=True, stdout=subprocess.DEVNULL, stderr=subprocess.DEVNULL)
        least[name] = min(least.get(name, 1e9), time.monotonic() - start)
for name, took in least.items():
    print(f"{name}: {took:.3f} s")
PY

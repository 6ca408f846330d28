#!/usr/bin/env bash
# Builds the program crates/migrate/out/migrate: proves the libraries below it side by side, as many as there are processors and
# memory, those that most others stand on first, then the program itself, and runs it once. It works on a copy of these crates
# without their wrong bodies, which `rt ci` tries; what is proved here is kept on the machine, and `rt ci` takes it over.
# usage: tools/build.sh
set -eu
cd "$(dirname "$0")/.."
program=crates/migrate/out/migrate
log=build/proofs.log
room=$(mktemp -d)
proving=
trap '[ -z "$proving" ] || kill "$proving" 2>/dev/null || true; rm -rf "$room"' EXIT

# A line for each crate that the program stands on, itself last, with its dependencies.
needed() {
  awk '{ sub(/#.*/, "") } /:/ {
         split($0, part, ":"); split(part[1], name, " ")
         line[name[1]] = $0; below[name[1]] = part[2]; order[++count] = name[1]
       }
       END {
         need["migrate"] = 1
         for (i = count; i > 0; i--) if (order[i] in need) {
           n = split(below[order[i]], dep, " ")
           for (k = 1; k <= n; k++) if (dep[k] in line) need[dep[k]] = 1
         }
         for (i = 1; i <= count; i++) if (order[i] in need) print line[order[i]]
       }' crates.txt
}

mkdir "$room/crates"
needed >"$room/crates.txt"
cp HANDLES "$room/"
total=0
while IFS=: read -r name _; do
  total=$((total + 1))
  mkdir "$room/crates/$name"
  for part in src specs proofs args stdin stdout status data; do
    if [ -e "crates/$name/$part" ]; then cp -r "crates/$name/$part" "$room/crates/$name/"; fi
  done
done <"$room/crates.txt"

echo "proving $total crates, the program last: half an hour on four processors, where nothing is kept" >&2
ended=0
mkdir -p build
: >"$log"
(cd "$room" && exec rt ci) >"$log" 2>&1 &
proving=$!
told() { grep -cE '^rt: [a-z_0-9]+ (proved$|is kept:)' "$log" || true; }
while kill -0 "$proving" 2>/dev/null; do
  now=$(told)
  if [ "$now" -gt "$ended" ]; then
    ended=$now
    echo "$ended of $total: $(grep -oE '^rt: [a-z_0-9]+ (proved$|is kept:)' "$log" | tail -1 | cut -d' ' -f2)" >&2
  fi
  sleep 1
done
if ! wait "$proving" || [ ! -x "$room/$program" ]; then
  echo "$program was not built; $log says why" >&2
  exit 1
fi
proving=
mkdir -p crates/migrate/out
cp "$room/$program" "$program.new"
mv "$program.new" "$program"
echo "built $program" >&2

#!/bin/sh
# Times the look-up of packages among 10 and among 1,000 rules, over 100,000 class names of a JDK, against one hash of the
# same names; how the time to build a rule set grows from 15,000 to 60,000 exact renames, also where half of them give one
# package and the others rename packages below it; and, where `migrate` is built, how that of `migrate invert` grows, for renames
# of several shapes.
#
# It needs python3, a JDK with its jmods, and `rt` on the path, and writes into a temporary folder.
set -eu
here=$(cd "$(dirname "$0")/.." && pwd)
work=$(mktemp -d)
trap 'rm -rf "$work"' EXIT

command -v javac >/dev/null || { echo "skipped: no JDK is here"; exit 0; }
jdk=$(dirname "$(dirname "$(readlink -f "$(command -v javac)")")")
for module in "$jdk"/jmods/*.jmod; do
    "$jdk/bin/jmod" list "$module"
done | sed -n 's,^classes/\(.*\)\.class$,\1,p' >"$work/classes"
program=$here/crates/bench/out/bench
[ -x "$program" ] || (cd "$here/crates/bench" && rt run -- scan <stdin >/dev/null)
migrate=$here/crates/migrate/out/migrate
[ -x "$migrate" ] || { echo "without inverting, since migrate isn't built"; migrate=; }
python3 "$here/bench/rules.py" "$program" "$work" $migrate

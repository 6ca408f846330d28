#!/usr/bin/env bash
# Migrates descriptors as Java EE 8 has them (a web.xml, a persistence.xml, a faces-config.xml, a tag library and a property
# file) by text rules, and checks with Python's XML parser that each is well-formed before and after, and that only the
# replaced places differ.
set -u
cd "$(dirname "$0")/.."
. tests/common.sh
needs python3
check=$PWD/tests/texts.py
cd "$place" || exit 1

python3 "$check" write app rules || exit 1
"$program" run --rules rules --from app --to out --ledger ledger >report
status=$?
printf '0\n' >wanted
printf '%s\n' "$status" >got
same "the exit status" wanted got

python3 "$check" report >wanted
grep '^written ' report >got
same "the report" wanted got

python3 "$check" compare app out >got 2>&1
printf 'same\n' >wanted
same "the descriptors" wanted got

# ---- a second migration changes nothing

"$program" run --rules rules --from out --to again --ledger ledger2 >report
diff -r out again >differences 2>&1
: >nothing
same "a second migration" nothing differences

# ---- a rule whose image would be changed again is refused

printf 'javax=xjavax\n' >rules/text/xml.properties
"$program" run --rules rules --from app --to refused --ledger ledger3 >report
grep -c '^refused .* unsettled at=[0-9]*$' report >got
printf '4\n' >wanted
same "refused descriptors" wanted got

ended

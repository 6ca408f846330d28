# Sourced by the test scripts from the project's folder, before anything else: the program, a temporary folder "$place" that goes when
# the script ends, comparisons that count, and the last line, which is `N passed, N failed, N skipped` for each script.
passed=0 failed=0 skipped=0

# ended: prints the last line; its status is 0 where nothing failed
ended() {
  echo "$passed passed, $failed failed, $skipped skipped"
  [ "$failed" = 0 ]
}

# lacks TEXT: ends the script as skipped, with what is missing
lacks() {
  echo "skipped: $1"
  skipped=1
  ended
  exit 0
}

# needs COMMAND..: ends the script as skipped where one of them isn't installed
needs() {
  local word
  for word in "$@"; do
    command -v "$word" >/dev/null || lacks "no $word is here"
  done
}

program=$PWD/crates/migrate/out/migrate
[ -x "$program" ] || { echo "build the program first: examples/first/run.sh" >&2; exit 1; }
place=$(mktemp -d)
trap 'rm -rf "$place"' EXIT

# same NAME WANTED GOT: the two files are equal
same() {
  if diff -u "$2" "$3"; then passed=$((passed + 1)); else failed=$((failed + 1)); echo "differs: $1" >&2; fi
}

# check NAME WANTED GOT: the two texts are equal
check() {
  if [ "$2" = "$3" ]; then passed=$((passed + 1)); else failed=$((failed + 1)); printf 'differs: %s\nwanted: %s\ngot: %s\n' "$1" "$2" "$3" >&2; fi
}

# has NAME TEXT: the last run wrote a line with this text to standard error
has() {
  if grep -qF -- "$2" err; then passed=$((passed + 1)); else failed=$((failed + 1)); printf 'differs: %s\nwanted in standard error: %s\ngot: %s\n' "$1" "$2" "$(cat err)" >&2; fi
}

# hasnt NAME TEXT: the last run wrote no such line
hasnt() {
  if grep -qF -- "$2" err; then failed=$((failed + 1)); printf 'differs: %s\nin standard error: %s\n' "$1" "$(cat err)" >&2; else passed=$((passed + 1)); fi
}

# migrate WORD..: runs the program, by the command "$as" where it isn't empty; out, err and status hold what it answered. It may not
# take longer than two minutes.
as=
migrate() {
  timeout 120 $as "$program" "$@" >out 2>err
  status=$?
}

# ends NAME STATUS LINE: the last run's status, and all of its standard output
ends() {
  check "$1: status" "$2" "$status"
  check "$1: output" "$3" "$(cat out)"
}

# tree FOLDER: each path below it, with its kind and the digest of its content
tree() {
  (cd "$1" && find . -printf '%y %p\n' | sort && find . -type f -exec sha256sum {} + | sort)
}

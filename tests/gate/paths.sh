#!/bin/sh
# Runs each proved program by a path that isn't text, on its stored input: it answers as by its own path. A word that isn't
# text is answered as a word that is no command. Prints what failed, and the number of tests.
top=$(CDPATH='' cd -- "$(dirname -- "$0")/../.." && pwd) || exit 1
room=$(mktemp -d) || exit 1
trap 'rm -rf "$room"' EXIT
odd=$room/$(printf 'odd\377')
mkdir "$odd" || exit 1
tests=0 failed=0

# Runs the program at a path on its stored input, and prints its outputs and its status.
answer() {
  # shellcheck disable=SC2046 # each word of the file is an argument
  "$1/$2" $(cat "$top/crates/$2/args" 2>/dev/null) <"$top/crates/$2/stdin" 2>&1
  echo "status $?"
}

for program in lockrun lockwaits locknest locklive; do
  tests=$((tests + 2))
  own=$top/crates/$program/out
  cp "$own/$program" "$odd/$program" || exit 1
  answer "$own" $program >"$room/own" && answer "$odd" $program >"$room/odd"
  if ! grep -q '^status 0$' "$room/own" || ! cmp -s "$room/own" "$room/odd"; then
    failed=$((failed + 1))
    echo "tests/gate/paths.sh: $program: $(tail -n 2 "$room/odd")"
  fi
  status=0
  "$own/$program" "$(printf 'word\377')" </dev/null >"$room/printed" 2>&1 || status=$?
  if [ $status -ne 1 ] || ! grep -q "^$program: usage" "$room/printed"; then
    failed=$((failed + 1))
    echo "tests/gate/paths.sh: $program: a word that isn't text: status $status, $(cat "$room/printed")"
  fi
done
echo "tests/gate/paths.sh: $tests tests, $failed failed"
[ $failed -eq 0 ]

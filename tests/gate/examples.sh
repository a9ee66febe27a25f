#!/bin/sh
# Tests of all examples: the tools run on each, journal-state also after the first move; the pictures of docs/ are those
# that the tool draws, with who waits for whom if somebody waits at the end; and if the program is built, it makes each
# journal, with the right status, accepts it, and refuses it at each line that is exchanged for another; a word that
# isn't text gets the line of usage, which the wrapper prints too. Of runs that are stuck, lockwaits tells who waits for
# whom, and why; and locklive makes a run of each script, whose journal lockrun accepts. If a program isn't built, its runs that are
# left out are counted.
cd "$(dirname "$0")/../.." || exit 1
program=crates/lockrun/out/lockrun
waits=crates/lockwaits/out/lockwaits
live=crates/locklive/out/locklive
room=$(mktemp -d) || exit 1
trap 'rm -rf "$room"' EXIT
examples=0 failed=0 left_out=0

fail() {
  failed=$((failed + 1))
  echo "tests/gate/examples.sh: $1"
}

# Runs the program on an input, and compares what it prints and its status.
program_says() {
  [ -x $program ] || { left_out=$((left_out + 1)); return; }
  status=0
  # shellcheck disable=SC2086 # the words of a command
  $program $2 <"$room/input" >"$room/printed" 2>/dev/null || status=$?
  if [ $status -ne "$3" ] || ! cmp -s "$4" "$room/printed"; then
    fail "$1: lockrun $2 prints something else, or its status isn't $3"
  fi
}

# Sees that lockwaits, with a word or none, prints this of the input.
tells_waits() {
  [ -x $waits ] || { left_out=$((left_out + 1)); return; }
  status=0
  # shellcheck disable=SC2086 # a word or none
  $waits $3 <"$room/input" >"$room/printed" || status=$?
  if [ $status -ne 0 ] || ! cmp -s "$2" "$room/printed"; then
    fail "$1: lockwaits $3 prints something else than $2, or its status isn't 0"
  fi
}

# Sees that the program refuses the input with another line in place of line $2, and names this line.
refuses_at() {
  [ -x $program ] || { left_out=$((left_out + 1)); return; }
  status=0
  sed "$2s/.*/end of line/" "$room/input" | $program check >"$room/printed" 2>"$room/said" || status=$?
  if [ $status -ne 8 ] || [ -s "$room/printed" ] || [ "$(cat "$room/said")" != "lockrun: line $2: journal" ]; then
    fail "$1: lockrun check says something else of line $2 exchanged"
  fi
}

# Sees that locklive makes a run of the script: its journal is accepted, and its status says whether somebody waits.
runs_live() {
  [ -x $live ] || { left_out=$((left_out + 1)); return; }
  status=0 live_status=0
  $live <"$2" >"$room/live" || status=$?
  if grep -q '^waiting ' "$room/live"; then live_status=3; fi
  [ $status -eq $live_status ] || fail "$1: the status of locklive is $status, not $live_status"
  { cat "$2"; echo journal; cat "$room/live"; } >"$room/input"
  sed -n 's/^end /ok /p' "$room/live" >"$room/wanted"
  program_says "$1, of locklive" check 0 "$room/wanted"
}

for script in examples/*.script; do
  name=$(basename "$script" .script)
  journal=examples/$name.journal
  examples=$((examples + 1))
  tools/journal-summary "$script" "$journal" >"$room/table" || fail "$name: no summary"
  # shellcheck disable=SC2046 # a flag or none
  tools/journal-picture "$script" "$journal" $(grep -q '^waiting ' "$journal" && echo --waits) >"$room/picture" ||
    fail "$name: no picture"
  tools/journal-summary --json "$script" "$journal" >"$room/table" || fail "$name: no summary in JSON"
  tools/journal-trace "$script" "$journal" >"$room/trace" || fail "$name: no trace"
  tools/journal-trace --chrome "$script" "$journal" >"$room/trace" || fail "$name: no trace for Chrome"
  tools/journal-state "$script" "$journal" >"$room/state" || fail "$name: no state at the end"
  tools/journal-state "$script" "$journal" 1 >"$room/state" || fail "$name: no state after its first move"
  if [ -f "docs/pictures/$name.svg" ] && ! cmp -s "docs/pictures/$name.svg" "$room/picture"; then
    fail "docs/pictures/$name.svg isn't what tools/journal-picture draws of $name"
  fi
  status=0
  if grep -q '^waiting ' "$journal"; then status=3; fi
  cp "$script" "$room/input"
  program_says "$name" 'sim first' $status "$journal"
  { cat "$script"; echo journal; cat "$journal"; } >"$room/input"
  sed -n 's/^end /ok /p' "$journal" >"$room/wanted"
  program_says "$name" check 0 "$room/wanted"
  if grep -q '^waiting ' "$journal"; then
    tells_waits "$name" "examples/$name.waits"
    tells_waits "$name" "examples/$name.why" why
  fi
  lines=$(wc -l <"$room/input")
  k=$(($(wc -l <"$script") + 2))
  while [ $k -le "$lines" ]; do
    refuses_at "$name" $k
    k=$((k + 1))
  done
  runs_live "$name" "$script"
done

# The lines of nested transactions: what locknest answers, and who waits for whom then.
nested=crates/locknest/out/locknest
for lines in examples/*.lines; do
  name=$(basename "$lines" .lines)
  examples=$((examples + 1))
  tools/nest-waits "$lines" "examples/$name.answers" >"$room/waits" || fail "$name: nest-waits can't follow it"
  cmp -s "examples/$name.waits" "$room/waits" || fail "$name: nest-waits prints something else"
  if ! [ -x $nested ]; then
    left_out=$((left_out + 1))
  elif ! $nested <"$lines" >"$room/printed" || ! cmp -s "examples/$name.answers" "$room/printed"; then
    fail "$name: locknest prints something else, or its status isn't 0"
  fi
done

# Sees that a word that isn't text is answered as no words are: by the line of usage and status 1.
refuses_bytes() {
  [ -x $program ] || { left_out=$((left_out + 1)); return; }
  $program </dev/null >"$room/wanted" 2>&1
  status=0
  $program "$(printf 'sim\377')" </dev/null >"$room/printed" 2>&1 || status=$?
  if [ $status -ne 1 ] || [ ! -s "$room/wanted" ] || ! cmp -s "$room/wanted" "$room/printed"; then
    fail "lockrun says something else of a word that isn't text"
  fi
  ./lockrun >"$room/printed" 2>&1
  head -n 1 "$room/printed" | cmp -s "$room/wanted" - || fail "the wrapper's first line on no words isn't the program's"
}
refuses_bytes

# Sees that a tool answers by this line and status 1.
answers() {
  wanted=$1
  shift
  status=0
  "$@" 2>"$room/said" >/dev/null || status=$?
  if [ $status -ne 1 ] || [ "$(cat "$room/said")" != "$wanted" ]; then fail "$*: it says: $(cat "$room/said")"; fi
}

# Parts of pictures; a run that is too long for one; and what can't be written.
parts() {
  script=examples/hot-row.script journal=examples/hot-row.journal
  tools/journal-picture --moves 5-9 "$script" "$journal" | grep -q '>moves 5 to 9 of 28 moves,' ||
    fail 'no part from move 5 to 9'
  [ "$(tools/journal-trace --moves 5-8 "$script" "$journal" | sed -n 's/^node[0-9]* //p' | tail -n 1)" = \
    '{"node0": 1, "node1": 2, "node2": 1}' ] || fail 'no trace of a part from move 5 to 8'
  [ "$(tools/journal-trace --chrome --client cache "$script" "$journal" | grep -c '"cat": "move"')" -gt 0 ] ||
    fail 'no trace for Chrome of a client'
  answers 'journal-trace: the script has no set none' tools/journal-trace --set none "$script" "$journal"
  tools/journal-picture --set stock --client cache "$script" "$journal" | grep -q 'set stock, client cache of' ||
    fail 'no part of a set and a client'
  answers 'journal-picture: the script has no set none' tools/journal-picture --set none "$script" "$journal"
  answers 'journal-picture: the script has no client none' tools/journal-picture --client none "$script" "$journal"
  answers 'journal-picture: there is no move from 9 to 5: the journal has 28' \
    tools/journal-picture --moves 9-5 "$script" "$journal"
  answers 'journal-picture: there is no move from 29 to 30: the journal has 28' \
    tools/journal-picture --moves 29-30 "$script" "$journal"
  answers 'journal-picture: there is no move from 1 to 0: the journal has 28' \
    tools/journal-picture --moves 1-0 "$script" "$journal"
  awk 'BEGIN {
    print "nodes 1\nset s\nclient a at 0"
    for (k = 1; k <= 251; k++) print "a lock s read\na unlock s read" }' >"$room/long.script"
  awk 'BEGIN {
    for (k = 1; k <= 502; k++) print "move", k, "0 act a\n" (k % 2 ? "grant" : "unlock"), "a s read"
    print "owner s 0 0\nend 502" }' >"$room/long.journal"
  answers 'journal-picture: too many moves for a picture: name 500 of the 502 by --moves A-B' \
    tools/journal-picture "$room/long.script" "$room/long.journal"
  tools/journal-picture --moves 3-502 "$room/long.script" "$room/long.journal" >/dev/null || fail 'no 500 moves of 502'
  for tool in picture summary state trace; do
    said=$(tools/journal-$tool "$script" "$journal" 2>&1 >/dev/full)
    [ "$said" = "journal-$tool: write fault" ] || fail "journal-$tool on a full disk: it says: $said"
    said=$(tools/journal-$tool --help 2>&1 >/dev/full)
    [ "$said" = "journal-$tool: write fault" ] || fail "journal-$tool --help on a full disk: it says: $said"
  done
}
parts

# Lines and answers that nest-waits can't follow, or read, and a full disk.
faults_of_nest_waits() {
  lines=examples/nested.lines answers=examples/nested.answers
  answers "nest-waits: $room/none: No such file or directory" tools/nest-waits "$lines" "$room/none"
  answers 'nest-waits: line 1 of the answers is to be: begin booking' \
    tools/nest-waits "$lines" examples/nested-ring.answers
  echo t >"$room/line"
  answers 'nest-waits: line 1 is refused' tools/nest-waits "$room/line" "$answers"
  echo 't begin in u' >"$room/line"
  answers 'nest-waits: line 1 is refused' tools/nest-waits "$room/line" "$answers"
  said=$(tools/nest-waits "$lines" "$answers" 2>&1 >/dev/full)
  [ "$said" = 'nest-waits: write fault' ] || fail "nest-waits on a full disk: it says: $said"
}
faults_of_nest_waits

# The page of all runs is as the tool makes it, and each example has its picture there.
tools/examples-page >"$room/page" || fail 'no page of all examples'
cmp -s docs/pictures/index.html "$room/page" || fail "docs/pictures/index.html isn't what tools/examples-page makes"
# shellcheck disable=SC2046 # a word for each example
[ "$(ls docs/pictures/*.svg)" = "$(printf 'docs/pictures/%s.svg\n' $(basename -s .script examples/*.script))" ] ||
  fail "docs/pictures hasn't one picture of each example: tools/examples-page --write makes them"

echo "tests/gate/examples.sh: $examples examples, $failed failures"
if [ $left_out -gt 0 ]; then echo "tests/gate/examples.sh: a program isn't built: $left_out runs left out"; fi
[ $failed -eq 0 ]

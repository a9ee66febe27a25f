#!/bin/sh
# Runs the proved programs under valgrind, which has to find no error, and at the end no memory that wasn't given back: on
# each example (`sim first`, `sim 7`, `run`, `order`, `check` of its journal, who waits for whom, and on live sessions), on
# inputs that are refused, on the stored inputs, and on each case of the folders that are named. A case is a file NAME, the
# input, with NAME.args beside it, one word on each line; NAME.nest stands for locknest, NAME.waits for lockwaits, NAME.live
# for locklive, any other name for lockrun. NAME.status has the wanted status, if it isn't 0, and NAME.stdout the wanted
# output, if that is known. clients/run does the same with the programs of clients/c.
top=$(CDPATH='' cd -- "$(dirname -- "$0")/../.." && pwd) || exit 1
lockrun=${LOCKRUN:-$top/crates/lockrun/out/lockrun}
locknest=${LOCKNEST:-$top/crates/locknest/out/locknest}
lockwaits=${LOCKWAITS:-$top/crates/lockwaits/out/lockwaits}
locklive=${LOCKLIVE:-$top/crates/locklive/out/locklive}
command -v valgrind >/dev/null || { echo "tests/hand/valgrind.sh: valgrind isn't on the PATH" >&2; exit 1; }
for program in "$lockrun" "$locknest" "$lockwaits" "$locklive"; do
  [ -x "$program" ] || { echo "tests/hand/valgrind.sh: run ./build first" >&2; exit 1; }
done
room=$(mktemp -d) || exit 1
trap 'rm -rf "$room"' EXIT
runs=0 failed=0

fail() {
  failed=$((failed + 1))
  echo "tests/hand/valgrind.sh: $1"
}

# Runs a program with these words on the file $1, which is called $2, and wants the status $3: x for any.
under() {
  input=$1 label=$2 wanted=$3
  shift 3
  runs=$((runs + 1))
  status=0
  valgrind --quiet --leak-check=full --show-leak-kinds=all --errors-for-leak-kinds=all --error-exitcode=99 \
    --log-file="$room/found" "$@" <"$input" >"$room/printed" 2>"$room/said" || status=$?
  if [ -s "$room/found" ] || [ $status -eq 99 ]; then
    fail "$label: valgrind found:"
    cat "$room/found"
  elif [ "$wanted" != x ] && [ $status -ne "$wanted" ]; then
    fail "$label: status $status, not $wanted"
  fi
}

same() {
  cmp -s "$1" "$room/printed" || fail "$2: another output"
}

for script in "$top"/examples/*.script; do
  name=$(basename "$script" .script)
  journal=$top/examples/$name.journal
  status=0
  if grep -q '^waiting ' "$journal"; then status=3; fi
  under "$script" "$name, sim first" $status "$lockrun" sim first && same "$journal" "$name, sim first"
  under "$script" "$name, sim 7" x "$lockrun" sim 7
  under "$script" "$name, run" x "$lockrun" run
  under "$script" "$name, order" 0 "$lockrun" order
  under "$script" "$name, locklive" x "$locklive"
  { cat "$script"; echo journal; cat "$journal"; } >"$room/input"
  under "$room/input" "$name, check" 0 "$lockrun" check
  under "$room/input" "$name, lockwaits" 0 "$lockwaits"
  if [ -f "$top/examples/$name.waits" ]; then same "$top/examples/$name.waits" "$name, lockwaits"; fi
  under "$room/input" "$name, lockwaits why" 0 "$lockwaits" why
  if [ -f "$top/examples/$name.why" ]; then same "$top/examples/$name.why" "$name, lockwaits why"; fi
  sed '$d' "$room/input" >"$room/shorter"
  under "$room/shorter" "$name, check without the last line" 8 "$lockrun" check
  under "$room/shorter" "$name, lockwaits without the last line" 8 "$lockwaits"
  { cat "$script"; echo x; } >"$room/input"
  under "$room/input" "$name, a line with a fault" 2 "$lockrun" sim first
  head -c 65 "$script" >"$room/input"
  under "$room/input" "$name, its first bytes" x "$lockrun" run
done

under "$top/crates/lockrun/stdin" 'the stored input' 0 "$lockrun" sim first && same "$top/crates/lockrun/stdout" 'the stored input'
under "$top/crates/locknest/stdin" 'the nested input' 0 "$locknest" && same "$top/crates/locknest/stdout" 'the nested input'
under "$top/crates/locklive/stdin" 'the stored live input' 0 "$locklive" && same "$top/crates/locklive/stdout" 'the stored live input'
under /dev/null 'a word for locknest' 1 "$locknest" x
under /dev/null 'no nested line' 0 "$locknest"
under "$top/crates/lockrun/stdin" 'a line that is not nested' 2 "$locknest"
under /dev/null 'no command' 1 "$lockrun"
under /dev/null 'make' 0 "$lockrun" make 16 64 256 7 && cp "$room/printed" "$room/script"
under "$room/script" 'a made script, sim 7' 0 "$lockrun" sim 7
under "$room/script" 'a made script, run' 0 "$lockrun" run
under "$room/script" 'a made script, locklive' 0 "$locklive"
head -c 2000000 /dev/zero | tr '\0' '\n' >"$room/input"
under "$room/input" 'a long input' 2 "$lockrun" run
under "$room/input" 'a long input, check' 2 "$lockrun" check
under "$room/input" 'a long input, locknest' 2 "$locknest"

for lines in "$top"/examples/*.lines; do
  name=$(basename "$lines" .lines)
  under "$lines" "$name, locknest" 0 "$locknest" && same "$top/examples/$name.answers" "$name, locknest"
done
under /dev/null 'a word for lockwaits' 1 "$lockwaits" x
under /dev/null 'no journal' 2 "$lockwaits"
under "$room/input" 'a long input, lockwaits' 2 "$lockwaits"
under /dev/null 'a word for locklive' 1 "$locklive" x
under /dev/null 'no script' 2 "$locklive"
under "$room/input" 'a long input, locklive' 2 "$locklive"
{ printf 'nodes 1\nset s\nclient a at 0\nclient b at 0\n'; yes 'b lock s read' | head -n 2049; } >"$room/many"
under "$room/many" 'too many commands of a client' 10 "$locklive"

for folder; do
  for args in "$folder"/*.args; do
    case=${args%.args}
    program=$lockrun
    case $case in *.nest) program=$locknest ;; *.waits) program=$lockwaits ;; *.live) program=$locklive ;; esac
    set --
    while IFS= read -r word; do set -- "$@" "$word"; done <"$args"
    status=0
    if [ -f "$case.status" ]; then status=$(cat "$case.status"); fi
    under "$case" "$case" "$status" "$program" "$@"
    if [ -f "$case.stdout" ]; then same "$case.stdout" "$case"; fi
  done
done

echo "tests/hand/valgrind.sh: $runs runs, $failed failures"
[ $failed -eq 0 ]

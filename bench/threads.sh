#!/bin/sh
# Prints how many pairs of a lock and an unlock, and how many transfers of a bank, a second callers on threads make by the library
# of crates/lt_live_c, with clients/c/lockrun_easy.h, beside a table of pthread_mutex_t and, if libdb5.3-dev is there, lock_get
# and lock_put of Berkeley DB: the medians of long rounds, of which those count whose threads had their processors.
# usage: bench/threads.sh [MILLISECONDS [ROUNDS]]: of each round, and how many rounds
top=$(CDPATH='' cd -- "$(dirname -- "$0")/.." && pwd) || exit 1
length=${1:-500} rounds=${2:-9}
library=$top/crates/lt_live_c/out/liblt_live_c.a
[ -f "$library" ] || { echo "bench: run rt lib in crates/lt_live_c first" >&2; exit 1; }
room=$(mktemp -d) || exit 1
trap 'rm -rf "$room"' EXIT

build() {
  cc -std=c11 -O2 -pthread -I "$top/clients/c" -o "$room/threads" "$top/bench/library/threads.c" "$library" \
    "$(dirname "$(rt doc)")/c/liblibc_c.a" "$@"
}

others='db mutex'
if ! build -DWITH_DB -ldb-5.3 2>/dev/null; then
  echo 'bench: without Berkeley DB, since libdb5.3-dev is not there'
  others=mutex
  build || exit 1
fi

# Runs one kind, and says what came: $1 is its name, the others are the words of the program.
say() {
  label=$1
  shift
  "$room/threads" "$@" "$length" "$rounds" >"$room/printed" || exit 1
  read -r counted many median <"$room/printed"
  echo "  $label: $counted a second ($many of $rounds rounds count; of all $median)"
}

for threads in 1 2 4; do
  echo "own sets, $threads threads:"
  say "nodes $threads" ours own $threads $threads
  [ $threads -eq 1 ] || say 'nodes 1' ours own $threads 1
  for other in $others; do say "$other" "$other" own $threads 1; done
done
for threads in 2 4; do
  echo "one set, $threads threads:"
  for nodes in 1 $threads; do say "nodes $nodes" ours one $threads "$nodes"; done
  for other in $others; do say "$other" "$other" one $threads 1; done
done
for threads in 1 4 16; do
  echo "the bank, $threads threads:"
  for nodes in 1 4; do say "nodes $nodes" ours bank $threads "$nodes"; done
  for other in $others; do say "$other" "$other" bank $threads 1; done
done

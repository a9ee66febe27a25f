#!/bin/sh
# What a round of four commands, lock, unlock, lock and drop, takes with 65,536 sets, of which each round locks one of 1,000,
# beside 8 sets: instructions of one round, by callgrind, as the difference of two runs of which one makes twice as many
# rounds. Beside them, what opening the service, with the declaration of its sets, takes of the processor, the least of eight
# runs, and of memory, and what the touched sets take. On 1, 4 and 16 nodes. The status is 1 if a round takes a tenth more with
# many sets, or if opening on one node takes 10 milliseconds or 4 MiB.
# usage: bench/sets.sh [ROUNDS]: 20,000 if no number is named.
top=$(CDPATH='' cd -- "$(dirname -- "$0")/.." && pwd) || exit 1
rounds=${1:-20000}
library=$top/crates/lt_live_c/out/liblt_live_c.a
[ -f "$library" ] || { echo "bench: run rt lib in crates/lt_live_c first" >&2; exit 1; }
room=$(mktemp -d) || exit 1
trap 'rm -rf "$room"' EXIT
cc -std=c11 -O2 -Wall -Wextra -I "$top/clients/c" -o "$room/sets" "$top/bench/library/sets.c" "$library" \
  "$(dirname "$(rt doc)")/c/liblibc_c.a" || exit 1

# The instructions of a run with these words.
instructions() {
  valgrind --tool=callgrind --callgrind-out-file=/dev/null "$room/sets" "$@" 2>&1 >/dev/null |
    sed -n 's/.*Collected : \([0-9]*\).*/\1/p'
}

# The instructions of a round on so many nodes, with so many sets and touched ones.
of_round() {
  once=$(instructions "$@" "$rounds") && twice=$(instructions "$@" $((2 * rounds))) && echo $(((twice - once) / rounds))
}

# Of eight runs with these words the one that opened in the least time.
least() {
  for run in 1 2 3 4 5 6 7 8; do "$room/sets" "$@" "$rounds" || return 1; done | sort -n | head -1
}

status=0
for nodes in 1 4 16; do
  few=$(of_round $nodes 8 8) && many=$(of_round $nodes 65536 1000) || exit 1
  echo "nodes $nodes: $few instructions a round with 8 sets, $many with 65,536"
  [ $((10 * many)) -lt $((11 * few)) ] || status=1
  least $nodes 8 8 >"$room/few" && least $nodes 65536 1000 >"$room/many" || exit 1
  cat "$room/few" "$room/many" | tr '\n' ' ' | {
    read -r few_ms few_opened few_touched many_ms many_opened many_touched
    echo "  opened in $few_ms and $many_ms ms, with $few_opened and $many_opened KiB;" \
      "then $few_touched and $many_touched KiB for 8 and 1,000 touched sets"
    [ $nodes -ne 1 ] || [ "$many_opened" -lt 4096 ] && [ "${many_ms%.*}" -lt 10 ]
  } || [ $nodes -ne 1 ] || status=1
done
[ $status -eq 0 ] || echo 'bench: many sets cost more than they may'
exit $status

#!/bin/sh
# Runs lock and unlock pairs through one service of crates/lt_live_c on 1, 4 and 16 nodes, whose nodes forget as they
# go, and prints what a pair of the first tenth and of the last took of the processor, and how much the memory that is
# resident after them differs. Beside it, in the same run, what a pair takes if a new service is opened after each 2,000
# pairs, as it had to be while a service ended after 4,096 commands. A hundred times it is asked what was served, which is
# compared with what callers were told. The status is 1 if the memory differs by 64 KiB or more.
# usage: bench/live.sh [PAIRS]: 10,000,000 if no number is named.
top=$(CDPATH='' cd -- "$(dirname -- "$0")/.." && pwd) || exit 1
pairs=${1:-10000000}
library=$top/crates/lt_live_c/out/liblt_live_c.a
[ -f "$library" ] || { echo "bench: run rt lib in crates/lt_live_c first" >&2; exit 1; }
room=$(mktemp -d) || exit 1
trap 'rm -rf "$room"' EXIT
cc -std=c11 -O2 -Wall -Wextra -I "$top/clients/c" -o "$room/live" "$top/bench/library/live.c" "$library" \
  "$(dirname "$(rt doc)")/c/liblibc_c.a" || exit 1
status=0
for nodes in 1 4 16; do
  "$room/live" $nodes "$pairs" >"$room/one" || exit 1
  "$room/live" $nodes 200000 2000 >"$room/many" || exit 1
  { head -1 "$room/one"; tail -1 "$room/one"; tail -1 "$room/many"; } | tr '\n' ' ' | {
    read -r _ first before all last after _ anew _
    echo "nodes $nodes: $all pairs, $first ns a pair at first, $last at the end, $anew with new services;" \
      "$before KiB at first, $after at the end"
    difference=$((after - before))
    [ ${difference#-} -lt 64 ]
  } || status=1
done
[ $status -eq 0 ] || echo 'bench: the memory is not the same'
exit $status

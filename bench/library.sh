#!/bin/sh
# Prints what bench/threads.sh does: how many pairs of a lock and an unlock a second callers on threads make by the library of
# crates/lt_live_c, with clients/c/lockrun_easy.h, and by others, all in long rounds. Then how many instructions a pair takes, as
# callgrind counts them, of one caller on one node: all, and by the library's calls; and of a pthread_rwlock_t and, if
# libdb5.3-dev is there, of Berkeley DB.
# usage: bench/library.sh [ROUNDS [functions]]: with the word `functions` also those functions that take the most.
top=$(CDPATH='' cd -- "$(dirname -- "$0")/.." && pwd) || exit 1
rounds=${1:-9}
library=$top/crates/lt_live_c/out/liblt_live_c.a
[ -f "$library" ] || { echo "bench: run rt lib in crates/lt_live_c first" >&2; exit 1; }
room=$(mktemp -d) || exit 1
trap 'rm -rf "$room"' EXIT
cc -std=c11 -O2 -pthread -I "$top/clients/c" -o "$room/pairs" "$top/bench/library/pairs.c" "$library" \
  "$(dirname "$(rt doc)")/c/liblibc_c.a" || exit 1
kinds=rwlock
if cc -std=c11 -O2 -pthread -DWITH_DB -o "$room/others" "$top/bench/library/others.c" -ldb-5.3 2>/dev/null; then
  kinds='rwlock db'
else
  echo 'bench: without Berkeley DB, since libdb5.3-dev is not there'
  cc -std=c11 -O2 -pthread -o "$room/others" "$top/bench/library/others.c" || exit 1
fi

"$top/bench/threads.sh" 500 "$rounds"

command -v valgrind >/dev/null || { echo 'bench: no instructions, since valgrind is not there'; exit 0; }

# The instructions of a run, whose profile is kept by this name.
profile() {
  name=$1
  shift
  valgrind --quiet --tool=callgrind --callgrind-out-file="$room/$name" "$@" >"$room/printed" 2>/dev/null || exit 1
  sed -n 's/^totals: \([0-9]*\).*/\1/p; s/^summary: \([0-9]*\).*/\1/p' "$room/$name" | tail -1
}

few=$(profile few "$room/pairs" 1 1 own write 1)
many=$(profile many "$room/pairs" 1 1 own write 5)
pairs=$(cut -d' ' -f1 "$room/printed")
echo "$(((many - few) * 5 / 4 / pairs)) instructions a pair, 1 node, with open and finish"
callgrind_annotate --inclusive=yes --threshold=100 "$room/many" 2>/dev/null |
  sed -n "s/^ *\([0-9,]*\) .*:\(lockrun_[a-z_]*\) .*/\1 \2/p" | tr -d , |
  awk -v pairs="$pairs" '!seen[$2]++ { printf "  %7.0f %s\n", $1 / pairs, $2 }'
if [ "$2" = functions ]; then
  callgrind_annotate --threshold=99 "$room/many" 2>/dev/null | sed -n 's/^ *\([0-9,]*\) .*:\([^ ]*\) .*/\1 \2/p' | tr -d , |
    awk -v pairs="$pairs" '$1 / pairs >= 10 { printf "  %7.0f %s\n", $1 / pairs, $2 }'
fi
for kind in $kinds; do
  few=$(profile few "$room/others" "$kind" 1 own write 1000)
  many=$(profile many "$room/others" "$kind" 1 own write 11000)
  echo "$(((many - few) / 10000)) instructions a pair, $kind"
done

#!/bin/sh
# Runs that are cut into the parts of their nodes and put together by tools/join: the same moves, in order of their
# stamps, the same closing lines, and accepted by `check`, if there is a program to ask.
top=$(CDPATH='' cd -- "$(dirname -- "$0")/../.." && pwd) || exit 1
room=$(mktemp -d) || exit 1
trap 'rm -rf "$room"' EXIT
trap 'exit 1' HUP INT TERM
program=$top/programs/lockrun
[ -x "$program" ] || program=$top/crates/lockrun/out/lockrun
failed=0

fail() {
  echo "join: $1" >&2
  failed=1
}

# The moves of node $1 of the journal $2, each with its lines.
moves_of() {
  awk -v node="$1" '
    $1 == "move" { own = $3 == node }
    $1 ~ /^(held|waiting|owner|end|cut)$/ { exit }
    $1 == "version" || own { print }' "$2"
  echo "cut $1"
}

# The script $2 without the commands of clients of other nodes than $1.
script_of() {
  awk -v node="$1" '
    $1 == "client" { home[$2] = $4 }
    $1 in home && home[$1] != node { next }
    { print }' "$2"
}

# The lines after all moves.
closing_of() { awk '$1 ~ /^(held|waiting|owner|end)$/' "$1"; }

# The moves, one to a line with its events, in order of their stamps.
sorted_moves() {
  awk '$1 == "move" { if (line != "") print line; line = $2 " " $3 "|" $0; next }
    $1 ~ /^(held|waiting|owner|end|cut)$/ { exit }
    line != "" { line = line "|" $0 }
    END { if (line != "") print line }' "$1" | sort -n -k1,1 -k2,2
}

# Cuts the run $1 into parts, puts them together, and compares.
try_run() {
  script=$1.script journal=$1.journal
  nodes=$(awk '$1 == "nodes" { print $2; exit }' "$script")
  rm -f "$room"/part-*
  node=0
  while [ "$node" -lt "$nodes" ]; do
    { script_of "$node" "$script" && echo journal && moves_of "$node" "$journal"; } >"$room/part-$node"
    node=$((node + 1))
  done
  if ! "$top/tools/join" "$room"/part-* >"$room/joined" 2>"$room/said"; then
    fail "$1: $(cat "$room/said")"
    return
  fi
  sed '1,/^journal$/d' "$room/joined" >"$room/journal"
  [ "$(sorted_moves "$journal")" = "$(sorted_moves "$room/journal")" ] || fail "$1: other moves"
  [ "$(closing_of "$journal")" = "$(closing_of "$room/journal")" ] || fail "$1: other closing lines"
  if [ -x "$program" ]; then
    "$program" check <"$room/joined" >"$room/said" 2>&1 || [ $? -eq 3 ] || fail "$1: check: $(cat "$room/said")"
  fi
}

for script in "$top"/examples/*.script; do
  if [ -f "${script%.script}.journal" ] && ! grep -q '^cut ' "${script%.script}.journal"; then
    try_run "${script%.script}"
  fi
done

# A node of which no part is there is named, and one that is there twice.
said=$("$top/tools/join" "$room/part-0" 2>&1) && fail 'a node is missing, and nothing is said'
case $said in 'join: no moves of node 1'*) ;; *) fail "a missing node: $said" ;; esac
said=$("$top/tools/join" "$room/part-0" "$room/part-0" 2>&1) && fail 'a node is there twice, and nothing is said'
case $said in *'node 0 is there twice') ;; *) fail "a node twice: $said" ;; esac

# Moves of a node that stand twice are in no order.
{ sed '/^cut /d' "$room/part-0" && sed -n '/^move /,$p' "$room/part-0"; } >"$room/twice"
said=$("$top/tools/join" "$room/twice" 2>&1) && fail 'moves stand twice, and nothing is said'
case $said in *'moves that are not in order of their stamps') ;; *) fail "moves twice: $said" ;; esac
exit $failed

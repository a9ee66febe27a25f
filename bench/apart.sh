#!/bin/sh
# Counts the locks a second of nodes in processes of their own, by Unix sockets, MPI and ZeroMQ, with 2, 4 and 8 processes, where all
# lock one set in `write` or in `read`, or each its own in `write`; the same with one process; what a seal costs; and the locks of
# as many clients of one etcd server that doesn't sync to disk, by its HTTP gateway. What isn't there is left out by name.
# usage: bench/apart.sh LIBRARIES [MILLISECONDS]: the folder that clients/link made, and how long each row takes (2000)
[ $# -ge 1 ] || { echo 'usage: bench/apart.sh LIBRARIES [MILLISECONDS]' >&2; exit 1; }
top=$(CDPATH='' cd -- "$(dirname -- "$0")/.." && pwd) || exit 1
library=$1/liblockrun.a milliseconds=${2:-2000}
room=$(mktemp -d) || exit 1
server=
trap '[ -z "$server" ] || kill $server; rm -rf "$room"' EXIT

build() {
  name=$1 compiler=$2
  shift 2
  "$compiler" -std=c11 -O2 -Wall -Wextra -pthread -I "$top/clients/c" -o "$room/$name" "$top/bench/apart.c" "$library" "$@"
}

# Runs one row.
run() {
  name=$1 work=$2 nodes=$3
  rm -rf "$room/at" && mkdir "$room/at" && printf '%-7s ' "$name" || exit 1
  if [ "$name" = mpi ]; then
    timeout 120 mpirun.mpich -n "$nodes" "$room/mpi" "$room/at" "$(date +%s%N)" "$milliseconds" "$work"
    return
  fi
  start=$(date +%s%N)
  for node in $(seq 0 $((nodes - 1))); do
    timeout 120 "$room/$name" "$room/at" "$start" "$milliseconds" "$work" "$node" "$nodes" &
  done
  wait
}

run_all() {
  for work in own one read; do
    for nodes in 1 2 4 8; do run "$1" "$work" "$nodes"; done
  done
}

run_etcd() {
  port=$((20000 + $$ % 20000))
  etcd --data-dir "$room/etcd" --unsafe-no-fsync --log-level error --listen-client-urls "http://127.0.0.1:$port" \
    --advertise-client-urls "http://127.0.0.1:$port" --listen-peer-urls "http://127.0.0.1:$((port + 1))" >"$room/said" 2>&1 &
  server=$!
  for _ in $(seq 100); do
    curl -s "http://127.0.0.1:$port/health" >/dev/null && break
    sleep 0.1
  done
  for work in own one; do
    for clients in 1 2 4 8; do
      printf 'etcd    '
      python3 "$top/bench/etcd.py" $port "$milliseconds" $work $clients
    done
  done
}

build sockets cc && "$room/sockets" seal && run_all sockets
if command -v mpicc.mpich >/dev/null; then build mpi mpicc.mpich -DLOCKRUN_BY_MPI && run_all mpi; else
  echo 'left out: MPI (packages mpich and libmpich-dev)'
fi
if echo '#include <zmq.h>' | cc -E -o /dev/null - 2>/dev/null; then build zmq cc -DLOCKRUN_BY_ZMQ -lzmq && run_all zmq; else
  echo 'left out: ZeroMQ (package libzmq3-dev)'
fi
if command -v etcd >/dev/null; then run_etcd; else echo 'left out: etcd (package etcd-server)'; fi

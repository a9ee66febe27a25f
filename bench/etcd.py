#!/usr/bin/env python3
"""Counts the locks a second that clients of an etcd server have, by its HTTP gateway with connections that stay open.

usage: bench/etcd.py PORT MILLISECONDS one|own CLIENTS: for so long each client, a process, locks and unlocks one name, or its own."""
import base64
import http.client
import json
import multiprocessing
import sys
import time


def call(connection, path, **fields):
    """The answer to a call of the gateway."""
    connection.request('POST', path, json.dumps(fields))
    answer = connection.getresponse()
    body = json.loads(answer.read())
    if answer.status != 200:
        raise RuntimeError(body)
    return body


def work(port, seconds, name, there, locks, place):
    """One client: how many locks it had."""
    connection = http.client.HTTPConnection('127.0.0.1', port)
    lease = call(connection, '/v3/lease/grant', TTL=60)['ID']
    there.wait()
    begin = time.monotonic()
    while time.monotonic() - begin < seconds:
        key = call(connection, '/v3/lock/lock', name=base64.b64encode(name.encode()).decode(), lease=lease)['key']
        call(connection, '/v3/lock/unlock', key=key)
        locks[place] += 1


def main():
    """Prints one line."""
    port, seconds, kind, clients = int(sys.argv[1]), int(sys.argv[2]) / 1000, sys.argv[3], int(sys.argv[4])
    there, locks = multiprocessing.Barrier(clients + 1), multiprocessing.Array('l', clients)
    processes = [multiprocessing.Process(target=work, args=(port, seconds, f's{k}' if kind == 'own' else 's', there, locks, k))
                 for k in range(clients)]
    for process in processes:
        process.start()
    there.wait()
    begin = time.monotonic()
    for process in processes:
        process.join()
    print(f'{kind:5} {clients} processes: {sum(locks) / (time.monotonic() - begin):8.0f} locks a second')


if __name__ == '__main__':
    main()

#!/usr/bin/env python3
"""A bank of which each node lies in a process of its own, as clients/c/bank_apart.c, by ZeroMQ.

usage: bank_apart.py FOLDER START TRANSFERS NODE NODES: START is a number that differs from that of each earlier time
in this folder. It writes the script of what was asked at its node and the lines of the node's moves into
FOLDER/part.NODE."""
import mmap
import os
import struct
import sys

from lockrun_apart import Apart
from lockrun_zmq import Sockets

ACCOUNTS, FIRST, AMOUNT, MOST_NODES = 4, 1000, 5, 16
KEY, MOMENT = b'a key that the nodes of this bank share', 0.001
WORD = struct.Struct('=q')


class Seen:
    """Words that all processes see, in a file: the money, who is there and done, and of each node the letters that it
    sent and received. Nothing but the locks keeps callers from each other's money; every other word is written by one
    process."""

    def __init__(self, folder):
        size = WORD.size * (ACCOUNTS + 4 * MOST_NODES)
        file = os.open(os.path.join(folder, 'money'), os.O_RDWR | os.O_CREAT, 0o600)
        os.ftruncate(file, size)
        self.words = mmap.mmap(file, size)

    def __getitem__(self, place):
        return WORD.unpack_from(self.words, WORD.size * place)[0]

    def __setitem__(self, place, value):
        WORD.pack_into(self.words, WORD.size * place, value)

    def sum(self, kind, nodes):
        """The sum of what all nodes wrote of this kind."""
        return sum(self[ACCOUNTS + kind * MOST_NODES + node] for node in range(nodes))

    def tell(self, kind, node, value):
        """What this node writes of a kind."""
        self[ACCOUNTS + kind * MOST_NODES + node] = value


THERE, DONE, SENT, RECEIVED = range(4)


def sockets(folder, me, nodes):
    """The sockets of a node: of two nodes the first one binds."""
    names = {node: f'ipc://{folder}/{min(me, node)}-{max(me, node)}' for node in range(nodes) if node != me}
    return Sockets(connects={node: name for node, name in names.items() if node < me},
                   binds={node: name for node, name in names.items() if me < node})


def script(nodes):
    """The nodes, sets and clients."""
    lines = [f'nodes {nodes}', 'set bank']
    lines += [f'set account{k} with bank' for k in range(ACCOUNTS)]
    lines += [f'client caller{k} at {k}' for k in range(nodes)]
    return '\n'.join(lines) + '\n'


def transfer(session, seen, from_account, to_account):
    """Locks the accounts in order, so that no callers wait for each other in a ring."""
    lesser, greater = sorted((from_account, to_account))
    with session.lock('bank', 'intention_write'), session.lock(f'account{lesser}', 'write'), \
            session.lock(f'account{greater}', 'write'):
        in_from, in_to = seen[from_account], seen[to_account]
        os.sched_yield()
        seen[from_account] = in_from - AMOUNT
        seen[to_account] = in_to + AMOUNT


def audit(session, seen):
    """No intention to write goes with a read of the whole bank."""
    with session.lock('bank', 'read'):
        return sum(seen[account] for account in range(ACCOUNTS))


def serve(apart, seen, phase):
    """Serves the others until all nodes are in this phase, and all came that was sent: the former is looked at later,
    and only grows."""
    seen.tell(DONE, apart.me, phase)
    while True:
        apart.serve(MOMENT)
        seen.tell(SENT, apart.me, apart.sent)
        seen.tell(RECEIVED, apart.me, apart.received)
        done = all(seen[ACCOUNTS + DONE * MOST_NODES + node] >= phase for node in range(apart.nodes))
        received = seen.sum(RECEIVED, apart.nodes)
        if done and received == seen.sum(SENT, apart.nodes):
            return


def main():
    """The status is 0 if the sum is right and nothing is held here at the end."""
    if len(sys.argv) != 6:
        sys.exit('usage: bank_apart.py FOLDER START TRANSFERS NODE NODES')
    folder, start, transfers, me, nodes = sys.argv[1], *map(int, sys.argv[2:])
    seen, carries = Seen(folder), sockets(folder, me, nodes)
    apart = Apart(script(nodes), me, nodes, KEY, start, carries, keep=True)
    session = apart.session(f'caller{me}')
    if me == 0:
        for account in range(ACCOUNTS):
            seen[account] = FIRST
    seen.tell(THERE, me, 1)
    while seen.sum(THERE, nodes) < nodes:
        apart.serve(MOMENT)
    for k in range(transfers):
        from_account = (me + k) % ACCOUNTS
        transfer(session, seen, from_account, (from_account + 1 + k % (ACCOUNTS - 1)) % ACCOUNTS)
    serve(apart, seen, 1)
    total = audit(session, seen) if me == 0 else ACCOUNTS * FIRST
    serve(apart, seen, 2)
    journal = apart.finish()
    with open(os.path.join(folder, f'part.{me}'), 'w', encoding='ascii') as file:
        file.write(journal.script + 'journal\n' + journal.text)
    carries.close()
    if me == 0:
        print(f'all together: {total}')
    return total != ACCOUNTS * FIRST or journal.held > 0 or journal.waiting > 0


if __name__ == '__main__':
    sys.exit(main())

#!/usr/bin/env python3
"""Two nodes apart, each on a thread of its own, over a pair of sockets: both lock the same set in turn. tests/gate/release.sh runs it
with an installed wheel. Prints what both counted together."""
import select
import socket
import threading

from lockrun_apart import Apart

SCRIPT, ROUNDS = 'nodes 2\nset counter\nclient ann at 0\nclient ben at 1\n', 50
COUNTED = [0]


class Pipe:
    """A transport to the one other node."""

    def __init__(self, mine, other):
        self.mine, self.other = mine, other

    def carry(self, _, frames):
        self.mine.sendall(frames)

    def sleep(self, patience):
        if select.select([self.mine], [], [], patience)[0]:
            yield self.other, self.mine.recv(1 << 16)


def work(me, stream, all_done):
    """The locks of one node, which then answers the other one until both are done."""
    apart = Apart(SCRIPT, me, 2, b'a key of both', 1, Pipe(stream, 1 - me))
    for _ in range(ROUNDS):
        with apart.session(('ann', 'ben')[me]).lock('counter', 'write', timeout=60):
            COUNTED[0] += 1
    all_done[me] = True
    while not all(all_done):
        apart.serve(0.01)


def main():
    """The sum is right if nobody counted at once."""
    all_done = [False, False]
    threads = [threading.Thread(target=work, args=(me, stream, all_done)) for me, stream in enumerate(socket.socketpair())]
    for thread in threads:
        thread.start()
    for thread in threads:
        thread.join()
    print(COUNTED[0])


if __name__ == '__main__':
    main()

#!/usr/bin/env python3
"""Exceptions of the keyboard, at any place of any call: the session goes on after each, no lock is held or asked for
that nobody knows of, and other threads go on. For LOCKRUN_SECONDS seconds (5). The status is 0 if all of it is so."""
import os
import random
import signal
import sys
import threading
import time

from lockrun import WITHHELD, LockError, Nodes, StillWaits, Withdrawn

SECONDS = float(os.environ.get('LOCKRUN_SECONDS', '5'))
SETS, LONG, LONGEST = 4, 60, 0.0004
DONE = {}
ENDS = threading.Event()


def opened(nodes):
    """Nodes, sets, and clients of the main thread, of another one, and of the pool."""
    lines = [f'nodes {nodes}', *(f'set s{k}' for k in range(SETS))]
    lines += [f'client {name} at {k % nodes}' for k, name in enumerate(['ann', 'ben', 'pool0', 'pool1', 'last'])]
    return Nodes('\n'.join(lines) + '\n')


def once(session, draw):
    """A lock, a change of it, and its end; or asked for, and waited for."""
    name, timeout = f's{draw.randrange(SETS)}', draw.choice([None, LONG, draw.random() * LONGEST])
    if draw.random() < 0.3:
        try:
            session.ask(name, 'write', timeout).unlock()
        except StillWaits:
            guard = session.give_up() if draw.random() < 0.5 else session.wait()
            if guard:
                guard.unlock()
        return
    if draw.random() < 0.2:
        if guard := session.try_lock(name, 'write'):
            guard.unlock()
        return
    with session.lock(name, draw.choice(['upgrade', 'write']), timeout) as guard:
        if guard.mode == 'upgrade' and draw.random() < 0.5:
            guard.change('write', timeout)


def lent(nodes, draw):
    """The same with a session of the pool."""
    with nodes.client(timeout=LONG) as client:
        once(client, draw)


def work(session):
    """Another thread, which nobody interrupts."""
    draw, count = random.Random(5), 0
    while not ENDS.is_set():
        try:
            with session.lock(f's{draw.randrange(SETS)}', draw.choice(['read', 'write'])):
                time.sleep(draw.random() * LONGEST)
            count += 1
        except LockError as error:
            DONE['fault'] = repr(error)
            return
    DONE['by the other thread'] = count


def interrupt(*_):
    """What the keyboard does."""
    raise KeyboardInterrupt


def run(nodes, session, draw, end):
    """Calls of which each is interrupted at some time."""
    calls = [lambda: once(session, draw), lambda: lent(nodes, draw)]
    while time.monotonic() < end:
        call, kind = draw.choice(calls), 'done'
        try:
            try:
                signal.setitimer(signal.ITIMER_REAL, draw.random() * LONGEST + 1e-6)
                call()
            finally:
                signal.setitimer(signal.ITIMER_REAL, 0)
        except KeyboardInterrupt:
            kind = 'interrupted'
        except Withdrawn:
            kind = 'given up'
        except LockError as error:
            if error.code != WITHHELD:
                raise
            kind = 'withheld'
        DONE[kind] = DONE.get(kind, 0) + 1
        session.abort()


def main():
    """Runs on one node and on two, and sees that nothing is left."""
    bad = 0
    signal.signal(signal.SIGALRM, interrupt)
    for count in (1, 2):
        nodes, draw = opened(count), random.Random(count)
        ann, ben, last = nodes.session('ann'), nodes.session('ben'), nodes.session('last')
        ENDS.clear()
        thread = threading.Thread(target=work, args=(ben,))
        thread.start()
        run(nodes, ann, draw, time.monotonic() + SECONDS / 2)
        ENDS.set()
        thread.join()
        for k in range(SETS):
            last.lock(f's{k}', 'write', 1).unlock()
        nodes.pool.recover()
        submitted, polled = nodes.served()
        print(f'interrupts.py: {count} nodes: {DONE}')
        if submitted != polled or len(nodes.pool.free) != 2 or 'fault' in DONE or nodes.work.sleepers:
            print(f'interrupts.py: {submitted} commands, {polled} replies, {len(nodes.pool.free)} of 2 sessions free')
            bad = 1
        DONE.clear()
    return bad


if __name__ == '__main__':
    sys.exit(main())

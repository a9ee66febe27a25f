#!/usr/bin/env python3
"""As in a server: 64 threads and tasks come and go over 20 sessions, and move money between accounts of 100,000 keys,
with deadlines and cancels, for LOCKRUN_SECONDS seconds (5). Those that all want have exact names; and some lock in any
order and without a deadline, so that of those who wait in a ring one gives up. At the end the sum is right, memory
stayed flat, and those who only wait take next to no processor time. The status is 0 if all of it is so."""
import asyncio
import os
import random
import sys
import threading
import time

from lockrun import Key, Nodes, Victim, Withdrawn

THREADS, TASKS, SESSIONS, NODES, FAMILIES, KEYS, HOT, FIRST, AFTER = 40, 24, 20, 2, 4096, 100000, 50, 1000, 0.05
SECONDS = float(os.environ.get('LOCKRUN_SECONDS', '5'))
LONG, WAIT, MOST_SHARE, MOST_GROWTH = 60, 1.0, 0.01, 4 << 20
MONEY, DONE, FAULTS = [FIRST] * KEYS, {}, []


def tell(what, count=1):
    """Counts what happened."""
    DONE[what] = DONE.get(what, 0) + count


def opened():
    """Nodes with so many sessions, and sets for keys."""
    lines = [f'nodes {NODES}', *(f'client c{k} at {k % NODES}' for k in range(SESSIONS))]
    return Nodes('\n'.join(lines) + '\n', families=FAMILIES, names=HOT, victims=AFTER)


def drawn(draw):
    """Two accounts: often such that others draw too."""
    most = HOT if draw.random() < 0.5 else KEYS
    return draw.sample(range(most), 2)


def asked(nodes, draw, one, other):
    """Both accounts with how long to wait for each: in their order, so that nobody waits in a ring, or in any order."""
    keys = [nodes.name(f'account {k}') if k < HOT else nodes[f'account {k}'] for k in (one, other)]
    if draw.random() < 0.3:
        return [(key, None) for key in dict.fromkeys(keys)]
    return [(key, patience(draw)) for key in sorted(set(keys))]


def move(one, other):
    """Moves money: nothing but locks keeps others away."""
    in_one, in_other = MONEY[one], MONEY[other]
    time.sleep(0)
    MONEY[one], MONEY[other] = in_one - 1, in_other + 1


def patience(draw):
    """For ever, long, or hardly."""
    return draw.choice([None, LONG, draw.random() * 0.002])


def transfer(nodes, draw):
    """Takes a session, and locks both accounts in their order."""
    one, other = drawn(draw)
    with nodes.client(timeout=LONG) as client:
        for key, time_left in asked(nodes, draw, one, other):
            client.lock(key, 'write', time_left)
            time.sleep(0.001 if time_left is None else 0)
        move(one, other)


async def transfer_in_task(nodes, draw):
    """The same in a task."""
    one, other = drawn(draw)
    async with nodes.client(timeout=LONG) as client:
        for key, time_left in asked(nodes, draw, one, other):
            await client.lock_async(key, 'write', time_left)
            await asyncio.sleep(0.001 if time_left is None else 0)
        in_one, in_other = MONEY[one], MONEY[other]
        await asyncio.sleep(0)
        MONEY[one], MONEY[other] = in_one - 1, in_other + 1


def call(nodes, number, end):
    """Transfers of a thread."""
    draw = random.Random(number)
    try:
        while time.monotonic() < end:
            try:
                transfer(nodes, draw)
                tell('done by threads')
            except Withdrawn:
                tell('given up by threads')
            except Victim:
                tell('victims')
    except BaseException as fault:
        FAULTS.append(repr(fault))


async def call_in_task(nodes, number, end):
    """Transfers of a task, of which some are cancelled."""
    draw = random.Random(number)
    while time.monotonic() < end:
        try:
            if draw.random() < 0.2:
                await asyncio.wait_for(transfer_in_task(nodes, draw), draw.random() * 0.002)
            else:
                await transfer_in_task(nodes, draw)
            tell('done by tasks')
        except Withdrawn:
            tell('given up by tasks')
        except Victim:
            tell('victims')
        except asyncio.TimeoutError:
            tell('cancelled')


async def call_all(nodes, end):
    """All tasks."""
    await asyncio.gather(*(call_in_task(nodes, 1000 + k, end) for k in range(TASKS)))


def size():
    """The bytes of memory that the process has."""
    with open('/proc/self/statm', encoding='ascii') as file:
        return int(file.read().split()[1]) * os.sysconf('SC_PAGESIZE')


def touch(nodes):
    """Each set of keys is locked once, so that it takes its memory."""
    with nodes.client() as client:
        for number in range(FAMILIES + HOT):
            client.lock(Key(nodes.keys, b'', number), 'write', 0).unlock()


def serve(nodes):
    """The whole server: by how much memory grew between the middle and the end."""
    end = time.monotonic() + SECONDS
    threads = [threading.Thread(target=lambda: asyncio.run(call_all(nodes, end)))]
    threads += [threading.Thread(target=call, args=(nodes, k, end)) for k in range(THREADS)]
    for thread in threads:
        thread.start()
    time.sleep(SECONDS / 2)
    before = size()
    for thread in threads:
        thread.join()
    return size() - before


def waiting(nodes):
    """The share of a processor that is taken while one holds a lock, and all other sessions wait for it."""
    def wait():
        with nodes.client() as client, client.lock(nodes['hot'], 'write', LONG):
            tell('waited')

    async def wait_in_tasks():
        async def wait_in_task():
            async with nodes.client() as client, client.lock_async(nodes['hot'], 'write', LONG):
                tell('waited')
        await asyncio.gather(*(wait_in_task() for _ in range(TASKS)))

    threads = [threading.Thread(target=wait) for _ in range(THREADS)]
    threads.append(threading.Thread(target=lambda: asyncio.run(wait_in_tasks())))
    with nodes.client() as client, client.lock(nodes['hot'], 'write'):
        for thread in threads:
            thread.start()
        time.sleep(0.2)
        before, begin = time.process_time(), time.monotonic()
        time.sleep(WAIT)
        share = (time.process_time() - before) / (time.monotonic() - begin)
    for thread in threads:
        thread.join()
    return share


def main():
    """Prints what was done."""
    nodes = opened()
    touch(nodes)
    growth, share = serve(nodes), waiting(nodes)
    submitted, polled = nodes.served()
    print(f'server.py: {DONE}; memory grew by {growth >> 10} KiB; who waits takes {share:.2%} of a processor')
    good = sum(MONEY) == KEYS * FIRST and not FAULTS and submitted == polled and DONE.get('waited') == THREADS + TASKS
    good = good and growth <= MOST_GROWTH and share <= MOST_SHARE and len(nodes.pool.free) == SESSIONS
    print('server.py: all is as it should be' if good else f'server.py: {sum(MONEY)}, {submitted}, {polled}, {FAULTS}')
    return not good


if __name__ == '__main__':
    sys.exit(main())

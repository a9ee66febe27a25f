#!/usr/bin/env python3
"""What is answered by keys, by sessions that are lent, by calls in tasks, by nodes that forget or have ended, by
faults, and by a session that two threads use. The status is 0 if each answer is as it should be."""
import asyncio
import hashlib
import sys
import threading
import time
from dataclasses import astuple

from lockrun import (BAD_ARGUMENT, BAD_SCRIPT, BAD_SET, FORGOTTEN, LOG_FULL, NOTHING, TOO_MANY, WRONG_HANDLE, LockError,
                     Nodes, StillWaits, Withdrawn)
from lockrun.work import FORGET_AFTER

TWO = 'nodes 1\nset a\nset b\nclient ann at 0\nclient ben at 0\n'
APART = 'nodes 2\nset a\nset b\nclient ann at 0\nclient ben at 1\n'
LONG, SHORT = 60, 0.02


def fault_of(call, *arguments, **named):
    """The kind of exception that a call raises, or the code of a LockError; None, if it raises none."""
    try:
        call(*arguments, **named)
    except LockError as error:
        return error.code
    except Exception as error:
        return type(error)
    return None


def pooled(clients, nodes=1, **named):
    """Nodes for keys with so many clients."""
    lines = [f'nodes {nodes}', *(f'client c{k} at {k % nodes}' for k in range(clients))]
    return Nodes('\n'.join(lines) + '\n', **named)


def hashed(word):
    """The number that a key's set is found by."""
    return int.from_bytes(hashlib.sha256(word).digest()[:8], 'big')


def by_keys():
    """Each key has its set, and in a family its parent's."""
    nodes = pooled(2, families=100, members=50)
    folder = nodes['a folder']
    yield folder.number, hashed(b'a folder') % 100 * 50
    yield folder['page'].number, folder.number + 1 + hashed(b'page') % 49
    yield folder['page'] == nodes['a folder', 'page'] == nodes[b'a folder', b'page'], True
    yield nodes['\u00e9'] == nodes['\u00e9'.encode()], True
    with nodes.session('c0').lock(folder, 'intention_write'), nodes.session('c0').lock(folder['page'], 'write'):
        yield fault_of(nodes.session('c1').lock, folder['page'], 'read', 0), Withdrawn
        nodes.session('c1').lock(nodes['another'], 'write', LONG).unlock()
    yield len({nodes[str(k)] for k in range(10000)}), 100
    equal = [nodes[str(k)] for k in range(1000) if nodes[str(k)] == folder]
    yield sorted({folder, *equal, nodes['another']}) == sorted([folder, nodes['another']]), True
    yield fault_of(nodes.keys.key, 'page', ''), None
    yield fault_of(lambda: nodes['']['page']), BAD_ARGUMENT
    yield fault_of(lambda: pooled(1, families=9)['folder']['page']), BAD_ARGUMENT
    yield fault_of(lambda: Nodes(TWO)['any key']), BAD_ARGUMENT
    yield fault_of(pooled, 1, families=65536, members=2), TOO_MANY
    yield Nodes(TWO, families=3, members=2)['any key'].number >= 2, True


def lent():
    """A session is lent to one at a time; given back, it has nothing."""
    nodes = pooled(3, families=9)
    named = nodes.session('c1')
    with nodes.client() as one, nodes.client(timeout=0) as other:
        yield {one.client, other.client}, {0, 2}
        yield fault_of(nodes.client(timeout=SHORT).__enter__), Withdrawn
        one.lock(nodes['key'], 'write')
        yield fault_of(other.ask, nodes['key'], 'read', 0), StillWaits
    yield fault_of(one.lock, nodes['key'], 'read'), WRONG_HANDLE
    named.lock(nodes['key'], 'write', 0).unlock()
    first, second = nodes.client(), nodes.client()
    first.__enter__()
    threading.Timer(SHORT, first.__exit__).start()
    with second, nodes.client(timeout=LONG) as third:
        yield third.client in (0, 2), True
    yield sorted(session.client for session in (one, other)), [0, 2]


async def hold(nodes, held, release):
    """A task that has the lock until it is told to release it."""
    async with nodes.client() as client, client.lock_async(nodes['key'], 'write'):
        held.set()
        await release.wait()


async def tasks(nodes, answers):
    """What tasks are answered, while one holds the lock."""
    held, release = asyncio.Event(), asyncio.Event()
    holder = asyncio.ensure_future(hold(nodes, held, release))
    await held.wait()
    async with nodes.client() as client:
        try:
            await client.lock_async(nodes['key'], 'write', timeout=SHORT)
        except Withdrawn:
            answers.append('timeout')
        try:
            await asyncio.wait_for(client.lock_async(nodes['key'], 'write').__aenter__(), SHORT)
        except asyncio.TimeoutError:
            answers.append('cancelled')
        answers.append(client.asked)
        waits = asyncio.ensure_future(client.lock_in_task(nodes['key'], 'read', None))
        await asyncio.sleep(SHORT)
        try:
            client.lock(nodes['key'], 'read')
        except StillWaits:
            answers.append('still waits')
        try:
            async with nodes.client(timeout=SHORT):
                pass
        except Withdrawn:
            answers.append('none is free')
        release.set()
        guard = await waits
        await guard.change_async('write', timeout=LONG)
        answers.append(guard.mode)
        async with nodes.client(timeout=LONG) as other:
            try:
                await other.lock_async(nodes['key'], 'read', timeout=0)
            except Withdrawn:
                answers.append('held')
    await holder


def in_tasks():
    """Tasks wait while others run; a task that is cancelled gives up, and another thread goes on meanwhile."""
    for count in (1, 2):
        nodes, answers, seen = pooled(3, count, families=9), [], []
        session = nodes.session('c2')
        thread = threading.Thread(target=lambda: seen.append(session.lock(nodes['key'], 'write', LONG).unlock()))

        async def main():
            held, release = asyncio.Event(), asyncio.Event()
            holder = asyncio.ensure_future(hold(nodes, held, release))
            await held.wait()
            thread.start()
            await asyncio.sleep(SHORT)
            release.set()
            await holder
            await tasks(nodes, answers)

        asyncio.run(main())
        thread.join()
        yield answers, ['timeout', 'cancelled', None, 'still waits', 'none is free', 'write', 'held']
        yield seen, [None]


def forgetful():
    """Nodes forget, unless they are to keep what they did."""
    for keep in (False, True):
        nodes = Nodes(TWO, keep=keep)
        for _ in range(FORGET_AFTER):
            nodes.session('ann').lock('a', 'write').unlock()
        yield nodes.served(), (2 * FORGET_AFTER, 2 * FORGET_AFTER)
        if keep:
            yield nodes.finish().text.count('grant'), FORGET_AFTER
        else:
            yield fault_of(nodes.finish), FORGOTTEN


def why(call, *arguments, **named):
    """What the error says."""
    try:
        call(*arguments, **named)
    except LockError as error:
        return error.code, error.line, str(error)
    return None


def with_reasons():
    """Errors say what is wrong, and where."""
    code, line, text = why(Nodes, 'nodes 1\nset a\nclient ann at 1\n')
    yield (code, isinstance(line, int), text.startswith(f'line {line}: S')), (BAD_SCRIPT, True, True)
    for sets, word in (([('9', None)], "'9'"), ([('b', None), ('b', None)], 'before'), ([('c', 'd')], "'d'")):
        code, line, text = why(Nodes, 'nodes 1\nset a\nclient ann at 0\n', sets=sets)
        yield (code, line, word in text), (BAD_SET, None, True)
    nodes = Nodes('version 2\n' + TWO)
    yield 'version 2' in why(nodes.session('ann').lock, 'a', 'read', 1)[2], True
    yield fault_of(nodes.session('ann').lock, 'c', 'read'), KeyError
    yield fault_of(nodes.session('ann').lock, 'a', 'reed'), ValueError
    yield fault_of(Nodes, TWO, sets=[('c', None)], families=2), ValueError


def calls_of(nodes, guard):
    """Each call of a session, and of its nodes."""
    ann = nodes.sessions[0]
    yield from ((ann.lock, 'a', 'read'), (ann.lock, 'a', 'read', 1), (ann.ask, 'a', 'read'))
    yield from ((ann.try_lock, 'a', 'read'), (ann.drop, 'a', 'ann'), (ann.withdraw, 'a', 'ben'), (ann.left,))
    yield from ((ann.number, 'b'), (guard.unlock,), (guard.change, 'write'), (guard.__exit__,), (nodes.served,))
    yield from ((nodes.turn, 0), (nodes.forget,), (nodes.finish,))
    if nodes.library.views:
        yield (nodes.locks,)


def ended():
    """After the end of the nodes each call is an error, and who waits gets one too."""
    for end in (Nodes.finish, Nodes.close):
        nodes, seen = Nodes(TWO, keep=True), []
        guard, ben = nodes.session('ann').lock('a', 'write'), nodes.session('ben')
        thread = threading.Thread(target=lambda: seen.append(fault_of(ben.lock, 'a', 'write')))
        thread.start()
        while not nodes.work.sleepers:
            time.sleep(0.001)
        end(nodes)
        thread.join()
        yield seen, [WRONG_HANDLE]
        for call in calls_of(nodes, guard):
            yield fault_of(*call), WRONG_HANDLE
        nodes.close()
    with Nodes(TWO) as nodes:
        session = nodes.session('ann')
    yield fault_of(session.lock, 'a', 'read'), WRONG_HANDLE
    nodes = Nodes(TWO, limit=2)
    yield [fault_of(nodes.sessions[0].lock, 'a', 'write') for _ in range(4)][-2:], [LOG_FULL, StillWaits]


def shared():
    """A session that two threads use: errors, and the session goes on."""
    before, nodes, kinds = sys.getswitchinterval(), Nodes(TWO), set()
    sys.setswitchinterval(1e-6)

    def work(name):
        for _ in range(1000):
            kinds.add(fault_of(lambda: nodes.sessions[0].lock(name, 'read', 1).unlock()))

    threads = [threading.Thread(target=work, args=(name,)) for name in 'abab']
    for thread in threads:
        thread.start()
    for thread in threads:
        thread.join()
    sys.setswitchinterval(before)
    yield kinds <= {None, RuntimeError}, True
    nodes.sessions[0].abort()
    nodes.sessions[1].lock('a', 'write', 0).unlock()
    yield fault_of(nodes.sessions[0].wait), NOTHING


def apart():
    """On a free set a lock with no time at all is granted from any node, and then that one has the set's token."""
    nodes = Nodes(APART, keep=True)
    ann, ben = nodes.sessions
    yield [ben.try_lock('a', 'write') for _ in range(5)], [None] * 5
    for session in (ben, ann, ben):
        with session.lock('a', 'write', 0):
            other = ann if session is ben else ben
            yield fault_of(other.lock, 'a', 'read', 0), Withdrawn
            other.lock('b', 'read', 0).unlock()
    journal = nodes.finish()
    yield (journal.held, journal.waiting), (0, 0)


def viewed():
    """What is held and waited for."""
    nodes = Nodes(TWO)
    ann, ben = nodes.sessions
    ann.lock('b', 'read')
    ann.lock('b', 'read')
    ann.lock('a', 'write')
    yield fault_of(ben.ask, 'a', 'read', 0), StillWaits
    if not nodes.library.views:
        yield fault_of(nodes.locks), NotImplementedError
        return
    yield [astuple(lock) for lock in nodes.locks().held], [('ann', 'a', 'write', 1), ('ann', 'b', 'read', 2)]
    yield [astuple(lock) for lock in nodes.locks().asked], [('ben', 'a', 'read', 0)]


def main():
    """Prints each answer that is another."""
    bad, parts = 0, [by_keys, lent, in_tasks, forgetful, with_reasons, ended, shared, apart, viewed]
    for part in parts if len(sys.argv) == 1 else [globals()[name] for name in sys.argv[1:]]:
        for place, (answer, wanted) in enumerate(part()):
            if answer != wanted:
                print(f'answers.py: answer {place} of {part.__name__} is {answer} and not {wanted}')
                bad = 1
    print('answers.py: some answers are others' if bad else 'answers.py: each answer is as it should be')
    return bad


if __name__ == '__main__':
    sys.exit(main())

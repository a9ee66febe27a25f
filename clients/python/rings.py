#!/usr/bin/env python3
"""Clients that wait in rings, as threads and as tasks, and the policy by which the youngest of a ring gives up; exact
names that threads add; and nodes that rest.

usage: rings.py: the status is 0 if each answer is as it should be."""
from __future__ import annotations

import asyncio
import random
import sys
import threading
import time
from functools import partial
from typing import Callable, List, Type

from lockrun import BAD_ARGUMENT, LockError, NamesFull, Nodes, Session, StillWaits, Victim, Withdrawn

CLIENTS, SETS, AFTER, ROUNDS, NAMES = 6, 5, 0.03, 40, 200
faults: List[str] = []


def is_so(what: str, holds: bool) -> None:
    """Notes what isn't as it should be."""
    if not holds:
        faults.append(what)


def raises(what: str, error: Type[BaseException], call: Callable[[], object]) -> None:
    """Sees that a call raises this error."""
    try:
        call()
    except error:
        return
    faults.append(f'{what}: no {error.__name__}')


def script(nodes: int) -> str:
    """Some sets and clients."""
    return ''.join([f'nodes {nodes}\n', *(f'set s{k}\n' for k in range(SETS)),
                    *(f'client c{k} at {k % nodes}\n' for k in range(CLIENTS))])


def make_ring(nodes: Nodes) -> List[Session]:
    """Three have a set each, and ask for that of the next one."""
    sessions = [nodes.session(f'c{k}') for k in range(3)]
    for k, session in enumerate(sessions):
        session.lock(f's{k}', 'write')
    for k, session in enumerate(sessions):
        raises('a ring', StillWaits, partial(session.ask, f's{(k + 1) % 3}', 'read', 0))
    return sessions


def youngest(count: int) -> None:
    """The one that asked last gives up, though another one finds the ring."""
    nodes = Nodes(script(count), victims=AFTER)
    one, two, three = make_ring(nodes)
    raises('the oldest', StillWaits, lambda: one.wait(4 * AFTER))
    raises('the youngest', Victim, three.wait)
    is_so('what the youngest had', three.abort() == 1)
    two.wait()
    is_so('what the second had', two.abort() == 2)
    one.wait()
    one.abort()
    is_so('nothing is held', nodes.locks() == ([], []))


def nobody() -> None:
    """Without a ring nobody gives up; nor without the policy."""
    nodes = Nodes(script(2), victims=AFTER)
    one, two, three = (nodes.session(f'c{k}') for k in range(3))
    with one.lock('s0', 'write'), two.lock('s1', 'write'):
        raises('a wait', StillWaits, lambda: three.ask('s1', 'read', 5 * AFTER))
        raises('a time', Withdrawn, lambda: one.lock('s1', 'read', 3 * AFTER))
        is_so('the wait was given up', three.give_up() is None)
    one, *_ = make_ring(Nodes(script(2)))
    raises('no policy', StillWaits, lambda: one.wait(5 * AFTER))
    raises('an old script', LockError, lambda: Nodes('version 2\n' + script(1), victims=AFTER))


def stray(session: Session, seed: int, victims: List[int]) -> None:
    """Locks three sets in any order, and drops all, again and again."""
    drawn = random.Random(seed)
    for _ in range(ROUNDS):
        try:
            for _ in range(3):
                session.lock(f's{drawn.randrange(SETS)}', drawn.choice(['read', 'write']))
                time.sleep(0)
        except Victim:
            victims.append(seed)
        session.abort()


def strays(count: int) -> int:
    """How many gave up."""
    nodes = Nodes(script(count), victims=0.002)
    victims: List[int] = []
    threads = [threading.Thread(target=stray, args=(nodes.session(f'c{k}'), k, victims)) for k in range(CLIENTS)]
    for thread in threads:
        thread.start()
    for thread in threads:
        thread.join(60)
    is_so(f'threads on {count} nodes go on', not any(thread.is_alive() for thread in threads))
    nodes.close()
    return len(victims)


async def both(nodes: Nodes, first: str, second: str, begun: asyncio.Event) -> bool:
    """Locks one set and then the other: whether it was no victim."""
    async with nodes.client() as session:
        try:
            async with session.lock_async(first, 'write'):
                begun.set()
                await asyncio.sleep(AFTER)
                async with session.lock_async(second, 'write'):
                    return True
        except Victim:
            return False


async def tasks() -> None:
    """Of two tasks in a ring one gives up, and the other goes on."""
    nodes, begun = Nodes(script(2), victims=AFTER), asyncio.Event()
    one = asyncio.create_task(both(nodes, 's0', 's1', begun))
    await begun.wait()
    ended = await asyncio.wait_for(asyncio.gather(one, both(nodes, 's1', 's0', begun)), 30)
    is_so('one of two tasks gives up', sorted(ended) == [False, True])


def names() -> None:
    """The same name has the same set on each thread, and no other name and no key has it."""
    nodes = Nodes(script(2), families=10, members=5, names=NAMES // 4)

    def ask_all(start: int, found: List[int]) -> None:
        for number in (*range(start, NAMES), *range(start)):
            found[number] = nodes.name(f'parent {number // 4}')[f'name {number}'].number

    all_found = [[0] * NAMES for _ in range(8)]
    threads = [threading.Thread(target=ask_all, args=(k * NAMES // 8, found)) for k, found in enumerate(all_found)]
    for thread in threads:
        thread.start()
    for thread in threads:
        thread.join()
    is_so('all threads have the same sets', all(found == all_found[0] for found in all_found))
    is_so('no two names have one set', len(set(all_found[0])) == NAMES)
    is_so('names lie behind keys', min(all_found[0]) > SETS + 50)
    is_so('keys lie before names', all(nodes[str(k)].number < SETS + 50 for k in range(1000)))
    raises('one more', NamesFull, lambda: nodes.name('one more'))
    raises('one more in a family', NamesFull, lambda: nodes.name('one more', 'parent 0'))
    is_so('bytes are names too', nodes.name(b'parent 3') == nodes.name('parent 3'))
    is_so('a name of a set', nodes.name_of(all_found[0][7]) == b'name 7')
    is_so('a root of a set', nodes.name_of(nodes.name('parent 3').number) == b'parent 3')
    is_so('no name', nodes.name_of(0) is None)
    session = nodes.session('c0')
    with session.lock(nodes.name('parent 0'), 'intention_write'), session.lock(nodes.name('name 1', 'parent 0'), 'write'):
        is_so('names are locked', len(nodes.locks().held) == 2)
    try:
        Nodes(script(1), names=1).name('page', 'book')
    except LockError as error:
        is_so('no parent in a family of one', error.code == BAD_ARGUMENT)
    raises('no names', LockError, lambda: Nodes(script(1)).name('book'))


def rests() -> None:
    """Who waits is no work; what is given up is."""
    nodes = Nodes(script(2))
    one, two = nodes.session('c0'), nodes.session('c1')
    while not nodes.rests():
        pass
    is_so('each node rests', nodes.rests(0) and nodes.rests(1))
    lock = one.lock('s0', 'write')
    raises('it waits', StillWaits, lambda: two.ask('s0', 'write', 0))
    while not nodes.rests():
        pass
    is_so('all rest while one waits', nodes.rests())
    lock.unlock()
    is_so('an unlock for another node', not nodes.rests())
    while not nodes.rests():
        pass
    two.wait(0).unlock()


def main() -> int:
    """The status."""
    victims = 0
    for count in (1, 2, 3):
        youngest(count)
        victims += strays(count)
    nobody()
    asyncio.run(tasks())
    names()
    rests()
    is_so('some give up', victims > 0)
    for fault in faults:
        print(f'rings.py: {fault}')
    print(f'rings.py: {victims} victims, {len(faults)} faults')
    return 1 if faults else 0


if __name__ == '__main__':
    sys.exit(main())

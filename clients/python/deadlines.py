#!/usr/bin/env python3
"""Calls that give up: what they leave behind; a ring of three callers that is broken by the time of one; and callers
on threads with random times on few sets, of whom no two hold locks that conflict, and none is left waiting.

usage: deadlines.py NODES SCRIPT JOURNAL: the ring and the threads on so many nodes. It writes the script of what the
threads asked, and the journal, into these files. The status is 0 if each answer is as it should be."""
import random
import sys
import threading
import time

from lockrun import BAD_ARGUMENT, BUSY, NOTHING, LockError, Nodes, StillWaits, Withdrawn

SETS, CALLERS, ROUNDS, LONGEST, RING, SHORT, LONG = 3, 6, 20, 0.004, 3, 0.03, 60
# Who holds each set by now, as the callers see it, and what guards these lists.
HOLDERS, GUARD = [[] for _ in range(SETS)], threading.Lock()
FAULTS = []


def fault_of(call, *arguments):
    """The kind of exception that a call raises, or the code of a LockError; None, if it raises none."""
    try:
        call(*arguments)
    except LockError as error:
        return error.code
    except Exception as error:
        return type(error)
    return None


def ends(nodes):
    """Whether all that was submitted has its reply, and nothing is held or waits at the end; and the journal."""
    submitted, polled = nodes.served()
    journal = nodes.finish()
    return submitted == polled and journal.held == journal.waiting == 0, journal


def two_locks(session):
    """What is left behind where the second lock isn't granted in time: nothing."""
    with session.lock('b', 'read', LONG), session.lock('a', 'read', 0):
        pass


def in_time():
    """What is answered by calls with a time, and what should be."""
    nodes = Nodes('nodes 1\nset a\nset b\nclient ann at 0\nclient ben at 0\n', keep=True)
    ann, ben = nodes.sessions
    held = ann.lock('a', 'write')
    yield fault_of(ben.lock, 'a', 'read', 0), Withdrawn
    yield fault_of(ben.wait), NOTHING
    yield fault_of(two_locks, ben), Withdrawn
    with ben.try_lock('b', 'write'):
        held.change('read', 0)
    with ben.lock('a', 'read', 0) as other:
        yield fault_of(other.change, 'write', 0), Withdrawn
        yield other.mode, 'read'
        held.unlock()
        other.change('write', 0)
    yield ends(nodes)[0], True


def by_others():
    """Who goes on waiting gives up when it likes, or a neighbour gives it up; and a guard's end gives up what is asked
    for."""
    nodes = Nodes('nodes 1\nset a\nset b\nclient ann at 0\nclient ben at 0\n', keep=True)
    ann, ben = nodes.sessions
    held = ann.lock('a', 'write')
    ben.lock('b', 'write')
    yield fault_of(ben.ask, 'a', 'read', 0), StillWaits
    yield fault_of(ben.lock, 'b', 'read', 0), StillWaits
    yield fault_of(ann.drop, 'b', 'ben'), BUSY
    yield ben.give_up(), None
    yield fault_of(ben.ask, 'a', 'read', 0), StillWaits
    yield ann.withdraw('b', 'ben'), False
    yield ann.withdraw('a', 'ben'), True
    yield fault_of(ben.wait), Withdrawn
    yield fault_of(ben.ask, 'a', 'read', 0), StillWaits
    yield ben.abort(), 1
    with ben.lock('b', 'write'):
        yield fault_of(ben.ask, 'a', 'read', 0), StillWaits
    with ben.lock('b', 'write'):
        yield ben.abort(), 1
    held.unlock()
    yield ends(nodes)[0], True


class Interrupted(BaseException):
    """As one of the keyboard."""


def interrupted():
    """An exception that comes while a session waits leaves nothing asked for."""
    nodes = Nodes('nodes 1\nset a\nclient ann at 0\nclient ben at 0\n', keep=True)
    ann, ben = nodes.sessions

    def interrupt(_):
        raise Interrupted

    with ann.lock('a', 'write'):
        ben.bell.sleep = interrupt
        try:
            ben.lock('a', 'write')
        except Interrupted:
            yield fault_of(ben.wait), NOTHING
    yield ends(nodes)[0], True


def in_another_version():
    """In a script of version 2 nothing is given up, so that nothing is asked for in so much time."""
    nodes = Nodes('# old\n\nversion 2\nnodes 1\nset a\nclient ann at 0\nclient ben at 0\n', keep=True)
    ann, ben = nodes.sessions
    with ann.lock('a', 'read_intention_write'):
        yield fault_of(ben.lock, 'a', 'read', 0), BAD_ARGUMENT
        yield fault_of(ben.ask, 'a', 'write', 0), StillWaits
        yield fault_of(ben.give_up), BAD_ARGUMENT
    ben.wait().unlock()
    yield ends(nodes)[0], True


def opened(count, clients):
    """Nodes, sets, and so many clients, one after the other on each node."""
    lines = ['version 3', f'nodes {count}', *(f'set s{k}' for k in range(SETS))]
    return Nodes('\n'.join(lines + [f'client c{k} at {k % count}' for k in range(clients)]) + '\n', keep=True)


def run_all(nodes, call, *arguments):
    """Each session on a thread of its own."""
    def run(session):
        try:
            call(session, *arguments)
        except Exception as fault:
            FAULTS.append(fault)

    threads = [threading.Thread(target=run, args=(session,)) for session in nodes.sessions]
    for thread in threads:
        thread.start()
    for thread in threads:
        thread.join()


def call_in_ring(session, all_have_one):
    """Locks a set, and then that of the next one. The first one loses its patience, and gives up what it has."""
    with session.lock(f's{session.client}', 'write', LONG):
        all_have_one.wait()
        try:
            with session.lock(f's{(session.client + 1) % RING}', 'write', LONG if session.client else SHORT):
                if session.client == 0:
                    FAULTS.append('the ring is none')
        except Withdrawn:
            if session.client != 0:
                raise


def enter(session, number, mode):
    """The session has the lock: no other has one that conflicts."""
    with GUARD:
        HOLDERS[number] = [(who, its) for who, its in HOLDERS[number] if who != session]
        if HOLDERS[number] and (mode == 'write' or ('write' in [its for _, its in HOLDERS[number]])):
            FAULTS.append('locks that conflict')
        HOLDERS[number].append((session, mode))


def leave(session, number):
    """The session is about to give the lock up."""
    with GUARD:
        HOLDERS[number] = [(who, its) for who, its in HOLDERS[number] if who != session]


def make_round(session, draw):
    """A lock, a change of it, and a second lock in another set, in any order of sets: each in some time."""
    number, mode = draw.randrange(SETS), draw.choice(['read', 'write'])
    other = (number + draw.randrange(1, SETS)) % SETS
    with session.lock(f's{number}', mode, draw.random() * LONGEST) as first:
        enter(session, number, mode)
        try:
            if mode == 'read' and draw.random() < 0.5:
                first.change('write', draw.random() * LONGEST)
                enter(session, number, 'write')
            with session.lock(f's{other}', 'write', draw.random() * LONGEST):
                enter(session, other, 'write')
                time.sleep(0)
                leave(session, other)
        finally:
            leave(session, number)


def call(session, all_are_here):
    """Such rounds, of which some end early."""
    draw = random.Random(77 + session.client)
    all_are_here.wait()
    for _ in range(ROUNDS):
        try:
            make_round(session, draw)
        except Withdrawn:
            pass


def ring_and_threads(count, files):
    """What is left after the ring, and after all threads: at the end each set is free for each session."""
    nodes = opened(count, RING)
    run_all(nodes, call_in_ring, threading.Barrier(RING))
    yield ends(nodes)[0], True
    nodes = opened(count, CALLERS)
    run_all(nodes, call, threading.Barrier(CALLERS))
    for session in nodes.sessions:
        for number in range(SETS):
            session.lock(f's{number}', 'write', LONG).unlock()
    good, journal = ends(nodes)
    yield good, True
    for name, text in zip(files, (journal.script, journal.text)):
        with open(name, 'w', encoding='ascii') as file:
            file.write(text)
    yield FAULTS, []


def main():
    """Prints each answer that is another."""
    if len(sys.argv) != 4:
        sys.exit('usage: deadlines.py NODES SCRIPT JOURNAL')
    bad, parts = 0, [in_time(), by_others(), interrupted(), in_another_version()]
    for part in parts + [ring_and_threads(int(sys.argv[1]), sys.argv[2:])]:
        for place, (answer, wanted) in enumerate(part):
            if answer != wanted:
                print(f'deadlines.py: answer {place} of {part.__name__} is {answer} and not {wanted}')
                bad = 1
    print('deadlines.py: some answers are others' if bad else 'deadlines.py: each answer is as it should be')
    return bad


if __name__ == '__main__':
    sys.exit(main())

#!/usr/bin/env python3
"""What sessions were served so far: before anything, while a client waits, after all nodes have forgotten, and at the
end; and while one is out, or of what is no service, nothing is told. Nodes that have forgotten have no journal, nor
have those of 65,536 sets. The status is 0 if each answer is as it should be."""
import sys
from ctypes import c_size_t, c_uint8, c_uint32

from lockrun import BAD_SET, FORGOTTEN, NOTHING, OK, TOO_MANY, WRONG_HANDLE, LockError, Nodes, StillWaits


SCRIPT = 'nodes 2\nset a\nclient ann at 0\nclient ben at 1\n'


def asked(nodes, handle):
    """What the library itself answers to `lockrun_served`, and the two numbers, which are 11 and 13 before."""
    submitted, polled = c_size_t(11), c_size_t(13)
    return nodes.library.lockrun_served(handle, submitted, polled), submitted.value, polled.value


def wait_a_little(session):
    """Whether the client still waits for its lock."""
    try:
        session.ask('a', 'write', 0)
    except StillWaits:
        return True
    return False


def finish(nodes):
    """The code of why there is no journal."""
    try:
        nodes.finish()
    except LockError as error:
        return error.code
    return OK


def forgetful():
    """What nodes that forget in the middle answer, and what they should."""
    nodes = Nodes(SCRIPT, keep=True)
    ann, ben = nodes.sessions
    yield nodes.library.lockrun_forget(ann.handle), WRONG_HANDLE
    held = ann.lock('a', 'read')
    yield wait_a_little(ben), True
    nodes.forget()
    yield nodes.served(), (2, 1)
    held.unlock()
    ben.wait(60).unlock()
    nodes.forget()
    yield nodes.served(), (4, 4)
    yield finish(nodes), FORGOTTEN


def opens(sets):
    """The code of why nothing is opened with these further sets."""
    try:
        Nodes(SCRIPT, sets=sets)
    except LockError as error:
        return error.code
    return OK


def many_sets():
    """What nodes of 65,536 sets answer, and what they should."""
    sets = [(f's{k}', 's1' if k == 2 else None) for k in range(1, 65536)]
    nodes = Nodes(SCRIPT, sets=sets, keep=True)
    ann = nodes.session('ann')
    yield ann.number('a'), 0
    yield ann.number('s65535'), 65535
    yield nodes.library.lockrun_set(nodes.service, (c_uint8 * 1)(97), 1, c_uint32()), WRONG_HANDLE
    ann.lock('s2', 'write')
    with ann.lock('s65535', 'write'):
        yield nodes.session('ben').try_lock('s65535', 'read'), None
    yield ann.drop('s1', 'ann'), 1
    yield nodes.served(), (5, 5)
    yield finish(nodes), TOO_MANY
    yield opens(sets + [('b', None)]), TOO_MANY
    yield opens([('b', 'c')]), BAD_SET


def answers():
    """What is answered, and what should be."""
    nodes = Nodes(SCRIPT, keep=True)
    ann, ben = nodes.sessions
    yield nodes.served(), (0, 0)
    yield asked(nodes, nodes.service), (NOTHING, 11, 13)
    yield asked(nodes, ann.handle), (WRONG_HANDLE, 11, 13)
    held = ann.lock('a', 'read')
    yield wait_a_little(ben), True
    yield nodes.served(), (2, 1)
    held.unlock()
    ben.wait(60).unlock()
    yield nodes.served(), (4, 4)
    for handle in nodes.stations + [ann.handle]:
        yield nodes.library.lockrun_give(nodes.service, handle), OK
    yield asked(nodes, nodes.service), (NOTHING, 11, 13)
    yield nodes.library.lockrun_give(nodes.service, ben.handle), OK
    yield asked(nodes, nodes.service), (OK, 4, 4)


def main():
    """Prints each answer that is another."""
    bad = 0
    for place, (answer, wanted) in enumerate([*answers(), *forgetful(), *many_sets()]):
        if answer != wanted:
            print(f'served.py: answer {place} is {answer} and not {wanted}')
            bad = 1
    print('served.py: some answers are others' if bad else 'served.py: each answer is as it should be')
    return bad


if __name__ == '__main__':
    sys.exit(main())

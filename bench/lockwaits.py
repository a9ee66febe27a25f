#!/usr/bin/env python3
"""What `lockwaits` takes beside `lockrun check` of the same inputs."""
import sys

sys.dont_write_bytecode = True
from measure import TOP, Side, drawn, run, words_of

USAGE = """usage: bench/lockwaits.py [PROGRAM [LOCKRUN [TIMES]]]

Prints instructions and the least processor time of TIMES runs (5, if none is given) of
`lockwaits`, and of `lockrun check` on the same input: for a journal after which 255 of
256 clients wait in one set, for one of rings over 8 sets, and for drawn ones of 16 and 64
nodes. PROGRAM and LOCKRUN are those that ./build makes, if none is named."""


def main():
    """Prints the table."""
    program, lockrun, times = words_of(USAGE, 3)
    program = program or f'{TOP}/crates/lockwaits/out/lockwaits'
    lockrun = lockrun or f'{TOP}/crates/lockrun/out/lockrun'
    side = Side(program, lockrun, int(times or 5))
    side.head()
    short = with_journal(lockrun, b'nodes 1\nset s\n')
    names = {'255 wait in one set': one_set(), 'rings over 8 sets': rings(),
             '16 nodes': drawn(16, 64, 4096), '64 nodes': drawn(64, 256, 4096, version=2)}
    for name, script in names.items():
        side.row(name, [], with_journal(lockrun, script), short, ['check'])


def with_journal(lockrun, script):
    """The script with the journal of its first run."""
    return script + b'journal\n' + run([lockrun, 'sim', 'first'], script)[0]


def clients(sets):
    """The first lines of a script of version 2, with 256 clients on 16 nodes."""
    lines = ['version 2', 'nodes 16'] + [f'set s{k}' for k in range(sets)]
    return lines + [f'client c{k} at {k % 16}' for k in range(256)]


def one_set():
    """Each client locks the same set."""
    return '\n'.join(clients(1) + [f'c{k} lock s0 write' for k in range(256)] + ['']).encode()


def rings():
    """The first eight clients lock a set each, and then all ask for the set of the next one."""
    held = [f'c{k} lock s{k} write' for k in range(8)]
    asked = [f'c{k} lock s{(k + 1) % 8} write' for k in range(256)]
    return '\n'.join(clients(8) + held + asked + ['']).encode()


main()

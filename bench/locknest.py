#!/usr/bin/env python3
"""What `locknest` takes beside another program of the same rules, such as the plain one of bench/plain-nest."""
import subprocess
import sys

sys.dont_write_bytecode = True
from measure import TOP, Side, run, words_of

USAGE = """usage: bench/locknest.py OTHER [PROGRAM [TIMES]]

Prints instructions and the least processor time of TIMES runs (5, if none is given) of
`locknest` and of the program OTHER, for inputs of 256 transactions and up to 65,535
lines. `drawn` is of all kinds of lines; in `chain` each transaction is under the one
before and holds `write`, and the last one asks again and again; in `queue` all ask for
`write` in one set, and each commits once it has it, over and over by tries. PROGRAM is
the locknest that ./build makes, if none is named."""


def main():
    """Prints the table."""
    other, program, times = words_of(USAGE, 3)
    if not other:
        sys.exit(USAGE)
    program = program or f'{TOP}/crates/locknest/out/locknest'
    side = Side(program, other, int(times or 5))
    side.head()
    for name, text in {'drawn': drawn_lines(), 'chain': chain(), 'queue': queue()}.items():
        if run([program], text)[0] != run([other], text)[0]:
            sys.exit(f'bench: {name}: the two programs write something else')
        side.row(name, [], text, b'set s\n')


def drawn_lines():
    """As many drawn lines as fit into the bytes that an input may have."""
    words = [sys.executable, f'{TOP}/tests/lib/drawing_nest.py', '256', '65535', '1']
    return subprocess.run(words, capture_output=True, check=True).stdout


def chain():
    """A chain of transactions that hold `write`, whose last one, of a name of one letter, asks again and again."""
    names = [f't{k}' for k in range(255)] + ['z']
    lines = ['set s', f'{names[0]} begin'] + [f'{child} begin in {parent}' for parent, child in zip(names, names[1:])]
    lines += [f'{name} lock s write' for name in names]
    return '\n'.join(lines + ['z lock s write'] * (65535 - len(lines)) + ['']).encode()


def queue():
    """All ask for `write`; each tries others' modes before it commits."""
    lines = ['set s'] + [f't{k} begin' for k in range(256)] + [f't{k} lock s write' for k in range(256)]
    for k in range(250):
        lines += [f't{k} try s read'] * 259 + [f't{k} commit']
    return '\n'.join(lines + ['']).encode()


main()

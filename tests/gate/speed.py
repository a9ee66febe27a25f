#!/usr/bin/env python3
"""Counts the instructions of ten fixed runs of the proved programs and of the static library, as valgrind does, and compares
them with tests/gate/speed.txt: more than 3% above a number there is wrong. No time is measured. A run of a program is counted less
a run of its shortest input, and of the library less a run of fewer locks. All are on one thread, so they count the same each
time. A change of a number stands in CHANGELOG.md with its reason.

usage: tests/gate/speed.py [--write]: with the word it writes the numbers that it counts to tests/gate/speed.txt."""
import shutil
import subprocess
import sys
import tempfile
from pathlib import Path

TOP = Path(__file__).resolve().parents[2]
sys.dont_write_bytecode = True
sys.path.insert(0, str(TOP / 'bench'))
from measure import drawn, instructions, run  # noqa: E402

TABLE = TOP / 'tests/gate/speed.txt'
MOST_ABOVE = 0.03
SHORT = b'nodes 1\nset s\n'

# Of the library: how many nodes, callers, and callers that work, on sets of their own or on one, and pairs of locks.
LIBRARY = {
    'a pair, 1 node, 1 session': (['1', '1', '1', 'own'], 2000),
    'a pair, 1 node, 16 sessions': (['1', '16', '1', 'own'], 2000),
    'a pair, 4 nodes, 4 sessions': (['4', '4', '4', 'own'], 2000),
    'a lock away, 16 nodes': (['16', '16', '16', 'one'], 400),
}


def program(name):
    """The proved program."""
    return f'{TOP}/crates/{name}/out/{name}'


def beyond(command, text, short):
    """The instructions of a run less those of a run of its shortest input."""
    return instructions(command, text) - instructions(command, short)


def with_journal(script, order):
    """The script with the journal of its run in this order."""
    return script + b'journal\n' + run([program('lockrun'), 'sim', order], script)[0]


def programs():
    """Names and counts of runs of programs."""
    scripts = {1: drawn(1, 16, 4096), 16: drawn(16, 64, 4096), 64: drawn(64, 256, 4096, version=2)}
    for nodes, script in scripts.items():
        yield f'sim first, {nodes} node{"s" if nodes > 1 else ""}', beyond([program('lockrun'), 'sim', 'first'], script, SHORT)
    short = with_journal(SHORT, 'first')
    yield 'check, 16 nodes', beyond([program('lockrun'), 'check'], with_journal(scripts[16], '7'), short)
    yield 'lockwaits, 16 nodes', beyond([program('lockwaits')], with_journal(scripts[16], 'first'), short)
    words = [sys.executable, f'{TOP}/tests/lib/drawing_nest.py', '256', '16384', '1']
    lines = subprocess.run(words, capture_output=True, check=True).stdout
    yield 'locknest, 16,384 lines', beyond([program('locknest')], lines, b'set s\n')


def library(room):
    """Names and counts of a pair of a lock and an unlock by the static library."""
    archives = [f'{TOP}/crates/lt_live_c/out/liblt_live_c.a', f'{kit()}/c/liblibc_c.a']
    built = ['cc', '-std=c11', '-O2', '-I', f'{TOP}/clients/c', '-o', f'{room}/steady', f'{TOP}/bench/library/steady.c']
    subprocess.run(built + archives, check=True)
    for name, (words, pairs) in LIBRARY.items():
        counts = [instructions([f'{room}/steady', *words, str(n * pairs)], b'') for n in (1, 2)]
        yield name, (counts[1] - counts[0]) // pairs


def kit():
    """The folder of the toolchain."""
    return Path(subprocess.run(['rt', 'doc'], capture_output=True, text=True, check=True).stdout.strip()).parent


def wanted():
    """The numbers of the table."""
    rows = (line.rsplit(' ', 1) for line in TABLE.read_text().splitlines() if line and not line.startswith('#'))
    return {name.strip(): int(count) for name, count in rows}


def write(counted):
    """Writes the table anew."""
    head = [line for line in TABLE.read_text().splitlines() if line.startswith('#')]
    rows = [f'{name:30}{count:>12}' for name, count in counted.items()]
    TABLE.write_text('\n'.join(head + rows) + '\n')


def main():
    """The status is 0 if no number is too great."""
    missing = [name for name in ('valgrind', 'cc') if not shutil.which(name)]
    if missing:
        print(f'tests/gate/speed.py: not run: {", ".join(missing)} is not there')
        return 0
    with tempfile.TemporaryDirectory() as room:
        counted = dict(programs()) | dict(library(room))
    if sys.argv[1:] == ['--write']:
        write(counted)
    table, wrong = wanted(), 0
    for name in {**table, **counted}:
        count, most = counted.get(name), table.get(name)
        if count is None or most is None or count > most * (1 + MOST_ABOVE):
            wrong += 1
            print(f'tests/gate/speed.py: {name}: {count} instructions, and {most} stand in the table')
        elif count < most * (1 - MOST_ABOVE):
            print(f'tests/gate/speed.py: {name}: {count} instructions, fewer than the {most} of the table')
    print(f'tests/gate/speed.py: {len(counted)} runs, {wrong} wrong')
    return 1 if wrong else 0


if __name__ == '__main__':
    sys.exit(main())

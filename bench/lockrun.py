#!/usr/bin/env python3
"""What `lockrun` takes beside another program of the same rules, such as the plain one of bench/plain."""
import sys

sys.dont_write_bytecode = True
from measure import TOP, Side, drawn, instructions, run, words_of

USAGE = """usage: bench/lockrun.py OTHER [PROGRAM [TIMES]]

Prints instructions and the least processor time of TIMES runs (15, if none is given) of
`lockrun` and of the program OTHER: of `sim first`, `check` and `run` on drawn scripts of
4,096 commands, and of inputs of comments and of empty lines; then how a move grows with
the nodes and with the commands. PROGRAM is the lockrun that ./build makes, if none is named."""


def main():
    """Prints the table."""
    other, program, times = words_of(USAGE, 3)
    if not other:
        sys.exit(USAGE)
    program = program or f'{TOP}/crates/lockrun/out/lockrun'
    side = Side(program, other, int(times or 15))
    short = b'nodes 1\nset s\n'
    checked_short = short + b'journal\n' + run([program, 'sim', 'first'], short)[0]
    scripts = {nodes: drawn(nodes, clients_of(nodes), 4096, version=1 if nodes < 64 else 2) for nodes in (1, 4, 16, 64)}
    side.head()
    for nodes in (1, 16, 64):
        side.row(f'sim first, nodes {nodes}', ['sim', 'first'], scripts[nodes], short)
    checked = scripts[16] + b'journal\n' + run([program, 'sim', '7'], scripts[16])[0]
    side.row('check, nodes 16', ['check'], checked, checked_short)
    for nodes in (16, 64):
        side.row(f'run, nodes {nodes}', ['run'], scripts[nodes], short)
    comments, empty = b'# thirty-two bytes of a comment\n' * 32768, b'\n' * (1 << 20)
    for name, lines in (('comments', comments), ('empty lines', empty)):
        side.row(f'1 MiB of {name}', ['sim', 'first'], short + lines[: (1 << 20) - len(short)], short)
        side.row(f'4 MiB of {name}, check', ['check'], short + 4 * lines, short)
    growth(program, scripts, short)


def clients_of(nodes):
    """As many clients as a script of so many nodes may have, and no more than 64 in version 1."""
    return 256 if nodes == 64 else min(16 * nodes, 64)


def growth(program, scripts, short):
    """Prints the instructions of a move, by nodes and by commands."""
    start = instructions([program, 'sim', 'first'], short)
    few = {f'16 nodes, {commands} commands': drawn(16, 64, commands) for commands in (256, 1024)}
    for name, script in [(f'{nodes} nodes', scripts[nodes]) for nodes in (4, 16, 64)] + list(few.items()):
        moves = run([program, 'sim', 'first'], script)[0].count(b'\nmove ')
        taken = instructions([program, 'sim', 'first'], script) - start
        print(f'{name}: {taken // moves} instructions a move')


main()

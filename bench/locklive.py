#!/usr/bin/env python3
"""What `locklive` takes beside another program of the same rules, such as the plain one of bench/plain."""
import sys

sys.dont_write_bytecode = True
from measure import TOP, Side, drawn, least, words_of

USAGE = """usage: bench/locklive.py OTHER [PROGRAM [TIMES]]

Prints how many instructions and how much processor time scripts of 1, 4 and 16 nodes
take, with 4 clients on each and 1,024 commands in all, and how many commands a second
that is, from `submit` to a polled reply: of `locklive`, and of the program OTHER, whose
first word is `live`. What the same script takes without its commands is taken off.
PROGRAM is the locklive that ./build makes, if none is named, and TIMES is 15."""
COMMANDS = 1024


def main():
    """Prints the table."""
    other, program, times = words_of(USAGE, 3)
    if not other:
        sys.exit(USAGE)
    program, times = program or f'{TOP}/crates/locklive/out/locklive', int(times or 15)
    side = Side(program, other, times)
    side.head()
    for nodes in (1, 4, 16):
        text = drawn(nodes, 4 * nodes, COMMANDS, 1)
        short = b''.join(line for line in text.splitlines(True)
                         if line.split()[:1] and line.split()[0] in (b'version', b'nodes', b'set', b'client'))
        side.row(f'nodes {nodes}', [], text, short, ['live'])
        commands = [[program], [other, 'live']]
        taken = [whole - start for whole, start in zip(least(commands, text, times), least(commands, short, times))]
        rates = [1000 * COMMANDS / max(time, 0.001) for time in taken]
        print(f'nodes {nodes}: {rates[0]:.0f} commands a second, the other program {rates[1]:.0f}')


main()

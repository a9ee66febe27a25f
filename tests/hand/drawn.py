#!/usr/bin/env python3
"""Draws inputs of all kinds, scripts or lines of nested transactions, and compares what two programs answer: bytes,
status and standard error."""
import argparse
import shlex
import subprocess
import sys
from collections import Counter
from concurrent.futures import ThreadPoolExecutor
from pathlib import Path

sys.dont_write_bytecode = True
sys.path.insert(0, str(Path(__file__).resolve().parents[1] / 'lib'))
from drawing import draw_script, with_fault
from drawing_nest import draw_nest, with_nest_fault


def words_of():
    """The command line."""
    top = Path(__file__).resolve().parents[2]
    parser = argparse.ArgumentParser(description=__doc__)
    parser.add_argument('reference', help='the command that is right, as one word: "python3 MODEL"')
    parser.add_argument('--nested', action='store_true', help='draw lines of nested transactions, for locknest')
    parser.add_argument('--program', help='the command to be tested, if not the one that is built')
    parser.add_argument('--words', help='the words that both are given, if not `sim first`, or none for locknest')
    parser.add_argument('--count', type=int, default=300, help='how many inputs')
    parser.add_argument('--seed', type=int, default=1, help='the number of the first one')
    parser.add_argument('--version', type=int, choices=(1, 2), default=1, help='the version of the scripts')
    parser.add_argument('--kind', choices=('any', 'ordered', 'nearly'), default='any',
                        help='scripts of any kind, ordered ones, or such as are ordered but for one command')
    parser.add_argument('--keep', default='drawn.script', help='the file for the first input whose answers differ')
    args = parser.parse_args()
    name, words = ('locknest', '') if args.nested else ('lockrun', 'sim first')
    args.program = args.program or str(top / f'crates/{name}/out/{name}')
    args.words = words if args.words is None else args.words
    return args


def input_of(seed, args):
    """The bytes of an input; each tenth one has a fault."""
    text = draw_nest(seed) if args.nested else draw_script(seed, args.version, args.kind)
    spoil = with_nest_fault if args.nested else with_fault
    return (spoil(text, seed) if seed % 10 == 0 else text).encode('latin-1')


def answer(command, words, data):
    """Status, output and standard error of a command."""
    done = subprocess.run(shlex.split(command) + words.split(), input=data, capture_output=True)
    return done.returncode, done.stdout, done.stderr


def main():
    """Draws and compares, and prints the figures."""
    args = words_of()
    statuses, moves, lines, wrong = Counter(), 0, 0, []

    def both(seed):
        data = input_of(seed, args)
        return seed, data, answer(args.program, args.words, data), answer(args.reference, args.words, data)

    with ThreadPoolExecutor() as pool:
        for seed, data, got, wanted in pool.map(both, range(args.seed, args.seed + args.count)):
            statuses[wanted[0]] += 1
            lines += data.count(b'\n')
            moves += wanted[1].count(b'move ')
            if got != wanted:
                if not wrong:
                    Path(args.keep).write_bytes(data)
                wrong.append(seed)
                sizes = f'{len(got[1])} bytes, wanted {len(wanted[1])}'
                print(f'input {seed}: status {got[0]}, wanted {wanted[0]}; {sizes}')
    told = ', '.join(f'{count} with status {status}' for status, count in sorted(statuses.items()))
    made = '' if args.nested else f', {moves} moves'
    print(f'{args.count} inputs of {lines} lines ({told}){made}: {len(wrong)} differ')
    return 1 if wrong else 0


if __name__ == '__main__':
    sys.exit(main())

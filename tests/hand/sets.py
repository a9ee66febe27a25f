#!/usr/bin/env python3
"""Runs the bank of many branches, a live service of 300 sets in families of 20, with drawn errands, and sees that another
program accepts the journal of each run: one that reads scripts of as many sets."""
import argparse
import os
import shlex
import subprocess
import sys
from concurrent.futures import ThreadPoolExecutor
from pathlib import Path

SETS = 300


def words_of():
    """The command line."""
    top = Path(__file__).resolve().parents[2]
    parser = argparse.ArgumentParser(description=__doc__)
    parser.add_argument('checker', help='the command whose `check` judges, as one word: "python3 MODEL". The environment '
                        'tells it by MOST_SETS how many sets a script may have')
    parser.add_argument('--program', default=str(top / 'crates/bank/out/bank'), help='the command to be tested')
    parser.add_argument('--count', type=int, default=1000, help='how many runs')
    parser.add_argument('--seed', type=int, default=1, help='the number of the first one')
    return parser.parse_args()


def fault_of(args, seed):
    """What is wrong with the run of a number, or nothing; and how many moves were made."""
    ran = subprocess.run([args.program, str(seed)], capture_output=True, check=False)
    if (ran.returncode, ran.stderr) != (0, b''):
        return f'status {ran.returncode}, {ran.stderr}', 0
    lines = ran.stdout.splitlines()
    sets = sum(line.startswith(b'set ') for line in lines[:lines.index(b'journal')])
    made = sum(line.startswith(b'move ') for line in lines)
    if sets != SETS:
        return f'{sets} sets', made
    told = subprocess.run(shlex.split(args.checker) + ['check'], input=ran.stdout, capture_output=True, check=False,
                          env={**os.environ, 'MOST_SETS': str(SETS)})
    return '' if (told.returncode, told.stdout) == (0, b'ok %d\n' % made) else f'not accepted: {told}', made


def main():
    """Runs, and prints the figures."""
    args = words_of()
    moves = wrong = 0
    numbers = range(args.seed, args.seed + args.count)
    with ThreadPoolExecutor() as pool:
        for seed, (fault, made) in zip(numbers, pool.map(lambda seed: fault_of(args, seed), numbers)):
            moves += made
            if fault:
                wrong += 1
                print(f'run {seed}: {fault[:300]}')
    print(f'{args.count} runs, {moves} moves: {wrong} with a fault')
    return 1 if wrong else 0


if __name__ == '__main__':
    sys.exit(main())

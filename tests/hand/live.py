#!/usr/bin/env python3
"""Draws scripts, and sees that `locklive` runs each: its journal is accepted by another program, it answers that somebody
waits exactly if the journal has a line `waiting`, and that a client has too many commands exactly if it has more than an
equal part of 4,096, rounded down."""
import argparse
import shlex
import subprocess
import sys
from collections import Counter
from concurrent.futures import ThreadPoolExecutor
from pathlib import Path

sys.dont_write_bytecode = True
sys.path.insert(0, str(Path(__file__).resolve().parents[1] / 'lib'))
from drawing import draw_script

MOST_COMMANDS = 4096
DONE, STUCK, SHARE = 0, 3, 10


def words_of():
    """The command line."""
    top = Path(__file__).resolve().parents[2]
    parser = argparse.ArgumentParser(description=__doc__)
    parser.add_argument('checker', help='the command whose `check` judges, as one word: "python3 MODEL"')
    parser.add_argument('--program', default=str(top / 'crates/locklive/out/locklive'), help='the command to be tested')
    parser.add_argument('--count', type=int, default=300, help='how many scripts')
    parser.add_argument('--seed', type=int, default=1, help='the number of the first one')
    parser.add_argument('--version', type=int, choices=(1, 2), default=1, help='the version of the scripts')
    return parser.parse_args()


def answer(command, words, data):
    """Status, output and standard error of a command."""
    done = subprocess.run(shlex.split(command) + words, input=data, capture_output=True, check=False)
    return done.returncode, done.stdout, done.stderr


def first_over(script):
    """The first client with more commands than its part; none if there is none."""
    lines = [line.split() for line in script.splitlines()]
    clients = [words[1] for words in lines if words[:1] == ['client']]
    made = Counter(words[0] for words in lines if words)
    return next((k for k, client in enumerate(clients) if made[client] > MOST_COMMANDS // len(clients)), None)


def fault_of(args, seed):
    """What is wrong with the answer to the script of a number, or nothing; its status, and how many moves were made."""
    script = draw_script(seed, args.version)
    status, journal, line = answer(args.program, [], script.encode())
    over = first_over(script)
    if over is not None:
        told = (SHARE, b'', b'locklive: too many commands of client %d\n' % over)
        return '' if (status, journal, line) == told else f'status {status}, {line}, not {told}', status, 0
    made = sum(line.startswith(b'move ') for line in journal.splitlines())
    waits = any(line.startswith(b'waiting ') for line in journal.splitlines())
    if (status, line) != (STUCK if waits else DONE, b''):
        return f'status {status}, {line}', status, made
    told = answer(args.checker, ['check'], script.encode() + b'journal\n' + journal)
    return '' if told[:2] == (0, b'ok %d\n' % made) else f'not accepted: {told}', status, made


def main():
    """Draws and runs, and prints the figures."""
    args = words_of()
    moves = wrong = 0
    ends = Counter()
    numbers = range(args.seed, args.seed + args.count)
    with ThreadPoolExecutor() as pool:
        for seed, (fault, status, made) in zip(numbers, pool.map(lambda seed: fault_of(args, seed), numbers)):
            moves += made
            ends[status] += 1
            if fault:
                wrong += 1
                print(f'script {seed}: {fault}')
    told = ', '.join(f'{count} with status {status}' for status, count in sorted(ends.items()))
    print(f'{args.count} scripts ({told}), {moves} moves: {wrong} with a fault')
    return 1 if wrong else 0


if __name__ == '__main__':
    sys.exit(main())

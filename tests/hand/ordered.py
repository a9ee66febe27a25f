#!/usr/bin/env python3
"""Draws ordered scripts, and sees that `order` says so, and that `sim SEED` and `run` end with nobody waiting and nothing
held, by journals that another program accepts."""
import argparse
import shlex
import subprocess
import sys
from concurrent.futures import ThreadPoolExecutor
from pathlib import Path

sys.dont_write_bytecode = True
sys.path.insert(0, str(Path(__file__).resolve().parents[1] / 'lib'))
from drawing import draw_script


def words_of():
    """The command line."""
    top = Path(__file__).resolve().parents[2]
    parser = argparse.ArgumentParser(description=__doc__)
    parser.add_argument('checker', help='the command whose `order` and `check` judge, as one word: "python3 MODEL"')
    parser.add_argument('--program', default=str(top / 'crates/lockrun/out/lockrun'), help='the command to be tested')
    parser.add_argument('--count', type=int, default=1000, help='how many scripts')
    parser.add_argument('--seed', type=int, default=1, help='the number of the first one')
    parser.add_argument('--version', type=int, choices=(1, 2), default=1, help='the version of the scripts')
    return parser.parse_args()


def answer(command, words, data):
    """Status and output of a command, or what it says on standard error."""
    done = subprocess.run(shlex.split(command) + words, input=data, capture_output=True)
    return done.returncode, done.stderr or done.stdout


def fault_of(args, seed):
    """What is wrong with the answers to the script of a number, or nothing; and how many moves were made."""
    script = draw_script(seed, args.version, 'ordered').encode()
    moves = 0
    for command in args.program, args.checker:
        if (told := answer(command, ['order'], script)) != (0, b'ordered\n'):
            return f'order: {told}', moves
    for words in ['sim', str(seed)], ['run']:
        status, journal = answer(args.program, words, script)
        if status or any(line.startswith((b'held ', b'waiting ')) for line in journal.splitlines()):
            return f'{" ".join(words)}: status {status}, {journal[-200:]}', moves
        made = journal.count(b'move ')
        if (told := answer(args.checker, ['check'], script + b'journal\n' + journal)) != (0, b'ok %d\n' % made):
            return f'{" ".join(words)}: not accepted: {told}', moves
        moves += made
    return '', moves


def main():
    """Draws and runs, and prints the figures."""
    args = words_of()
    moves = wrong = 0
    numbers = range(args.seed, args.seed + args.count)
    with ThreadPoolExecutor() as pool:
        for seed, (fault, made) in zip(numbers, pool.map(lambda seed: fault_of(args, seed), numbers)):
            moves += made
            if fault:
                wrong += 1
                print(f'script {seed}: {fault}')
    print(f'{args.count} ordered scripts, {moves} moves: {wrong} with a fault')
    return 1 if wrong else 0


if __name__ == '__main__':
    sys.exit(main())

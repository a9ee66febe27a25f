#!/usr/bin/env python3
"""Draws lists of words, and compares what two programs answer: bytes, status and the first line of standard error."""
import argparse
import random
import shlex
import subprocess
import sys
from collections import Counter
from concurrent.futures import ThreadPoolExecutor
from pathlib import Path

# Of the first script there is one run; the runs of the second end in more than one way.
ONE_RUN = b'nodes 1\nset s\nclient a at 0\na lock s write\na unlock s write\n'
MANY_RUNS = (b'nodes 2\nset s\nclient a at 0\nclient b at 1\nclient c at 0\n'
             b'a lock s write\nb lock s read\nc try s read\na unlock s write\n')
FORMS = ['run', 'check', 'order', 'sim first', 'sim SEED', 'soak SEED'] + 3 * ['make NODES CLIENTS COMMANDS SEED']
# Numbers at the limits, on both sides; more clients than a few nodes have room for.
RIGHT = {
    'NODES': ['1', '2', '3', '16', '000000016'],
    'CLIENTS': ['1', '16', '17', '32', '33', '48', '49', '64', '000000064'],
    'COMMANDS': ['0', '1', '9', '4095', '4096', '000004096'],
    'SEED': ['0', '7', '4294967296', '18446744073709551615', '00000000000000000007'],
}
WRONG = {
    'NODES': ['0', '17', '0000000016', '4294967297', '\u0667'],
    'CLIENTS': ['0', '65', '0000000064', '257', '\u0667'],
    'COMMANDS': ['4097', '0000004096', '65536', '\uff17', '-1'],
    'SEED': ['18446744073709551616', '000000000000000000007', '99999999999999999999', '\u0667', '+7'],
}
ODD = ['', ' ', '\t', '\n', '-', '--', '-7', '-h', '-V', '--help', '--version', '--first', '-7 7', '7', '7 ', ' 7', '7\n', '7.0', '7e0', '0x7',
       '1_0', '\u00b2', 'Run', 'RUN', 'runs', 'ru', 'first', 'First', 'second', 'help', 'sim first', 'run ', 'caf\u00e9', '\udcff', 'run\udcff',
       '\\', '*', '7' * 300, '0' * 50_000 + '7', 'x' * 100_000]


def words_of():
    """The command line."""
    top = Path(__file__).resolve().parents[2]
    parser = argparse.ArgumentParser(description=__doc__)
    parser.add_argument('reference', help='the command that is right, as one word: "python3 MODEL"')
    parser.add_argument('--program', default=str(top / 'crates/lockrun/out/lockrun'), help='the command to be tested')
    parser.add_argument('--count', type=int, default=500, help='how many lists')
    parser.add_argument('--seed', type=int, default=1, help='the number of the first one')
    return parser.parse_args()


def command(draw):
    """The words of a form; one of its numbers may be a wrong one."""
    words = draw.choice(FORMS).split()
    wrong = draw.randrange(-len(words), len(words))
    return [draw.choice((WRONG if place == wrong else RIGHT).get(word, [word])) for place, word in enumerate(words)]


def spoilt(words, draw):
    """The words with one more, one less, one that is another or nearly the same, two that are one, or two exchanged."""
    kind = draw.choice(['more', 'less', 'other', 'near', 'joined', 'exchanged'])
    at = draw.randrange(len(words))
    word = words[at]
    if kind == 'more':
        words.insert(draw.randint(0, len(words)), draw.choice(ODD + words))
    elif kind == 'less':
        del words[at]
    elif kind == 'other':
        words[at] = draw.choice(ODD + command(draw))
    elif kind == 'near':
        words[at] = draw.choice([f'{word} ', f' {word}', f'-{word}', f'--{word}', f'+{word}', f'{word}\n', f'{word}.', word.title(), word[:-1]])
    elif kind == 'joined':
        words[at:at + 2] = [' '.join(words[at:at + 2])]
    else:
        words[at], words[-1] = words[-1], word
    return words


def draw_words(seed):
    """The list of a number."""
    draw = random.Random(seed)
    kind = draw.randrange(5)
    if kind < 2:
        return command(draw)
    if kind < 4:
        return spoilt(command(draw), draw)
    return [draw.choice(ODD + command(draw)) for _ in range(draw.randint(0, 6))]


def answer(call, words, data):
    """Status, output and first line of standard error of a command."""
    done = subprocess.run(shlex.split(call) + words, input=data, capture_output=True)
    return done.returncode, done.stdout, done.stderr.split(b'\n')[0]


def main():
    """Draws and compares, and prints the figures."""
    args = words_of()
    statuses, wrong = Counter(), 0
    journal = answer(args.reference, ['sim', 'first'], MANY_RUNS)[1]
    inputs = {('run',): ONE_RUN, ('check',): MANY_RUNS + b'journal\n' + journal}

    def both(seed):
        words = draw_words(seed)
        data = inputs.get(tuple(words), MANY_RUNS)
        return seed, words, answer(args.program, words, data), answer(args.reference, words, data)

    with ThreadPoolExecutor() as pool:
        for seed, words, got, wanted in pool.map(both, range(args.seed, args.seed + args.count)):
            statuses[wanted[0]] += 1
            if got != wanted:
                wrong += 1
                told = ascii(words) if len(ascii(words)) < 200 else ascii(words)[:200] + '..'
                print(f'list {seed}: status {got[0]}, wanted {wanted[0]}; {len(got[1])} bytes, wanted {len(wanted[1])}: {told}')
    told = ', '.join(f'{count} with status {status}' for status, count in sorted(statuses.items()))
    print(f'{args.count} lists of words ({told}): {wrong} differ')
    return 1 if wrong else 0


if __name__ == '__main__':
    sys.exit(main())

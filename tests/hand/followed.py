#!/usr/bin/env python3
"""Draws scripts with journals of runs of them, spoils two of three in one of many ways, and sees that the tools take
exactly those that `check` takes, and name the same line and the same fault of the others. The program may be named:
`--program 'python3 model.py'` calls another one with the same words."""
import argparse
import os
import random
import shlex
import subprocess
import sys
from collections import Counter
from concurrent.futures import ThreadPoolExecutor
from pathlib import Path

TOP = Path(__file__).resolve().parents[2]
sys.path[:0] = [str(TOP / 'tools'), str(TOP / 'tests/lib')]
sys.dont_write_bytecode = True
from drawing import draw_script
from lib.journal import Fault, read_journal, read_script
from lib.letters import follow

WORDS = ['true', 'all', 'none', 'nodes', 'journal', 'version', 'set', 'client', 'read', 'write', 'upgrade', '0', '1', '01',
         '4294967296', '16', 'act', 'take', 'move', 'grant', 'held', 'end', 'cut', 's0', 's1', 'c0', 'c1', '#']
BYTES = [b' ', b'\t', b'\r', b'\n', b'#', b'a', b'0', b'9', b'_', b'\x0b', b'\xe9', b'\x00']


def words_of():
    """The command line."""
    parser = argparse.ArgumentParser(description=__doc__, formatter_class=argparse.RawDescriptionHelpFormatter)
    parser.add_argument('--program', type=shlex.split, default=[str(TOP / 'crates/lockrun/out/lockrun')])
    parser.add_argument('--count', type=int, default=10_000)
    parser.add_argument('--seed', type=int, default=1)
    parser.add_argument('--jobs', type=int, default=max(1, (os.cpu_count() or 2) // 2))
    return parser.parse_args()


def call(command, data):
    """Status, output and standard error of a program."""
    ran = subprocess.run(command, input=data, capture_output=True, check=False)
    return ran.returncode, ran.stdout, ran.stderr


def said_by_check(program, script, journal):
    """What `check` says of a script and a journal: nothing, a fault of the script or a bad line of the journal."""
    end = b'' if not script or script.endswith(b'\n') else b'\n'
    status, _, said = call([*program, 'check'], script + end + b'journal\n' + journal)
    words = said.decode().split()
    if status == 0:
        return 'ok'
    if status == 2 and words[1] == 'line':
        return f'script {words[2]} {words[3]}'
    if status == 8:
        before = (script + end).count(b'\n') + 1
        return f'journal {int(words[2].rstrip(":")) - before}'
    return f'status {status}: {said.decode()}'


def said_by_tools(script, journal):
    """The same of the reader of the tools."""
    try:
        follow(read_journal('drawn', read_script(script.decode('latin-1')), journal.decode('latin-1')))
    except Fault as fault:
        words = str(fault).split()
        line = words[words.index('line') + 1].rstrip(':')
        return f'script {line}: {words[-1]}' if words[1] == 'script' else f'journal {line}'
    return 'ok'


def spoilt(draw, data):
    """Bytes with one change: of a line, of a word or of a byte."""
    lines = data.splitlines(keepends=True) or [b'\n']
    place = draw.randrange(len(lines))
    line = lines[place]
    kind = draw.choice(['left out', 'twice', 'swapped', 'word', 'word', 'other word', 'byte', 'byte more', 'byte less',
                        'cut', 'ends', 'space', 'line'])
    if kind == 'left out':
        lines[place] = b''
    elif kind == 'twice':
        lines[place] = line + line
    elif kind == 'swapped':
        other = draw.randrange(len(lines))
        lines[place], lines[other] = lines[other], line
    elif kind in ('word', 'other word'):
        words = line.split(b' ')
        known = draw.choice(lines).split() if kind == 'other word' else []
        words[draw.randrange(len(words))] = draw.choice(known or [word.encode() for word in WORDS])
        lines[place] = b' '.join(words).rstrip(b'\n') + b'\n'
    elif kind == 'line':
        lines[place] = line + draw.choice([b'\n', b'# no\n', b'version 2\n', b'nodes 3\n', b'set 9s\n', b'cut 0\n', b'end 0\n',
                                           b'set ' + b'x' * 197 + b'\n', b'c0 lock s0 read\n', b'client new at 0\n'])
    elif kind == 'ends':
        return data.replace(b'\n', b'\r\n')
    elif kind == 'cut':
        return data[:draw.randrange(len(data) + 1)]
    else:
        at = draw.randrange(len(data) + 1)
        new = {'byte less': b'', 'space': b' '}.get(kind, draw.choice(BYTES))
        return data[:at] + new + data[at + (kind in ('byte', 'byte less')):]
    return b''.join(lines)


def one(program, seed):
    """What was drawn, and what the two say of it."""
    draw = random.Random(seed)
    script = draw_script(seed, draw.choice([1, 2])).encode()
    _, journal, _ = call([*program, 'sim', draw.choice(['first', str(seed)])], script)
    part = draw.choice(['neither', 'script', 'journal', 'journal'])
    if part == 'script':
        script = spoilt(draw, script)
    elif part == 'journal':
        journal = spoilt(draw, journal)
    if any(line.split() == [b'journal'] for line in script.split(b'\n')):
        return seed, part, 'left out', 'left out'   # the input's script would end there
    return seed, part, said_by_check(program, script, journal), said_by_tools(script, journal)


def main():
    """Draws and compares; the status is 0 if the two agree on all."""
    named = words_of()
    counts, faults = Counter(), 0
    with ThreadPoolExecutor(named.jobs) as pool:
        seeds = range(named.seed, named.seed + named.count)
        for seed, part, wanted, found in pool.map(lambda k: one(named.program, k), seeds):
            counts[part, wanted.split()[0]] += 1
            if wanted != found:
                faults += 1
                print(f'tests/hand/followed.py: seed {seed}, {part} spoilt: check says {wanted}, the tools say {found}', flush=True)
    for (part, said), count in sorted(counts.items()):
        print(f'tests/hand/followed.py: {part} spoilt, {said}: {count}')
    print(f'tests/hand/followed.py: {named.count} journals, {faults} faults')
    return 1 if faults else 0


if __name__ == '__main__':
    sys.exit(main())

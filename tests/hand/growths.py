#!/usr/bin/env python3
"""Refuses the proved programs memory, reads, writes and threads, one call at a time, and sees that each answer is the
one that the documents say: out of memory with nothing printed, or the usual answer; a read fault with nothing printed;
a write fault with the first bytes of the usual text; and the usual answer if a read or a write moves one byte, or if a
thread can't be made. It prints how many numbers were tried.

It needs a C compiler, cc, for refusing.c, which stands before the C library. On Linux with glibc."""
import argparse
import os
import subprocess
import sys
import tempfile
from collections import Counter
from concurrent.futures import ThreadPoolExecutor
from pathlib import Path

TOP = Path(__file__).resolve().parents[2]
ONE_LOCK = b'nodes 1\nset s\nclient a at 0\na lock s write\na unlock s write\n'
READERS = b'nodes 3\nset s\nclient a at 0\nclient b at 1\nclient c at 2\na lock s read\nb lock s read\nc lock s read\n'
CALLS = ['growth', 'read', 'write', 'thread']


def words_of():
    """The command line."""
    parser = argparse.ArgumentParser(description=__doc__, formatter_class=argparse.RawDescriptionHelpFormatter)
    parser.add_argument('--program', default=str(TOP / 'crates/lockrun/out/lockrun'), help='the proved lockrun')
    parser.add_argument('--nest', default=str(TOP / 'crates/locknest/out/locknest'), help='the proved locknest')
    parser.add_argument('--waits', default=str(TOP / 'crates/lockwaits/out/lockwaits'), help='the proved lockwaits')
    parser.add_argument('--most', type=int, default=4000,
                        help='with more calls than these the first half of so many numbers is tried, and then some up to the end')
    parser.add_argument('--only', default='', help='only the cases with this in their name')
    parser.add_argument('--jobs', type=int, default=max(1, (os.cpu_count() or 2) // 2))
    return parser.parse_args()


class Case:
    """A program with its words and its input."""

    def __init__(self, name, program, words, data=b'', drawn=False):
        self.name, self.program, self.words, self.data, self.drawn = name, program, words, data, drawn
        self.usual = None
        self.counts = {}

    def run(self, library, refused=''):
        """What it answers, and how many calls of each kind it made."""
        seen, told = os.pipe()
        how = {'LD_PRELOAD': library, 'REFUSING': refused, 'REFUSING_TOLD': str(told)}
        ran = subprocess.run([self.program] + self.words, input=self.data, capture_output=True, env=how,
                             pass_fds=[told], timeout=120, check=False)
        os.close(told)
        with os.fdopen(seen, 'rb') as pipe:
            counts = [int(word) for word in pipe.read().split()]
        return (ran.returncode, ran.stdout, ran.stderr), dict(zip(CALLS, counts))

    def settle(self, library):
        """Its usual answer."""
        self.usual, self.counts = self.run(library)

    def line(self, text):
        """A line on standard error."""
        return f'{Path(self.program).name}: {text}\n'.encode()

    def is_usual(self, answer):
        """Whether an answer is the usual one: of a run on threads, any that `check` accepts."""
        if not self.drawn:
            return answer == self.usual
        status, journal, said = answer
        waits = any(line.startswith(b'waiting ') for line in journal.splitlines())
        if status != (3 if waits else 0) or said:
            return False
        checked = subprocess.run([self.program, 'check'], input=self.data + b'journal\n' + journal, capture_output=True,
                                 check=False)
        return checked.returncode == 0

    def judge(self, kind, answer):
        """A name for what was answered, or nothing if it is wrong."""
        status, out, said = answer
        if kind == 'growth' and answer == (6, b'', self.line('no memory')):
            return 'no memory'
        if kind == 'read' and answer == (4, b'', self.line('read fault')):
            return 'read fault'
        if kind == 'write' and (status, said) == (5, self.line('write fault')) and (
                self.drawn or self.usual[1].startswith(out)):
            return 'write fault'
        return 'usual' if self.is_usual(answer) else ''


def numbers(count, most):
    """The numbers to be tried: all, or the first ones and then some up to the last, and one that is met by no call."""
    if count <= most:
        return list(range(1, count + 2))
    half = most // 2
    return list(range(1, half + 1)) + [half + (count - half) * k // half for k in range(1, half + 1)] + [count + 1]


def tried(args, library, case, kind, beside=''):
    """Tries one number after the other, and counts the answers; gives the wrong ones."""
    count = case.counts[kind]
    if beside:
        count = case.run(library, beside)[1][kind]
    wrong, answers, chosen = [], Counter(), numbers(count, args.most)

    def once(number):
        told = ','.join(filter(None, [f'{kind} {number}', beside]))
        answer, counts = case.run(library, told)
        # A kill leaves no counts. How many calls a run on threads makes isn't always the same.
        return number, answer, bool(counts) and counts[kind] >= number

    with ThreadPoolExecutor(args.jobs) as pool:
        for number, answer, met in pool.map(once, chosen):
            name = case.judge(kind, answer)
            if not met and name and name != 'usual':
                name = ''
            answers[name or 'wrong'] += 1
            if not name:
                wrong.append(f'{kind} {number}: status {answer[0]}, {len(answer[1])} bytes, {answer[2][-200:]!r}')
    told = ', '.join(f'{name} {many}' for name, many in sorted(answers.items()))
    print(f'{case.name}: {kind}{" with " + beside if beside else ""}: {count} calls, {len(chosen)} numbers tried: {told}',
          flush=True)
    return wrong


def moved_by_one(args, library, case):
    """Each read, or write, of several bytes moves one: each in turn, and all of them."""
    wrong, answers = [], Counter()
    tries = ['short-read 0', 'short-write 0', 'short-read 0,short-write 0']
    if case.usual[1] or case.data:
        tries += [f'short-read {number}' for number in range(1, case.counts['read'] + 2)]
        tries += [f'short-write {number}' for number in range(1, case.counts['write'] + 2)]
    with ThreadPoolExecutor(args.jobs) as pool:
        for what, answer in pool.map(lambda what: (what, case.run(library, what)[0]), tries):
            good = case.is_usual(answer)
            answers['usual' if good else 'wrong'] += 1
            if not good:
                wrong.append(f'{what}: status {answer[0]}, {len(answer[1])} bytes, {answer[2][-200:]!r}')
    told = ', '.join(f'{name} {many}' for name, many in sorted(answers.items()))
    print(f'{case.name}: moved by one byte: {len(tries)} tries: {told}', flush=True)
    return wrong


def cases_of(args):
    """The cases: runs, a long journal, a made script, nested transactions."""
    def say(words, data=b''):
        return subprocess.run([args.program] + words, input=data, capture_output=True, check=True).stdout

    drawn = say(['make', '16', '64', '4096', '7'])
    middle = say(['make', '4', '16', '256', '7'])
    late_copy = (TOP / 'examples/late-copy.script').read_bytes()
    nested = (TOP / 'crates/locknest/stdin').read_bytes()
    ring = b'journal\n'.join((TOP / f'examples/ring-of-three.{part}').read_bytes() for part in ['script', 'journal'])
    return [
        Case('one lock', args.program, ['sim', 'first'], ONE_LOCK),
        Case('run, copies for two nodes', args.program, ['run'], READERS, True),
        Case('sim first, the late copy', args.program, ['sim', 'first'], late_copy),
        Case('sim 7, a drawn script', args.program, ['sim', '7'], middle),
        Case('run, a drawn script', args.program, ['run'], middle, True),
        Case('check, a journal', args.program, ['check'], late_copy + b'journal\n' + say(['sim', 'first'], late_copy)),
        Case('check, a long journal', args.program, ['check'], drawn + b'journal\n' + say(['sim', 'first'], drawn)),
        Case('make', args.program, ['make', '16', '64', '4096', '7'], b''),
        Case('order', args.program, ['order'], drawn),
        Case('soak', args.program, ['soak', '7']),
        Case('no command', args.program, ['sim', 'last'], b''),
        *([Case('nested transactions', args.nest, [], nested)] if Path(args.nest).exists() else []),
        *([Case('who waits for whom', args.waits, [], ring)] if Path(args.waits).exists() else []),
    ]


def main():
    """Tries all, and prints what is wrong."""
    args, wrong = words_of(), []
    with tempfile.TemporaryDirectory() as room:
        library = f'{room}/refusing.so'
        subprocess.run(['cc', '-O1', '-shared', '-fPIC', '-o', library, str(TOP / 'tests/lib/refusing.c')], check=True)
        for case in cases_of(args):
            if args.only not in case.name:
                continue
            case.settle(library)
            if not case.counts['growth']:
                sys.exit(f'tests/hand/growths.py: {case.name}: no growth was counted: is {case.program} linked to the C library?')
            found = []
            for kind in CALLS if case.counts['thread'] else CALLS[:3]:
                found += tried(args, library, case, kind)
            found += moved_by_one(args, library, case)
            if case.name == 'one lock':
                found += tried(args, library, case, 'read', 'short-read 0')
                found += tried(args, library, case, 'write', 'short-write 0')
            wrong += [f'{case.name}: {fault}' for fault in found]
    for fault in wrong[:50]:
        print(fault)
    print(f'tests/hand/growths.py: {len(wrong)} wrong answers')
    return 1 if wrong else 0


if __name__ == '__main__':
    sys.exit(main())

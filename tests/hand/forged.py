#!/usr/bin/env python3
"""Gives the proved programs journals that are none of their script, and sees that each is refused at its first bad
line, with nothing printed: a journal of two nodes with one change in each of nine ways; and of each example the journal
with a line left out, with a line twice, with a byte exchanged for another, and without its last bytes. `lockwaits` has
to say the same as `check`. It prints how many journals were tried, and how many were refused at the very line that was
changed."""
import argparse
import os
import subprocess
import sys
from collections import Counter
from concurrent.futures import ThreadPoolExecutor
from pathlib import Path

TOP = Path(__file__).resolve().parents[2]
SCRIPT = b'nodes 2\nset s\nclient a at 0\nclient b at 1\na lock s intention_read\nb lock s read\n'
JOURNAL = b'''move 1 0 act a
grant a s intention_read
move 1 1 act b
wait b s read
move 2 0 take 1
token s 1 1
move 3 1 take 0
grant b s read
freeze s 0 1 none
move 4 0 take 1
held a s intention_read 1
held b s read 1
owner s 1 1
end 5
'''
# Which line of the input is exchanged for which lines, and which line of the input is bad then.
CHANGES = [
    (13, b'copy s 1 b read\n', 13),
    (13, b'', 13),
    (13, b'token s 1 1\nmove 3 0 take 1\n', 14),
    (13, b'token s 1 1\ntoken s 1 1\n', 14),
    (12, b'move 3 0 take 1\n', 12),
    (12, b'move 2 0 take 0\n', 12),
    (12, b'move 02 0 take 1\n', 12),
    (21, b'end 5\nend 5\n', 22),
]


def words_of():
    """The command line."""
    parser = argparse.ArgumentParser(description=__doc__, formatter_class=argparse.RawDescriptionHelpFormatter)
    parser.add_argument('--program', default=str(TOP / 'crates/lockrun/out/lockrun'), help='the proved lockrun')
    parser.add_argument('--waits', default=str(TOP / 'crates/lockwaits/out/lockwaits'), help='the proved lockwaits')
    parser.add_argument('--jobs', type=int, default=max(1, (os.cpu_count() or 2) // 2))
    return parser.parse_args()


def call(command, data):
    """Status, output and standard error of a program."""
    ran = subprocess.run(command, input=data, capture_output=True, env={}, check=False)
    return ran.returncode, ran.stdout, ran.stderr


def bad_line(command, data):
    """The line at which an input is refused, if it is refused as a bad journal is."""
    status, out, said = call(command, data)
    start = f'{Path(command[0]).name}: line '.encode()
    if status != 8 or out or not said.startswith(start) or not said.endswith(b': journal\n'):
        return None
    return int(said[len(start):-len(b': journal\n')])


def with_line(lines, number, new):
    """The bytes with other ones in place of this line."""
    return b''.join(lines[:number - 1]) + new + b''.join(lines[number:])


def table():
    """The changes of the small journal, with the line that is to be named."""
    lines = (SCRIPT + b'journal\n' + JOURNAL).splitlines(keepends=True)
    for number, new, bad in CHANGES:
        yield f'line {number} is {new!r}', with_line(lines, number, new), bad, True
    yield 'the end after line 13', b''.join(lines[:13]), 14, True


def changes_of(name, script, journal):
    """The changes of a longer journal, with the first line that may be named, and whether it has to be this one."""
    head = script + b'journal\n'
    lines = (head + journal).splitlines(keepends=True)
    first = head.count(b'\n') + 1
    for number in range(first, len(lines) + 1):
        yield f'{name}: without line {number}', with_line(lines, number, b''), number, False
        yield f'{name}: line {number} twice', with_line(lines, number, 2 * lines[number - 1]), number + 1, False
    for place in range(len(journal)):
        if journal[place:] != b'\n':
            number = first + journal[:place].count(b'\n')
            other = bytes([journal[place] ^ 1])
            yield f'{name}: byte {place}', head + journal[:place] + other + journal[place + 1:], number, False
    for count in range(2, min(8, len(lines[-1]) + 1)):
        yield f'{name}: without {count} bytes', head + journal[:-count], len(lines), True


def longer():
    """The changes of the examples' journals."""
    for script in sorted((TOP / 'examples').glob('*.script')):
        yield from changes_of(script.stem, script.read_bytes(), script.with_suffix('.journal').read_bytes())


def whole(args):
    """Examples whose journal lacks its last line end alone are accepted: gives those that aren't."""
    for script in sorted((TOP / 'examples').glob('*.script')):
        journal = script.with_suffix('.journal').read_bytes()
        answer = call([args.program, 'check'], script.read_bytes() + b'journal\n' + journal[:-1])
        if answer != (0, b'ok %d\n' % journal.count(b'move '), b''):
            yield f'{script.stem}: without its last byte: {answer}'


def main():
    """Tries all, and prints what is wrong."""
    args = words_of()
    commands = [[args.program, 'check']] + ([[args.waits]] if Path(args.waits).exists() else [])
    if len(commands) == 1:
        print(f'tests/hand/forged.py: {args.waits} is not built: its part is left out')
    wrong, counts = list(whole(args)), Counter()

    def tried(change):
        return change, [bad_line(command, change[1]) for command in commands]

    with ThreadPoolExecutor(args.jobs) as pool:
        for (name, _, bad, is_exact), found in pool.map(tried, [*table(), *longer()]):
            counts['tried'] += 1
            counts['at the line'] += found[0] == bad
            refused = found[0] is not None and (found[0] == bad if is_exact else found[0] >= bad)
            if not refused or any(it != found[0] for it in found):
                wrong.append(f'{name}: refused at {found}, and not {"at" if is_exact else "from"} line {bad}')
    for fault in wrong[:50]:
        print(fault)
    print(f'tests/hand/forged.py: {counts["tried"]} journals, {counts["at the line"]} refused at the line that was changed; '
          f'{len(wrong)} wrong answers')
    return 1 if wrong else 0


if __name__ == '__main__':
    sys.exit(main())

#!/usr/bin/env python3
"""planted.py CRATE [ROUND]: plants the wrong bodies of tests/hand/bugs/CRATE.edits in a copy of the crates, one to a function,
and checks the crate there once: prints each bug whose function stays proved, and how many were refused. Where a function
has several bugs, round 1 plants its first, round 2 its second, and so on. With --log LOG it reads what an earlier check
of such a copy said. The crates below have to be proved; a check takes longer than one of the crate as it stands."""
import argparse
import re
import subprocess
import tempfile
from pathlib import Path

TOP = Path(__file__).resolve().parents[2]
FUNCTION = re.compile(r'( *)(?:pub(?:\([a-z]+\))? )?(?:const )?(?:extern "C" )?fn ([a-z_0-9]+)')
IMPL = re.compile(r'impl\b(?:<[^>]*>)? (?:(?:[a-z_]+::)*([A-Za-z<>]+) for )?([A-Za-z]+)')
TOLD = re.compile(r'^fn (\S+): (proved|not proved|no proof: .*)', re.MULTILINE)


def bugs_of(text):
    """The name, the file and the pairs of an old and a new text of each bug."""
    bugs = []
    for line in text.splitlines():
        word, _, rest = line.partition(' ')
        rest = rest.rstrip()
        if word == 'bug':
            bugs.append((rest, [], []))
        elif word == 'file:':
            bugs[-1][1].append(rest)
        elif word == 'old:':
            bugs[-1][2].append([rest])
        elif word == 'new:':
            bugs[-1][2][-1].append(rest)
    return [(name, files[0], pairs) for name, files, pairs in bugs]


def function_at(file, text, place):
    """The function that this place is in: a method after its type and trait, another one after its module."""
    found = kind = ''
    for line in text[:place].splitlines():
        if made := IMPL.match(line):
            kind = made[2] + re.sub('[<>]', '', made[1] or '')
        elif line == '}':
            kind = ''
        elif made := FUNCTION.match(line):
            found = f'{kind if made[1] and kind else Path(file).stem}::{made[2]}'
    return found


def with_new(file, found):
    """The file's text with the new texts at these places."""
    text = file.read_text()
    for place, old, new in sorted(found, reverse=True):
        text = text[:place] + new + text[place + len(old):]
    return text


def plant(crate, bugs, turn):
    """The function of each bug of this round, and the texts of the files with those."""
    planted, seen, places = {}, {}, {}
    for name, file, pairs in bugs:
        whole = (crate / file).read_text()
        missed = [old for old, _ in pairs if whole.count(old) != 1]
        if missed:
            print(f'{name}: {file} has not once: {missed[0]}')
            continue
        function = function_at(file, whole, whole.index(pairs[0][0]))
        seen[function] = seen.get(function, 0) + 1
        if seen[function] == turn:
            planted[name] = function
            places.setdefault(file, []).extend((whole.index(old), old, new) for old, new in pairs)
    return planted, {file: with_new(crate / file, found) for file, found in places.items()}


def is_refused(said):
    """Whether this is said of a function whose own body is refused, and not only of one that calls such a function."""
    faults = said.removeprefix('no proof: ').split('; ')
    return said == 'not proved' or any('`search` did not' in it or 'gave up' in it for it in faults)


def checked(name, texts):
    """What a check says of a copy in which the crate's files have these texts."""
    with tempfile.TemporaryDirectory() as copy:
        for part in ('crates', 'crates.txt', 'HANDLES'):
            subprocess.run(['cp', '-a', TOP / part, copy], check=True)
        crate = Path(copy, 'crates', name)
        for file, text in texts.items():
            (crate / file).write_text(text)
        made = subprocess.run(['rt', 'check', '--jobs', '1'], cwd=crate, capture_output=True, text=True, check=False)
    return made.stdout + made.stderr


def main():
    words = argparse.ArgumentParser()
    words.add_argument('crate')
    words.add_argument('round', type=int, nargs='?', default=1)
    words.add_argument('--log')
    words = words.parse_args()
    bugs = bugs_of((TOP / 'tests/hand/bugs' / f'{words.crate}.edits').read_text())
    planted, texts = plant(TOP / 'crates' / words.crate, bugs, words.round)
    said = Path(words.log).read_text() if words.log else checked(words.crate, texts)
    told = {'::'.join(made[1].split('::')[-2:]): made[2] for made in TOLD.finditer(said)}
    if not told:
        print(said)
    for name, function in planted.items():
        if not is_refused(told.get(function, '')):
            print(f'{name}: {function} stays: {told.get(function, "nothing is told")}')
    refused = sum(is_refused(told.get(function, '')) for function in planted.values())
    print(f'{words.crate}: {len(planted)} planted, {refused} refused')


main()

#!/usr/bin/env python3
"""Sees that no line of the crates' code and definitions is longer than 120 columns. Imports may be longer, as `rt fmt`
makes them. Lines that are longer already are counted, by kind: there may be no more of them."""
import re
import sys
from pathlib import Path

MOST_COLUMNS = 120
# How many longer lines may stand in each folder of a crate, of all crates together.
MOST_LONGER = {'src': 341, 'specs': 678}
IMPORT = re.compile(r'(?:pub )?(?:ghost )?use ')
TOP = Path(__file__).resolve().parents[2]


def longer(part):
    """The lines of a folder that are longer and no imports: each with its file, number and length."""
    for path in sorted((TOP / 'crates').glob(f'*/{part}/**/*')):
        if path.suffix in ('.rt', '.antt'):
            for number, line in enumerate(path.read_text().splitlines(), 1):
                if len(line) > MOST_COLUMNS and not IMPORT.match(line):
                    yield f'{path.relative_to(TOP)}:{number}: {len(line)} columns'


def main():
    """Counts the longer lines, and with the word --list names them; the status is 0 if there are no more than may be."""
    status = 0
    for part, most in MOST_LONGER.items():
        found = list(longer(part))
        if len(found) > most or sys.argv[1:] == ['--list']:
            print(*found, sep='\n')
        print(f'tests/gate/lines.py: {part}: {len(found)} lines of more than {MOST_COLUMNS} columns, and {most} may be')
        status |= len(found) > most
    return status


if __name__ == '__main__':
    sys.exit(main())

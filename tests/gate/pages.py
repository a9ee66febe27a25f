#!/usr/bin/env python3
"""Sees that what is made from the sources, in docs/ the pages BELIEVE, LAWS, CALLS and CRATES and the file believed.sum, and
the made parts of ARCHITECTURE and CONTRIBUTING, is as `tools/pages` makes it."""
import subprocess
import sys
from pathlib import Path

TOP = Path(__file__).resolve().parents[2]
FILES = {'believe': 'docs/believe/BELIEVE.md', 'laws': 'docs/believe/LAWS.md', 'calls': 'docs/change/CALLS.md', 'crates': 'docs/change/CRATES.md',
         'sums': 'docs/believe/believed.sum', 'layers': 'docs/change/ARCHITECTURE.md', 'costs': 'CONTRIBUTING.md'}


def fault(name):
    """What is wrong with a page, or None."""
    made = subprocess.run([TOP / 'tools/pages', name], stdout=subprocess.PIPE, text=True, check=False)
    page = TOP / FILES[name]
    if made.returncode:
        return f'tools/pages {name} ended with status {made.returncode}'
    stored = page.read_text() if page.exists() else ''
    if stored == made.stdout or f'<!-- tools/pages {name} -->\n{made.stdout}<!-- end -->\n' in stored:
        return None
    if f'<!-- tools/pages {name} -->\n' in stored:
        return f'{page.relative_to(TOP)}: the sources say otherwise of {name}; tools/pages --write renews it'
    lines = zip([*stored.splitlines(), ''], [*made.stdout.splitlines(), ''])
    place = next((number for number, (old, new) in enumerate(lines, 1) if old != new), len(stored.splitlines()) + 1)
    return f'{page.relative_to(TOP)}:{place}: the sources say otherwise; tools/pages --write renews it'


def main():
    """Looks at all pages; the status is 0 if nothing is wrong."""
    faults = [found for name in FILES if (found := fault(name))]
    for found in faults:
        print(f'tests/gate/pages.py: {found}')
    print(f'tests/gate/pages.py: {len(FILES)} files, {len(faults)} faults')
    return 1 if faults else 0


if __name__ == '__main__':
    sys.exit(main())

#!/usr/bin/env python3
"""Sees that no chain of crates is longer than 10, and that no more names of definitions stand in two crates than do now.
A crate that only hands on what others have isn't counted in a chain. With the word --list it names these names."""
import re
import sys
from pathlib import Path

TOP = Path(__file__).resolve().parents[2]
sys.path.insert(0, str(TOP / 'tools'))
sys.dont_write_bytecode = True
from lib.definitions import House

MOST_IN_CHAIN = 10
MOST_TWICE = 30


def hands_on(crate):
    """Whether the crate has no item of its own: its sources have only `pub use`."""
    text = ''.join(path.read_text() for path in sorted((TOP / 'crates' / crate / 'src').glob('*.rt')))
    return not re.search(r'^ *(pub )?(fn|struct|enum|trait|const|impl|mod) ', text, re.MULTILINE)


def chain(crates, name):
    """The longest chain of crates from this one down."""
    chains = [chain(crates, other) for other in crates[name] if other in crates]
    return ([] if hands_on(name) else [name]) + max(chains, key=len, default=[])


def twice(house):
    """The names of definitions, records too, that stand in more than one crate, each with its crates."""
    crates = {}
    for found in house.known.values():
        if found.is_public:
            crates.setdefault(found.name, set()).add(found.crate)
    return {name: sorted(own) for name, own in sorted(crates.items()) if len(own) > 1}


def main():
    """Looks at all crates; the status is 0 if nothing is wrong."""
    house = House()
    longest = max((chain(house.crates, crate) for crate in house.crates), key=len)
    names = twice(house)
    faults = []
    if len(longest) > MOST_IN_CHAIN:
        faults.append(f'{len(longest)} crates stand one on the other: {" ".join(longest)}')
    if len(names) > MOST_TWICE:
        faults.append(f'{len(names)} names stand in two crates, and {MOST_TWICE} may')
    if sys.argv[1:] == ['--list']:
        print(*(f'{name}: {" ".join(own)}' for name, own in names.items()), sep='\n')
    for fault in faults:
        print(f'tests/gate/crates.py: {fault}')
    print(f'tests/gate/crates.py: {len(house.crates)} crates, a longest chain of {len(longest)}, {len(names)} names in two crates, '
          f'{len(faults)} faults')
    return 1 if faults else 0


if __name__ == '__main__':
    sys.exit(main())

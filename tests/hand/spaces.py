#!/usr/bin/env python3
"""Runs the proved programs in smaller and smaller address spaces (`prlimit --as`): no size is too small where a smaller one
was enough, though threads' stacks take address space too. It prints the least size of each call. On Linux."""
import argparse
import subprocess
import sys
from pathlib import Path

TOP = Path(__file__).resolve().parents[2]
KIB, MIB = 1024, 1024 * 1024


def words_of():
    """The command line."""
    parser = argparse.ArgumentParser(description=__doc__)
    parser.add_argument('--program', default=str(TOP / 'crates/lockrun/out/lockrun'), help='the proved lockrun')
    parser.add_argument('--step', type=int, default=256, help='KiB between two sizes')
    parser.add_argument('--most', type=int, default=128, help='the greatest size, in MiB')
    return parser.parse_args()


def answer(program, words, data, size):
    """The status with so many bytes of address space."""
    limited = ['prlimit', f'--as={size}', program] + words
    ran = subprocess.run(limited, input=data, capture_output=True, env={'PATH': '/usr/bin:/bin'}, check=False)
    return ran.returncode, ran.stderr


def sweep(program, words, data, sizes):
    """The statuses by size, and those sizes that fail above one that was enough."""
    usual = answer(program, words, data, 4096 * MIB)[0]
    least, band = None, []
    for size in sizes:
        status, said = answer(program, words, data, size)
        if status == usual and not said:
            least = least or size
        elif least:
            band.append((size, status, said[-100:]))
    return usual, least, band


def main():
    """Sweeps each call; the status is 0 if no band was found."""
    args = words_of()
    make = [args.program, 'make', '16', '64', '1024', '7']
    drawn = subprocess.run(make, capture_output=True, check=True).stdout
    sizes = range(4 * MIB, args.most * MIB, args.step * KIB)
    bands = 0
    for words, data in [(['soak', '7'], b''), (['run'], drawn), (['sim', 'first'], drawn)]:
        usual, least, band = sweep(args.program, words, data, sizes)
        bands += bool(band)
        shown = 'none' if least is None else f'{least // KIB} KiB'
        print(f'{" ".join(words)}: status {usual} from {shown} on, and not at {len(band)} greater sizes', flush=True)
        for size, status, said in band[:1] + band[-1:]:
            print(f'  at {size // KIB} KiB: status {status}, {said!r}', flush=True)
    print(f'tests/hand/spaces.py: {bands} bands')
    return 1 if bands else 0


if __name__ == '__main__':
    sys.exit(main())

#!/usr/bin/env python3
"""Draws scripts until so many runs of them have ended with clients that wait, and compares what two programs say of who
waits for whom at the end of each of these runs: bytes, status and standard error."""
import argparse
import shlex
import subprocess
import sys
from concurrent.futures import ThreadPoolExecutor
from itertools import count
from pathlib import Path

sys.dont_write_bytecode = True
sys.path.insert(0, str(Path(__file__).resolve().parents[1] / 'lib'))
from drawing import draw_script

STUCK = 3   # the exit status of a run at whose end a client waits
AT_ONCE = 16


def words_of():
    """The command line."""
    top = Path(__file__).resolve().parents[2]
    parser = argparse.ArgumentParser(description=__doc__)
    parser.add_argument('reference', help='the command that is right, as one word: "python3 MODEL waits"')
    parser.add_argument('--program', default=str(top / 'crates/lockwaits/out/lockwaits'),
                        help='the command to be tested')
    parser.add_argument('--runs', default=str(top / 'crates/lockrun/out/lockrun'),
                        help='the command whose `sim SEED` makes the runs')
    parser.add_argument('--count', type=int, default=300, help='how many runs')
    parser.add_argument('--seed', type=int, default=1, help='the number of the first script')
    parser.add_argument('--version', type=int, choices=(1, 2), default=1, help='the version of the scripts')
    parser.add_argument('--keep', default='stuck.input', help='the file for the first input whose answers differ')
    return parser.parse_args()


def answer(command, data, *words):
    """Status, output and standard error of a command."""
    done = subprocess.run(shlex.split(command) + list(words), input=data, capture_output=True)
    return done.returncode, done.stdout, done.stderr


def stuck_run(args, seed):
    """The script of a number and the journal of a run of it, if that run ended with clients that wait; else nothing."""
    script = draw_script(seed, args.version).encode()
    status, journal, _ = answer(args.runs, script, 'sim', str(seed))
    return script + b'journal\n' + journal if status == STUCK else None


def compared(args, seed):
    """A number, with the input that it makes and the answers to this, if its run is stuck."""
    data = stuck_run(args, seed)
    return seed, data, data and answer(args.program, data), data and answer(args.reference, data)


def main():
    """Draws and compares, and prints the figures."""
    args = words_of()
    runs = rings = pairs = wrong = 0
    numbers = count(args.seed)
    with ThreadPoolExecutor() as pool:
        while runs < args.count:
            drawn = [next(numbers) for _ in range(AT_ONCE)]
            for seed, data, got, wanted in pool.map(lambda seed: compared(args, seed), drawn):
                if data is None or runs == args.count:
                    continue
                runs += 1
                rings += b'\ncycle ' in wanted[1]
                pairs += wanted[1].count(b'waits ')
                if got != wanted:
                    if not wrong:
                        Path(args.keep).write_bytes(data)
                    wrong += 1
                    print(f'script {seed}: status {got[0]}, wanted {wanted[0]}; '
                          f'{len(got[1])} bytes, wanted {len(wanted[1])}')
    print(f'{runs} stuck runs ({rings} with a ring), {pairs} pairs: {wrong} differ')
    return 1 if wrong else 0


if __name__ == '__main__':
    sys.exit(main())

#!/usr/bin/env python3
"""Runs one drawn script again and again by `run`, has each journal checked, and counts the different ones."""
import argparse
import random
import shlex
import subprocess
import sys
from collections import Counter
from concurrent.futures import ThreadPoolExecutor
from pathlib import Path

sys.dont_write_bytecode = True
sys.path.insert(0, str(Path(__file__).resolve().parents[1] / 'lib'))
from drawing import Drawing, mixed, ordered


def words_of():
    """The command line."""
    top = Path(__file__).resolve().parents[2]
    parser = argparse.ArgumentParser(description=__doc__)
    parser.add_argument('checker', help='the command whose `check` judges, as one word: "python3 MODEL"')
    parser.add_argument('--program', default=str(top / 'crates/lockrun/out/lockrun'),
                        help='the command to be tested; {run} in it stands for the number of the run')
    parser.add_argument('--runs', type=int, default=200)
    parser.add_argument('--nodes', type=int, default=16)
    parser.add_argument('--clients', type=int, default=64)
    parser.add_argument('--commands', type=int, default=1024)
    parser.add_argument('--seed', type=int, default=1, help='the number that the script is drawn from')
    parser.add_argument('--version', type=int, choices=(1, 2), default=1, help='the version of the script')
    parser.add_argument('--mixed', action='store_true', help='commands of all kinds: clients may wait at the end')
    parser.add_argument('--keep', default='schedules.input', help='the file for the first input that is refused')
    return parser.parse_args()


def script_of(args):
    """The bytes of the script."""
    drawing = Drawing(random.Random(args.seed), args.nodes, 8, args.clients, args.commands, args.version)
    drawing.fill(mixed if args.mixed else ordered)
    return drawing.text().encode()


def call(command, words, data):
    """Runs a command."""
    return subprocess.run(shlex.split(command) + words, input=data, capture_output=True)


def fault_of(run, checked, journal):
    """What is wrong with a run, or nothing."""
    waits = any(line.startswith(b'waiting ') for line in journal.splitlines())
    if run.returncode != (3 if waits else 0) or run.stderr:
        return f'status {run.returncode}, {run.stderr.decode(errors="replace").strip()}'
    wanted = b'ok %d\n' % journal.count(b'move ')
    if (checked.returncode, checked.stdout) != (0, wanted):
        return f'not accepted: {(checked.stdout + checked.stderr).decode(errors="replace").strip()}'
    return ''


def main():
    """Runs and checks, and prints the figures."""
    args = words_of()
    script, journals, statuses, wrong = script_of(args), Counter(), Counter(), 0

    def once(number):
        run = call(args.program.replace('{run}', str(number)), ['run'], script)
        return number, run, call(args.checker, ['check'], script + b'journal\n' + run.stdout)

    # One run at a time has all processors; the checker works beside it.
    with ThreadPoolExecutor(2) as pool:
        for number, run, checked in pool.map(once, range(1, args.runs + 1)):
            journals[run.stdout] += 1
            statuses[run.returncode] += 1
            fault = fault_of(run, checked, run.stdout)
            if fault:
                wrong += 1
                print(f'run {number}: {fault}')
                if wrong == 1:
                    Path(args.keep).write_bytes(script + b'journal\n' + run.stdout)
    told = ', '.join(f'{count} with status {status}' for status, count in sorted(statuses.items()))
    lengths = [journal.count(b'move ') for journal in journals]
    print(f'{args.runs} runs of one script ({told}): {len(journals)} different journals, '
          f'of {min(lengths)} to {max(lengths)} moves; {wrong} refused')
    return 1 if wrong else 0


if __name__ == '__main__':
    sys.exit(main())

#!/usr/bin/env python3
"""Draws scripts until so many runs of them have ended with clients that wait, and compares what `lockwaits why` says of
each of these runs with what is made here of two things: the report of who waits for whom, by another program, and the
closing lines of the journal. Of rings that are as short as can be any may be named."""
import argparse
import sys
from collections import defaultdict, deque
from itertools import count
from pathlib import Path

sys.dont_write_bytecode = True
TOP = Path(__file__).resolve().parents[2]
sys.path.insert(0, str(TOP / 'tools'))
sys.path.insert(0, str(Path(__file__).resolve().parents[1] / 'lib'))
from drawing import draw_script
from lib.journal import CONFLICTS, MODES
from stuck import answer

STUCK = 3   # the exit status of a run at whose end a client waits


def words_of():
    """The command line."""
    parser = argparse.ArgumentParser(description=__doc__)
    parser.add_argument('reference', help='the command that is right, as one word: "python3 MODEL waits"')
    parser.add_argument('--program', default=str(TOP / 'crates/lockwaits/out/lockwaits'), help='the command to be tested')
    parser.add_argument('--runs', default=str(TOP / 'crates/lockrun/out/lockrun'),
                        help='the command whose `sim SEED` makes the runs')
    parser.add_argument('--count', type=int, default=200, help='how many runs')
    parser.add_argument('--seed', type=int, default=1, help='the number of the first script')
    return parser.parse_args()


class Waits:
    """Who waits for whom at the end of a run, and by which locks."""

    def __init__(self, script, journal, report):
        self.clients = [line.split()[1] for line in script.splitlines() if line.startswith('client ')]
        self.graph, self.held, self.want = defaultdict(set), set(), {}
        for line in report.splitlines():
            if line.startswith('waits '):
                self.graph[line.split()[1]].add(line.split()[2])
        for line in journal.splitlines():
            kind, *rest = line.split()
            if kind == 'held':
                self.held.add(tuple(rest[:3]))
            elif kind == 'waiting':
                self.want[rest[0]] = rest[1:]
        self.locks = {c: {d for d in others if self.barring(c, d)} for c, others in self.graph.items()}

    def barring(self, client, other):
        """The modes of the other one's locks that conflict with what the client wants."""
        name, wanted = self.want[client]
        return [mode for mode in MODES if mode in CONFLICTS[wanted] and (other, name, mode) in self.held]

    def line(self, client, other):
        """A client, what it wants, and how the other one keeps it from that."""
        modes = self.barring(client, other)
        kept = f'which {other} holds by {" and ".join(modes)}' if modes else f'behind {other} in the queue'
        return f'{client} wants {" ".join(self.want[client])}, {kept}'

    def behind(self, clients):
        """The lines of those who wait for one of these, then of those who wait for one of them, and so on."""
        lines, layer, left = [], list(clients), [c for c in self.clients if c not in clients]
        while layer:
            found = [c for c in left if self.graph[c] & set(layer)]
            for c in found:
                near = self.locks[c] & set(layer) or self.graph[c] & set(layer)
                lines.append(self.line(c, next(d for d in layer if d in near)))
            layer, left = found, [c for c in left if c not in found]
        return lines


def shortest(graph):
    """How many clients a shortest ring of the graph has; 0 if there is none."""
    best = 0
    for start in list(graph):
        far, queue = {start: 0}, deque([start])
        while queue:
            client = queue.popleft()
            for other in graph.get(client, ()):
                if other == start and not 0 < best <= far[client] + 1:
                    best = far[client] + 1
                if other not in far:
                    far[other] = far[client] + 1
                    queue.append(other)
    return best


def fault_of(waits, said):
    """What is wrong with what was said, or None."""
    lines = said.splitlines()
    if lines[:1] == ['no ring']:
        idle = [c for c in waits.clients if not waits.graph[c]]
        wanted = ['no ring', *waits.behind(idle)]
        return 'there is a ring' if shortest(waits.graph) else None if lines == wanted else 'other lines without a ring'
    size = lines.index('behind the ring') if 'behind the ring' in lines else len(lines)
    ring = [line.split()[0] for line in lines[1:size]]
    edges = list(zip(ring, [*ring[1:], *ring[:1]]))
    graph = waits.locks if shortest(waits.locks) else waits.graph
    if len(ring) != shortest(graph) or not all(d in graph[c] for c, d in edges):
        return f'no shortest ring: {" ".join(ring)}'
    behind = waits.behind(ring)
    wanted = ['ring', *[waits.line(c, d) for c, d in edges], *(['behind the ring', *behind] if behind else [])]
    return None if lines == wanted else 'other lines with a ring'


def judged(args, seed):
    """Nothing, if the run of this number isn't stuck; else whether a ring was named, and what is wrong."""
    script = draw_script(seed, 1 + seed % 2).encode()
    status, journal, _ = answer(args.runs, script, 'sim', str(seed))
    if status != STUCK:
        return None
    data = script + b'journal\n' + journal
    status, said, errors = answer(args.program, data, 'why')
    if status or errors:
        return False, f'status {status}: {errors.decode()}'
    waits = Waits(script.decode(), journal.decode(), answer(args.reference, data)[1].decode())
    return said.startswith(b'ring\n'), fault_of(waits, said.decode())


def main():
    """Draws and compares, and prints the figures."""
    args = words_of()
    runs = rings = wrong = 0
    for seed in count(args.seed):
        if runs == args.count:
            break
        found = judged(args, seed)
        if found:
            runs += 1
            rings += found[0]
            wrong += found[1] is not None
            if found[1]:
                print(f'script {seed}: {found[1]}')
    print(f'{runs} stuck runs ({rings} with a ring): {wrong} differ')
    return 1 if wrong else 0


if __name__ == '__main__':
    sys.exit(main())

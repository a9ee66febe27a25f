#!/usr/bin/env python3
"""Makes a run in which tells follow the token for as long as it moves, so that letters are quadratic in the commands, and
sees that `check` accepts its journal.

Clients at nodes 0 and 1, the passers, lock and unlock `upgrade` in turn, so the token goes to and fro between them. Clients
at the other nodes, the tellers, lock `read`, change it to `intention_read` and unlock it: two tells for three commands. A
passer takes tells only once the token has left it, and sends them after the token, so none is taken where the desk is
before the passers are done. Letters of a pair are taken in order. The rules that this schedule needs stand here, without
those of any other."""
import argparse
import subprocess
import sys
from collections import Counter, defaultdict, deque
from enum import Enum, auto
from pathlib import Path

TELLERS = 62
BARRED = 'upgrade intention_write read_intention_write write'


def words_of():
    """The command line."""
    top = Path(__file__).resolve().parents[2]
    parser = argparse.ArgumentParser(description=__doc__, formatter_class=argparse.RawDescriptionHelpFormatter)
    parser.add_argument('--program', default=str(top / 'crates/lockrun/out/lockrun'), help='the command whose `check` judges')
    parser.add_argument('--commands', type=int, default=4096, help='how many commands at most')
    parser.add_argument('--keep', help='a file for the input of `check`')
    return parser.parse_args()


class Letter(Enum):
    """What a letter is."""
    UPGRADE = auto()   # the ask of a passer
    READ = auto()      # the ask of a teller
    COPY = auto()
    TOKEN = auto()
    TELL = auto()
    FREEZE = auto()


class Sizes:
    """How many tellers there are, how often each makes its three commands, and how often a passer locks."""

    def __init__(self, commands):
        half = commands // 2
        self.rounds = max(1, half // (3 * TELLERS))
        self.tellers = min(TELLERS, half // (3 * self.rounds))
        self.locks = (commands - 3 * self.rounds * self.tellers) // 2
        self.commands = 3 * self.rounds * self.tellers + 2 * self.locks

    def of_passer(self, node):
        """How often the passer at a node locks: node 0 first, then in turn."""
        return (self.locks + 1 - node) // 2

    def nodes_of_tellers(self):
        """The nodes of the tellers."""
        return range(2, 2 + self.tellers)

    def script(self):
        """The script."""
        lines = ['version 2', f'nodes {self.tellers + 2}', 'set s', 'client a at 0', 'client b at 1']
        lines += [f'client t{node} at {node}' for node in self.nodes_of_tellers()]
        for node, name in enumerate('ab'):
            lines += [f'{name} lock s upgrade', f'{name} unlock s upgrade'] * self.of_passer(node)
        for node in self.nodes_of_tellers():
            own = ['lock s read', 'change s read intention_read', 'unlock s intention_read']
            lines += [f't{node} {command}' for command in own * self.rounds]
        return lines


class Run:
    """The nodes, the letters on their way, and the lines so far. Node 0 has the desk at the start."""

    def __init__(self, sizes):
        self.left = [sizes.of_passer(node) for node in range(2)]
        self.clocks = Counter()
        self.mail = defaultdict(deque)
        self.lines = ['version 2']
        self.made = Counter()
        self.desk, self.epoch, self.number = 0, 0, 0
        self.queued = False    # the other passer's ask is in the queue
        self.told = set()      # the nodes that have a record

    def move(self, node, step):
        """The line of a node's next move."""
        self.made[node] += 1
        self.lines.append(f'move {self.clocks[node]} {node} {step}')

    def act(self, node, name, event):
        """A client makes its next command."""
        self.clocks[node] += 1
        self.move(node, f'act {name}')
        self.lines.append(event)

    def send(self, sender, receiver, letter):
        """A letter goes on its way, with the clock of the move."""
        self.mail[sender, receiver].append((self.clocks[sender], letter))

    def freeze(self, node, modes):
        """The desk tells each node with a record what is frozen now."""
        self.number += bool(self.told)
        for told in sorted(self.told):
            self.lines.append(f'freeze s {told} {self.number} {modes}')
            self.send(node, told, Letter.FREEZE)

    def take(self, sender, node):
        """A node takes the oldest letter of a sender."""
        clock, letter = self.mail[sender, node].popleft()
        self.clocks[node] = max(self.clocks[node], clock) + 1
        self.move(node, f'take {sender}')
        if letter is Letter.TELL and self.desk != node:
            self.send(node, 1 - node, Letter.TELL)
        elif letter is Letter.UPGRADE:
            self.queued = True
            self.freeze(node, BARRED)
        elif letter is Letter.READ:
            self.lines.append(f'copy s {sender} t{sender} read')
            self.told.add(sender)
            self.send(node, sender, Letter.COPY)
        elif letter is Letter.COPY:
            self.lines.append(f'grant t{node} s read')
        elif letter is Letter.TOKEN:
            self.desk, self.queued = node, False
            self.lines.append(f'grant {"ab"[node]} s upgrade')
            self.freeze(node, 'none')

    def take_all(self, sender, node):
        """A node takes all that a sender has sent it."""
        while self.mail[sender, node]:
            self.take(sender, node)

    def ask(self, node):
        """A passer locks while the desk is at the other one, or on its way there."""
        if self.left[node]:
            self.act(node, 'ab'[node], f'wait {"ab"[node]} s upgrade')
            self.send(node, 1 - node, Letter.UPGRADE)

    def unlock(self, node):
        """A passer unlocks, and the token leaves if the other one's ask is in the queue."""
        self.left[node] -= 1
        self.act(node, 'ab'[node], f'unlock {"ab"[node]} s upgrade')
        if self.queued:
            self.desk, self.epoch = None, self.epoch + 1
            self.lines.append(f'token s {1 - node} {self.epoch}')
            self.send(node, 1 - node, Letter.TOKEN)

    def tell(self, teller, desk):
        """A teller makes its three commands: its ask is sent a copy, and it tells the desk twice what it holds."""
        self.take_all(0, teller)
        self.take_all(1, teller)
        self.act(teller, f't{teller}', f'wait t{teller} s read')
        self.send(teller, desk, Letter.READ)
        self.take(teller, desk)
        self.take_all(desk, teller)
        self.act(teller, f't{teller}', f'change t{teller} s read intention_read')
        self.send(teller, desk, Letter.TELL)
        self.act(teller, f't{teller}', f'unlock t{teller} s intention_read')
        self.send(teller, desk, Letter.TELL)

    def pass_on(self, node, nodes):
        """The token leaves a passer for the other one, and the letters for it go after the token."""
        self.unlock(node)
        self.ask(node)
        for sender in nodes:
            self.take_all(sender, node)
        for teller in nodes[2:]:
            self.take_all(node, teller)
        self.take(node, 1 - node)

    def rest(self):
        """Each letter that is left is taken."""
        while pairs := [pair for pair, letters in self.mail.items() if letters]:
            for sender, node in pairs:
                self.take_all(sender, node)


def chased(sizes):
    """The run, at rest."""
    run, nodes, rounds = Run(sizes), range(sizes.tellers + 2), sizes.rounds
    run.act(0, 'a', 'grant a s upgrade')
    run.ask(1)
    while True:
        desk = run.desk
        for teller in sizes.nodes_of_tellers() if rounds else ():
            run.tell(teller, desk)
        rounds -= bool(rounds)
        if not run.left[1 - desk]:
            break
        run.take(1 - desk, desk)
        run.pass_on(desk, nodes)
    run.unlock(desk)
    run.rest()
    return run


def main():
    """Makes the run, has it checked, and prints the figures."""
    args = words_of()
    sizes = Sizes(args.commands)
    run = chased(sizes)
    moves = sum(run.made.values())
    lines = sizes.script() + ['journal'] + run.lines + [f'owner s {run.desk} {run.epoch}', f'end {moves}', '']
    data = '\n'.join(lines).encode()
    if args.keep:
        Path(args.keep).write_bytes(data)
    print(f'{sizes.commands} commands, {moves} moves, {max(run.made.values())} of one node, {run.epoch} of the token, {len(data)} bytes')
    done = subprocess.run([args.program, 'check'], input=data, capture_output=True, check=False)
    is_right = (done.returncode, done.stdout, done.stderr) == (0, b'ok %d\n' % moves, b'')
    print('accepted' if is_right else f'not accepted: {done.returncode} {done.stdout} {done.stderr}')
    return 0 if is_right else 1


if __name__ == '__main__':
    sys.exit(main())

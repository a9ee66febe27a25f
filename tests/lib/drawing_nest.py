#!/usr/bin/env python3
"""Draws lines of nested transactions of all kinds, within the limits of an input."""
import random
import sys

MODES = ['intention_read', 'read', 'upgrade', 'intention_write', 'read_intention_write', 'write']
MOST = {'sets': 8, 'transactions': 256}
MOST_BYTES = 1048576
USAGE = """usage: drawing_nest.py TRANSACTIONS LINES SEED

Prints lines of nested transactions: eight sets, so many transactions, a chain of parents among them, and locks, tries,
commits and aborts up to that many lines, as far as they fit into an input."""


class Nest:
    """Lines that grow. Who waits isn't known here, so some lines are answered `busy`, and some commits `children`."""

    def __init__(self, draw, sets, transactions, weights):
        self.draw, self.weights, self.most = draw, weights, transactions
        self.sets = [f's{k}' for k in range(sets)]
        self.lines = [f'set {name}' for name in self.sets]
        self.parents, self.open = {}, []

    def begin(self, parent=None):
        """A new transaction, under a parent or under none."""
        if len(self.parents) == self.most:
            return
        name = f't{len(self.parents)}'
        self.lines.append(f'{name} begin' + (f' in {parent}' if parent else ''))
        self.parents[name] = parent
        if parent is None or parent in self.open:
            self.open.append(name)

    def is_under(self, name, top):
        """Whether the transaction is this one or under it."""
        while name is not None and name != top:
            name = self.parents[name]
        return name == top

    def end(self, name, verb):
        """A commit or an abort; which transactions it ends is a guess, since waiting isn't known."""
        self.lines.append(f'{name} {verb}')
        if verb == 'abort':
            self.open = [other for other in self.open if not self.is_under(other, name)]
        elif not any(self.parents[other] == name for other in self.open):
            self.open = [other for other in self.open if other != name]

    def step(self):
        """One line of any kind."""
        draw = self.draw
        name = draw.choice(self.open) if self.open and draw.random() < 0.95 else None
        kind = draw.choices(['begin', 'begin in', 'lock', 'try', 'commit', 'abort'], self.weights)[0]
        if not self.open and len(self.parents) < self.most:
            kind = 'begin'
        if kind == 'begin' or not self.parents:
            self.begin()
        elif kind == 'begin in':
            self.begin(name or draw.choice(list(self.parents)))
        elif kind in ('lock', 'try'):
            if self.sets:
                who = name or draw.choice(list(self.parents))
                self.lines.append(f'{who} {kind} {draw.choice(self.sets)} {draw.choice(self.modes())}')
        else:
            self.end(name or draw.choice(list(self.parents)), kind)

    def modes(self):
        """All modes, or those that seldom conflict."""
        return MODES if self.draw.random() < 0.7 else MODES[:2]

    def text(self):
        """The lines, with some comments and blank lines."""
        lines = []
        for line in self.lines:
            if self.draw.random() < 0.02:
                lines.append(self.draw.choice(['', '# a comment', ' \t ', '#']))
            lines.append(line if self.draw.random() < 0.98 else '\t ' + line.replace(' ', ' \t') + ' ')
        return ''.join(line + '\n' for line in lines)


def draw_nest(seed):
    """The lines of a number: their size and kind are drawn too."""
    draw = random.Random(seed)
    weights = draw.choice([[4, 8, 16, 6, 8, 1], [2, 2, 20, 8, 4, 1], [8, 2, 16, 16, 16, 1], [2, 16, 16, 4, 4, 1],
                           [2, 2, 2, 2, 2, 1]])
    sets = draw.choice([0, 1, 1, 1, 2, 4, MOST['sets']])
    nest = Nest(draw, sets, draw.choice([2, 5, 16, 64, MOST['transactions']]), weights)
    if draw.random() < 0.2:
        chain(nest, draw.randint(2, nest.most))
    for _ in range(draw.choice([0, 5, 20, 60, 60, 200, 200, 800])):
        nest.step()
        if not nest.open and len(nest.parents) == nest.most and draw.random() < 0.2:
            break
    return nest.text()


def chain(nest, depth):
    """Transactions each under the one before."""
    nest.begin()
    for k in range(1, depth):
        nest.begin(f't{k - 1}')


def with_nest_fault(text, seed):
    """The lines with one spoilt, so that an input is refused in most cases."""
    draw, lines = random.Random(seed), text.split('\n')
    k = draw.randrange(len(lines))
    words = lines[k].split(' ')
    at = draw.randrange(len(words))
    words[at] = draw.choice(['', 'read', 's0', 't0', 's8', 't999', 'set', 'begin', 'in', 'lock', 'commit', 'x' * 33,
                             'journal', '9', '# ', '\xe9'])
    lines[k] = ' '.join(words)
    if draw.random() < 0.1:
        lines[k:k] = [f'set more{n}' for n in range(9)]
    if draw.random() < 0.1:
        lines[k:k] = [f'other{n} begin' for n in range(257)]
    return draw.choice(['\n', '\r\n', '\n\n', '\n#\t\xe9\n \t']).join(lines)


def main(words):
    """Prints the lines of the words."""
    if len(words) != 3 or not all(word.isdecimal() for word in words):
        print(USAGE, file=sys.stderr)
        return 1
    transactions, lines, seed = map(int, words)
    nest = Nest(random.Random(seed), MOST['sets'], transactions, [1, 1, 20, 4, 2, 1])
    chain(nest, transactions // 2)
    while len(nest.lines) < lines:
        nest.step()
    size = 0
    for line in nest.lines[:lines]:
        size += len(line) + 1
        if size > MOST_BYTES:
            break
        print(line)
    return 0


if __name__ == '__main__':
    sys.exit(main(sys.argv[1:]))

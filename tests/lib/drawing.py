#!/usr/bin/env python3
"""Draws scripts of all kinds: any number of nodes, sets, families, clients and commands within the limits."""
import random
import sys

MODES = {1: ['intention_read', 'read', 'upgrade', 'intention_write', 'write'],
         2: ['intention_read', 'read', 'upgrade', 'intention_write', 'read_intention_write', 'write']}
MOST = {'sets': 8, 'of_node': 16, 'commands': 4096}
MOST_NODES, MOST_CLIENTS = {1: 16, 2: 64}, {1: 64, 2: 256}   # by version
USAGE = """usage: drawing.py NODES CLIENTS COMMANDS SEED [VERSION]

Prints a script with eight sets, whose clients each hold some locks, in the order of the sets, and give them up. The
version of the script is 1 or 2, and 1 if none is given."""


class Drawing:
    """A script that grows line by line."""

    def __init__(self, draw, nodes, sets, clients, commands, version=1):
        self.draw, self.room, self.modes = draw, commands, MODES[version]
        self.sets = [f's{k}' for k in range(sets)]
        self.clients = [f'c{k}' for k in range(clients)]
        self.node_of = {}
        self.todo = {client: [] for client in self.clients}
        self.lines = ['version 2'] * (version - 1) + [f'nodes {nodes}']
        self.declare(nodes)

    def declare(self, nodes):
        """The lines of sets and clients."""
        for k, name in enumerate(self.sets):
            joins = k > 0 and self.draw.random() < 0.3
            self.lines.append(f'set {name}' + (f' with {self.draw.choice(self.sets[:k])}' if joins else ''))
        places = [node for node in range(nodes) for _ in range(MOST['of_node'])]
        for client, node in zip(self.clients, self.draw.sample(places, len(self.clients))):
            self.node_of[client] = node
            self.lines.append(f'client {client} at {node}')

    def add(self, client, *group):
        """Commands of a client; if there is no room for all, one that gives up what is hardly held."""
        if len(group) > self.room:
            group = [f'unlock {self.sets[0]} read']
        self.room -= len(group)
        self.todo[client] += [f'{client} {command}' for command in group]

    def fill(self, kind):
        """Commands of a kind, until there is no room."""
        while self.room > 0 and self.sets and self.clients:
            kind(self, self.draw.choice(self.clients))

    def text(self):
        """The script; the clients' lines stand in some order, each client's own in its order."""
        left = {client: list(lines) for client, lines in self.todo.items() if lines}
        while left:
            client = self.draw.choice(list(left))
            self.lines.append(left[client].pop(0))
            if not left[client]:
                del left[client]
        return '\n'.join(self.lines) + '\n'


def tidy(drawing, client):
    """One lock, and it is given up; or an upgrade that becomes a write; or a try."""
    draw, name = drawing.draw, drawing.draw.choice(drawing.sets)
    mode, kind = draw.choice(drawing.modes), draw.randrange(5)
    if kind == 0:
        drawing.add(client, f'lock {name} upgrade', f'change {name} upgrade write', f'unlock {name} write')
    else:
        drawing.add(client, f'{"try" if kind == 1 else "lock"} {name} {mode}', f'unlock {name} {mode}')


def ordered(drawing, client):
    """Some locks in the order of the sets, and all are given up: nobody waits for ever."""
    draw = drawing.draw
    places = sorted(draw.sample(range(len(drawing.sets)), draw.randint(1, min(4, len(drawing.sets)))))
    held = [f'{drawing.sets[place]} {draw.choice(drawing.modes)}' for place in places]
    drawing.add(client, *[f'lock {lock}' for lock in held], *[f'unlock {lock}' for lock in reversed(held)])


def orderly(drawing, client):
    """What an ordered script may have: locks and tries in the order of the sets, some given up on the way, and all at the end."""
    draw, held, group = drawing.draw, [], []

    def give_up():
        name, mode = held.pop(draw.randrange(len(held)))
        group.append(f'drop {client} {name}' if draw.random() < 0.2 else f'unlock {name} {mode}')

    for name in drawing.sets:
        if draw.random() < 0.5:
            held.append((name, draw.choice(drawing.modes)))
            group.append(f'{draw.choice(["lock", "lock", "try"])} {name} {held[-1][1]}')
        while held and draw.random() < 0.2:
            give_up()
    while held:
        give_up()
    drawing.add(client, *group)


def wild(drawing, client):
    """Any command: many clients then wait for ever."""
    draw, name = drawing.draw, drawing.draw.choice(drawing.sets)
    kind = draw.choice(['lock', 'lock', 'try', 'unlock', 'unlock', 'change', 'drop'])
    if kind == 'change':
        drawing.add(client, f'change {name} {draw.choice(drawing.modes)} {draw.choice(drawing.modes)}')
    elif kind == 'drop':
        beside = [other for other in drawing.clients if drawing.node_of[other] == drawing.node_of[client]]
        drawing.add(client, f'drop {draw.choice(beside)} {name}')
    else:
        drawing.add(client, f'{kind} {name} {draw.choice(drawing.modes)}')


def mixed(drawing, client):
    """Any of the other kinds, and now and then a drop of what a client holds."""
    kind = drawing.draw.choice([tidy, tidy, ordered, ordered, wild])
    kind(drawing, client)
    if drawing.room > 0 and drawing.draw.random() < 0.1:
        drawing.add(client, f'drop {client} {drawing.draw.choice(drawing.sets)}')


def nearly(drawing):
    """Ordered but for one command, which may be of any kind, or for one that is left out."""
    drawing.room -= 1
    drawing.fill(orderly)
    drawing.room += 1
    client = drawing.draw.choice([client for client in drawing.clients if drawing.todo[client]] or [None])
    if client is None:
        return
    lines = drawing.todo[client]
    place = drawing.draw.randrange(len(lines))
    if drawing.draw.random() < 0.5:
        wild(drawing, client)
        lines.insert(place, lines.pop())
    else:
        del lines[place]


def draw_script(seed, version=1, kind='any'):
    """The script of a number: its size is drawn too, and its kind, if it may be any."""
    draw = random.Random(seed)
    nodes = draw.choice([1, 2, 3, 4, draw.randint(1, MOST_NODES[version]), MOST_NODES[version]])
    clients = min(draw.choice([0, 2, 5, 16, draw.randint(1, MOST_CLIENTS[version])]), nodes * MOST['of_node'])
    commands = draw.choice([0, 4, 16, 64, 64, 256, 256, draw.randint(0, MOST['commands'])])
    drawing = Drawing(draw, nodes, draw.choice([0, 1, 1, 1, 2, 4, MOST['sets']]), clients, commands, version)
    if kind == 'nearly':
        nearly(drawing)
    else:
        drawing.fill(draw.choice([tidy, ordered, wild, mixed]) if kind == 'any' else orderly)
    return drawing.text()


def with_fault(text, seed):
    """The script with one line spoilt, so that it has a fault in most cases."""
    draw, lines = random.Random(seed), text.split('\n')
    k = draw.randrange(len(lines) - 1)
    words = lines[k].split(' ')
    at = draw.randrange(len(words))
    words[at] = draw.choice(['', 'read', 's0', 'c0', '17', '9' * 10, 'x' * 33, 'nodes', '1', '# ', '\xe9', 'y' * 201])
    lines[k] = ' '.join(words)
    return draw.choice(['\n', '\r\n', '\n\n', '\n#\t\xe9\n \t']).join(lines)


def main(words):
    """Prints the script of the words."""
    if len(words) not in (4, 5) or not all(word.isdecimal() for word in words) or words[4:] not in ([], ['1'], ['2']):
        print(USAGE, file=sys.stderr)
        return 1
    nodes, clients, commands, seed, *version = map(int, words)
    drawing = Drawing(random.Random(seed), nodes, MOST['sets'], clients, commands, *version)
    drawing.fill(ordered)
    print(drawing.text(), end='')
    return 0


if __name__ == '__main__':
    sys.exit(main(sys.argv[1:]))

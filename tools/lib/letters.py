"""Follows a run by the rules of docs/believe/RULES.md, and its letters.

A journal has a line for each Copy, Freeze and Token that is sent, and none for asks and tells. The rules say from the
moves alone what each of them makes: its lines, which have to be those of the journal, and its letters.
"""
from collections import Counter, defaultdict, deque
from dataclasses import dataclass, field
from functools import lru_cache
from typing import NamedTuple, Optional

from .journal import CONFLICTS, MODES, SIXTH, Ask, Fault, Letter, in_order, unfit

BIT = {mode: 1 << k for k, mode in enumerate(MODES)}
MOST_DUE = 3   # of the moves that can be made, so many are named


def follow(journal):
    """Makes all moves of a journal: its letters, matched with the moves that took them. What it came to is returned."""
    follower = Follower(journal.script)
    for move in journal.moves:
        follower.make(move)
    journal.letters = follower.letters
    follower.end(journal)
    return follower


@lru_cache(maxsize=None)
def bars(modes):
    """The modes that conflict with one of these, as bits."""
    return sum(BIT[mode] for mode in MODES if any(BIT[other] & modes for other in CONFLICTS[mode]))


def covers(modes, mode):
    """Whether these modes bar all that the mode bars."""
    return not bars(BIT[mode]) & ~bars(modes)


def is_taking(mode):
    """Whether a mode conflicts with itself."""
    return mode in CONFLICTS[mode]


def union(modes):
    """The bits of these modes, each by its word."""
    found = 0
    for mode in modes:
        found |= BIT[mode]
    return found


class Tell(NamedTuple):
    """What a node tells the desk: what it holds, and its unanswered asks."""
    node: int
    modes: int
    pending: list
    stamp: tuple


@dataclass
class Entry:
    """What the desk knows of a node."""
    reported: int = 0
    owed: list = field(default_factory=list)      # the asks that were sent copies
    told_at: tuple = (0, 0)
    frozen: int = 0                               # what it was told is frozen

    @property
    def record(self):
        """The modes that it may hold."""
        return self.reported | union(ask.mode for ask in self.owed)


@dataclass
class Desk:
    """What goes with the token of a set."""
    entries: list
    epoch: int = 0
    number: int = 0
    queue: list = field(default_factory=list)

    def enter(self, ask):
        """Puts an ask into the queue: a holder's after the last holder's, any other at the end."""
        self.queue.insert(self.place(ask.is_holder), ask)

    def place(self, is_holder):
        """Where an ask would stand."""
        if not is_holder:
            return len(self.queue)
        return max((place for place, other in enumerate(self.queue, 1) if other.is_holder), default=0)

    def hear(self, tell):
        """A tell is applied, if it is newer than the last one."""
        entry = self.entries[tell.node]
        if tell.stamp > entry.told_at:
            entry.reported, entry.told_at = tell.modes, tell.stamp
            entry.owed = [ask for ask in entry.owed if ask.stamp in tell.pending or ask.stamp > tell.stamp]


@dataclass
class Core:
    """What a node keeps for a set."""
    has_desk: bool
    held: Counter = field(default_factory=Counter)   # of (client, mode)
    charge: int = 0
    frozen: int = 0
    number: int = 0
    firm: tuple = (0, 0)
    hoped: Optional[tuple] = None
    pending: dict = field(default_factory=dict)      # the ask of a client
    gone: set = field(default_factory=set)           # the clients whose ask was given up
    items: list = field(default_factory=list)        # asks and tells that wait here for the token or an older ask

    @property
    def parked(self):
        """The asks that wait here."""
        return [item for item in self.items if isinstance(item, Ask)]

    def own(self, client):
        """The modes that a client holds."""
        return union(mode for other, mode in self.held if other == client)

    def others(self, client):
        """The modes that other clients of the node hold."""
        return union(mode for other, mode in self.held if other != client)

    def modes(self):
        """The modes that are held."""
        return union(mode for _, mode in self.held)

    def still_owed(self, entry):
        """The owed asks of an entry that are unanswered here."""
        stamps = {ask.stamp for ask in self.pending.values()}
        return [ask for ask in entry.owed if ask.stamp in stamps]

    def add(self, client, mode):
        """One lock more."""
        self.held[client, mode] += 1

    def give_up(self, client, mode):
        """One lock less."""
        self.held[client, mode] -= 1
        if not self.held[client, mode]:
            del self.held[client, mode]

    def answer(self, ask):
        """The client gets what it asked for, unless that was given up."""
        del self.pending[ask.client]
        if ask.client in self.gone:
            self.gone.remove(ask.client)
            return
        if ask.gives_up:
            self.give_up(ask.client, ask.gives_up)
        self.add(ask.client, ask.mode)

    def waits(self, client):
        """Whether a client waits here."""
        return client in self.pending and client not in self.gone


class Follower:
    """Makes the moves of a journal by the rules, and keeps what they send."""

    def __init__(self, script):
        self.script = script
        self.clocks = [0] * script.nodes
        self.cores = {(node, name): Core(node == 0) for node in range(script.nodes) for name in script.family}
        self.desks = {name: Desk([Entry() for _ in range(script.nodes)]) for name in script.family}
        self.made = Counter()
        self.on_way = defaultdict(deque)
        self.letters = []
        self.owner = {name: '0 0' for name in script.family}
        self.said = []                 # the lines of the move that is made
        self.waits_in = Counter()      # in how many sets a client waits

    def make(self, move):
        """One move with all its lines."""
        self.said = []
        for name in self.act(move) if move.client else self.take(move):
            self.finish(move, name)
        for place, text in enumerate(self.said):
            if place >= len(move.events) or move.events[place].text != text:
                raise unfit(move.line + 1 + place, f'due there is {text}')
        if len(move.events) > len(self.said):
            extra = move.events[len(self.said)].number
            raise unfit(extra, f'not an event of this move; due there is {self.due(move.number)}')

    # The begin of a move

    def act(self, move):
        """Makes the client's next command; the sets that it touched, in order."""
        client = move.client
        if self.script.node_of[client] != move.node:
            raise self.no_move(move, f'{client} is not on node {move.node}')
        if not self.can_act(client):
            raise self.no_move(move, f'{client} waits or has no command left')
        self.tick(move, self.clocks[move.node])
        kind, *words = self.next_command(client)
        self.made[client] += 1
        if kind == 'drop':
            return self.drop(client, *words)
        name = words[1] if kind == 'withdraw' else words[0]
        getattr(self, f'do_{kind}')(move, self.cores[move.node, name], client, *words)
        return [name]

    def tick(self, move, clock):
        """The clock after a move, which is to be one more than this."""
        if move.clock != clock + 1:
            raise unfit(move.line, f'the clock is {clock + 1} here')
        self.clocks[move.node] = move.clock

    def do_lock(self, move, core, client, name, mode):
        """Granted at once, or the client waits."""
        if self.can_grant(move.node, core, client, name, mode):
            core.add(client, mode)
            self.said.append(f'grant {client} {name} {mode}')
        else:
            self.wait(move, core, client, name, mode)

    def do_try(self, move, core, client, name, mode):
        """Granted at once, or not."""
        can = self.can_grant(move.node, core, client, name, mode)
        if can:
            core.add(client, mode)
        self.said.append(f'try {client} {name} {mode} {"true" if can else "false"}')

    def do_unlock(self, _, core, client, name, mode):
        """One lock is given up, if it is held."""
        is_held = (client, mode) in core.held
        if is_held:
            core.give_up(client, mode)
        self.said.append(f'{"unlock" if is_held else "not_held"} {client} {name} {mode}')

    def do_change(self, move, core, client, name, gives_up, mode):
        """One lock becomes another one at once, or the client waits."""
        if (client, gives_up) not in core.held:
            self.said.append(f'not_held {client} {name} {gives_up}')
        elif self.can_grant(move.node, core, client, name, mode):
            core.give_up(client, gives_up)
            core.add(client, mode)
            self.said.append(f'change {client} {name} {gives_up} {mode}')
        else:
            self.wait(move, core, client, name, mode, gives_up)

    def do_withdraw(self, _, core, client, other, name):
        """What the other client waits for here is given up; its ask stays where it is."""
        waited = core.waits(other)
        if waited:
            core.gone.add(other)
            self.waits_in[other] -= 1
            self.said.append(f'withdrawn {other} {name} {core.pending[other].mode}')
        self.said.append(f'withdraw {client} {other} {name} {"true" if waited else "false"}')

    def drop(self, client, other, name):
        """Drops all locks of a client in a family, unless it waits."""
        names = self.script.family_of(name)
        if self.waits_in[other]:
            self.said.append(f'busy {client} {other} {name}')
            return names
        cores = [self.cores[self.script.node_of[other], each] for each in names]
        dropped = 0
        for core in cores:
            for key in [key for key in core.held if key[0] == other]:
                dropped += core.held.pop(key)
        self.said.append(f'drop {client} {other} {name} {dropped}')
        return names

    def wait(self, move, core, client, name, mode, gives_up=None):
        """The client waits, and its ask goes to the desk, unless one that it gave up is still here."""
        if client in core.gone:
            old = core.pending[client]
            if (old.mode, old.gives_up) != (mode, gives_up):
                self.said.append(f'withheld {client} {name} {mode}')
                return
            core.gone.remove(client)
            self.waits_in[client] += 1
            self.said.append(f'wait {client} {name} {mode}')
            return
        ask = Ask(client, move.node, mode, (move.clock, move.node), core.own(client) != 0, gives_up)
        core.pending[client] = ask
        self.waits_in[client] += 1
        self.said.append(f'wait {client} {name} {mode}')
        self.route(move, name, core, ask)

    def take(self, move):
        """Takes the oldest letter of the sender; the set that it touched."""
        way = self.on_way[move.sender, move.node]
        if not way:
            raise self.no_move(move, f'no letter is on its way from node {move.sender}')
        letter = way[0]
        self.tick(move, max(self.clocks[move.node], letter.sent.clock))
        move.letter = way.popleft()
        letter.taken = move
        core = self.cores[move.node, letter.set]
        if letter.link[1] > core.firm[1]:
            core.firm, core.hoped = letter.link, None
        if letter.kind in ('ask', 'tell'):
            self.route(move, letter.set, core, letter.tell or letter.ask, letter.by_hoped)
        elif letter.kind == 'copy':
            self.grant(letter.set, core, letter.ask)
            if not core.has_desk:
                core.charge |= BIT[letter.ask.mode]
        elif letter.kind == 'freeze' and letter.frozen[0] > core.number:
            core.number, core.frozen = letter.frozen
        elif letter.kind == 'token':
            self.take_token(move, letter.set, core)
        return [letter.set]

    def take_token(self, move, name, core):
        """The desk is here, and deals with what is parked."""
        core.has_desk, core.firm, core.hoped = True, (move.node, self.desks[name].epoch), None
        for item in core.items:
            self.deal(name, item)
        core.items = []

    def grant(self, name, core, ask):
        """An ask is answered."""
        is_void = ask.client in core.gone
        core.answer(ask)
        if is_void:
            self.said.append(f'void {ask.client} {name} {ask.mode}')
            return
        self.waits_in[ask.client] -= 1
        if ask.gives_up:
            self.said.append(f'change {ask.client} {name} {ask.gives_up} {ask.mode}')
        else:
            self.said.append(f'grant {ask.client} {name} {ask.mode}')

    # Granting

    def can_grant(self, node, core, client, name, mode):
        """Whether a node may grant a mode to a client at once."""
        if covers(core.own(client), mode):
            return True
        if BIT[mode] & bars(core.others(client)):
            return False
        if not core.has_desk:
            return covers(core.charge, mode) and not core.frozen & BIT[mode]
        desk = self.desks[name]
        before = desk.queue[:desk.place(core.own(client) != 0)]
        against = union(ask.mode for ask in before + core.still_owed(desk.entries[node]))
        for other, entry in enumerate(desk.entries):
            if other != node:
                against |= entry.record
        return not BIT[mode] & bars(against)

    # Asks and tells

    def route(self, move, name, core, item, by_hoped=False):
        """The way of an ask or a tell (docs/believe/RULES.md, Routing)."""
        is_ask = isinstance(item, Ask)
        if core.has_desk:
            self.deal(name, item)
        elif core.firm[0] == move.node or by_hoped and self.stands_behind(core, item):
            core.items.append(item)
        else:
            goes_by_hoped = bool(is_ask and not by_hoped and core.hoped and core.hoped[1] < item.stamp)
            to = core.hoped[0] if goes_by_hoped else core.firm[0]
            if is_ask:
                text = f'ask {item.client} {name} {item.mode}'
                self.send(move, name, core, to, 'ask', text, ask=item, by_hoped=goes_by_hoped)
            else:
                text = f'tell of node {item.node}: {name} {self.words(item.modes, True)}'
                self.send(move, name, core, to, 'tell', text, tell=item)
            if is_ask and is_taking(item.mode) and item.node != move.node:
                core.hoped = (item.node, item.stamp)

    def stands_behind(self, core, ask):
        """Whether an older self-excluding ask of the node is unanswered."""
        return any(is_taking(own.mode) and own.stamp < ask.stamp for own in core.pending.values())

    def deal(self, name, item):
        """The desk takes an ask or a tell."""
        if isinstance(item, Ask):
            self.desks[name].enter(item)
        else:
            self.desks[name].hear(item)

    def send(self, move, name, core, to, kind, text, **more):
        """Puts a letter on its way, with the link of its sender."""
        letter = Letter(kind, name, to, move, core.firm, text, **more)
        self.letters.append(letter)
        self.on_way[move.node, to].append(letter)

    def words(self, modes, with_sixth=False):
        """The words of these modes; a freeze of version 1 leaves the sixth mode out."""
        return in_order([mode for mode in MODES if BIT[mode] & modes
                         and (with_sixth or self.script.version > 1 or mode != SIXTH)])

    # The end of a move

    def finish(self, move, name):
        """For a set that the move touched: the desk's turn if it is here, else a tell if one is due."""
        core = self.cores[move.node, name]
        if core.has_desk:
            desk = self.desks[name]
            while (ask := self.first_of(move.node, core, desk, self.is_served)) is not None:
                self.serve(move, name, core, desk, ask)
            draws = self.first_of(move.node, core, desk, self.may_draw)
            self.freeze(move, name, core, desk)
            if draws is not None:
                self.hand_over(move, name, core, desk, draws.node)
        elif bars(core.modes()) != bars(core.charge):
            core.charge = core.modes()
            stamps = [ask.stamp for ask in core.pending.values()]
            self.route(move, name, core, Tell(move.node, core.charge, stamps, (move.clock, move.node)))

    def first_of(self, node, core, desk, test):
        """The first ask in the queue that is free and meets the test; or that is to be served, as a void one of the node."""
        if not desk.queue:
            return None
        counts = [entry.record for entry in desk.entries]
        counts[node] = core.modes() | union(ask.mode for ask in core.still_owed(desk.entries[node]))
        others = without_each(counts)
        before = 0
        for place, ask in enumerate(desk.queue):
            if test == self.is_served and ask.node == node and ask.client in core.gone:
                return ask
            is_free = not BIT[ask.mode] & bars(others[ask.node] | before)
            if is_free and test(node, core, desk, ask, place, counts[ask.node], others[ask.node]):
                return ask
            before |= BIT[ask.mode]
        return None

    def is_served(self, node, core, desk, ask, _, own, others):
        """Whether a free ask is granted here, or by a copy."""
        if ask.node == node:
            owed = union(other.mode for other in core.still_owed(desk.entries[node]))
            return not BIT[ask.mode] & bars(core.others(ask.client) | owed)
        return covers(others, ask.mode) and not BIT[ask.mode] & bars(own)

    def may_draw(self, node, _, __, ask, place, own, ___):
        """Whether a free ask draws the desk to its node."""
        return ask.node != node and (place == 0 or not BIT[ask.mode] & bars(own))

    def serve(self, move, name, core, desk, ask):
        """An ask is granted, or its node is sent a copy."""
        desk.queue.remove(ask)
        if ask.node == move.node:
            self.grant(name, core, ask)
            return
        desk.entries[ask.node].owed.append(ask)
        self.said.append(f'copy {name} {ask.node} {ask.client} {ask.mode}')
        self.send(move, name, core, ask.node, 'copy', f'copy {name} {ask.client} {ask.mode}', ask=ask)

    def freeze(self, move, name, core, desk):
        """Nodes with a record are told what the queue freezes."""
        frozen = bars(union(ask.mode for ask in desk.queue))
        targets = [node for node, entry in enumerate(desk.entries)
                   if node != move.node and entry.frozen != frozen and entry.record]
        desk.number += bool(targets)
        core.frozen, core.number = frozen, desk.number
        desk.entries[move.node].frozen = frozen
        for node in targets:
            desk.entries[node].frozen = frozen
            words = f'{desk.number} {self.words(frozen)}'
            self.said.append(f'freeze {name} {node} {words}')
            self.send(move, name, core, node, 'freeze', f'freeze {name} {words}', frozen=(desk.number, frozen))

    def hand_over(self, move, name, core, desk, node):
        """The desk goes to another node."""
        entry = desk.entries[move.node]
        entry.reported, entry.owed, entry.told_at = core.modes(), core.still_owed(entry), (move.clock, move.node)
        desk.epoch += 1
        core.has_desk, core.charge, core.firm, core.hoped = False, core.modes(), (node, desk.epoch), None
        self.owner[name] = f'{node} {desk.epoch}'
        self.said.append(f'token {name} {node} {desk.epoch}')
        self.send(move, name, core, node, 'token', f'token {name} {desk.epoch}')

    # The end

    def end(self, journal):
        """Sees that the closing lines are those of the moves, or that the run may have been cut."""
        movers = self.movers()
        if journal.is_cut and not journal.bad and int(journal.closing[0].words[0]) in movers:
            return
        count = len(journal.moves)
        due = [self.due(count)] if movers else self.closing_lines(count)
        for place, text in enumerate(due):
            if place >= len(journal.closing):
                raise unfit(journal.bad or journal.lines + 1, f'due there is {text}')
            if journal.closing[place].text != text:
                raise unfit(journal.closing[place].number, f'due there is {text}')
        if len(journal.closing) > len(due):
            raise unfit(journal.closing[len(due)].number, 'nothing is due there')
        if journal.bad:
            raise unfit(journal.bad, 'nothing is due there')

    def no_move(self, move, why):
        """The fault of a move that can't be made here."""
        return unfit(move.line, f'{why}; due there is {self.due(move.number - 1)}')

    def due(self, count):
        """The lines that can stand after so many moves: of five moves or more three, or the first closing line."""
        lines = [f'move {self.clocks[node] + 1} {node} act {client}'
                 for client, node in self.script.node_of.items() if self.can_act(client)]
        lines += [f'move {max(self.clocks[to], way[0].sent.clock) + 1} {to} take {sender}'
                  for (sender, to), way in sorted(self.on_way.items()) if way]
        more = [f'one of {len(lines) - MOST_DUE} more'] * (len(lines) > MOST_DUE + 1)
        return ' or '.join((lines[:MOST_DUE] if more else lines) + more) or self.closing_lines(count)[0]

    def can_act(self, client):
        """Whether a client can make a command."""
        command = self.next_command(client)
        return command is not None and (not self.waits_in[client] or self.withdraws_itself(client, command))

    def next_command(self, client):
        """The client's next command, if it has one."""
        commands, made = self.script.commands[client], self.made[client]
        return commands[made] if made < len(commands) else None

    def withdraws_itself(self, client, command):
        """Whether the command gives up what its own client waits for."""
        kind, *words = command
        return (kind == 'withdraw' and words[0] == client
                and self.cores[self.script.node_of[client], words[1]].waits(client))

    def movers(self):
        """The nodes that can make a move."""
        nodes = {to for (_, to), way in self.on_way.items() if way}
        return nodes | {node for client, node in self.script.node_of.items() if self.can_act(client)}

    def closing_lines(self, count):
        """The lines that a run at rest ends with."""
        held, waiting = [], []
        for client, node in self.script.node_of.items():
            for name in self.script.family:
                core = self.cores[node, name]
                rows = ((mode, core.held.get((client, mode), 0)) for mode in MODES)
                held += [f'held {client} {name} {mode} {count}' for mode, count in rows if count]
                if core.waits(client):
                    waiting.append(f'waiting {client} {name} {core.pending[client].mode}')
        return held + waiting + [f'owner {name} {owner}' for name, owner in self.owner.items()] + [f'end {count}']


def without_each(counts):
    """For each place the union of all that stand at other places."""
    after = [0]
    for modes in reversed(counts):
        after.append(after[-1] | modes)
    found, before = [], 0
    for place, modes in enumerate(counts):
        found.append(before | after[len(counts) - place - 1])
        before |= modes
    return found

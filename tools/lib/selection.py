"""Which part of a run is shown: some of its moves, one set, one client."""
from dataclasses import dataclass
from typing import Optional

from .journal import Fault


@dataclass
class Selection:
    """The moves from one to another, those that touch a set, and those that name a client."""
    first: int = 1
    last: Optional[int] = None
    set: Optional[str] = None
    client: Optional[str] = None

    def see(self, journal):
        """Sees that the set and the client are of the script, and finds the last move where none was named."""
        if self.set is not None and self.set not in journal.script.family:
            raise Fault(f'the script has no set {self.set}')
        if self.client is not None and self.client not in journal.script.node_of:
            raise Fault(f'the script has no client {self.client}')
        count = len(journal.moves)
        if self.last is not None and not self.first <= min(self.last, count):
            raise Fault(f'there is no move from {self.first} to {self.last}: the journal has {count}')
        self.last = count if self.last is None else min(count, self.last)
        self.sent = {}
        for letter in journal.letters:
            self.sent.setdefault(letter.sent.number, []).append(letter)

    def has_move(self, move):
        """Whether the move is shown."""
        if not self.first <= move.number <= self.last:
            return False
        letters = self.sent.get(move.number, []) + ([move.letter] if move.letter else [])
        return (any(self.is_of(event.set, event.words) for event in move.events)
                or any(self.is_of(letter.set, clients_of(letter)) for letter in letters)
                or self.set is None and self.client is None)

    def has_letter(self, letter):
        """Whether the letter is shown: it was sent or taken among the moves."""
        return (letter.sent.number <= self.last and (letter.taken is None or letter.taken.number >= self.first)
                and self.is_of(letter.set, clients_of(letter)))

    def has_bar(self, bar):
        """Whether what the client holds or waits for is shown."""
        return (bar.begin < self.last and (bar.end < 0 or bar.end >= self.first - 1)
                and self.is_of(bar.set, [bar.client]))

    def is_of(self, name, words):
        """Whether something of this set that has these words is shown."""
        return self.set in (None, name) and (self.client is None or self.client in words)

    def clients(self, script):
        """The clients that are shown."""
        return [client for client in script.node_of if self.client in (None, client)]

    def text(self):
        """The selection in words."""
        words = [f'moves {self.first} to {self.last}']
        words += [f'set {self.set}'] * (self.set is not None) + [f'client {self.client}'] * (self.client is not None)
        return ', '.join(words)


def clients_of(letter):
    """The client of the ask that a letter brings or answers, if it does."""
    return [letter.ask.client] if letter.ask else []


def flag_of(words, flag):
    """The words without the flag, and whether it was among them."""
    return [word for word in words if word != flag], flag in words


def option_of(words, name):
    """The words without `name VALUE`, and the value, or none; without a value, no words."""
    if name not in words:
        return words, None
    at = words.index(name)
    if at + 1 == len(words):
        return [], None
    return words[:at] + words[at + 2:], words[at + 1]


def selection_of(words):
    """The words without the options of a selection, and the selection; if they are none, no words."""
    words, moves = option_of(words, '--moves')
    words, name = option_of(words, '--set')
    words, client = option_of(words, '--client')
    first, last = 1, None
    if moves is not None:
        numbers = moves.split('-')
        if len(numbers) != 2 or not all(number.isdecimal() for number in numbers) or int(numbers[0]) < 1:
            return [], Selection()
        first, last = map(int, numbers)
    return words, Selection(first, last, name, client)

"""Exact names that come as they come: each has a set of its own."""
from __future__ import annotations

import threading
from typing import Dict, List, Optional

from .codes import BAD_ARGUMENT, LockError, NamesFull
from .keys import Key, Word


def bytes_in(word: Word) -> bytes:
    """The bytes by which a name is known."""
    return word.encode() if isinstance(word, str) else bytes(word)


class Names:
    """The families of sets that nodes were opened with for names: `begin` is the number of the first one's root. Which
    set a name has depends on the order in which names come, so it is of this process alone. No exception that comes in
    between, as one of the keyboard, takes a set away."""

    def __init__(self, begin: int, families: int, members: int) -> None:
        self.begin, self.families, self.members = begin, families, members
        self.one, self.adds = threading.RLock(), False
        # The numbers of families by the names of their roots; of each family the places of its other names.
        self.roots: Dict[bytes, int] = {}
        self.under: List[Dict[bytes, int]] = [{} for _ in range(families)]

    def key(self, word: Word, parent: Word = b'') -> Key:
        """The name, in the family of its parent if it has one. Both are added if they aren't there."""
        if not self.families:
            raise LockError(BAD_ARGUMENT, 'the nodes have no sets for names: they are opened with names=')
        if parent and self.members == 1:
            raise LockError(BAD_ARGUMENT, 'no name has a parent where a family has one set: open nodes with members=')
        family = self._place(self.roots, bytes_in(parent or word), 0, self.families)
        place = self._place(self.under[family], bytes_in(word), 1, self.members) if parent else 0
        return Key(self, word, self.begin + family * self.members + place)

    def _place(self, names: Dict[bytes, int], name: bytes, first: int, end: int) -> int:
        """The place of a name among these, which is added as the last one if it isn't there."""
        if name in names:
            return names[name]
        with self.one:
            if self.adds:
                raise RuntimeError('a signal handler adds a name while its thread does')
            try:
                self.adds = True
                if name not in names:
                    if first + len(names) >= end:
                        raise NamesFull()
                    names[name] = first + len(names)
                return names[name]
            finally:
                self.adds = False

    def name_of(self, number: int) -> Optional[bytes]:
        """The name that has this set, without that of its parent."""
        family, place = divmod(number - self.begin, self.members)
        names = self.roots if not place else self.under[family] if 0 <= family < self.families else {}
        wanted = place or family
        return next((name for name, other in names.copy().items() if other == wanted), None)

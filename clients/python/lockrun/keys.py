"""Keys that come as they come: each has a set by its hash."""
from __future__ import annotations

from typing import Protocol, Tuple, Union

from . import calls
from .codes import BAD_ARGUMENT, LockError
from .library import Library

Word = Union[str, bytes]


class Family(Protocol):
    """What has keys, and keys in the families of others."""

    def key(self, word: Word, parent: Word = b'') -> Key:
        """The key, in the family of its parent if it has one."""


class Keys:
    """The families of sets that nodes were opened with for keys: `first` is the number of the first one's root. The
    same key has the same set in each process whose nodes were opened so."""

    def __init__(self, library: Library, first: int, families: int, members: int) -> None:
        self.library, self.first, self.families, self.members = library, first, families, members

    def key(self, word: Word, parent: Word = b'') -> Key:
        """The key, in the family of its parent if it has one."""
        if not self.families:
            raise LockError(BAD_ARGUMENT, 'the nodes have no sets for keys: they are opened with families=')
        if parent and self.members == 1:
            raise LockError(BAD_ARGUMENT, 'no key has a parent where a family has one set: open nodes with members=')
        return Key(self, word, calls.set_of_key(self.library, self.first, self.families, self.members, parent, word))

    def __getitem__(self, words: Union[Word, Tuple[Word, Word]]) -> Key:
        """`keys['folder']`, or the key of a pair, parent first: `keys['folder', 'page']`."""
        if isinstance(words, tuple):
            return self.key(words[1], words[0])
        return self.key(words)


class Key:
    """A key, by which `Session.lock` takes the set that has this number, or an exact name (`Nodes.name`). Keys may
    share a set: then who locks one has locked the other, so who locks several at once sorts them, and asks once for
    those that are equal: `sorted({one, other})`. Names share none."""
    __slots__ = ('keys', 'word', 'number')

    def __init__(self, keys: Family, word: Word, number: int) -> None:
        self.keys, self.word, self.number = keys, word, number

    def __getitem__(self, word: Word) -> Key:
        """A key in this one's family."""
        if not self.word:
            raise LockError(BAD_ARGUMENT, 'a key without bytes is no parent')
        return self.keys.key(word, self.word)

    def __eq__(self, other: object) -> bool:
        return isinstance(other, Key) and self.number == other.number

    def __lt__(self, other: Key) -> bool:
        return self.number < other.number

    def __hash__(self) -> int:
        return self.number

    def __repr__(self) -> str:
        return f'<key {self.word!r}: set {self.number}>'


# What a lock is asked for by: the name of a set, or a key.
Name = Union[str, Key]

"""Who holds what, and who waits for what, by now."""
from __future__ import annotations

from dataclasses import dataclass
from typing import List, NamedTuple, Sequence, Tuple, Union

from . import calls
from .codes import MODES
from .library import Handle, Library


@dataclass(frozen=True)
class Lock:
    """Locks of a client: the set's name, or its number if it is one of keys, the mode, and how many there are. Of what
    is waited for `count` is 0."""
    client: str
    set: Union[str, int]
    mode: str
    count: int


class Locks(NamedTuple):
    """What is held, and what is waited for."""
    held: List[Lock]
    asked: List[Lock]


def view(library: Library, homes: Sequence[Tuple[Handle, int]], clients: Sequence[str],
         sets: Sequence[str]) -> Locks:
    """The locks of these clients, each with the station of its node."""
    def name(number: int) -> Union[str, int]:
        return sets[number] if number < len(sets) else number

    if not library.views:
        raise NotImplementedError('this library does not tell what is held')
    found = Locks([], [])
    for station, client in homes:
        for number, counts in calls.held(library, station, client):
            found.held.extend(Lock(clients[client], name(number), mode, count)
                              for mode, count in zip(MODES, counts) if count)
        if (asked := calls.asked(library, station, client)) is not None:
            found.asked.append(Lock(clients[client], name(asked[0]), MODES[asked[1]], 0))
    return found

"""Clients that wait for one another in a ring, by what their nodes have.

On several nodes an ask that was given up may stand for a while, and others behind it, and it isn't told for which
mode. An ask may also lie at a node on its way to the queue, behind an older one. Whose ask has no other reason to wait
counts as one who waits for each client that has a lock in the set, also for itself, or asks for one there; and so
does who asks again and again for what is withheld from it, since what it gave up before in the set still stands, though
no node knows of that wait. So a ring of these may be none: then somebody gives up who needn't. In a service with many nodes and clients
such asks are not looked for."""
from __future__ import annotations

from typing import Dict, List, NamedTuple, Optional

from . import calls
from .codes import MODES
from .library import Handle, Library

# In a service in which clients times clients times nodes are more, hidden reasons are not looked for.
MOST_PAIRS = 1 << 20
# The modes that conflict with each mode, in their order; the last one conflicts with all.
CONFLICTS = ((5,), (3, 4, 5), (2, 3, 4, 5), (1, 2, 4, 5), (1, 2, 3, 4, 5), (0, 1, 2, 3, 4, 5))
ANY = len(MODES) - 1


class Ask(NamedTuple):
    """What a client asks for, whether its node knows of it, and whether it waits for a reason that isn't seen."""
    set: int
    mode: int
    is_known: bool
    is_hidden: bool = False


class Rings:
    """What the clients ask for by now. `homes` are the nodes of the clients, and `withheld` the sets of those who ask
    again and again."""

    def __init__(self, library: Library, stations: List[Handle], homes: List[int], withheld: Dict[int, int]) -> None:
        self.library, self.stations, self.homes = library, stations, homes
        self.asks: Dict[int, Ask] = {}
        for client, home in enumerate(homes):
            if (asked := calls.asked(library, stations[home], client)) is not None:
                self.asks[client] = Ask(*asked, True)
            elif client in withheld:
                self.asks[client] = Ask(withheld[client], ANY, False)
        for client in [client for client in self.asks if self._is_hidden(client)]:
            self.asks[client] = self.asks[client]._replace(mode=ANY, is_hidden=True)

    def find(self) -> Optional[List[int]]:
        """The clients of a ring: each waits for the next one, and the last one for the first."""
        looked: Dict[int, int] = {}
        for start in list(self.asks):
            if start in self.asks and (ring := self._walk(start, looked)):
                return ring
        return None

    def _walk(self, start: int, looked: Dict[int, int]) -> Optional[List[int]]:
        """Goes from client to client for which it waits, until it comes to one a second time. Of each client it is
        noted how many others were looked at; who is left again doesn't count any more."""
        walk = [start]
        while walk:
            last = walk[-1]
            others = range(looked.get(last, 0), len(self.homes))
            other = next((other for other in others if self._waits_for(last, other)), None)
            if other is None:
                del self.asks[walk.pop()]
                continue
            looked[last] = other + 1
            if other in walk:
                return walk[walk.index(other):]
            walk.append(other)
        return None

    def _waits_for(self, client: int, other: int) -> bool:
        if other not in self.asks:
            return False
        ask, others = self.asks[client], self.asks[other]
        if client == other and ask.is_known and not ask.is_hidden:
            return False
        if self._holds_against(other, ask):
            return True
        is_beside = client != other and others.is_known and others.set == ask.set
        return is_beside and (ask.is_hidden or self._stands_behind(ask.set, client, other))

    def _holds_against(self, client: int, ask: Ask) -> bool:
        """Whether a client has a lock that is in the way of this ask."""
        station = self.stations[self.homes[client]]
        return any(calls.locks(self.library, station, client, ask.set, mode) for mode in CONFLICTS[ask.mode])

    def _stands_behind(self, number: int, client: int, other: int) -> bool:
        """Whether in the queue of a set an ask of the client stands behind one of the other one."""
        return any(calls.behind(self.library, station, number, client, other) for station in self.stations)

    def _is_hidden(self, client: int) -> bool:
        ask, count = self.asks[client], len(self.homes)
        if not ask.is_known or len(self.stations) == 1 or count * count * len(self.stations) > MOST_PAIRS:
            return False
        is_seen = False
        for other in range(count):
            if other == client:
                continue
            asks_too = other in self.asks and self.asks[other].is_known and self.asks[other].set == ask.set
            is_behind = self._stands_behind(ask.set, client, other)
            if is_behind and not asks_too:
                return True
            is_seen = is_seen or is_behind or self._holds_against(other, ask)
        return not is_seen

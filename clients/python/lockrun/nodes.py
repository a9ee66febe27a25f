"""The nodes of one process."""
from __future__ import annotations

import time
from ctypes import c_size_t
from typing import Callable, Dict, List, Optional, Tuple, Union

from . import calls
from .codes import BAD_ARGUMENT, FORGOTTEN, NO_MEMORY, NOTHING, OK, LockError, said
from .journal import Journal
from .keys import Key, Keys, Word
from .library import Handle, bytes_of, library_path, live, load, new_sets
from .names import Names
from .pool import Lent, Pool
from .rings import Rings
from .script import Sets, error_of, in_version, named, numbered, version
from .session import Session
from .victims import Victims
from .view import Locks, view
from .work import FOR_MEMORY, Work

# So many rounds of turns are made at most before it is looked for a ring.
ROUNDS = 64


class Nodes:
    """The nodes of an open script, with a session for each client. Each node makes at most `limit` moves. `sets` are
    further sets behind those of the script, at most 65,536 with these: pairs of a name and that of a parent, which is
    a set before it, or None. Or `families` times `members` further sets are for keys, `nodes['any key']`, and behind
    these `names` times `members` for exact names, `nodes.name('any name')`; then the script need have no sets.

    Who waits for longer than `victims` seconds looks for a ring of clients that wait for one another, and the youngest
    of it gives up: Victim is raised there. With None nobody gives up so.

    Nodes forget what they did, unless they are to keep it for their journal. With more than 8 sets they have none."""

    def __init__(self, script: str, limit: int = 1 << 40, library: Optional[str] = None, sets: Sets = (), *,
                 families: int = 0, members: int = 1, keep: bool = False, names: int = 0,
                 victims: Optional[float] = None) -> None:
        if sets and families + names:
            raise ValueError('further sets have either names or keys')
        if victims is not None and version(script) == 2:
            raise LockError(BAD_ARGUMENT, 'a script of version 2 can give nothing up, so there are no victims')
        self.library, self.service = load(library or library_path()), Handle()
        self.handles = [self.service]
        self.clients, self.keep = numbered(script), keep
        self.gives_up = version(script) != 2
        self._open(script, limit, sets, families + names, members)
        self.names = named(script, 'set') + [name for name, _ in sets]
        # The numbers of sets that were named here before.
        self.sets: Dict[str, int] = {}
        self.keys = Keys(self.library, len(self.names), families, members)
        self.exact = Names(len(self.names) + families * members, names, members)
        self.stations = self._all(self.library.lockrun_take_station)
        self.work = Work(self.library, self.stations, keep)
        self.victims = Victims(victims, self._ring, self.work.ring)
        self.sessions = [Session(self, session) for session in self._all(self.library.lockrun_take_session)]
        self.pool = Pool([session.handle for session in reversed(self.sessions)], lambda handle: Session(self, handle))

    def _open(self, script: str, limit: int, sets: Sets, families: int, members: int) -> None:
        whole, more = in_version(script), new_sets(sets)
        if families:
            code = calls.open_keys(self.library, whole, families, members, limit, 4, self.service)
        else:
            code = self.library.lockrun_open_sets(*bytes_of(whole), more, len(more), limit, 4, self.service)
        if code != OK:
            raise error_of(self.library, code, script, sets)

    def _all(self, take: Callable[..., int]) -> List[Handle]:
        found: List[Handle] = []
        while True:
            handle = Handle()
            code = take(self.service, handle)
            if code == NOTHING:
                return found
            said(code)
            found.append(handle)
            self.handles.append(handle)

    def __del__(self) -> None:
        for handle in getattr(self, 'handles', ()):
            if handle.at:
                self.library.lockrun_free(handle)

    def __enter__(self) -> Nodes:
        return self

    def __exit__(self, *_: object) -> None:
        self.close()

    def __getitem__(self, words: Union[Word, Tuple[Word, Word]]) -> Key:
        """A key, for `Session.lock`: `nodes['folder']`, and in its family `nodes['folder']['page']`, or
        `nodes['folder', 'page']`."""
        return self.keys[words]

    def name(self, word: Word, parent: Word = b'') -> Key:
        """An exact name, for `Session.lock`: its set is that of no other name, and of no key, as long as these nodes
        are open. It is added if it isn't there; NamesFull is raised if as many are there as may be. A name in another
        one's family is `nodes.name('book')['page']`, or `nodes.name('page', 'book')`."""
        return self.exact.key(word, parent)

    def name_of(self, number: int) -> Optional[bytes]:
        """The exact name that has the set with this number, without that of its parent."""
        return self.exact.name_of(number)

    def rests(self, node: Optional[int] = None) -> bool:
        """Whether all nodes rest, or this one: at this moment there is no letter on its way, no command that was
        submitted and not made, and no reply that was not given out. A node that has something to do does a part of it
        by this call. Letters that find no place at another node may wait at one that rests."""
        found = self.work.rests(range(len(self.stations)) if node is None else [node])
        if self.work.busy and self.work.sleepers:
            self.work.hand_over()
        return found

    def _ring(self, victims: Victims) -> Optional[List[int]]:
        """Clients who wait for one another in a ring; none, if there is no ring; None, if the nodes don't rest."""
        if not any(self.work.rests(self.work.everybody) for _ in range(ROUNDS)):
            return None
        homes = [session.home for session in self.sessions]
        return Rings(self.library, self.stations, homes, victims.withheld.copy()).find() or []

    def session(self, client: str) -> Session:
        """The session of the client with this name, which `client` doesn't lend then."""
        if client not in self.clients:
            raise KeyError(f'{client!r} is no client of the script')
        session = self.sessions[self.clients[client]]
        self.pool.withhold(session.handle)
        return session

    def client(self, timeout: Optional[float] = None) -> Lent:
        """A session that nobody has, for a `with` or an `async with`. If none is free it waits, at most so many
        seconds; then Withdrawn is raised. Who takes sessions out of `sessions` uses none that is lent."""
        return Lent(self.pool, timeout)

    def turn(self, node: int) -> bool:
        """One turn of a node: whether it made a move."""
        code = self.work.turn(node, calls.Hints())
        if self.work.busy and self.work.sleepers:
            self.work.hand_over()
        if code not in (OK, NOTHING):
            raise LockError(code)
        return code == OK

    def turn_all(self) -> bool:
        """A turn of each node: whether one made a move."""
        return any([self.turn(node) for node in range(len(self.stations))])

    def forget(self) -> None:
        """Lets each node forget its moves and commands: their memory serves further ones. Then they have no journal.
        Other threads may be in calls. Want of memory loses nothing."""
        self.work.forget()

    def locks(self) -> Locks:
        """What is held by now, and what is waited for, as each node knows it: of several nodes at once it says
        nothing."""
        homes = [(self.stations[session.home], session.client) for session in self.sessions]
        return view(self.library, homes, list(self.clients), self.names)

    def served(self) -> Tuple[int, int]:
        """How many commands all sessions submitted so far, and how many replies they polled, while no other thread is
        in a call. There is a run in which they were served so, and the nodes go on."""
        submitted, polled = c_size_t(), c_size_t()
        try:
            self._give_all()
            said(self.library.lockrun_served(self.service, submitted, polled))
        finally:
            self._take_again()
        return submitted.value, polled.value

    def _give_all(self) -> None:
        for handle in self.stations + [session.handle for session in self.sessions]:
            said(self.library.lockrun_give(live(self.service), live(handle)))

    def _take_again(self) -> None:
        """Takes what was given back. Want of memory loses nothing, so it is tried again."""
        for take, handles in ((self.library.lockrun_take_station, self.stations),
                              (self.library.lockrun_take_session, [session.handle for session in self.sessions])):
            for handle in handles:
                while not handle.at and (code := take(live(self.service), handle)) != OK:
                    if code != NO_MEMORY:
                        raise LockError(code)
                    time.sleep(FOR_MEMORY)

    def finish(self) -> Journal:
        """Ends the nodes, while no other thread is in a call: what they did, if they were opened with keep=True."""
        while any([self.turn_all(), self.turn_all()]):
            pass
        if not self.keep:
            self.close()
            raise LockError(FORGOTTEN)
        self._give_all()
        journal = Handle()
        code = self.library.lockrun_finish(self.service, journal)
        self.work.ring_all()
        said(code)
        return Journal(self.library, journal)

    def close(self) -> None:
        """Ends the nodes. Who waits, and each later call, gets an error."""
        for handle in reversed(self.handles):
            if handle.at:
                self.library.lockrun_free(handle)
        self.work.ring_all()

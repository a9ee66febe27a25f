"""Clients that come and go: sessions that are lent and given back."""
from __future__ import annotations

import threading
import weakref
from collections import deque
from contextlib import closing, suppress
from typing import Callable, Deque, Dict, Generator, List, Optional, Tuple

from .codes import LockError, Withdrawn
from .library import Handle
from .session import Session
from .waiting import is_over, until
from .work import Bell, Sleeper, patience


class Place:
    """One who waits for a session: who sleeps, and where its session is put."""

    def __init__(self, sleeper: Sleeper, taken: List[Handle]) -> None:
        self.sleeper, self.taken = sleeper, taken


class Pool:
    """The sessions that nobody has, and those who wait for one, in their order. A session goes from one list into
    another while the interpreter runs nothing else, so no exception, as one of the keyboard, loses it."""

    def __init__(self, sessions: List[Handle], session: Callable[[Handle], Session]) -> None:
        self.free, self.session, self.one = sessions, session, threading.RLock()
        self.waiting: Deque[Place] = deque()
        # By each client that is lent: to whom, its session, and where its handle is until it is given back.
        self.out: Dict[int, Tuple[weakref.ref[Lent], Session, List[Handle]]] = {}

    def withhold(self, handle: Handle) -> None:
        """A session that isn't lent any more."""
        with self.one, suppress(ValueError):
            self.free.remove(handle)

    def take(self, taken: List[Handle], sleeper: Sleeper, timeout: Optional[float]) -> Generator[float, None, None]:
        """Takes a session. It yields for how long to sleep."""
        end, place = until(timeout), Place(sleeper, taken)
        try:
            with self.one:
                self.waiting.append(place)
                self._pass_on()
            while not taken:
                if is_over(end):
                    raise Withdrawn('no session is free')
                yield patience(end, len(self.waiting))
                self.recover()
        finally:
            with self.one, suppress(ValueError):
                self.waiting.remove(place)

    def give(self, taken: List[Handle]) -> None:
        """Gives a session back, if there is one."""
        with self.one:
            with suppress(IndexError):
                self.free.extend(map(taken.pop, (-1,)))
            self._pass_on()

    def _pass_on(self) -> None:
        """Gives free sessions to those who wait."""
        if not self.free:
            self.recover()
        while self.free and self.waiting:
            place = self.waiting[0]
            if not place.taken:
                place.taken.extend(map(self.free.pop, (-1,)))
            place.sleeper.ring()
            self.waiting.popleft()

    def recover(self) -> None:
        """Takes back what was lent to who is gone: an exception came just before its end."""
        for client, (lent, session, taken) in self.out.copy().items():
            if lent() is None:
                self.take_back(session, taken)
                self.out.pop(client, None)

    def take_back(self, session: Session, taken: List[Handle]) -> None:
        """Gives a session back that holds nothing any more. If it can't drop its locks, nobody else gets it."""
        try:
            if taken:
                session.abort()
        except LockError:
            taken.clear()
            raise
        except BaseException:
            session.abort()
            raise
        finally:
            session.handle = Handle()
            self.give(taken)


class Lent:
    """A session of the pool for a `with` or an `async with`: at the end it gives up what it waits for and drops all
    locks, and the session that was given is of no use any more."""

    def __init__(self, pool: Pool, timeout: Optional[float]) -> None:
        self.pool, self.timeout = pool, timeout
        self.taken: List[Handle] = []
        self.session: Optional[Session] = None

    def __enter__(self) -> Session:
        bell = Bell()
        try:
            with closing(self.pool.take(self.taken, bell, self.timeout)) as waits:
                for seconds in waits:
                    bell.sleep(seconds)
            return self._begin()
        except BaseException:
            self._end()
            raise

    def __exit__(self, *_: object) -> None:
        self._end()

    async def __aenter__(self) -> Session:
        from .tasks import TaskBell
        bell = TaskBell()
        try:
            with closing(self.pool.take(self.taken, bell, self.timeout)) as waits:
                for seconds in waits:
                    await bell.sleep(seconds)
            return self._begin()
        except BaseException:
            self._end()
            raise

    async def __aexit__(self, *_: object) -> None:
        self._end()

    def _begin(self) -> Session:
        session = self.session = self.pool.session(self.taken[0])
        self.pool.out[session.client] = weakref.ref(self), session, self.taken
        return session

    def _end(self) -> None:
        if self.session is None:
            self.pool.give(self.taken)
            return
        self.pool.take_back(self.session, self.taken)
        self.pool.out.pop(self.session.client, None)

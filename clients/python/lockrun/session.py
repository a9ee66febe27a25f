"""The session of one client."""
from __future__ import annotations

from typing import Optional

from . import calls
from .asking import Asking
from .codes import (DROP, DROPPED, FALSE, GRANTED, LOCK, MODES, NOTHING, TRUE, TRY, WITHDRAW, WITHDRAWN,
                    WITHHELD, LockError, StillWaits, Victim, fault_of, number_of)
from .command import Command, is_submitted
from .guard import Guard
from .keys import Key, Name
from .library import Handle, live
from .turned import Turned
from .victims import Watch
from .waiting import Waiter, alone, is_over, until


class Session(Waiter):
    """The session of one client."""

    def __init__(self, nodes: Turned, handle: Handle) -> None:
        super().__init__(nodes, handle)
        # How often it dropped all.
        self.aborts = 0

    def left(self) -> int:
        """How many commands may still be submitted."""
        return int(self.nodes.library.lockrun_left(live(self.handle)))

    def number(self, name: Name) -> int:
        """The number of the set with this name, or of this key."""
        if isinstance(name, Key):
            return name.number
        if name not in self.nodes.sets:
            number = calls.number_of_set(self.nodes.library, self.handle, name)
            if number is None:
                raise KeyError(f'{name!r} is no set of the script')
            self.nodes.sets[name] = number
        return self.nodes.sets[name]

    def lock(self, name: Name, mode: str, timeout: Optional[float] = None) -> Guard:
        """Waits until the lock is granted, or for so many seconds; then it gives up, and Withdrawn is raised. No
        exception leaves the lock asked for."""
        guard, command = Guard(self, name, mode), self._lock(name, mode)
        code = self.wait_for(command, timeout)
        if code != GRANTED:
            raise fault_of(code)
        return guard

    def lock_async(self, name: Name, mode: str, timeout: Optional[float] = None) -> Asking:
        """The same in a task of asyncio, for `await` or `async with`; if the task is cancelled, it gives up."""
        return Asking(self, name, mode, timeout)

    async def lock_in_task(self, name: Name, mode: str, timeout: Optional[float]) -> Guard:
        """What `lock_async` waits for."""
        guard, command = Guard(self, name, mode), self._lock(name, mode)
        code = await self.wait_in_task(command, timeout)
        if code != GRANTED:
            raise fault_of(code)
        return guard

    @alone
    def ask(self, name: Name, mode: str, patience: Optional[float] = None) -> Guard:
        """Waits for so many seconds, for callers that go on waiting: after StillWaits, or an exception of the
        keyboard, the lock is still asked for. `wait` goes on waiting for it, `give_up` gives it up, and until then no
        other call does anything."""
        self._begin()
        command = self._lock(name, mode)
        self.nodes.victims.number(self.client)
        self._submit(command)
        return self.wait(patience)

    @alone
    def wait(self, patience: Optional[float] = None) -> Guard:
        """Goes on waiting for the lock that was asked for."""
        command, end, victims = self._asked_lock(), until(patience), self.nodes.victims
        guard, watch = Guard(self, command.name, MODES[command.first]), Watch(victims)
        try:
            while (code := self._look(command)) is None and not victims.is_chosen(self.client):
                if is_over(end):
                    raise StillWaits
                self.nodes.work.rest(self.client, self.bell, lambda: self._is_told(command), watch.until(end))
            code = self._give_up(command) if code is None else self._close(command)
            self.nodes.work.leave(self.hints)
        except BaseException:
            if command.grants():
                self.asked = command
            self.nodes.work.leave(self.hints)
            raise
        if code == WITHDRAWN and victims.is_chosen(self.client):
            raise Victim
        if code != GRANTED:
            raise fault_of(code)
        return guard

    @alone
    def give_up(self) -> Optional[Guard]:
        """Gives up the lock that was asked for: None, or the guard if it was granted first. It waits for no other
        client."""
        command = self._asked_lock()
        guard, code = Guard(self, command.name, MODES[command.first]), self._give_up(command)
        self.nodes.work.leave(self.hints)
        if code in (WITHDRAWN, WITHHELD):
            return None
        if code != GRANTED:
            raise LockError(code)
        return guard

    @alone
    def try_lock(self, name: Name, mode: str) -> Optional[Guard]:
        """Has the lock at once, or None: None may come though nobody holds the set, on another node than the one that
        has its token. `lock` with the timeout 0 is granted then."""
        guard, command = Guard(self, name, mode), Command(TRY, name, self.number(name), number_of(mode))
        try:
            return guard if self.call(command) == TRUE else None
        except BaseException:
            self._undo_all(command)
            raise

    @alone
    def drop(self, name: Name, whose: str) -> int:
        """Drops the locks of a client of the same node in the set's family: how many they were."""
        return self._drop(Command(DROP, name, self.number(name), self.nodes.clients[whose]))

    @alone
    def withdraw(self, name: Name, whose: str) -> bool:
        """Gives up what another client of the same node waits for in the set: whether it waited there. Its call raises
        Withdrawn."""
        code = self.call(Command(WITHDRAW, name, self.number(name), self.nodes.clients[whose]))
        if code not in (TRUE, FALSE):
            raise LockError(code)
        return code == TRUE

    @alone
    def abort(self) -> int:
        """Gives up what it waits for, and then drops all its locks, family by family: how many they were. Guards of
        before do nothing at their end."""
        self.end_ask()
        count = 0
        while self.held:
            number = next(reversed(self.held))
            count += self._drop(Command(DROP, '', number, self.client))
            self.held.pop(number, None)
        self.aborts += 1
        return count

    @alone
    def end_ask(self) -> None:
        """Gives up what is asked for, if anything is; and a lock that was granted first is unlocked."""
        if self.asked is not None:
            self._undo(self.asked)
            self.nodes.work.leave(self.hints)

    def _drop(self, command: Command) -> int:
        code = self.call(command)
        if code != DROPPED:
            raise LockError(code)
        return self.count.value

    def _lock(self, name: Name, mode: str) -> Command:
        return Command(LOCK, name, self.number(name), number_of(mode))

    def _asked_lock(self) -> Command:
        """The lock that was asked for."""
        command = self.asked
        if command is None or command.kind != LOCK or not is_submitted(command.answers):
            raise LockError(NOTHING)
        return command

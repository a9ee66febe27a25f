"""How a session submits, waits and gives up."""
from __future__ import annotations

import threading
import time
from contextlib import suppress
from ctypes import c_uint64
from functools import wraps
from typing import Any, Callable, Dict, Generator, List, Optional, TypeVar, cast

from . import calls
from .codes import (BAD_ARGUMENT, CHANGE, DROPPED, LOCK, LOG_FULL, NOTHING, UNLOCK, UNLOCKED, WITHDRAW, WITHDRAWN,
                    WITHHELD, LockError, StillWaits, Victim)
from .command import Command, is_submitted
from .library import Handle
from .turned import Turned
from .victims import Watch
from .work import Bell

# How long a session pauses before it asks again for what was withheld, in seconds: at first, and at most.
FIRST_PAUSE, LONGEST_PAUSE = 0.001, 0.064

Call = TypeVar('Call', bound=Callable[..., Any])
# It yields until when to rest, and its end is the reply.
Waits = Generator[Optional[float], None, int]


def alone(call: Call) -> Call:
    """While a call of this thread uses the session. In another one that is an error. No exception keeps it in use."""
    @wraps(call)
    def run(session: Waiter, *arguments: Any, **named: Any) -> Any:
        taken: List[bool] = []
        try:
            taken.extend(map(session.one.acquire, (False,)))
            if not taken[0]:
                raise RuntimeError('a session is used by one thread at a time')
            return call(session, *arguments, **named)
        finally:
            if taken and taken[0]:
                session.one.release()
    return cast(Call, run)


def until(timeout: Optional[float]) -> Optional[float]:
    """The time at which so many seconds are over."""
    return None if timeout is None else time.monotonic() + timeout


def is_over(end: Optional[float]) -> bool:
    """Whether this time has come."""
    return end is not None and time.monotonic() >= end


class Waiter:
    """What a session waits by. Its calls turn the nodes that have work, and then sleep until they are told a reply."""

    def __init__(self, nodes: Turned, handle: Handle) -> None:
        self.nodes, self.handle, self.one, self.bell = nodes, handle, threading.RLock(), Bell()
        self.count, self.hints = c_uint64(), calls.Hints()
        # The command that was submitted, or is about to be, until the session keeps what its reply says.
        self.asked: Optional[Command] = None
        # The sets in which the client has locks, and how many.
        self.held: Dict[int, int] = {}
        self.home: int = nodes.library.lockrun_home(handle)
        self.client: int = nodes.library.lockrun_client(handle)

    @alone
    def call(self, command: Command) -> int:
        """A command that waits for no other client: its reply. An exception that comes in between, as one of the
        keyboard, is raised after it."""
        self._begin()
        try:
            code = self._finish(command)
            self.nodes.work.leave(self.hints)
            return code
        except LockError:
            raise
        except BaseException:
            self._finish(command)
            self.nodes.work.leave(self.hints)
            raise

    @alone
    def wait_for(self, command: Command, timeout: Optional[float]) -> int:
        """The reply to a command that may wait, or be given up after so many seconds. After an exception nothing is
        asked for, and no lock was got."""
        self._begin()
        try:
            steps = self._within(command, timeout)
            try:
                while True:
                    self.nodes.work.rest(self.client, self.bell, lambda: self._is_told(command), next(steps))
            except StopIteration as done:
                self.nodes.work.leave(self.hints)
                return int(done.value)
        except BaseException:
            self._undo_all(command)
            raise
        finally:
            self.nodes.victims.withheld.pop(self.client, None)

    async def wait_in_task(self, command: Command, timeout: Optional[float]) -> int:
        """The same in a task of asyncio."""
        self._begin()
        try:
            steps = self._within(command, timeout)
            while True:
                try:
                    end = next(steps)
                except StopIteration as done:
                    self.nodes.work.leave(self.hints)
                    return int(done.value)
                await self.nodes.work.rest_in_task(self.client, lambda: self._is_told(command), end)
        except BaseException:
            self._undo_all(command)
            raise
        finally:
            self.nodes.victims.withheld.pop(self.client, None)

    def _within(self, command: Command, timeout: Optional[float]) -> Waits:
        """Submits, and gives up once the time is over. What was given up before in the same set may still stand at
        another node; then it asks again, once all nodes have done what they can, and after pauses that grow."""
        if timeout is not None and not self.nodes.gives_up:
            raise LockError(BAD_ARGUMENT, 'a script of version 2 can give nothing up, so no call has a timeout')
        end, pause, watch, victims = until(timeout), 0.0, Watch(self.nodes.victims), self.nodes.victims
        victims.number(self.client)
        while True:
            self._submit(command)
            while (code := self._look(command)) is None and not is_over(end) and not victims.is_chosen(self.client):
                yield watch.until(end)
            code = self._give_up(command) if code is None else self._close(command)
            if code == WITHDRAWN and victims.is_chosen(self.client):
                raise Victim
            if code != WITHHELD:
                return code
            if pause > 0 and is_over(end):
                return WITHDRAWN
            victims.withhold(self.client, command.set)
            again = time.monotonic() + pause
            again, pause = again if end is None else min(again, end), min(2 * pause or FIRST_PAUSE, LONGEST_PAUSE)
            self.asked = command
            self._help(command)
            while not is_over(again):
                yield watch.until(again)
                self._help(command)
            if victims.is_chosen(self.client):
                raise Victim
            command.again()

    def _begin(self) -> None:
        """Nothing may be asked for by now. A call that waits for nobody, and that an exception broke off, is ended
        first."""
        command = self.asked
        if command is None:
            return
        if is_submitted(command.answers) and command.kind in (LOCK, CHANGE):
            raise StillWaits
        self._undo(command)

    def _submit(self, command: Command) -> None:
        """Submits the command, unless it was before."""
        self.asked = command
        if not command.answers:
            self._do(command, command.kind, command.first, command.second, command.answers)
        if not is_submitted(command.answers):
            self.asked = None
            raise LockError(command.answers[0])

    def _do(self, command: Command, kind: int, first: int, second: int, answers: List[int]) -> None:
        work, hints = self.nodes.work, self.hints
        try:
            calls.do(self.nodes.library, work.station(self.home), self.handle, (kind, command.set, first, second),
                     self.count, hints, answers)
            work.pass_on(hints, self.home)
        except BaseException:
            work.pass_on(hints, self.home)
            raise
        self.nodes.victims.note_command()
        work.made(self.home)

    def _is_told(self, command: Command) -> bool:
        return not command.closed and (self._known(command) is not None or self.nodes.victims.is_chosen(self.client))

    def _known(self, command: Command) -> Optional[int]:
        """The reply, once that to a withdraw of the command is there too."""
        while command.to_come():
            calls.poll(self.nodes.library, self.handle, self.count, command.answers)
            code = command.answers[-1]
            if code == NOTHING:
                del command.answers[-1]
                return None
        return command.reply()

    def _look(self, command: Command) -> Optional[int]:
        """The reply, if it is there after all turns of nodes that have work."""
        if (code := self._known(command)) is None:
            self._help(command)
            if (code := self._known(command)) is None:
                self.nodes.work.see()
        return code

    def _help(self, command: Command) -> None:
        self.nodes.work.drain(self.hints, self.client, lambda: self._is_told(command))

    def _until_known(self, command: Command) -> int:
        """The reply, which turns of the own node give."""
        while (code := self._known(command)) is None:
            if self.nodes.work.turn(self.home, self.hints) == LOG_FULL:
                raise LockError(LOG_FULL)
        return code

    def _finish(self, command: Command) -> int:
        """Submits the command, unless it was before, and keeps its reply."""
        if not command.closed:
            self._submit(command)
            self._until_known(command)
        return self._close(command)

    def _give_up(self, command: Command) -> int:
        """Gives up the command, whose reply may have come first."""
        if self._known(command) is None:
            if not command.withdraws:
                self._do(command, WITHDRAW, self.client, 0, command.withdraws)
            if not is_submitted(command.withdraws):
                raise LockError(command.withdraws.pop(), 'a script of version 2 can give nothing up')
            self._until_known(command)
        return self._close(command)

    def _undo(self, command: Command) -> None:
        """Nothing of the command is left: it is given up, and a lock that was granted first is unlocked."""
        if not is_submitted(command.answers):
            self.asked = None
            return
        if not command.closed:
            if command.kind in (LOCK, CHANGE):
                self._give_up(command)
            else:
                self._until_known(command)
                self._close(command)
        self.asked = None
        if command.grants():
            self._finish(Command(UNLOCK, command.name, command.set, command.first))

    def _undo_all(self, command: Command) -> None:
        """The same after an exception. Where nothing can be given up the command goes on being known."""
        with suppress(LockError):
            self._undo(command)
        self.nodes.work.leave(self.hints)

    def _close(self, command: Command) -> int:
        """Keeps what the reply says of the client's locks. If an exception comes in between, too many are kept and
        never too few."""
        reply, number = cast(int, command.reply()), command.set
        if command.grants() and not command.closed:
            self.held[number] = self.held.get(number, 0) + 1
        was_closed, command.closed, self.asked = command.closed, True, None
        if was_closed:
            return reply
        if reply == UNLOCKED and self.held.get(number, 0) > 1:
            self.held[number] -= 1
        elif reply == UNLOCKED or (reply == DROPPED and command.first == self.client):
            if reply == DROPPED and self.count.value >= sum(self.held.values()):
                self.held.clear()
            self.held.pop(number, None)
        return reply

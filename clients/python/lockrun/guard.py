"""A lock that is held."""
from __future__ import annotations

from typing import TYPE_CHECKING, Optional, Tuple

from .codes import CHANGE, CHANGED, UNLOCK, UNLOCKED, LockError, fault_of, number_of
from .command import Command
from .keys import Name

if TYPE_CHECKING:
    from .session import Session


class Guard:
    """A lock that a session holds: a context manager that gives it up."""

    def __init__(self, session: Session, name: Name, mode: str) -> None:
        self.session, self.name, self.aborts = session, name, session.aborts
        # The mode that it had before the last change, and this one with its mode.
        self.before = mode
        self.changing: Optional[Tuple[Command, str]] = None

    @property
    def mode(self) -> str:
        """The mode that it has."""
        if self.changing is not None and self.changing[0].reply() == CHANGED:
            self.before, self.changing = self.changing[1], None
        return self.before

    def __repr__(self) -> str:
        return f'<lock {self.mode} of {self.name!r}>'

    def change(self, mode: str, timeout: Optional[float] = None) -> None:
        """Changes the mode. It waits until the new one goes with what others hold, or for so many seconds; then it
        gives up, and Withdrawn is raised. After an exception it has the mode that `mode` says."""
        code = self.session.wait_for(self._change_to(mode), timeout)
        if code != CHANGED:
            raise fault_of(code)

    async def change_async(self, mode: str, timeout: Optional[float] = None) -> None:
        """The same in a task of asyncio; if that is cancelled, it gives up."""
        code = await self.session.wait_in_task(self._change_to(mode), timeout)
        if code != CHANGED:
            raise fault_of(code)

    def _change_to(self, mode: str) -> Command:
        has, number = self.mode, self.session.number(self.name)
        command = Command(CHANGE, self.name, number, number_of(has), number_of(mode))
        self.changing = command, mode
        return command

    def unlock(self) -> None:
        """Gives the lock up."""
        session = self.session
        code = session.call(Command(UNLOCK, self.name, session.number(self.name), number_of(self.mode)))
        if code != UNLOCKED:
            raise LockError(code)

    def __enter__(self) -> Guard:
        return self

    def __exit__(self, *_: object) -> None:
        if self.aborts == self.session.aborts:
            self.session.end_ask()
            self.unlock()

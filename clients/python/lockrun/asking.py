"""A lock that a task asks for."""
from __future__ import annotations

from typing import TYPE_CHECKING, Generator, Optional

from .guard import Guard
from .keys import Name

if TYPE_CHECKING:
    from .session import Session


class Asking:
    """A lock that a task asks for: to be awaited for its guard, or for an `async with`, at whose end the lock is given
    up."""

    def __init__(self, session: Session, name: Name, mode: str, timeout: Optional[float]) -> None:
        self.session, self.name, self.mode, self.timeout = session, name, mode, timeout
        self.guard: Optional[Guard] = None

    def __await__(self) -> Generator[object, None, Guard]:
        return self.session.lock_in_task(self.name, self.mode, self.timeout).__await__()

    async def __aenter__(self) -> Guard:
        self.guard = await self.session.lock_in_task(self.name, self.mode, self.timeout)
        return self.guard

    async def __aexit__(self, *_: object) -> None:
        if self.guard is not None:
            self.guard.__exit__()

"""What a session waits by."""
from __future__ import annotations

from typing import Callable, Dict, Optional, Protocol

from .calls import Hints
from .library import Handle, Library
from .victims import Victims
from .work import Bell


class Working(Protocol):
    """What turns nodes for those who wait: `Work`, or that of a node apart."""
    def station(self, node: int) -> Handle:
        """The station of a node."""

    def pass_on(self, hints: Hints, node: Optional[int] = None) -> None:
        """Passes on what a call told, and that this node may go on."""

    def made(self, node: int) -> None:
        """A command more was submitted at a node."""

    def turn(self, node: int, hints: Hints) -> int:
        """One turn of a node: its code."""

    def drain(self, hints: Hints, client: int, is_told: Callable[[], bool]) -> None:
        """Turns what has work, until this client is told a reply."""

    def see(self) -> None:
        """Raises the error of who would wait for ever."""

    def rest(self, client: int, sleeper: Bell, is_told: Callable[[], bool], end: Optional[float]) -> None:
        """Sleeps until something happens, or until this time."""

    async def rest_in_task(self, client: int, is_told: Callable[[], bool], end: Optional[float]) -> None:
        """The same in a task of asyncio."""

    def leave(self, hints: Hints) -> None:
        """Before a caller goes back: what has work isn't left alone."""


class Turned(Protocol):
    """The nodes of one process, or a node whose other nodes lie in other processes."""
    library: Library
    clients: Dict[str, int]
    sets: Dict[str, int]
    gives_up: bool
    victims: Victims

    @property
    def work(self) -> Working:
        """What turns them."""

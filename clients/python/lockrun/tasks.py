"""What tasks of asyncio sleep by."""
from __future__ import annotations

import asyncio
import threading
from typing import Optional


class TaskBell:
    """What a task sleeps by."""
    in_task = True

    def __init__(self) -> None:
        self.loop, self.thread = asyncio.get_running_loop(), threading.get_ident()
        self.is_kept = False
        self.sleeping: Optional[asyncio.Future[bool]] = None

    def ring(self) -> None:
        """Wakes the task; a ring that comes first is kept. Any thread may ring."""
        if threading.get_ident() == self.thread:
            self._wake(True)
            return
        try:
            self.loop.call_soon_threadsafe(self._wake, True)
        except RuntimeError:
            # The loop was closed, and nobody sleeps there.
            pass

    def _wake(self, is_rung: bool) -> None:
        if self.sleeping is not None and not self.sleeping.done():
            self.sleeping.set_result(is_rung)
        elif is_rung:
            self.is_kept = True

    async def sleep(self, seconds: float) -> bool:
        """Whether it was rung for within so many seconds. Other tasks run in any case."""
        if self.is_kept:
            self.is_kept = False
            await asyncio.sleep(0)
            return True
        self.sleeping = self.loop.create_future()
        timer = self.loop.call_later(max(0.0, seconds), self._wake, False)
        try:
            return await self.sleeping
        finally:
            timer.cancel()
            self.sleeping = None

"""Who turns which nodes, and who sleeps."""
from __future__ import annotations

import queue
import time
from typing import Callable, Dict, List, Optional, Protocol, Sequence, Set

from .calls import Hints, turn, turn_together
from .codes import LOG_FULL, NO_MEMORY, NOTHING, OK, WRONG_HANDLE, LockError, said
from .library import Handle, Library, live

# The most turns that a caller makes for others before it goes back, and those that it makes before it sleeps.
FOR_OTHERS, FOR_ITSELF = 64, 1024
# A ring between two nodes has so many places for letters: after so many moves all nodes may have work.
LETTER_PLACES = 64
# How long a caller sleeps at most before somebody looks at all nodes, and how long it waits for memory, in seconds.
LONGEST_SLEEP, FOR_MEMORY = 1.0, 0.001
# After so many commands of its clients a node forgets what was made.
FORGET_AFTER = 1024


class Sleeper(Protocol):
    """Who sleeps until it is rung for."""
    in_task: bool

    def ring(self) -> None:
        """Wakes it, or lets its next sleep end at once. Any thread may ring."""


class Bell:
    """What a thread sleeps by."""
    in_task = False

    def __init__(self) -> None:
        self.rings: queue.SimpleQueue[None] = queue.SimpleQueue()

    def ring(self) -> None:
        """Wakes the thread; a ring that comes first is kept."""
        self.rings.put(None)

    def sleep(self, seconds: float) -> bool:
        """Whether it was rung for within so many seconds."""
        try:
            self.rings.get(timeout=max(0.0, seconds))
        except queue.Empty:
            return False
        return True


def bits(mask: int) -> List[int]:
    """The numbers of the bits that are set."""
    return [place for place in range(mask.bit_length()) if mask >> place & 1]


def patience(end: Optional[float], sleepers: int) -> float:
    """How long one of so many sleeps until this time, in seconds: on the average one a second looks again."""
    longest = LONGEST_SLEEP * sleepers
    return longest if end is None else min(longest, end - time.monotonic())


class Work:
    """The nodes that may have something to do, and the clients who sleep.

    Nobody sleeps while its reply is there, or while there is work that nobody does. Who sleeps enters itself among the
    sleepers, and looks for its reply and for work after that (`rest`). Who makes turns, by which replies come and
    letters are sent, looks for sleepers after the turns: it rings for those who were told something (`pass_on`); and
    before it goes back to its caller, if there is work and somebody sleeps, it does the work, or rings for one who
    does (`leave`). So at least one of the two sees the other, and a bell keeps a ring that comes before its sleep. Who
    is rung for while it goes away for another reason leaves by `leave` too.

    What is told of work may be wrong in time alone: a node that found no place for its letters is looked at again
    after moves of others, and at the latest after a second in which somebody slept."""

    def __init__(self, library: Library, stations: List[Handle], keep: bool) -> None:
        self.library, self.stations, self.keep = library, stations, keep
        self.everybody = range(len(stations))
        self.busy: Set[int] = set(self.everybody)
        self.full: Set[int] = set()
        self.sleepers: Dict[int, Sleeper] = {}
        self.commands = [0] * len(stations)
        self.looked = 0.0

    def station(self, node: int) -> Handle:
        """The station of a node."""
        return self.stations[node]

    def made(self, node: int) -> None:
        """A command more was submitted at a node. At times the node forgets what was made; want of memory loses
        nothing."""
        self.commands[node] += 1
        if self.commands[node] >= FORGET_AFTER and not self.keep:
            self.commands[node] = 0
            self.library.lockrun_forget(live(self.stations[node]))

    def forget(self) -> None:
        """Each node forgets what was made."""
        for station in self.stations:
            said(self.library.lockrun_forget(live(station)))

    def pass_on(self, hints: Hints, node: Optional[int] = None) -> None:
        """Passes on what a call told, and that this node may go on. It may be done twice."""
        if node is not None:
            self.busy.add(node)
        if sent := hints.sent:
            self.busy.update(bits(sent & ((1 << len(self.stations)) - 1)))
        if self.full:
            self.busy.difference_update(self.full)
        if self.sleepers and (told := hints.told):
            for client, sleeper in self.sleepers.copy().items():
                if told >> client & 1:
                    sleeper.ring()

    def turn(self, node: int, hints: Hints) -> int:
        """One turn of a node: its code. After an exception, as one of the keyboard, the node has work."""
        try:
            self.busy.discard(node)
            code = turn(self.library, self.stations[node], hints)
            if code != WRONG_HANDLE:
                self.pass_on(hints, node if code in (OK, NO_MEMORY) else None)
        except BaseException:
            self.pass_on(hints, node)
            raise
        if code == NO_MEMORY:
            time.sleep(FOR_MEMORY)
        elif code == LOG_FULL:
            self.full.add(node)
            self.ring_all()
        elif code == WRONG_HANDLE:
            raise LockError(code)
        return code

    def rests(self, nodes: Sequence[int]) -> bool:
        """Whether a turn of each of these nodes finds nothing to do: it makes no move, and has no letter and no reply
        to give out. No other thread is in a call meanwhile."""
        hints: List[Hints] = [Hints() for _ in nodes]
        codes: List[int] = []
        try:
            self.busy.difference_update(nodes)
            turn_together(self.library, [live(self.stations[node]) for node in nodes], hints, codes)
        finally:
            for place, node in enumerate(nodes):
                self.pass_on(hints[place], None if codes[place:place + 1] == [NOTHING] else node)
        if LOG_FULL in codes:
            self.full.update(node for node, code in zip(nodes, codes) if code == LOG_FULL)
            self.ring_all()
        return all(code == NOTHING for code in codes) and not any(hint.sent or hint.told for hint in hints)

    def drain(self, hints: Hints, client: int, is_told: Callable[[], bool], turns: int = FOR_ITSELF) -> None:
        """Turns what has work: at most so many turns, and until this client is told a reply."""
        moves = 0
        while self.busy and turns > 0:
            for node in self.busy.copy():
                moves += self.turn(node, hints) == OK
                turns -= 1
                if hints.told >> client & 1 and is_told():
                    return
        if moves >= LETTER_PLACES:
            self.busy.update(self.everybody)

    def see(self) -> None:
        """Raises the error of who would wait for a node that can't go on."""
        if self.full:
            raise LockError(LOG_FULL)

    def rest(self, client: int, sleeper: Bell, is_told: Callable[[], bool], end: Optional[float]) -> None:
        """Sleeps until somebody rings, or until this time."""
        try:
            self.sleepers[client] = sleeper
            if not self.busy and not is_told() and not sleeper.sleep(patience(end, len(self.sleepers))):
                self.look_again()
        finally:
            self.sleepers.pop(client, None)

    async def rest_in_task(self, client: int, is_told: Callable[[], bool], end: Optional[float]) -> None:
        """The same in a task of asyncio."""
        from .tasks import TaskBell
        sleeper = TaskBell()
        try:
            self.sleepers[client] = sleeper
            if self.busy or is_told():
                sleeper.ring()
            if not await sleeper.sleep(patience(end, len(self.sleepers))):
                self.look_again()
        finally:
            self.sleepers.pop(client, None)

    def look_again(self) -> None:
        """All nodes are looked at, if nobody had this done within the last second."""
        now = time.monotonic()
        if now - self.looked >= LONGEST_SLEEP:
            self.looked = now
            self.busy.update(self.everybody)

    def leave(self, hints: Hints) -> None:
        """Before a caller goes back: if others sleep, what has work isn't left alone."""
        if not self.busy or not self.sleepers:
            return
        try:
            self.drain(hints, 0, lambda: False, FOR_OTHERS)
        finally:
            if self.busy:
                self.hand_over()

    def hand_over(self) -> None:
        """Rings for one sleeper, a thread if there is one: it does the work."""
        for sleeper in sorted(self.sleepers.copy().values(), key=lambda one: one.in_task)[:1]:
            sleeper.ring()

    def ring(self, client: int) -> None:
        """Wakes a client, if it sleeps."""
        sleeper = self.sleepers.get(client)
        if sleeper is not None:
            sleeper.ring()

    def ring_all(self) -> None:
        """Wakes all who sleep."""
        for sleeper in self.sleepers.copy().values():
            sleeper.ring()

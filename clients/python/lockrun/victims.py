"""Who gives up where clients wait in a ring."""
from __future__ import annotations

import itertools
import time
from typing import Callable, Dict, List, Optional


class Victims:
    """The policy: who waits for longer than `after` seconds looks for a ring, and the youngest client of it, which is
    the one that asked last, gives up. With None nobody does.

    What is asked has a number, and a later one has a greater number; what is asked again keeps its own. Who is chosen
    has it noted by that number, so that no later ask is given up for it, and gives up by itself."""

    def __init__(self, after: Optional[float], look: Callable[[Victims], Optional[List[int]]],
                 ring: Callable[[int], None]) -> None:
        self.after, self.look, self.ring = after, look, ring
        self.numbers, self.turns = itertools.count(1), itertools.count(1)
        self.asks: Dict[int, int] = {}
        self.chosen: Dict[int, int] = {}
        self.withheld: Dict[int, int] = {}
        # How many commands were submitted; and how many there were when there was no ring.
        self.done = self.seen = 0
        self.looked = 0.0

    def number(self, client: int) -> None:
        """The client is about to ask for something."""
        if self.after is not None:
            self.asks[client] = next(self.numbers)

    def note_command(self) -> None:
        """A command was submitted: without one no ring comes to be among nodes that rest."""
        if self.after is not None:
            self.done = next(self.turns)

    def withhold(self, client: int, number: int) -> None:
        """The client asks again and again in a set."""
        if self.after is not None and self.withheld.get(client) != number:
            self.withheld[client] = number
            self.note_command()

    def is_chosen(self, client: int) -> bool:
        """Whether what the client asked last is to be given up, or was."""
        return client in self.chosen and self.chosen[client] == self.asks.get(client)

    def next_look(self, times: int = 1) -> Optional[float]:
        """When a waiter looks for a ring next: after so many times the pause."""
        return None if self.after is None else time.monotonic() + times * self.after

    def look_for_ring(self) -> None:
        """Looks for a ring, unless somebody did it just now, or found none and no command was submitted since."""
        now, done = time.monotonic(), self.done
        if self.after is None or done == self.seen or now - self.looked < self.after / 2:
            return
        self.looked = now
        ring = self.look(self)
        if ring == []:
            self.seen = done
        if ring and not any(map(self.is_chosen, ring)):
            youngest = max(ring, key=lambda client: self.asks.get(client, 0))
            self.chosen[youngest] = self.asks.get(youngest, 0)
            self.ring(youngest)


# So many times the first pause is the longest one between two looks of one who waits.
LONGEST = 16


class Watch:
    """When one who waits looks for rings: after pauses that grow, since who comes into a ring later looks itself."""

    def __init__(self, victims: Victims) -> None:
        self.victims, self.times, self.next = victims, 1, victims.next_look()

    def until(self, end: Optional[float]) -> Optional[float]:
        """Until when to rest, at most until this time. Once it is time it looks for a ring."""
        if self.next is None:
            return end
        if time.monotonic() >= self.next:
            self.victims.look_for_ring()
            self.times = min(2 * self.times, LONGEST)
            self.next = self.victims.next_look(self.times)
        return self.next if end is None or self.next is None else min(end, self.next)


def nobody() -> Victims:
    """Without the policy."""
    return Victims(None, lambda _: None, lambda _: None)

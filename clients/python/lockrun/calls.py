"""One function for each call that tells of work, of keys, of a script's fault, or of what is held."""
from __future__ import annotations

import ctypes
from ctypes import c_uint32, c_uint64
from typing import Iterator, List, Optional, Tuple, Union

from .codes import BAD_SCRIPT, NOTHING, OK, said
from .library import Clients, Handle, Library, bytes_of, live

# The most turns that a command makes at once.
MOST_TURNS = 64


class Hints:
    """What a call told of its turns: to which nodes letters were sent, and which clients' replies are there."""

    def __init__(self) -> None:
        self.letters, self.replies = c_uint64(), Clients()

    def set_all(self, are_there: bool) -> None:
        """All may be there, or none is."""
        self.letters.value = (1 << 64) - 1 if are_there else 0
        ctypes.memset(ctypes.byref(self.replies), 255 if are_there else 0, ctypes.sizeof(self.replies))

    @property
    def sent(self) -> int:
        """Bit k: a letter for node k."""
        return int(self.letters.value)

    @property
    def told(self) -> int:
        """Bit c: a reply for client c."""
        return int.from_bytes(self.replies, 'little')


def do(library: Library, station: Handle, session: Handle, command: Tuple[int, int, int, int], count: c_uint64,
       hints: Hints, answers: List[int]) -> None:
    """Submits a command and makes moves of the node: what came of it goes to the end of the answers. The interpreter
    runs nothing between the call and that, so no exception loses what was answered."""
    kind, number, first, second = command
    if library.tells:
        answers.extend(map(library.lockrun_do, (station,), (session,), (kind,), (number,), (first,), (second,),
                           (count,), (hints.letters,), (hints.replies,)))
        return
    answers.extend(map(library.lockrun_submit, (live(session),), (kind,), (number,), (first,), (second,)))
    for _ in range(MOST_TURNS if answers[-1] == OK else 0):
        code = turn(library, station, hints)
        poll(library, session, count, answers)
        if answers[-1] != NOTHING:
            return
        del answers[-1]
        if code != OK:
            return


def poll(library: Library, session: Handle, count: c_uint64, answers: List[int]) -> None:
    """The next reply goes to the end of the answers, as in `do`."""
    answers.extend(map(library.lockrun_poll, (live(session),), (count,)))


def turn(library: Library, station: Handle, hints: Hints) -> int:
    """One turn of a station."""
    if library.tells:
        return int(library.lockrun_turn_telling(station, hints.letters, hints.replies))
    code = int(library.lockrun_turn(live(station)))
    # A turn sends what the move before it left to be sent. All nodes may have letters, and all clients replies.
    hints.set_all(code != NOTHING or station.moved)
    station.moved = code != NOTHING
    return code


def turn_together(library: Library, stations: List[Handle], hints: List[Hints], codes: List[int]) -> None:
    """A turn of each of these stations: the interpreter runs nothing between them, so no other thread is in a call
    meanwhile. Their codes go to the end of these."""
    if not library.tells:
        raise NotImplementedError('this library does not tell what a turn did')
    letters, replies = [hint.letters for hint in hints], [hint.replies for hint in hints]
    codes.extend(map(library.lockrun_turn_telling, stations, letters, replies))


def first_fault(library: Library, script: str) -> Optional[Tuple[int, int]]:
    """The line and the number of the script's first fault."""
    line, fault = c_uint64(), c_uint32()
    if library.lockrun_fault(*bytes_of(script), line, fault) != BAD_SCRIPT:
        return None
    return line.value, fault.value


def open_keys(library: Library, script: str, families: int, members: int, limit: int, places: int,
              service: Handle) -> int:
    """Opens a service with so many families of sets for keys."""
    return int(library.lockrun_open_keys(*bytes_of(script), families, members, limit, places, service))


def set_of_key(library: Library, first: int, families: int, members: int, parent: Union[str, bytes],
               key: Union[str, bytes]) -> int:
    """The set of a key, in the family of its parent if that has bytes."""
    number = c_uint32()
    said(library.lockrun_key(first, families, members, *bytes_of(parent), *bytes_of(key), number))
    return number.value


def held(library: Library, station: Handle, client: int) -> Iterator[Tuple[int, List[int]]]:
    """The sets in which a client of the station holds locks, and how many of each mode."""
    number, start = c_uint32(), 0
    while library.lockrun_held(live(station), client, start, number) == OK:
        yield number.value, [library.lockrun_locks(live(station), client, number.value, mode) for mode in range(6)]
        start = number.value + 1


def asked(library: Library, station: Handle, client: int) -> Optional[Tuple[int, int]]:
    """The set and the mode that a client of the station waits for."""
    number, mode = c_uint32(), c_uint32()
    if library.lockrun_asked(live(station), client, number, mode) != OK:
        return None
    return number.value, mode.value


def locks(library: Library, station: Handle, client: int, number: int, mode: int) -> int:
    """How many locks of a mode a client of the station holds in a set."""
    return int(library.lockrun_locks(live(station), client, number, mode))


def behind(library: Library, station: Handle, number: int, client: int, other: int) -> bool:
    """Whether in the queue of a set at the station an ask of the client stands behind one of the other one."""
    return bool(library.lockrun_behind(live(station), number, client, other) == OK)


def number_of_set(library: Library, session: Handle, name: str) -> Optional[int]:
    """The number of the set with this name, or None."""
    number = c_uint32()
    return number.value if library.lockrun_set(live(session), *bytes_of(name), number) == OK else None

"""A node of the lock service in a process of its own, for Python: all other nodes lie in other processes, and a
transport carries bytes between them.

    apart = Apart('nodes 2\\nset counter\\nclient ann at 0\\nclient ben at 1\\n', me=0, nodes=2, key=key, start=start,
                  transport=transport)
    with apart.session('ann').lock('counter', 'write'):
        ...
    journal = apart.finish()

"""
from __future__ import annotations

import time
from ctypes import c_size_t, c_uint8
from typing import Callable, Dict, Iterable, Optional, Protocol, Tuple, Union

from lockrun import (FORGOTTEN, FULL, NO_MEMORY, NOTHING, OK, Handle, Journal, LockError, Session, bytes_of,
                     library_path, load, numbered, said, version)
from lockrun.calls import Hints
from lockrun.script import in_version
from lockrun.victims import nobody
from lockrun.work import FOR_MEMORY, FORGET_AFTER, Bell

# How many bytes of a frame aren't of its letter.
AROUND = 39


class Transport(Protocol):
    """What carries bytes between nodes; `lockrun_zmq` has one over ZeroMQ."""

    def carry(self, node: int, frames: bytes) -> None:
        """Carries bytes to a node."""

    def sleep(self, patience: Optional[float]) -> Iterable[Tuple[int, bytes]]:
        """Sleeps until bytes come, at most so many seconds, or for ever if that is None: pairs of a node and what came
        from it."""


class Apart:
    """One node of a script in this process; all other nodes lie in other processes, and are opened with the same
    script, key and start, a number that differs from that of each earlier time. One thread makes all calls. While a
    session waits it takes in what came, turns the node, gives out what the node sends, and sleeps until something
    comes; while it makes no call the node answers nobody, so a thread that has other work calls `serve` between its
    parts. The node forgets what it did, unless it is to keep it for its journal."""

    def __init__(self, script: str, me: int, nodes: int, key: bytes, start: int, transport: Transport,
                 limit: int = 1 << 40, library: Optional[str] = None, *, keep: bool = False) -> None:
        self.library, self.me, self.nodes, self.transport = load(library or library_path()), me, nodes, transport
        self.clients, self.came = numbered(script), [bytearray() for _ in range(nodes)]
        self.frames = (c_uint8 * (1 << 16))()
        self.sent = self.received = 0
        self.gives_up, self.keep, self.victims = version(script) != 2, keep, nobody()
        # The numbers of sets that were named here before.
        self.sets: Dict[str, int] = {}
        self.handle = Handle()
        said(self.library.lockrun_node_open(*bytes_of(in_version(script)), me, *bytes_of(key), start, limit, 4,
                                            self.handle))
        self.work = ApartWork(self)
        self.sessions: Dict[int, Session] = {}
        while (code := self.library.lockrun_take_session(self.handle, handle := Handle())) == OK:
            session = Session(self, handle)
            self.sessions[session.client] = session
        if code != NOTHING:
            raise LockError(code)

    def session(self, client: str) -> Session:
        """The session of this node's client with this name."""
        return self.sessions[self.clients[client]]

    def serve(self, patience: Optional[float] = 0) -> None:
        """Takes in what came, turns the node and gives out what it sends, and sleeps at most so many seconds before
        it, until something comes."""
        for node, frames in self.transport.sleep(patience):
            self.came[node] += frames
        self.turn()

    def pending(self, node: int) -> bool:
        """Whether something waits to be carried to a node."""
        code = self.library.lockrun_pending(self.handle, node)
        if code not in (OK, NOTHING):
            raise LockError(code)
        return bool(code == OK)

    def forget(self) -> None:
        """Lets the node forget its moves and commands; then it has no journal."""
        said(self.library.lockrun_forget(self.handle))

    def finish(self) -> Journal:
        """Ends the node: the lines of its own moves, with the line `cut NODE` after them, and the script with the
        commands of its own clients, if it was opened with keep=True. tools/join joins those of all nodes."""
        journal = Handle()
        if not self.keep:
            self.library.lockrun_free(self.handle)
            raise LockError(FORGOTTEN)
        said(self.library.lockrun_node_finish(self.handle, journal))
        return Journal(self.library, journal)

    def receive(self, node: int, frames: Union[bytes, bytearray]) -> Tuple[int, int]:
        """Receives whole frames of a node at the front of the bytes: how many bytes they have, and the code of why no
        more were, or OK."""
        used, data = c_size_t(), (c_uint8 * len(frames)).from_buffer_copy(frames)
        code = self.library.lockrun_receive(self.handle, node, data, len(data), used)
        self.received += count_frames(frames[:used.value])
        return used.value, code

    def send(self, node: int) -> bytes:
        """The next frame that is to be carried to a node, or none."""
        length = c_size_t()
        while (code := self.library.lockrun_send(self.handle, node, self.frames, len(self.frames), length)) == FULL:
            self.frames = (c_uint8 * length.value)()
        if code == NOTHING:
            return b''
        said(code)
        frames = bytes(self.frames[:length.value])
        self.sent += count_frames(frames)
        return frames

    def turn(self) -> bool:
        """Takes in what came, turns the node until it makes no move, and gives out what it sends: what a session does
        that waits. Whether it made a move."""
        for node, frames in self.transport.sleep(0):
            self.came[node] += frames
        moves = False
        self._take_in()
        while self.make_moves():
            moves = True
            self._take_in()
        self.give_out()
        return moves

    def give_out(self) -> None:
        """Gives out what the node sends."""
        for node in range(self.nodes):
            while node != self.me and (frames := self.send(node)):
                self.transport.carry(node, frames)

    def make_moves(self) -> bool:
        """Turns the node until it makes no move: whether it made one."""
        moved = False
        while (code := self.library.lockrun_turn(self.handle)) == OK:
            moved = True
        if code != NOTHING:
            raise LockError(code)
        return moved

    def _take_in(self) -> None:
        for node, came in enumerate(self.came):
            if came:
                used, code = self.receive(node, came)
                del came[:used]
                said(code)


class ApartWork:
    """What turns a node apart for its sessions, which one thread uses."""

    def __init__(self, apart: Apart) -> None:
        self.apart, self.commands = apart, 0

    def station(self, _node: int) -> Handle:
        """The node."""
        return self.apart.handle

    def pass_on(self, hints: Hints, node: Optional[int] = None) -> None:
        """All that is told of comes by `turn` and `leave`."""

    def made(self, _node: int) -> None:
        """A command more was submitted. At times the node forgets what was made; want of memory loses nothing."""
        self.commands += 1
        if self.commands >= FORGET_AFTER and not self.apart.keep:
            self.commands = 0
            self.apart.library.lockrun_forget(self.apart.handle)

    def turn(self, _node: int, _hints: Hints) -> int:
        """Turns of the node."""
        try:
            return OK if self.apart.turn() else NOTHING
        except LockError as error:
            if error.code != NO_MEMORY:
                raise
        time.sleep(FOR_MEMORY)
        return NO_MEMORY

    def drain(self, hints: Hints, _client: int, _is_told: Callable[[], bool]) -> None:
        """Turns of the node."""
        self.turn(0, hints)

    def see(self) -> None:
        """A node that can't go on says so in its turn."""

    def rest(self, _client: int, _sleeper: Bell, is_told: Callable[[], bool], end: Optional[float]) -> None:
        """Sleeps until something comes, or until this time."""
        if is_told():
            return
        for node, frames in self.apart.transport.sleep(None if end is None else max(0, end - time.monotonic())):
            self.apart.came[node] += frames

    async def rest_in_task(self, _client: int, _is_told: Callable[[], bool], _end: Optional[float]) -> None:
        """One thread waits, in which no tasks run."""
        raise RuntimeError('tasks wait at the nodes of one process alone')

    def leave(self, _hints: Hints) -> None:
        """Gives out what the node sends."""
        self.apart.make_moves()
        self.apart.give_out()


def count_frames(frames: Union[bytes, bytearray]) -> int:
    """How many frames these are: each begins with the length of its letter."""
    count = at = 0
    while at < len(frames):
        at += AROUND + int.from_bytes(frames[at:at + 4], 'little')
        count += 1
    return count

"""Nodes apart by ZeroMQ, which is package pyzmq: a PAIR socket for each two nodes, without a high-water mark, so that
nothing is dropped while connections stand.

    transport = Sockets({1: 'tcp://host:5001'}, binds={2: 'tcp://*:5002'})
    apart = Apart(script, me=0, nodes=3, key=key, start=start, transport=transport)
"""
from __future__ import annotations

from importlib import import_module
from typing import Any, Dict, Iterator, Mapping, Optional, Tuple

zmq: Any = import_module('zmq')


class Sockets:
    """The sockets of a node, by the other nodes' numbers and the addresses: it connects to some, and binds those of
    the others, which connect to it."""

    def __init__(self, connects: Mapping[int, str], binds: Mapping[int, str]) -> None:
        self.context, self.poller = zmq.Context(), zmq.Poller()
        self.socket: Dict[int, Any] = {}
        for node, address in binds.items():
            self._socket(node).bind(address)
        for node, address in connects.items():
            self._socket(node).connect(address)
        self.node = {socket: node for node, socket in self.socket.items()}

    def _socket(self, node: int) -> Any:
        socket = self.socket[node] = self.context.socket(zmq.PAIR)
        socket.setsockopt(zmq.SNDHWM, 0)
        socket.setsockopt(zmq.RCVHWM, 0)
        self.poller.register(socket, zmq.POLLIN)
        return socket

    def carry(self, node: int, frames: bytes) -> None:
        """Carries frames to a node."""
        self.socket[node].send(frames)

    def sleep(self, patience: Optional[float]) -> Iterator[Tuple[int, bytes]]:
        """Sleeps until something comes, or for so many seconds: pairs of a node and what came from it."""
        for socket, _ in self.poller.poll(None if patience is None else max(0, patience * 1000)):
            yield self.node[socket], socket.recv()

    def close(self) -> None:
        """Sends what is still to be sent, for at most a second."""
        self.context.destroy(linger=1000)

"""The shared object, by ctypes: its calls, and what crosses in them."""
from __future__ import annotations

import ctypes
import os
import sys
from ctypes import POINTER, c_size_t, c_uint8, c_uint32, c_uint64
from typing import Any, Optional, Sequence, Tuple, Union

from .codes import WRONG_HANDLE, LockError

SHARED = 'liblockrun.so.1'


class Handle(ctypes.Structure):
    """A handle of the library; it is never copied."""
    _fields_ = [('at', ctypes.c_void_p)]
    # Of a station, whether its last turn made a move.
    moved = False


class Clients(ctypes.Structure):
    """A bit for each client."""
    _fields_ = [('bits', c_uint64 * 16)]


AT = POINTER(Handle)
BYTES, NUMBER, COUNT, SIZE = POINTER(c_uint8), POINTER(c_uint32), POINTER(c_uint64), POINTER(c_size_t)
CLIENTS = POINTER(Clients)


class NewSet(ctypes.Structure):
    """A further set, by its name and that of its parent."""
    _fields_ = [('name', BYTES), ('length', c_size_t), ('parent', BYTES), ('parent_length', c_size_t)]


SETS = POINTER(NewSet)
EXPORTS = {
    'lockrun_open': (c_uint32, BYTES, c_size_t, c_uint64, c_uint32, AT),
    'lockrun_open_sets': (c_uint32, BYTES, c_size_t, SETS, c_size_t, c_uint64, c_uint32, AT),
    'lockrun_open_keys': (c_uint32, BYTES, c_size_t, c_uint32, c_uint32, c_uint64, c_uint32, AT),
    'lockrun_fault': (c_uint32, BYTES, c_size_t, COUNT, NUMBER),
    'lockrun_key': (c_uint32, c_uint32, c_uint32, c_uint32, BYTES, c_size_t, BYTES, c_size_t, NUMBER),
    'lockrun_take_station': (c_uint32, AT, AT),
    'lockrun_take_session': (c_uint32, AT, AT),
    'lockrun_turn': (c_uint32, AT),
    'lockrun_forget': (c_uint32, AT),
    'lockrun_submit': (c_uint32, AT, c_uint32, c_uint32, c_uint32, c_uint32),
    'lockrun_poll': (c_uint32, AT, COUNT),
    'lockrun_set': (c_uint32, AT, BYTES, c_size_t, NUMBER),
    'lockrun_left': (c_uint64, AT),
    'lockrun_client': (c_uint32, AT),
    'lockrun_home': (c_uint32, AT),
    'lockrun_give': (c_uint32, AT, AT),
    'lockrun_served': (c_uint32, AT, SIZE, SIZE),
    'lockrun_finish': (c_uint32, AT, AT),
    'lockrun_copy': (c_size_t, AT, c_size_t, BYTES, c_size_t),
    'lockrun_script': (c_size_t, AT, c_size_t, BYTES, c_size_t),
    'lockrun_end': (c_uint32, AT, SIZE, SIZE),
    'lockrun_free': (None, AT),
    'lockrun_node_open': (c_uint32, BYTES, c_size_t, c_uint32, BYTES, c_size_t, c_size_t, c_size_t, c_uint32, AT),
    'lockrun_send': (c_uint32, AT, c_uint32, BYTES, c_size_t, SIZE),
    'lockrun_receive': (c_uint32, AT, c_uint32, BYTES, c_size_t, SIZE),
    'lockrun_pending': (c_uint32, AT, c_uint32),
    'lockrun_node_finish': (c_uint32, AT, AT),
}
# Calls without which the module does: `calls` has what it makes of the others then.
FURTHER = {
    'lockrun_turn_telling': (c_uint32, AT, COUNT, CLIENTS),
    'lockrun_do': (c_uint32, AT, AT, c_uint32, c_uint32, c_uint32, c_uint32, COUNT, COUNT, CLIENTS),
    'lockrun_held': (c_uint32, AT, c_uint32, c_uint32, NUMBER),
    'lockrun_locks': (c_size_t, AT, c_uint32, c_uint32, c_uint32),
    'lockrun_asked': (c_uint32, AT, c_uint32, NUMBER, NUMBER),
    'lockrun_behind': (c_uint32, AT, c_uint32, c_uint32, c_uint32),
    'lockrun_count': (c_uint32, AT, COUNT, COUNT, COUNT, c_size_t),
}


def library_path() -> str:
    """The shared object, by its path or its name."""
    beside = os.path.join(os.path.dirname(os.path.abspath(__file__)), SHARED)
    return os.environ.get('LOCKRUN_LIBRARY') or (beside if os.path.exists(beside) else SHARED)


class Library(ctypes.PyDLL):
    """The library, and whether it has the calls that tell of turns, and those that tell of locks."""
    tells = views = False


def load(path: str) -> Library:
    """The library, with the types of its exports. Each call keeps the interpreter's lock, so that no two calls
    overlap: all of them are short, and none waits."""
    if not getattr(sys, '_is_gil_enabled', lambda: True)():
        raise RuntimeError("lockrun wants the interpreter's lock: start Python with -X gil=1")
    library = Library(path)
    for name, (result, *arguments) in [*EXPORTS.items(), *(row for row in FURTHER.items() if hasattr(library, row[0]))]:
        call = getattr(library, name)
        call.restype, call.argtypes = result, arguments
    library.tells = hasattr(library, 'lockrun_turn_telling') and hasattr(library, 'lockrun_do')
    library.views = hasattr(library, 'lockrun_held')
    return library


def live(handle: Handle) -> Handle:
    """The handle, which stands for nothing once the nodes have ended."""
    if not handle.at:
        raise LockError(WRONG_HANDLE)
    return handle


def bytes_of(text: Union[str, bytes]) -> Tuple[Any, int]:
    """The bytes of a text for C, and how many they are."""
    data = text.encode() if isinstance(text, str) else text
    return (c_uint8 * len(data)).from_buffer_copy(data), len(data)


def new_sets(sets: Sequence[Tuple[str, Optional[str]]]) -> Any:
    """Further sets for C, where a parent of no bytes is none."""
    return (NewSet * len(sets))(*(NewSet(*bytes_of(name), *bytes_of(parent or '')) for name, parent in sets))

"""Sessions of the lock service for Python, by ctypes.

LOCKRUN_LIBRARY names the shared object; else it lies beside this file, as in the wheel, or where the system looks for
it. No thread runs the nodes: whoever waits turns those that have work, and then sleeps until it is told a reply. A
session is used by one thread, or one task, at a time.

A call with a timeout, in seconds, gives up once the time is over: it raises Withdrawn, and then the session asks for
nothing and holds what it held. Only version 3 of scripts knows how to give up: its line is put before a script that
has no line of a version. In version 2, if the script says so, such a call raises LockError.

    nodes = Nodes('nodes 1\\nset counter\\nclient ann at 0\\nclient ben at 0\\n')
    with nodes.session('ann').lock('counter', 'write'):
        ...

    async with nodes.client(timeout=1) as client, client.lock_async('counter', 'write', timeout=1):
        ...
"""
from ctypes import c_size_t, c_uint8, c_uint32, c_uint64

from .codes import (AGAIN, BAD_ARGUMENT, BAD_SCRIPT, BAD_SEAL, BAD_SET, BUSY, CHANGE, CHANGED, DROP, DROPPED, FALSE,
                    FAULTS, FORGOTTEN, FULL, GRANTED, LOCK, LOG_FULL, MISFIT, MISSING, MODES, NAMES_FULL, NO_LETTER,
                    NO_MEMORY, NOT_HELD, NOTHING, OK, OTHER_NODE, OTHER_SERVICE, OTHER_VERSION, SPENT, TOO_LONG,
                    TOO_MANY, TRUE, TRY, UNLOCK, UNLOCKED, WITHDRAW, WITHDRAWN, WITHHELD, WRONG_HANDLE, LockError,
                    NamesFull, StillWaits, Victim, Withdrawn, fault_of, number_of, said)
from .guard import Guard
from .journal import Journal
from .keys import Key
from .library import (AT, BYTES, CLIENTS, COUNT, EXPORTS, FURTHER, NUMBER, SETS, SHARED, SIZE, Clients, Handle, NewSet,
                      bytes_of, library_path, live, load, new_sets)
from .nodes import Nodes
from .script import numbered, version
from .session import Session
from .turned import Turned
from .view import Lock, Locks

__all__ = [
    'c_size_t', 'c_uint8', 'c_uint32', 'c_uint64', 'AGAIN', 'BAD_ARGUMENT', 'BAD_SCRIPT', 'BAD_SEAL', 'BAD_SET',
    'BUSY', 'CHANGE', 'CHANGED', 'DROP', 'DROPPED', 'FALSE', 'FAULTS', 'FORGOTTEN', 'FULL', 'GRANTED', 'LOCK',
    'LOG_FULL', 'MISFIT', 'MISSING', 'MODES', 'NAMES_FULL', 'NO_LETTER', 'NO_MEMORY', 'NOT_HELD', 'NOTHING', 'OK',
    'OTHER_NODE', 'OTHER_SERVICE', 'OTHER_VERSION', 'SPENT', 'TOO_LONG', 'TOO_MANY', 'TRUE', 'TRY', 'UNLOCK',
    'UNLOCKED', 'WITHDRAW', 'WITHDRAWN', 'WITHHELD', 'WRONG_HANDLE', 'LockError', 'NamesFull', 'StillWaits', 'Victim',
    'Withdrawn', 'fault_of', 'number_of', 'said', 'Guard', 'Journal', 'Key', 'AT', 'BYTES', 'CLIENTS', 'COUNT',
    'EXPORTS', 'FURTHER', 'NUMBER', 'SETS', 'SHARED', 'SIZE', 'Clients', 'Handle', 'NewSet', 'bytes_of',
    'library_path', 'live', 'load', 'new_sets', 'Nodes', 'numbered', 'version', 'Session', 'Turned', 'Lock', 'Locks',
]

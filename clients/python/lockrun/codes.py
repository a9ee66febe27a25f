"""The numbers of lockrun.h, and the errors that they stand for."""
from __future__ import annotations

from typing import Optional

OK, NOTHING, WRONG_HANDLE, NO_MEMORY, BAD_ARGUMENT, BAD_SCRIPT, SPENT, FULL, LOG_FULL, FORGOTTEN, TOO_MANY, BAD_SET = \
    range(12)
OTHER_VERSION, OTHER_SERVICE, OTHER_NODE, MISSING, AGAIN, TOO_LONG, BAD_SEAL, NO_LETTER, MISFIT = range(40, 49)
LOCK, TRY, UNLOCK, CHANGE, DROP, WITHDRAW = range(6)
GRANTED, TRUE, FALSE, UNLOCKED, NOT_HELD, CHANGED, DROPPED, BUSY, WITHDRAWN, WITHHELD = range(16, 26)
# Of this module alone: all sets for names are in use.
NAMES_FULL = 33
MODES = ('intention_read', 'read', 'upgrade', 'intention_write', 'read_intention_write', 'write')

FAULTS = {
    NOTHING: 'nothing is asked for',
    WRONG_HANDLE: 'the nodes have ended, or the session was given back',
    NO_MEMORY: 'out of memory',
    BAD_ARGUMENT: 'a number out of range, or the script has no such set, mode or client',
    BAD_SCRIPT: 'the script has a fault',
    SPENT: "the session's share of commands is used up",
    LOG_FULL: 'a node made as many moves as it may',
    FORGOTTEN: 'a node has forgotten moves or commands: nodes opened with keep=True forget none',
    TOO_MANY: 'more than 65,536 sets; or more than 8 sets or 4,096 commands, and so no journal',
    BAD_SET: 'a further set has no new name, or its parent is no set before it',
    OTHER_VERSION: 'a frame is of another version of the format',
    OTHER_SERVICE: 'a frame is of another service: of another script, or of another start',
    OTHER_NODE: 'a frame is of another node, or for another one',
    MISSING: 'frames before this one are missing',
    AGAIN: 'a frame was received before',
    TOO_LONG: 'a letter has more bytes than one may have',
    BAD_SEAL: 'a frame was damaged, or made by one who does not have the key',
    NO_LETTER: 'a frame has no letter',
    MISFIT: 'a letter fits no node that was opened with this script',
    NOT_HELD: "the client doesn't hold this mode",
    BUSY: 'the client whose locks should be dropped waits',
    NAMES_FULL: 'all sets for names, or all of the family of a name, are in use',
    WITHHELD: 'what the client gave up in this set still stands',
}

# The faults of a line of a script, by their numbers in docs/use/FORMATS.md.
SCRIPT_FAULTS = {
    1: 'a byte that is neither a tab nor printable ASCII',
    2: 'more than 200 bytes',
    3: 'no form of a line: version NUMBER, nodes NUMBER, set NAME, set NAME with SET, client NAME at NODE, a command',
    4: 'a word that is no number of 1 to 9 digits, 0 nodes, or a node that is not there',
    5: 'the line stands in the wrong place, or `nodes NUMBER` is missing before it',
    6: 'a word that is no name: 1 to 32 letters, digits, _, - and ., a letter first, and no word that lines begin with',
    7: 'a name that was declared before',
    8: 'a set or a client that was not declared before',
    9: "one more than the script's version has: 8 sets, 16 clients of a node; 64 nodes, 1,024 clients in version 3",
    10: "a word that is no mode of the script's version",
    11: 'a drop or a withdraw of a client of another node',
}


class LockError(Exception):
    """A call that can't be answered; `code` is that of lockrun.h. Of a script that has a fault, `line` is the number
    of its first line that has one, and `fault` the number of the fault in docs/use/FORMATS.md."""

    def __init__(self, code: int, reason: Optional[str] = None, line: Optional[int] = None,
                 fault: Optional[int] = None) -> None:
        super().__init__(reason or FAULTS.get(code, f'code {code}'))
        self.code, self.line, self.fault = code, line, fault


class StillWaits(Exception):
    """The time is over, and the lock is still asked for: `Session.wait` goes on waiting, `Session.give_up` gives it
    up."""


class Withdrawn(TimeoutError):
    """The wait was given up, since its time is over or another client gave it up. The session asks for nothing, and
    holds what it held."""


class Victim(LockError):
    """The wait was in a ring of waits, and the session, which asked last of them, gave up by the policy of victims. It
    asks for nothing, and holds what it held."""

    def __init__(self) -> None:
        super().__init__(WITHDRAWN, 'the wait was in a ring of waits, and was given up as the youngest')


class NamesFull(LockError):
    """All sets for names, or all of the family of a name's parent, are in use."""

    def __init__(self) -> None:
        super().__init__(NAMES_FULL)


def said(code: int) -> None:
    """Raises the error that a code stands for."""
    if code != OK:
        raise LockError(code)


def fault_of(code: int) -> Exception:
    """The error that a reply stands for."""
    return Withdrawn() if code == WITHDRAWN else LockError(code)


def number_of(mode: str) -> int:
    """The number of a mode."""
    if mode not in MODES:
        raise ValueError(f'{mode!r} is no mode: {", ".join(MODES)}')
    return MODES.index(mode)

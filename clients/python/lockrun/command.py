"""One command of a session, and what was answered."""
from __future__ import annotations

from typing import List, Optional, Tuple

from .codes import FALSE, GRANTED, LOCK, LOG_FULL, NO_MEMORY, NOTHING, OK, TRUE, TRY
from .keys import Name


def is_submitted(answers: List[int]) -> bool:
    """Whether the call that submits was made and wasn't refused. Its answer is the first one, and a turn of it may
    have found no memory, or no place in the log."""
    return bool(answers) and (answers[0] >= GRANTED or answers[0] in (OK, NOTHING, NO_MEMORY, LOG_FULL))


class Command:
    """A command, with all answers of the calls that were made for it. The calls put them there themselves, so that
    what was submitted and what was replied is known wherever an exception, as one of the keyboard, came in between."""
    __slots__ = ('kind', 'name', 'set', 'first', 'second', 'answers', 'withdraws', 'closed')

    def __init__(self, kind: int, name: Name, number: int, first: int, second: int = 0) -> None:
        self.kind, self.name, self.set, self.first, self.second = kind, name, number, first, second
        self.again()

    def again(self) -> None:
        """It is to be submitted, and not yet answered. `withdraws` are the answers to a withdraw of it, and it is
        closed once the session keeps what its reply says."""
        self.answers: List[int] = []
        self.withdraws: List[int] = []
        self.closed = False

    def numbers(self) -> Tuple[int, int, int, int]:
        """What is submitted."""
        return self.kind, self.set, self.first, self.second

    def reply(self) -> Optional[int]:
        """The reply to it, if it is there."""
        if self.answers and self.answers[0] >= GRANTED:
            return self.answers[0]
        replies = (code for code in self.answers + self.withdraws if code >= GRANTED)
        return next((code for code in replies if not self.withdraws or code not in (TRUE, FALSE)), None)

    def to_come(self) -> int:
        """How many replies are still to come: of it, and of a withdraw of it."""
        replies = sum(code >= GRANTED for code in self.answers) + sum(code >= GRANTED for code in self.withdraws)
        return is_submitted(self.answers) + is_submitted(self.withdraws) - replies

    def grants(self) -> bool:
        """Whether a lock was got."""
        reply = self.reply()
        return (reply == GRANTED and self.kind == LOCK) or (reply == TRUE and self.kind == TRY)

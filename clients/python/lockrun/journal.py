"""What nodes did."""
from __future__ import annotations

from ctypes import c_size_t, c_uint8
from typing import Callable

from .codes import said
from .library import Handle, Library


class Journal:
    """The text of the script with all commands, the journal, and how many lines of it say what is held and who
    waits."""

    def __init__(self, library: Library, handle: Handle) -> None:
        held, waiting = c_size_t(), c_size_t()
        said(library.lockrun_end(handle, held, waiting))
        self.held, self.waiting = held.value, waiting.value
        self.script, self.text = (self._text(copy, handle) for copy in (library.lockrun_script, library.lockrun_copy))
        library.lockrun_free(handle)

    @staticmethod
    def _text(copy: Callable[..., int], handle: Handle) -> str:
        whole, part = bytearray(), (c_uint8 * 4096)()
        while count := copy(handle, len(whole), part, len(part)):
            whole += bytes(part[:count])
        return whole.decode()

"""What a script declares, and what is wrong with it."""
from __future__ import annotations

import re
from typing import Dict, List, Optional, Sequence, Tuple

from .calls import first_fault
from .codes import BAD_SCRIPT, BAD_SET, SCRIPT_FAULTS, LockError
from .library import Library

Sets = Sequence[Tuple[str, Optional[str]]]
NAME = re.compile(r'[A-Za-z][A-Za-z0-9_.-]{0,31}')
WORDS = ('nodes', 'set', 'client', 'journal', 'version')


def named(script: str, kind: str) -> List[str]:
    """The names that lines of this kind declare, `set` or `client`, in their order."""
    lines = (line.split() for line in script.splitlines())
    return [words[1] for words in lines if words[:1] == [kind] and len(words) > 1]


def numbered(script: str) -> Dict[str, int]:
    """The numbers of the clients by their names."""
    return {name: number for number, name in enumerate(named(script, 'client'))}


def version(script: str) -> int:
    """The number of the script's version, by its first line that isn't skipped."""
    lines = (line.split() for line in script.splitlines())
    first: List[str] = next((words for words in lines if words and not words[0].startswith('#')), [])
    return 1 if first[:1] != ['version'] else 3 if first[1:] == ['3'] else 2


def in_version(script: str) -> str:
    """The script, with the line `version 3` before it if it has none."""
    return 'version 3\n' * (version(script) == 1) + script


def error_of(library: Library, code: int, script: str, sets: Sets = ()) -> LockError:
    """Why nodes aren't opened with this script and these further sets."""
    found = first_fault(library, in_version(script)) if code == BAD_SCRIPT else None
    if found is not None:
        line, fault = found[0] - (version(script) == 1), found[1]
        lines = script.splitlines()
        text = f': {lines[line - 1].strip()!r}' if 1 <= line <= len(lines) else ''
        return LockError(code, f'line {line}: S{fault}: {SCRIPT_FAULTS.get(fault, "a fault")}{text}', line, fault)
    return LockError(code, fault_of_sets(script, sets) if code == BAD_SET else None)


def fault_of_sets(script: str, sets: Sets) -> Optional[str]:
    """Which further set is refused, and why."""
    before, clients = set(named(script, 'set')), set(named(script, 'client'))
    for name, parent in sets:
        if not NAME.fullmatch(name) or name in WORDS:
            return f'the further set {name!r}: {SCRIPT_FAULTS[6]}'
        if name in before or name in clients:
            return f'the further set {name!r}: {SCRIPT_FAULTS[7]}'
        if parent and parent not in before:
            return f'the further set {name!r}: its parent {parent!r} is no set before it'
        before.add(name)
    return None

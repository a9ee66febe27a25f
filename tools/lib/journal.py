"""Reads scripts and journals. The forms are those of docs/use/FORMATS.md."""
import os
import re
import sys
from dataclasses import dataclass, field
from pathlib import Path
from typing import NamedTuple, Optional

MOST_NODES = {1: 16, 2: 64, 3: 64}         # by version
MOST_CLIENTS = {1: 64, 2: 256, 3: 1024}    # by version
MOST_OF_NODE, MOST_SETS, MOST_COMMANDS, MOST_IN_LINE = 16, 8, 4096, 200
LATER = {'2': 2, '3': 3}   # the versions that have a line, by its second word
SIXTH = 'read_intention_write'
MODES = ['intention_read', 'read', 'upgrade', 'intention_write', SIXTH, 'write']
CONFLICTS = {
    'intention_read': {'write'},
    'read': {'intention_write', SIXTH, 'write'},
    'upgrade': {'upgrade', 'intention_write', SIXTH, 'write'},
    'intention_write': {'read', 'upgrade', SIXTH, 'write'},
    SIXTH: {'read', 'upgrade', 'intention_write', SIXTH, 'write'},
    'write': set(MODES),
}
SHOWN = ('copy', 'freeze', 'token')
KINDS = ('ask', 'tell') + SHOWN

# The words after the first one: client, set, mode, node, number, flag, modes.
EVENTS = {
    'grant': 'csm', 'wait': 'csm', 'try': 'csmf', 'unlock': 'csm', 'not_held': 'csm',
    'change': 'csmm', 'drop': 'ccsn', 'busy': 'ccs',
    'withdrawn': 'csm', 'withdraw': 'ccsf', 'void': 'csm', 'withheld': 'csm',
    'copy': 'spcm', 'freeze': 'spnM', 'token': 'spn',
}
LATER_EVENTS = ('withdrawn', 'withdraw', 'void', 'withheld')   # those of version 3 alone
CLOSING = {'held': 'csmn', 'waiting': 'csm', 'owner': 'spn', 'end': 'n', 'cut': 'p'}

# The words of a command, after the client and the word that says which command it is.
COMMANDS = {'lock': 'sm', 'try': 'sm', 'unlock': 'sm', 'change': 'smm', 'drop': 'cs', 'withdraw': 'cs'}
NO_NAMES = ('nodes', 'set', 'client', 'journal', 'version')


class Fault(Exception):
    """What is wrong with a script, or why a journal doesn't fit it."""


@dataclass
class Script:
    version: int = 1
    nodes: int = 0
    family: dict = field(default_factory=dict)    # of each set, in order
    node_of: dict = field(default_factory=dict)   # of each client, in order
    commands: dict = field(default_factory=dict)  # of each client
    lines: dict = field(default_factory=dict)     # of each client, the lines of its commands

    def has_mode(self, word):
        """Whether a word is a mode word of the script's version."""
        return word in MODES and (self.version > 1 or word != SIXTH)

    def count(self):
        """How many commands there are."""
        return sum(map(len, self.commands.values()))

    def family_of(self, name):
        """The sets of the family of a set, in order."""
        return [other for other in self.family if self.family[other] == self.family[name]]


class Event(NamedTuple):
    """An event line or a closing line."""
    number: int
    kind: str
    words: list

    @property
    def text(self):
        """The line itself."""
        return ' '.join([self.kind] + self.words)

    @property
    def gets(self):
        """Whether the line says that its client got a lock."""
        return self.kind in ('grant', 'change') or self.kind == 'try' and self.words[-1] == 'true'

    @property
    def is_refused(self):
        """Whether the line is of a `try` that didn't get its lock."""
        return self.kind == 'try' and self.words[-1] == 'false'

    @property
    def set(self):
        """The set that the line names."""
        form = {**EVENTS, **CLOSING}[self.kind]
        return self.words[form.index('s')]


@dataclass
class Move:
    number: int               # its place in the journal, from 1
    line: int
    clock: int
    node: int
    client: Optional[str]     # of an act
    sender: Optional[int]     # of a take
    events: list = field(default_factory=list)
    letter: object = None     # that a take took


class Ask(NamedTuple):
    client: str
    node: int
    mode: str
    stamp: tuple
    is_holder: bool = False           # whether the client held some lock of the set
    gives_up: Optional[str] = None    # the mode that a change gives up


@dataclass
class Letter:
    kind: str
    set: str
    to: int
    sent: Move
    link: tuple
    text: str
    ask: Optional[Ask] = None
    by_hoped: bool = False
    taken: Optional[Move] = None
    tell: object = None       # of a tell, what it tells
    frozen: tuple = ()        # of a freeze, its number and modes


@dataclass
class Journal:
    name: str
    script: Script
    moves: list
    closing: list
    letters: list = field(default_factory=list)
    lines: int = 0                        # how many lines the text has, or those before one that can't stand there
    bad: Optional[int] = None             # the number of that line

    @property
    def is_cut(self):
        """Whether the run was cut, so that letters may be left."""
        return [line.kind for line in self.closing] == ['cut']


def in_order(modes):
    """The words of these modes in the order of modes, or `none`."""
    return ' '.join(mode for mode in MODES if mode in modes) or 'none'


# ---------------------------------------------------------------- reading

def read_script(data):
    """The script of a text. Its first fault is the one that the program finds (docs/use/FORMATS.md, Faults)."""
    script = Script()
    lines = lines_of(data)
    is_first = True
    for number, line in enumerate(lines, 1):
        words = words_of(line)
        if not words or words[0].startswith('#'):
            continue
        if is_first and is_version(words) and len(line) <= MOST_IN_LINE:
            script.version = LATER[words[1]]
        elif fault := line_fault(script, line, words):
            raise Fault(f'the script has a fault in line {number}: S{fault}')
        else:
            take_line(script, words, number)
        is_first = False
    if script.nodes == 0:
        raise Fault(f'the script has a fault in line {len(lines) + 1}: S5')
    return script


def words_of(line):
    """The words of a line of a script."""
    return [word for word in re.split('[ \t]', line) if word]


def line_fault(script, line, words):
    """The number of the first fault of a line, or 0."""
    if re.search('[^\t -~]', line):
        return 1
    if len(line) > MOST_IN_LINE:
        return 2
    form = form_of(script.version, words)
    if form is None:
        return 3
    return next((fault for fault, test in enumerate(TESTS, 4) if test(script, form, words)), 0)


def is_version(words):
    """Whether the words are those of a `version` line."""
    return len(words) == 2 and words[0] == 'version' and words[1] in LATER


def form_of(version, words):
    """Which form a line of a script of this version has: its first word, or of a command the second; or None."""
    first = words[0]
    if first == 'version':
        return first if is_version(words) and (words[1] == '2' or version == 3) else None
    if first == 'nodes':
        return first if len(words) == 2 else None
    if first == 'set':
        return first if len(words) == 2 or len(words) == 4 and words[2] == 'with' else None
    if first == 'client':
        return first if len(words) == 4 and words[2] == 'at' else None
    verb = words[1] if words[1:] else ''
    known = verb in COMMANDS and (verb != 'withdraw' or version == 3)
    return verb if known and len(words) == 2 + len(COMMANDS[verb]) else None


def has_bad_number(script, form, words):
    """S4: a number word that is none, or names a node that isn't there."""
    if form == 'nodes':
        return not is_short_number(words[1]) or int(words[1]) == 0
    if form == 'client':
        return not is_short_number(words[3]) or 0 < script.nodes <= int(words[3])
    return False


def is_misplaced(script, form, words):
    """S5: the line `nodes` isn't the first one, or another line is."""
    return (form == 'nodes') == (script.nodes > 0) or form == 'version'


def declares_no_name(script, form, words):
    """S6: a word is declared that is no name."""
    return form in ('set', 'client') and not is_name(words[1])


def declares_again(script, form, words):
    """S7: a name is declared that was declared before."""
    return form in ('set', 'client') and (words[1] in script.family or words[1] in script.node_of)


def uses_unknown(script, form, words):
    """S8: a set or a client is used that wasn't declared before."""
    if form == 'set':
        return len(words) == 4 and words[3] not in script.family
    if form not in COMMANDS:
        return False
    known = {'c': script.node_of, 's': script.family}
    named = zip(words[2:], COMMANDS[form])
    return words[0] not in script.node_of or any(word not in known[kind] for word, kind in named if kind in known)


def exceeds_limit(script, form, words):
    """S9: one node, set, client or command too many."""
    if form == 'nodes':
        return int(words[1]) > MOST_NODES[script.version]
    if form == 'set':
        return len(script.family) >= MOST_SETS
    if form == 'client':
        nodes = list(script.node_of.values())
        return len(nodes) >= MOST_CLIENTS[script.version] or nodes.count(int(words[3])) >= MOST_OF_NODE
    return form in COMMANDS and script.count() >= MOST_COMMANDS


def uses_no_mode(script, form, words):
    """S10: a word in a mode's place is no mode word of the script's version."""
    named = zip(words[2:], COMMANDS.get(form, ''))
    return any(not script.has_mode(word) for word, kind in named if kind == 'm')


def reaches_elsewhere(script, form, words):
    """S11: a `drop` or a `withdraw` of a client of another node."""
    return form in ('drop', 'withdraw') and script.node_of[words[2]] != script.node_of[words[0]]


# The tests of a line that has a form, in the order of the faults' numbers.
TESTS = (has_bad_number, is_misplaced, declares_no_name, declares_again, uses_unknown, exceeds_limit, uses_no_mode,
         reaches_elsewhere)


def is_short_number(word):
    """Whether a word has 1 to 9 digits."""
    return re.fullmatch('[0-9]{1,9}', word) is not None


def is_name(word):
    """Whether a word is a name."""
    return re.fullmatch('[A-Za-z][A-Za-z0-9_.-]{0,31}', word) is not None and word not in NO_NAMES


def take_line(script, words, number):
    """Takes the words of a line without fault into the script."""
    if words[0] == 'nodes':
        script.nodes = int(words[1])
    elif words[0] == 'set':
        script.family[words[1]] = script.family[words[3]] if words[2:] else words[1]
    elif words[0] == 'client':
        script.node_of[words[1]] = int(words[3])
        script.commands[words[1]], script.lines[words[1]] = [], []
    else:
        script.commands[words[0]].append(words[1:])
        script.lines[words[0]].append(number)


def has_form(script, words, form):
    """Whether the words are of the kinds that the letters of the form name."""
    if form.endswith('M'):
        modes = words[len(form) - 1:]
        return has_form(script, words[:len(form) - 1], form[:-1]) and modes == in_order(modes).split()
    tests = {
        'c': lambda word: word in script.node_of,
        's': lambda word: word in script.family,
        'm': script.has_mode,
        'n': is_number,
        'p': lambda word: is_number(word) and int(word) < script.nodes,
        'f': lambda word: word in ('true', 'false'),
    }
    return len(words) == len(form) and all(tests[kind](word) for kind, word in zip(form, words))


def lines_of(data):
    """The lines of a text, without their line ends, to which a carriage return belongs; nothing after the last one."""
    lines = data.split('\n')
    return [line.removesuffix('\r') for line in (lines[:-1] if lines[-1] == '' else lines)]


def is_number(word):
    """Whether a word is a number below 2^32 without leading zeros."""
    return re.fullmatch('0|[1-9][0-9]{0,9}', word) is not None and int(word) < 2 ** 32


def read_journal(name, script, data):
    """The moves and the closing lines of a text, up to the first line that has no form that can stand there."""
    journal = Journal(name, script, [], [])
    first = [f'version {script.version}'] if script.version > 1 else []
    lines = lines_of(data)
    if lines[:len(first)] != first:
        raise unfit(1, f'the first line is `{first[0]}`, as in the script')
    numbered = list(enumerate(lines, 1))[len(first):]
    journal.bad = next((number for number, line in numbered if not read_line(journal, number, line.split(' '))), None)
    journal.lines = len(lines)
    return journal


def read_line(journal, number, words):
    """Takes a line into the journal; whether it has a form that can stand there."""
    if words[0] == 'move' and not journal.closing:
        return read_move(journal, words, number)
    is_event = words[0] in EVENTS and bool(journal.moves) and not journal.closing
    form = EVENTS.get(words[0]) if is_event else CLOSING.get(words[0])
    if form is None or not has_form(journal.script, words[1:], form):
        return False
    if words[0] in LATER_EVENTS and journal.script.version < 3:
        return False
    (journal.moves[-1].events if is_event else journal.closing).append(Event(number, words[0], words[1:]))
    return True


def read_move(journal, words, line):
    """Takes a line whose first word is `move`; whether it has the form of a move."""
    is_act = has_form(journal.script, words[1:3] + words[4:], 'npc') and words[3] == 'act'
    is_take = has_form(journal.script, words[1:3] + words[4:], 'npp') and words[3] == 'take'
    if is_act or is_take:
        client, sender = (words[4], None) if is_act else (None, int(words[4]))
        journal.moves.append(Move(len(journal.moves) + 1, line, int(words[1]), int(words[2]), client, sender))
    return is_act or is_take


def unfit(line, what):
    """The fault of a journal, with the number of its line."""
    return Fault(f"the journal doesn't fit the script: line {line}: {what}")


# ---------------------------------------------------------------- the command line

def serve(tool, usage, write, words, more=''):
    """Reads a script and its journal, and prints what `write` makes of them."""
    def make():
        script = read_script(text_of(words[0]))
        return write(read_journal(Path(words[0]).stem, script, text_of(words[1])))

    return answer(tool, f'usage: {tool} SCRIPT JOURNAL{more}\n\n{usage}\n', make, words)


def answer(tool, page, make, words, has_files=None):
    """Prints what is made of files, two of them if nothing else is said, or the page of help; the status, which is 1
    where a line tells what is wrong."""
    is_help = words in (['--help'], ['-h'])
    has_files = len(words) == 2 if has_files is None else has_files
    if not has_files and not is_help:
        print(page, end='', file=sys.stderr)
        return 1
    try:
        print(page if is_help else make(), end='', flush=True)
    except (Fault, OSError) as fault:
        is_write = isinstance(fault, OSError) and fault.filename is None
        what = f'{fault.filename}: {fault.strerror}' if isinstance(fault, OSError) else fault
        print(f'{tool}: {"write fault" if is_write else what}', file=sys.stderr)
        if is_write:
            os.dup2(os.open(os.devnull, os.O_WRONLY), 1)   # what is left of the text goes nowhere
        return 1
    return 0


def text_of(path):
    """The text of a file; a byte outside ASCII, as in a comment, is a letter of its own."""
    with open(path, encoding='latin-1', newline='\n') as file:
        return file.read()

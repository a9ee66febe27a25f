"""Reads the types and constants of the code that definitions name: each with its lines, and what its fields name."""
import re
from dataclasses import dataclass
from functools import cached_property

from .definitions import CRATES

NAMED = re.compile(r'Rattle\.(\w+)\.specs\.declared\.([\w.]+)')
TYPE = re.compile(r'^(?:pub(?:\(crate\))? )?(?:struct|enum) (\w+)', re.M)
CONSTANT = re.compile(r'^(?:pub(?:\(crate\))? )?const (\w+):', re.M)
SEEN_AS = re.compile(r'^impl(?:<[^>]*>)? Model for (\w+)', re.M)
USE = re.compile(r'^(?:pub )?use (\w+)(?:::\w+)*::(?:\{([^}]*)\}|(\w+));', re.M)
COMMENT = re.compile(r' *//.*')


@dataclass(frozen=True)
class Item:
    """A type or a constant of the code, with its file from the crate's folder on, and its text without comments."""
    crate: str
    file: str
    name: str
    text: str
    is_type: bool

    @property
    def lines(self):
        """How many lines it has."""
        return self.text.count('\n') + 1


class Code:
    """The types and constants of all crates, by crate and name."""

    def __init__(self, crates):
        self.crates = crates
        self.uses, self.seen = {}, set()

    @cached_property
    def items(self):
        """All of them, by crate, file and name."""
        found = {}
        for crate in self.crates:
            for path in sorted((CRATES / crate / 'src').rglob('*.rt')):
                file, text = str(path.relative_to(CRATES / crate).with_suffix('')), path.read_text()
                self.uses[crate, file] = dict(used(crate, text))
                self.seen.update((crate, file, name) for name in SEEN_AS.findall(text))
                for item in items_of(crate, file, text):
                    found[crate, file, item.name] = item
        return found

    def of_key(self, key):
        """The type or the constant that a definition names by a word of the folder `declared`, or None."""
        crate, place = NAMED.match(key[0]).groups()
        *path, last = place.removesuffix('.TheVariants').split('.')
        name = key[1] if last == 'TheConstants' else last
        return self.items.get((crate, 'src/' + '/'.join(path), name))

    def named_by(self, item):
        """The types of the code that the fields of a type name. Of a type that has a `Model` definitions see no field."""
        if (item.crate, item.file, item.name) in self.seen:
            return
        uses = self.uses[item.crate, item.file]
        for word in dict.fromkeys(re.findall(r'\b[A-Z]\w+', item.text)):
            here = self.items.get((item.crate, item.file, word))
            if found := here or self.find(uses.get(word), word):
                yield found

    def find(self, crate, name):
        """The first type of this name in a crate, or None."""
        return next((item for (own, _, known), item in self.items.items() if (own, known) == (crate, name)), None)

    def opened(self, keys):
        """What these words stand for, with what the fields of types name, in the order of crates, files and lines."""
        found = {item: None for key in sorted(keys) if (item := self.of_key(key))}
        todo = list(found)
        while todo:
            further = [item for item in self.named_by(todo.pop()) if item not in found]
            found.update(dict.fromkeys(further))
            todo += further
        return [item for item in self.items.values() if item in found]


def used(crate, text):
    """The names that a file uses, each with its crate."""
    for first, several, one in USE.findall(text):
        for name in filter(None, (part.strip() for part in (several or one).split(','))):
            yield name.split(' as ')[-1], crate if first in ('crate', 'super', 'self') else first


def items_of(crate, file, text):
    """The types and constants of a file, in order."""
    lines = [line for line in text.splitlines() if not COMMENT.fullmatch(line)]
    for number, line in enumerate(lines):
        match = TYPE.match(line) or CONSTANT.match(line)
        if match:
            end = number
            while not lines[end].endswith(';') and not lines[end].startswith('}') and not lines[end].endswith('}'):
                end += 1
            text = '\n'.join(part for part in lines[number:end + 1] if ' ghost ' not in part)
            yield Item(crate, file, match[1], text, bool(TYPE.match(line)))

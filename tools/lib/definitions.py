"""Reads the crates' definitions and laws: what each definition opens, and which clauses each law has."""
import re
import sys
from dataclasses import dataclass
from functools import cached_property
from pathlib import Path

from .scopes import names_of

TOP = Path(__file__).resolve().parents[2]
CRATES = TOP / 'crates'

OPENED = re.compile(r'^(?:pub )?use (Rattle[\w.◌-]*)\.\{(.*)\}')
WHOLE = re.compile(r'^(?:pub )?use (Rattle[\w.]*?)(?: as (\w+))?$')
BESIDE = re.compile(r'(?:pub )?use |(?:pub )?mod |unfolding')
HEAD = re.compile(r'(?:(?:unfoldable|abbrev|opaque|tabled)\s+)*(?:pub\s+)?(?:(?:record|data)\s+)?(?:pub\s+)?'
                  r'([^\s:(){}]+)')
MADE = re.compile(r'\s+(?:pub )?(\w+)\s*:')
GHOST = re.compile(r'^(?:ghost )?use (Rattle[\w.]*)\.\{([^}]*)\}', re.M)
LAW = re.compile(r'pub fn (law_\w+)\(\)$')
CLAUSE = re.compile(r'(requires|ensures) *(\w*) *\{ *(.*)')
OWNER = re.compile(r'(?:pub )?trait (\w+)|(?:unsafe )?impl(?:<.*?>)? (?:[\w<>\', ]+ for )?(\w+)')
CALL = re.compile(r'\s*(?:pub )?(?:const )?(?:unsafe )?(?:extern "C" )?fn (\w+)')
MODULE = re.compile(r' *module _ (.*) where$')
PARAMETERS = re.compile(r'[({]((?:[^\s(){}]+ )+): ')
CONTRACT = re.compile(r'\n    (?:requires|ensures) ?\w* ')
EXPORT = re.compile(r'^pub extern "C" fn ', re.M)


@dataclass(frozen=True)
class Definition:
    """A definition of a file of `specs/`: `module` is its path as other files import it, `given` the parameters of the blocks
    `module` that it stands in."""
    module: str
    name: str
    line: int
    text: str
    comment: str
    given: str = ''

    @property
    def crate(self):
        """The crate that has it."""
        return self.module.split('.')[1]

    @property
    def file(self):
        """Its file, from the crate's folder on and without its ending."""
        return '/'.join(self.module.split('.')[2:])

    @property
    def is_public(self):
        """Whether other files may name it."""
        return 'pub ' in self.text.partition('\n')[0].partition(':')[0]

    @property
    def lines(self):
        """How many lines it has, without its comment."""
        return self.text.count('\n') + 1


@dataclass(frozen=True)
class Law:
    """A public function without parameters whose name begins with `law_`: of each clause the kind, name and formula."""
    crate: str
    name: str
    comment: str
    clauses: tuple
    imports: dict


@dataclass(frozen=True)
class Call:
    """A public function, or one of a trait, with the names of its clauses."""
    crate: str
    name: str
    comment: str
    clauses: tuple


class House:
    """The definitions of all crates, by module and name."""

    def __init__(self):
        self.crates = crates()
        self.known = {}
        self.imports = {}
        self.wholes = {}
        for crate in self.crates:
            for path in sorted((CRATES / crate / 'specs').rglob('*.antt')):
                if path.name != 'Lib.antt':
                    self.read(path)

    def read(self, path):
        """Takes the definitions of a file in."""
        module = 'Rattle.' + '.'.join(path.relative_to(CRATES).with_suffix('').parts)
        text = path.read_text()
        imports, wholes = imports_of(text)
        self.imports[module], self.wholes[module] = imports, wholes
        text, given = at_margin(text)
        for number, lines in blocks(text):
            code = [line for line in lines if not line.lstrip().startswith('--') and not BESIDE.match(line)]
            head = HEAD.match(code[0]) if code else None
            if not head:
                continue
            name = head[1]
            comment = ' '.join(line[2:].strip() for line in lines if line.startswith('--'))
            first = number + lines.index(code[0])
            found = Definition(module, name, first, '\n'.join(code), comment, given.get(first, ''))
            is_data = re.search(r'\bdata\b', code[0])
            makers = [made[1] for line in code[1:] if is_data and (made := MADE.match(line))]
            for known in [name, *makers]:
                self.known.setdefault((module, known), found)
                imports.setdefault(known, (module, known))

    def find(self, name, crate):
        """The definition of this name in a crate, or None."""
        return next((found for (_, known), found in self.known.items() if known == name and found.crate == crate), None)

    def at(self, key):
        """The definition that a module has or passes on by this name, or None."""
        while key not in self.known:
            further = self.imports.get(key[0], {}).get(key[1])
            if further is None or further == key:
                return None
            key = further
        return self.known[key]

    def named_in(self, found):
        """What a definition names: modules with names, in the order in which they stand there."""
        imports, wholes = self.imports[found.module], self.wholes[found.module]
        body = re.sub(r'codes "[^"]*"', '', found.text)
        bound = {word for words in PARAMETERS.findall(found.given) for word in words.split()}
        names, is_variable = [], lambda word: word in bound or self.is_variable(found.module, word)
        words = [*names_of(found.given, '', is_variable), *names_of(body, found.name, is_variable)]
        for word in words:
            if word.partition('.')[0] in bound:
                continue
            before, _, after = word.partition('.')
            if before in imports:
                names.append(imports[before])
            elif after and before in wholes:
                names.append((wholes[before], after.partition('.')[0]))
        signs = set(re.split(r'[\s(){},;]+', body))
        names += [key for word, key in imports.items() if '◌' in word and word.replace('◌', '') in signs]
        return list(dict.fromkeys(names))

    def is_variable(self, module, word):
        """Whether this word of a pattern in a module is a variable: no constructor has this name there."""
        key = self.imports[module].get(word)
        further = key and self.at(key)
        return '.' not in word and (not key or bool(further) and further.name == key[1])

    def opened(self, start):
        """All that a definition opens, itself first, in the order in which a reader meets it level by level; and the
        names of the code and of the toolchain's library that these use."""
        order, code, library = {start: None}, set(), set()
        for found in iter_growing(order):
            for key in self.named_in(found):
                further = self.at(key)
                if further:
                    order.setdefault(further)
                elif '.declared.' in key[0]:
                    code.add(key)
                elif key[0].split('.')[1] in self.crates:
                    sys.exit(f'{found.crate}: {found.name} names {key[1]} of {key[0]}, which is not found')
                else:
                    library.add(key)
        return list(order), code, library

    def named_by_exports(self, crate):
        """The definitions that the contracts of a crate's exports for C name, in the order of its files."""
        found = {}
        for path in sorted((CRATES / crate / 'src').rglob('*.rt')):
            text = path.read_text()
            imports = {name: key for module, names in GHOST.findall(text) for name, key in imported(module, names)}
            for match in EXPORT.finditer(text):
                clauses = CONTRACT.split(text[match.start():].partition('\n{')[0])[1:]
                words = [word for clause in clauses for word in names_of(re.sub(r'\s*\n\s*', ' ', clause), '', lambda _: False)]
                keys = (imports[word] for word in words if word in imports)
                found.update((one, None) for key in keys if (one := self.at(key)))
        return list(found)

    @cached_property
    def laws(self):
        """All laws, in the order of crates and files."""
        return [law for crate in self.crates for path in sorted((CRATES / crate / 'src').rglob('*.rt'))
                for law in laws_of(crate, path.read_text())]


def crates():
    """The crates of crates.txt, in its order, with what each names."""
    rows = (line.partition('#')[0] for line in (TOP / 'crates.txt').read_text().splitlines())
    return {row.split(':')[0].split()[0]: row.partition(':')[2].split() for row in rows if row.strip()}


def laws_of(crate, text):
    """The laws of a file of `src/`."""
    imports = {name: key for module, names in GHOST.findall(text) for name, key in imported(module, names)}
    lines = text.splitlines()
    for number, line in enumerate(lines):
        if match := LAW.match(line):
            end = next((k for k in range(number, len(lines)) if lines[k].startswith('{')), number)
            clauses = []
            for part in map(str.strip, lines[number + 1:end]):
                if clause := CLAUSE.match(part):
                    clauses.append((clause[1], clause[2], clause[3]))
                elif clauses:
                    clauses[-1] = (*clauses[-1][:2], f'{clauses[-1][2]} {part}')
            clauses = tuple((kind, name, formula.removesuffix('}').strip()) for kind, name, formula in clauses)
            if clauses:
                yield Law(crate, match[1], comment_over(lines, number), clauses, imports)


def comment_over(lines, number):
    """What the comment above a line says."""
    first = number
    while first and lines[first - 1].startswith(('///', '#[')):
        first -= 1
    return ' '.join(line[3:].strip() for line in lines[first:number] if line.startswith('///'))


def imports_of(text):
    """The names that a file imports, each with its module and its name there; and the modules that it imports whole."""
    imports, wholes = {}, {}
    for line in text.splitlines():
        if match := OPENED.match(line):
            imports.update(imported(match[1], match[2]))
        elif match := WHOLE.match(line.strip()):
            wholes[match[2] or match[1].split('.')[-1]] = match[1]
    return imports, wholes


def imported(module, names):
    """The names in the braces of an import, each with its module and its name there."""
    for item in names.split(','):
        name, _, other = item.strip().partition(' as ')
        if name:
            yield other or name, (module, name)


def at_margin(text):
    """The text with what stands in blocks `module` moved to the margin, without their heads; and of each of their lines the
    parameters of the blocks that it stands in."""
    lines, given, within = [], {}, []
    for number, line in enumerate(text.splitlines(), 1):
        indent = len(line) - len(line.lstrip())
        while line.strip() and within and indent <= within[-1][0]:
            within.pop()
        if within:
            given[number] = ' '.join(parameters for _, parameters in within)
        if match := MODULE.match(line):
            within.append((indent, match[1]))
            line = ''
        lines.append(line[2 * len(within):])
    return '\n'.join(lines), given


def blocks(text):
    """The runs of lines that aren't empty, each with the number of its first line."""
    found = []
    for number, line in enumerate(text.splitlines(), 1):
        if line.strip():
            if not found or found[-1] is None:
                found[-1:] = [(number, [])]
            found[-1][1].append(line)
        elif found and found[-1] is not None:
            found.append(None)
    return [block for block in found if block]


def iter_growing(order):
    """The keys of a dictionary that grows meanwhile."""
    keys = []
    place = 0
    while place < len(order):
        if place >= len(keys):
            keys = list(order)
        yield keys[place]
        place += 1


def sentence(text):
    """The first sentence of a comment."""
    return text.partition('. ')[0].removesuffix('.')


def calls_of(crate):
    """The public calls of a crate, in the order of its files."""
    for path in sorted((CRATES / crate / 'src').rglob('*.rt')):
        lines = path.read_text().splitlines()
        owner, of_trait = '', False
        for number, line in enumerate(lines):
            if line.startswith('}'):
                owner, of_trait = '', False
            if match := OWNER.match(line):
                owner, of_trait = match[1] or match[2], bool(match[1])
            elif match := CALL.match(line):
                is_public = line.lstrip().startswith('pub ') or of_trait and line.startswith('    fn ')
                if is_public and not match[1].startswith('law_') and (owner or not line.startswith(' ')):
                    name = f'{owner}::{match[1]}' if owner else match[1]
                    yield Call(crate, name, comment_above(lines, number), clauses_below(lines, number))


def comment_above(lines, number):
    """What the comment above a call says."""
    indent = len(lines[number]) - len(lines[number].lstrip())
    return comment_over([line[indent:] for line in lines[:number + 1]], number)


def clauses_below(lines, number):
    """The names of the clauses of the call that begins in a line."""
    names = []
    for line in lines[number + 1:]:
        part = line.strip()
        if part in ('{', '{}') or part.startswith(('fn ', 'pub fn ', '///')):
            break
        if clause := CLAUSE.match(part):
            names.append((clause[1], clause[2]))
        if part.endswith(';') or part.endswith(' {') and not clause:
            break
    return tuple(names)


def purpose_of(crate):
    """What a crate is for: the first paragraph of the comment of its first file."""
    root = next(path for name in ('lib', 'main') if (path := CRATES / crate / f'src/{name}.rt').exists())
    text = []
    for line in root.read_text().splitlines():
        if not line.startswith('//! '):
            break
        text.append(line[4:])
    return ' '.join(text)

#!/usr/bin/env python3
"""Sees that each name that stands in backticks in README.md and docs/ exists: as a file, a crate, an item of a crate,
or a word of a command or of a format; that it is an item of the crate, or of the file of definitions, that it is said
to be of; that each clause that docs/believe/PROOFS.md names is one of the call or the law that it is said of, or a field of a
record that such a clause is; that each link leads to a file or a heading; and that the code in docs/believe/READING.md and
docs/use/LIBRARY.md stands in the sources, and that in README.md and docs/use/LIBRARY.md of C, Rust and Python in examples/."""
import re
import sys
from functools import cache
from pathlib import Path

TOP = Path(__file__).resolve().parents[2]
sys.path.insert(0, str(TOP / 'tools'))
sys.dont_write_bytecode = True
from lib.definitions import at_margin  # noqa: E402
# Those that `tools/pages` makes from the sources are left out.
MADE = ('BELIEVE', 'LAWS', 'CALLS', 'CRATES')
PAGES = [TOP / 'README.md', *(path for path in sorted((TOP / 'docs').glob('*/*.md')) if path.stem not in MADE)]
SOURCES = [path for part in ('src', 'specs', 'proofs') for path in sorted((TOP / 'crates').glob(f'*/{part}/**/*'))
           if path.suffix in ('.rt', '.antt')]

CLIENTS = [path for path in sorted((TOP / 'clients').rglob('*')) if path.suffix in ('.c', '.h', '.py', '.rs')]

# The first words of what may stand in backticks with other words behind it: those of formats, and of commands.
FIRST_WORDS = '''
    version nodes set client journal lock try unlock change drop move grant wait not_held busy copy freeze token held
    withdraw withdrawn void withheld waiting owner end cut ok act take run sim check make soak lockrun: rt rustc unfolding waits cycle no ends a
    order ordered not needs too axioms logic=proved pip man
    C T begin commit abort not_open children t u locknest: lockwaits: locklive:'''.split()
# Words that are names of nothing in the repository: of languages, of the toolchain and its libraries, of what a build
# or a check makes, of calls in clients/, and of places in an example.
OTHERS = '''
    abbrev pub record unfoldable ensures requires ghost result self.old self.new IfOk IfErr IfSome OnFalse IsTrue Err Model
    true false none None λ (x clap awk sh args stdin stdout HANDLES lt_ lt_law_ line rand_pcg rand_core itoa rtrb arrayvec anyhow
    atomic_table seed_from_u64 for_each_mut join_mut rattle-kit-13f specs/declared Goals Given crates/lockrun/out/sources
    --help --version --kind --moves --waits --all-waits --diff --set --client --json --chrome --words --write --nested --commands chrome://tracing
    pg_locks readers chain
    lock_within and_within change_within timeout= sets= StillWaits -std=c11
    lock_async and_try and_async change_try change_async go_on_try go_on_within go_on_async client_within client_async block_on open_pool
    key_under keep_journal BadScript Forgotten async client.lock_async(..) ann.lock_async(..) guard.change_async(..) nodes.session(name)
    families= members= keep=True sorted({one, nodes.client() nodes.locks() nodes['any nodes['folder']['page'] nodes['folder']
    logic=proved functions=N axioms= axioms=N target=.. cpu=.. sum=dac8208d650f15bf native=nat,char,string logic-built=trusted
    libraries-built=trusted statements=trusted incremental=trusted batches=trusted cache=trusted main=Threads threads= may-wait= may-abort=
    partial= rattle_alloc rattle_realloc rattle_dealloc Appends
    File crates/lt_modes/specs/File.antt tests/hand/bugs/CRATE.edits
    s0 s1 s2 s3 c0 c1 cI name'''.split()

RT_ITEM = re.compile(r'\b(?:fn|struct|enum|trait|type|const|mod)\s+(\w+)'
                     r'|\b(?:ensures|requires)\s+(\w+)\s*\{|\bghost\s+(\w+)\s*='
                     r'|^\s+(?:pub(?:\(crate\))?\s+)?(\w+):\s|^\s+([A-Z]\w*)\s*(?:\{[^}]*\}|\([^)]*\))?,', re.M)
ANTT_ITEM = re.compile(r'\bpub (?:record |data |mod )?([\w-]+)|^ +([\w-]+) : |^([\w-]+) .*[:=]', re.M)


def without_comments(path):
    """The text of a source."""
    return re.sub(r'//.*' if path.suffix == '.rt' else r'--.*', '', path.read_text())


FUNCTION = re.compile(r'^(?:pub )?trait (\w+)|^impl(?:<[^>]*>)? (?:[\w<>\', ]+ for )?(\w+)'
                      r'|^(\s*)(?:pub(?:\(crate\))? )?fn (\w+)', re.M)
SAID = re.compile(r'(.*?(?:`| of lt_\w+)):((?: (?:and )?`[\w.]+`(?: \([^)]*\))?,?)+)')
PLACED = re.compile(r'`([\w:]+)`(?: of | \((?=lt_))`?(lt_\w+|[A-Z]\w+)\b')

TEXTS = {path: without_comments(path) for path in SOURCES}


@cache
def names_in(path):
    """The names that a source defines, and its own."""
    groups = (RT_ITEM if path.suffix == '.rt' else ANTT_ITEM).findall(TEXTS[path])
    return {name for group in groups for name in group if name} | {path.stem}


def items():
    """The names that the sources define, and those of files, crates, edits and examples."""
    found = set().union(*(names_in(path) for path in SOURCES))
    found.update(path.name for path in (TOP / 'crates').iterdir())
    found.update(path.name for path in TOP.iterdir())
    found.update(path.stem for part in ('crates/*/must-fail/*.edit', 'examples/*') for path in TOP.glob(part))
    for path in CLIENTS:
        found.add(path.name)
        found.update(re.findall(r'\b(?:lockrun|LOCKRUN)_\w+|(?<=class )\w+|(?<=struct )\w+', path.read_text()))
    for path in (TOP / 'tests/hand/bugs').glob('*.edits'):
        found.update(re.findall(r'^bug (\S+)', path.read_text(), re.M))
    return found


def words():
    """The words of modes, commands and tools that aren't items."""
    text = ''.join((TOP / 'tools' / name).read_text() for name in ('lib/journal.py', 'journal-summary'))
    quoted = re.findall(r"'([a-z_ ]+)'", text)
    return set(quoted) | set(FIRST_WORDS) | set(OTHERS)


def head_of(text):
    """The head of the function at the start of a text, with its contract."""
    lines = text.split('\n')
    if lines[0].endswith(('{', '}', ';')):
        return lines[0]
    end = next((k for k, line in enumerate(lines) if line.strip() in ('{', '{}') or line.endswith(';')), len(lines))
    return '\n'.join(lines[:end + 1])


def contracts():
    """Of each function, by its name and by `Type::name`, the texts of its contracts with the names of their clauses."""
    found = {}
    for path, text in TEXTS.items():
        if path.suffix != '.rt':
            continue
        owner = ''
        for match in FUNCTION.finditer(text):
            if not match[4]:
                owner = match[1] or match[2]
                continue
            part = head_of(text[match.start():].lstrip('\n'))
            for name in {match[4]} | ({f'{owner}::{match[4]}'} if match[3] else set()):
                found.setdefault(name, []).append(part)
    return found


def definitions():
    """The text of each definition of a specification, and the fields of each record."""
    texts, fields = {}, {}
    for path, text in TEXTS.items():
        if path.suffix != '.antt' or 'specs' not in path.parts:
            continue
        for block in re.split(r'\n(?=\S)', at_margin(text)[0]):
            match = re.match(r'(?:abbrev |unfoldable )?(?:pub )?(?:record )?(\w+)', block)
            if match:
                texts[match[1]] = texts.get(match[1], '') + block
                if re.match(r'(?:pub )?record ', block):
                    fields.setdefault(match[1], set()).update(re.findall(r'^\s+pub (\w+) :', block, re.M))
    return texts, fields


def clauses(call, known, texts, fields):
    """The names of the clauses of a call, with the fields of the records that they are, directly or not."""
    names, todo, seen = set(), [], set()
    for part in known.get(call, []):
        names.update(re.findall(r'\b(?:ensures|requires)\s+(\w+)\s*\{', part))
        todo += re.findall(r'\b[A-Z]\w+', part)
    while todo:
        name = todo.pop()
        if name in seen or name not in texts:
            continue
        seen.add(name)
        names.update(fields.get(name, ()))
        todo += re.findall(r'\b[A-Z]\w+', texts[name])
    return names


def exists(name, known):
    """Whether what stands in backticks is a name, or begins with one."""
    name = name.strip()
    if name in known or '..' in name and any(other.startswith(name.split('..')[0]) for other in known):
        return True
    first = name.split()[0]
    if ' ' in name:
        return first in known or (TOP / first).exists()
    if '::' in name:
        *of, last = re.sub(r'[(<].*', '', name).split('::')
        return all(part in known for part in of) and last in places().get(of[-1], known)
    if '(' in name:
        return name[:name.index('(')] in known
    if '.' in name and '/' not in name and all(part in known for part in name.split('.')):
        return True
    path = name.removeprefix('./').rstrip('/')
    starts = ('.', 'crates', 'docs', 'tools', 'tests')
    if any((TOP / start / (path + end)).exists() for start in starts for end in ('', '.antt', '.rt')):
        return True
    return any(TOP.glob(f'crates/*/{path}')) or any(TOP.glob(f'crates/*/specs/{path}'))


def unknown_names(page, known):
    """The faults of a page: names that don't exist."""
    text = re.sub(r'```.*?```', '', page.read_text(), flags=re.S)
    for number, line in enumerate(page.read_text().splitlines(), 1):
        for name in re.findall(r'`([^`]+)`', line):
            if re.search(r'[a-z]', name) and f'`{name}`' in text and not exists(name, known):
                yield f'{page.relative_to(TOP)}:{number}: `{name}` is no name'


@cache
def places():
    """The names of each crate, of each file of definitions, and of the files that have a type of this name."""
    found = {}
    for path in SOURCES:
        crate = path.relative_to(TOP / 'crates').parts[0]
        edits = TOP / 'tests/hand/bugs' / f'{crate}.edits'
        names = names_in(path) | set(re.findall(r'^bug (\S+)', edits.read_text(), re.M) if edits.exists() else ())
        types = re.findall(r'^pub (?:struct|enum) (\w+)|^impl(?:<[^>]*>)? (\w+)', TEXTS[path], re.M)
        files = [path.stem] if 'specs' in path.parts else [name for pair in types for name in pair if name]
        for place in {crate, *files}:
            found.setdefault(place, set()).update(names)
    return found


def unknown_files(page):
    """The faults of a page: files of definitions, named behind their folder, that don't exist."""
    for number, line in enumerate(page.read_text().splitlines(), 1):
        for folder, files in re.findall(r'\b(lt_\w+/specs)/([A-Z]\w+(?:, [A-Z]\w+)*)', line):
            for name in set(files.split(', ')) - set(OTHERS):
                if not (TOP / 'crates' / folder / f'{name}.antt').exists():
                    yield f'{page.relative_to(TOP)}:{number}: {folder}/{name} is no file'


def misplaced_names(page):
    """The faults of a page: names that aren't of the crate, the file or the type that they are said to be of."""
    for number, line in enumerate(page.read_text().splitlines(), 1):
        for name, place in PLACED.findall(line):
            if name.split('::')[-1] not in places().get(place, {name.split('::')[-1]}):
                yield f'{page.relative_to(TOP)}:{number}: `{name}` is not of {place}'


@cache
def anchors(path):
    """The anchors of the headings of a page."""
    heads = re.findall(r'^#+ (.*)$', path.read_text(), re.M)
    return {re.sub(r'[^\w -]', '', head.lower()).replace(' ', '-') for head in heads}


def unknown_links(page):
    """The faults of a page: links to files or headings that don't exist."""
    for number, line in enumerate(page.read_text().splitlines(), 1):
        for link in re.findall(r'\]\(([^)\s]+)\)', line):
            if link.startswith(('http://', 'https://')):
                continue
            name, _, anchor = link.partition('#')
            path = (page.parent / name).resolve() if name else page
            if not path.exists() or anchor and anchor not in anchors(path):
                yield f'{page.relative_to(TOP)}:{number}: {link} leads nowhere'


def said_of_calls(line):
    """Each call that a line names with clauses behind it, and these clauses."""
    cells = line.strip('|').split(' | ')
    if len(cells) == 2 and cells[0].strip().startswith('`law_'):
        laws = re.findall(r'`(law_\w+)`', cells[0])
        for group in re.findall(r'\((`[^()]*)\)', cells[1]):
            yield laws, [name for name in re.findall(r'`([a-z_]+)`', group) if not name.startswith('law_')]
        return
    for part in re.split(r'[;.] |\|', line):
        if match := SAID.match(part):
            names = [name.split('.')[-1] for name in re.findall(r'`([\w.]+)`', match[2])]
            yield re.findall(r'`([\w:]+)`', match[1])[-4:], [name for name in names if name[0].islower()]


def unknown_clauses(page):
    """The faults of a page: clauses that the call doesn't have."""
    known = contracts()
    texts, fields = definitions()
    for number, line in enumerate(page.read_text().splitlines(), 1):
        for calls, names in said_of_calls(line):
            calls = [call for call in calls if call in known]
            for name in names:
                if calls and not any(name in clauses(call, known, texts, fields) for call in calls):
                    yield f'{page.relative_to(TOP)}:{number}: `{name}` is no clause of {" or ".join(calls)}'


def unknown_code(page):
    """The faults of a page that shows code: lines that stand in no source, and in no first program."""
    paths = [*SOURCES, *CLIENTS, *(TOP / 'examples').glob('first*')]
    lines = {line.strip() for path in paths for line in path.read_text().splitlines()}
    text = page.read_text()
    fenced = '```rust' in text
    is_code = False
    for number, line in enumerate(text.splitlines(), 1):
        if line.startswith('```'):
            is_code = line in ('```rust', '```c', '```python')
        elif (is_code if fenced else line.startswith('    ')) and line.strip() not in lines | {''}:
            yield f'{page.relative_to(TOP)}:{number}: no source has this line'


def main():
    """Looks at all pages; the status is 0 if nothing is wrong."""
    known = items() | words()
    faults = [fault for page in PAGES
              for fault in [*unknown_names(page, known), *unknown_files(page), *misplaced_names(page)]]
    faults += [fault for page in [*PAGES, TOP / 'CONTRIBUTING.md'] for fault in unknown_links(page)]
    faults += [*unknown_clauses(TOP / 'docs/believe/PROOFS.md'), *unknown_code(TOP / 'docs/believe/READING.md'),
               *unknown_code(TOP / 'docs/use/LIBRARY.md'), *unknown_code(TOP / 'docs/use/RATTLE.md'),
               *unknown_code(TOP / 'README.md')]
    for fault in faults:
        print(f'tests/gate/names.py: {fault}')
    print(f'tests/gate/names.py: {len(PAGES)} pages, {len(faults)} faults')
    return 1 if faults else 0


if __name__ == '__main__':
    sys.exit(main())

#!/usr/bin/env python3
"""Sees that the declarations of clients/ are those of the exports of crates/lt_live_c: the names of the calls, their
arguments in order and what they return, in C, Rust and Python; the fields of a further set; the bits of clients; and the
numbers of codes, kinds, modes, replies and what is counted."""
import ctypes
import re
import sys
from pathlib import Path

TOP = Path(__file__).resolve().parents[2]
CRATE = ''.join(path.read_text() for path in sorted((TOP / 'crates' / 'lt_live_c' / 'src').glob('*.rt')))
CLIENTS = (TOP / 'crates' / 'lt_live' / 'src' / 'clients.rt').read_text()
COUNTED = (TOP / 'crates' / 'lt_counts' / 'src' / 'counted.rt').read_text()
HEADER = re.sub(r'/\*.*?\*/', '', (TOP / 'clients' / 'c' / 'lockrun.h').read_text(), flags=re.S)
RUST = re.sub(r'//.*', '', (TOP / 'clients' / 'rust' / 'src' / 'exports.rs').read_text())
SESSION = (TOP / 'clients' / 'rust' / 'src' / 'session.rs').read_text()
sys.path.insert(0, str(TOP / 'clients' / 'python'))
sys.dont_write_bytecode = True
import lockrun  # noqa: E402

# What crosses in place of an argument of the crate; Global takes no bytes.
CROSSES = {
    'Global': [], '&[u8]': ['*u8', 'size'], '&mut [u8]': ['*u8', 'size'], '&mut Handle': ['*handle'],
    '&mut u32': ['*u32'], '&mut u64': ['*u64'], '&mut [u64]': ['*u64', 'size'], '&mut usize': ['*size'],
    'u32': ['u32'], 'u64': ['u64'], 'usize': ['size'],
    '&mut Clients': ['*clients'],
    "&[NewSet<'_>]": ['*set', 'size'], "&'a [u8]": ['*u8', 'size']}
IN_C = {'uint32_t': 'u32', 'uint64_t': 'u64', 'size_t': 'size', 'lockrun_handle *': '*handle', 'lockrun_service *': '*handle',
        'lockrun_station *': '*handle', 'lockrun_session *': '*handle', 'lockrun_journal *': '*handle',
        'lockrun_remote *': '*handle', 'lockrun_clients *': '*clients',
        'const lockrun_new_set *': '*set', 'const uint8_t *': '*u8', 'uint8_t *': '*u8', 'uint32_t *': '*u32',
        'uint64_t *': '*u64', 'size_t *': '*size', 'void': None}
IN_RUST = {'u32': 'u32', 'u64': 'u64', 'usize': 'size', '*mut Handle': '*handle', '*const NewSet': '*set', '*const u8': '*u8',
           '*mut Clients': '*clients', '*mut u8': '*u8', '*mut u32': '*u32', '*mut u64': '*u64', '*mut usize': '*size', '': None}
IN_PYTHON = {ctypes.c_uint32: 'u32', ctypes.c_size_t: 'size', lockrun.AT: '*handle', lockrun.SETS: '*set',
             lockrun.CLIENTS: '*clients',
             lockrun.BYTES: '*u8', lockrun.NUMBER: '*u32', lockrun.SIZE: '*size', None: None}
# What a command's kind is called outside, by the function that makes it.
KINDS = {'lock': 'LOCK', 'try_lock': 'TRY', 'unlock': 'UNLOCK', 'change': 'CHANGE', 'drop_locks': 'DROP',
         'withdraw': 'WITHDRAW'}


def upper(word):
    """IntentionRead as INTENTION_READ."""
    return re.sub(r'(?<=[a-z])(?=[A-Z])', '_', word).upper()


def sized(kind):
    """What a number of 64 bits is where a size is one."""
    return {'u64': 'size', '*u64': '*size'}.get(kind, kind)


def of_crate():
    """Of each export what it returns and its arguments, with their names; a length has none."""
    found = {}
    for name, arguments, result in re.findall(r'extern "C" fn (\w+)\((.*?)\)(?: -> (\w+))?\s', CRATE, re.S):
        crossing = []
        for argument in filter(None, re.split(r',\s*', arguments.strip())):
            word, kind = argument.split(': ')
            crossing += [(word if k == 0 else None, part) for k, part in enumerate(CROSSES[kind])]
        found[name] = (CROSSES[result][0] if result else None, crossing)
    return found


def of_header():
    """The same of the header."""
    found = {}
    for result, name, arguments in re.findall(r'^(\w+) (lockrun_\w+)\((.*?)\);', HEADER, re.M | re.S):
        parts = [re.fullmatch(r'(.*?)(\w+)', ' '.join(part.split())) for part in arguments.split(',')]
        found[name] = (IN_C[result], [(part[2], IN_C[part[1].strip()]) for part in parts])
    return found


def of_rust():
    """The same of the Rust crate."""
    found = {}
    for name, arguments, result in re.findall(r'fn (lockrun_\w+)\((.*?)\)(?:\s*-> (\w+))?;', RUST, re.S):
        parts = [part.split(': ') for part in filter(None, re.split(r',\s*', arguments.strip()))]
        found[name] = (IN_RUST[result], [(word, IN_RUST[kind]) for word, kind in parts])
    return found


def of_python():
    """The same of the Python module, which has no names of arguments, and does without some calls."""
    further = {name: kinds for name, kinds in lockrun.FURTHER.items() if name in of_crate()}
    return {name: (IN_PYTHON[result], [(None, IN_PYTHON[kind]) for kind in kinds])
            for name, (result, *kinds) in {**lockrun.EXPORTS, **further}.items()}


def calls_differ(language, found):
    """The faults of a language's declarations of the calls."""
    wanted = of_crate()
    if language == 'Python':
        # ctypes has one type for numbers of 64 bits and for sizes.
        wanted = {name: (sized(result), [(word, sized(kind)) for word, kind in arguments])
                  for name, (result, arguments) in wanted.items()}
    yield from (f'{language} has no {name}' for name in wanted.keys() - found.keys())
    yield from (f'{name} of {language} is no export' for name in found.keys() - wanted.keys())
    for name in wanted.keys() & found.keys():
        result, arguments = wanted[name]
        kinds = [kind for _, kind in arguments]
        if found[name][0] != result or [kind for _, kind in found[name][1]] != kinds:
            yield f'{name} of {language} takes or returns something else'
        elif any(word and other and word != other for (word, _), (other, _) in zip(arguments, found[name][1])):
            yield f'an argument of {name} of {language} has another name'


def fields_differ():
    """The faults of the fields of a further set."""
    body = re.search(r"struct NewSet<'a> \{(.*?)\n\}", CRATE, re.S)[1]
    wanted = [(name if k == 0 else None, part) for name, kind in re.findall(r'pub (\w+): (.*),', body)
              for k, part in enumerate(CROSSES[kind])]
    in_c = re.search(r'typedef struct \{([^}]*)\} lockrun_new_set;', HEADER)[1]
    in_rust = re.search(r'struct NewSet \{(.*?)\n\}', RUST, re.S)[1]
    found = {
        'C': [(name, IN_C[kind.strip()]) for kind, name in re.findall(r'(\w[\w ]*[ *])(\w+);', in_c)],
        'Rust': [(name, IN_RUST[kind]) for name, kind in re.findall(r'pub (\w+): (.*),', in_rust)],
        'Python': [(name, IN_PYTHON[kind]) for name, kind in lockrun.NewSet._fields_]}
    for language, fields in found.items():
        if [kind for _, kind in fields] != [kind for _, kind in wanted]:
            yield f'a further set of {language} has other fields'
        elif any(name and name != other for (name, _), (other, _) in zip(wanted, fields)):
            yield f'a field of a further set of {language} has another name'


def bits_differ():
    """The faults of the bits of clients: so many words in all languages."""
    words = int(re.search(r'pub struct Clients \{\s+pub words: \[u64; (\d+)\],', CLIENTS)[1])
    if f'uint64_t bits[{words}];' not in HEADER:
        yield 'the bits of clients of C are others'
    if f'pub bits: [u64; {words}],' not in RUST:
        yield 'the bits of clients of Rust are others'
    if lockrun.Clients._fields_ != [('bits', ctypes.c_uint64 * words)]:
        yield 'the bits of clients of Python are others'


def numbers_of_crate():
    """Codes, kinds, modes, replies and what is counted by their names, each group in its order."""
    codes = {name: int(number) for name, number in re.findall(r'^pub const (\w+): u32 = (\d+);', CRATE, re.M)}
    kinds = {KINDS[call]: int(number) for number, call in re.findall(r'^\s+(\d+) => (\w+)\(set,', CRATE, re.M)}
    modes = {upper(mode): int(number) for number, mode in re.findall(r'(\d+) => Some\(Mode::(\w+)\)', CRATE)}
    replies = {upper(reply): int(number)
               for reply, number in re.findall(r'Reply::(\w+)(?:\(\w+\))? => (?:\{[^}]*?\s)?(\d+)\b', CRATE)}
    counted = {f'COUNT_{upper(kind)}': int(number) for kind, number in re.findall(r'Counted::(\w+) => (\d+)', COUNTED)}
    return {'code': codes, 'kind': kinds, 'mode': modes, 'reply': replies, 'counted': {**counted, 'COUNTS': len(counted)}}


def numbers_of_header():
    """The same of the header's enums."""
    found = {}
    for group, body in re.findall(r'enum lockrun_(\w+) \{(.*?)\}', HEADER, re.S):
        numbers, following = {}, 0
        for name, number in re.findall(r'LOCKRUN_(\w+)(?: = (\d+))?', body):
            following = int(number) if number else following
            numbers[name] = following
            following += 1
        found[group] = numbers
    return found


def numbers_differ():
    """The faults of the numbers in all three languages."""
    wanted, header = numbers_of_crate(), numbers_of_header()
    yield from (f'the {group}s of C are others' for group in wanted if header.get(group) != wanted[group])
    rust = {name: int(number) for name, number in re.findall(r'const (\w+): u32 = (\d+);', RUST)}
    others = {name: number for group in ('code', 'kind', 'reply') for name, number in wanted[group].items()}
    if rust != others:
        yield 'the codes, kinds or replies of Rust are others'
    for name, number in others.items():
        if getattr(lockrun, name, None) != number:
            yield f'{name} of Python is {getattr(lockrun, name, None)}'
    modes = list(wanted['mode'])
    if sorted(modes, key=wanted['mode'].get) != modes or list(wanted['mode'].values()) != list(range(len(modes))):
        yield 'the modes of the crate are not in order'
    if [upper(mode) for mode in re.findall(r'^    (\w+),$', re.search(r'enum Mode \{(.*?)\n\}', SESSION, re.S)[1], re.M)] != modes:
        yield 'the modes of Rust are others'
    if [mode.upper() for mode in lockrun.MODES] != modes:
        yield 'the modes of Python are others'


def main():
    """The status is 0 if nothing differs."""
    faults = [fault for language, found in (('C', of_header()), ('Rust', of_rust()), ('Python', of_python()))
              for fault in calls_differ(language, found)] + list(fields_differ()) + list(bits_differ()) + list(numbers_differ())
    for fault in faults:
        print(f'tests/gate/exports.py: {fault}')
    numbers = sum(map(len, numbers_of_crate().values()))
    print(f'tests/gate/exports.py: {len(of_crate())} calls, {numbers} numbers, {len(faults)} faults')
    return 1 if faults else 0


if __name__ == '__main__':
    sys.exit(main())

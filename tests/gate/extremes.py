#!/usr/bin/env python3
"""Runs the proved programs on scripts at each extreme: 1 and the most nodes, sets, clients, clients of a node, commands of
one client and of one node, of each version; and nested transactions at theirs. Each ends with status 0, as nobody waits;
`check` takes each journal, and of runs that get stuck `lockwaits` tells the ring. Then it runs them on inputs that are
refused: at their first line, far on, at their last line, and on inputs of no byte. Each is told by its own status and
line, and none as want of memory. It prints how many calls were made."""
import subprocess
import sys
from pathlib import Path

TOP = Path(__file__).resolve().parents[2]
RUN, WAITS, NEST, LIVE = (str(TOP / f'crates/{name}/out/{name}') for name in ['lockrun', 'lockwaits', 'locknest', 'locklive'])


def text_of(lines):
    """Their bytes."""
    return ''.join(line + '\n' for line in lines).encode()


def script(version, nodes, sets, homes, commands):
    """A script of clients at these nodes, each of which takes and gives back this many locks."""
    lines = [f'version {version}'] * (version > 1) + [f'nodes {nodes}'] + [f'set s{k}' for k in range(sets)]
    lines += [f'client c{k} at {home}' for k, home in enumerate(homes)]
    for turn in range(commands // 2):
        for k in range(len(homes)):
            mode = ['write', 'read', 'intention_write', 'upgrade', 'intention_read'][(k + turn) % 5]
            lines += [f'c{k} lock s{(k + turn) % sets} {mode}', f'c{k} unlock s{(k + turn) % sets} {mode}']
    return text_of(lines)


# Of each script: its version, nodes and sets, the homes of its clients, and the commands of each.
SCRIPTS = {
    'one of each': script(1, 1, 1, [0], 2),
    'no command': script(1, 1, 1, [0], 0),
    'the most commands of a client': script(1, 1, 1, [0], 4096),
    'the most commands of a client far away': script(1, 16, 8, [15], 4096),
    'the most commands of a node': script(1, 2, 8, [1] * 16, 256),
    'the most clients of a node': script(1, 1, 1, [0] * 16, 2),
    'the most nodes of version 1': script(1, 16, 1, list(range(16)), 16),
    'the greatest of version 1': script(1, 16, 8, [k % 16 for k in range(64)], 64),
    'one node of version 2': script(2, 1, 1, [0], 2),
    'the most nodes of version 2': script(2, 64, 1, list(range(64)), 4),
    'the most clients of version 2': script(2, 16, 8, [k % 16 for k in range(256)], 2),
    'the greatest of version 2': script(2, 64, 8, [k % 64 for k in range(256)], 16),
    'the greatest of version 3': script(3, 64, 8, [k % 64 for k in range(1024)], 4),
}

# Each of eight clients asks for a set and then for the next one's: by the seed 0 they come to wait in a ring.
RING = ['nodes 16'] + [f'set s{k}' for k in range(8)] + [f'client c{k} at {2 * k}' for k in range(8)]
RING += [f'c{k} lock s{k} write' for k in range(8)] + [f'c{k} lock s{(k + 1) % 8} write' for k in range(8)]

# A ring of all clients: in each set two hold locks that don't conflict, and each of these is in the way of one ask alone. What
# is given back before they ask is held by nobody: it lets all take their locks first, and the even clients ask first.
LONG_RING = ['nodes 1'] + [f'set s{k}' for k in range(8)] + [f'client c{k} at 0' for k in range(16)]
LONG_RING += [f'c{k} lock s{k // 2} {"read" if k % 2 == 0 else "upgrade"}' for k in range(16)]
LONG_RING += [f'c{k} unlock s0 write' for k in range(16) for _ in range(60 if k % 2 else 30)]
LONG_RING += [f'c{k} lock s{k // 2} upgrade' for k in range(0, 16, 2)]
LONG_RING += [f'c{k} lock s{(k + 1) // 2 % 8} intention_write' for k in range(1, 16, 2)]

# A client that is declared first waits for two others, who wait for each other.
OUTSIDE = ['nodes 1', 'set s', 'client z at 0', 'client a at 0', 'client b at 0', 'a lock s read', 'b lock s read']
OUTSIDE += ['a unlock s write', 'b unlock s write'] * 20 + ['z unlock s write'] * 60
OUTSIDE += ['a change s read write', 'b change s read write', 'z lock s write']

# The most clients ask for one set, and none gives it back.
QUEUE = ['version 3', 'nodes 64', 'set s'] + [f'client c{k} at {k % 64}' for k in range(1024)]
QUEUE += [f'c{k} lock s write' for k in range(1024)]

# A client that the version doesn't take any more.
CROWDS = {version: [f'version {version}', f'nodes {nodes}', 'set s'] + [f'client c{k} at {k % nodes}' for k in range(clients + 1)]
          for version, nodes, clients in [(2, 64, 256), (3, 64, 1024)]}
CROWD = ['nodes 16', 'set s'] + [f'client c{k} at {k % 16}' for k in range(65)]


def nest(sets, transactions, locks):
    """Lines of transactions, each a child of the one before, the last of which takes so many locks; each is then ended."""
    names = [f't{k}' for k in range(1, transactions)] + ['t']
    lines = [f'set s{k}' for k in range(sets)] + [f'{names[0]} begin']
    lines += [f'{child} begin in {parent}' for parent, child in zip(names, names[1:])]
    lines += [f't lock s{k % sets} read' for k in range(locks)]
    lines += [f'{name} commit' for name in reversed(names)]
    return text_of(lines)


NESTS = {'one of each': nest(1, 1, 1), 'no lock': nest(1, 1, 0), 'the most sets and transactions': nest(8, 256, 512)}

# The most commands of a client, alone on its node: its turns, and the journal of its run.
ALONE = ['nodes 1', 'set s', 'client c at 0'] + ['c lock s write', 'c unlock s write'] * 2048
JOURNAL = [line for k in range(1, 4097, 2)
           for line in [f'move {k} 0 act c', 'grant c s write', f'move {k + 1} 0 act c', 'unlock c s write']]
JOURNAL += ['owner s 0 0', 'end 4096']
FAR = 6000
LONG_LINE = 'grant c s ' + 'w' * 300

# Of journals with a bad line: their lines, and at which of these, from 1, the first bad one is.
BAD_JOURNALS = {
    'a bad first line of a journal': (['grant c s write'] + JOURNAL[1:], 1),
    'a move by another clock far on': (JOURNAL[:FAR] + ['move 1 0 act c'] + JOURNAL[FAR + 1:], FAR + 1),
    'another mode far on': (JOURNAL[:FAR + 1] + ['grant c s read'] + JOURNAL[FAR + 2:], FAR + 2),
    'a line of 310 bytes far on': (JOURNAL[:FAR + 1] + [LONG_LINE] + JOURNAL[FAR + 2:], FAR + 2),
    'another last line': (JOURNAL[:-1] + ['end 4095'], len(JOURNAL)),
    'no last line': (JOURNAL[:-1], len(JOURNAL)),
    'a line after the last': (JOURNAL + [''], len(JOURNAL) + 1),
    'no journal': ([], 1),
}

# Of scripts that are refused: their lines, and what is told of the first fault.
REFUSED_SCRIPTS = {
    'no byte': ([], 'line 1: S5'),
    'a refused first line of a script': (ALONE[1:], 'line 1: S5'),
    'a set that is not there far on': (ALONE[:4000] + ['c lock t write'] + ALONE[4000:-1], 'line 4001: S8'),
    'no mode in the last line of a script': (ALONE[:-1] + ['c unlock s wright'], f'line {len(ALONE)}: S10'),
    'a command too many': (ALONE + ['c unlock s write'], f'line {len(ALONE) + 1}: S9'),
    'a client too many of version 1': (CROWD, 'line 67: S9'),
    'a client too many of version 2': (CROWDS[2], 'line 260: S9'),
    'a client too many of version 3': (CROWDS[3], 'line 1028: S9'),
}

# Of lines of nested transactions that are refused: the lines, and the first of them that is refused.
REFUSED_NESTS = {
    'a refused first line of a nest': (['t lock s read', 'set s', 't begin'], 1),
    'a set that is not there in the last line': (['set s', 't begin'] + ['t try s read'] * 1200 + ['t try r read'], 1203),
    'the last line has no form': (['set s', 't begin'] + ['t try s read'] * 1200 + ['t try s'], 1203),
    'a line too many': (['set s', 't begin', 't abort'] + ['t abort'] * 65533, 65536),
}

# All that there may be of version 1 at once: 16 nodes, 8 sets in one family, and 64 clients, with names of 32 bytes. One
# client takes 1,000 locks and drops them by one command. Then each locks each set twice, and asks for what others bar.
WIDE_SETS = [f'a-set-in-the-family-as-number-{k}' for k in range(10, 18)]
WIDE_CLIENTS = [f'client-that-has-a-name-number-{k}' for k in range(10, 74)]
WIDE = ['nodes 16', f'set {WIDE_SETS[0]}'] + [f'set {name} with {WIDE_SETS[0]}' for name in WIDE_SETS[1:]]
WIDE += [f'client {name} at {k % 16}' for k, name in enumerate(WIDE_CLIENTS, 10)]
WIDE += [f'{WIDE_CLIENTS[0]} lock {name} intention_read' for name in WIDE_SETS] * 125
WIDE += [f'{WIDE_CLIENTS[0]} drop {WIDE_CLIENTS[0]} {WIDE_SETS[0]}']
for who in WIDE_CLIENTS:
    WIDE += [f'{who} lock {name} {mode}' for mode in ['intention_read', 'read'] for name in WIDE_SETS]
    WIDE += [f'{who} lock {WIDE_SETS[0]} intention_write']

# All that there may be of version 2 but names: each client locks each set once.
SIXTH = 'read_intention_write'
SECOND = ['version 2', 'nodes 64'] + [f'set s{k}' for k in range(8)]
SECOND += [f'client c{k} at {k % 64}' for k in range(256)]
SECOND += [f'c{k} {word} s{s} {SIXTH}' for k in range(256) for s in range(8) for word in ['lock', 'unlock']]

# The most clients of version 3: each locks two sets, one after the other.
THIRD = ['version 3', 'nodes 64'] + [f'set s{k}' for k in range(8)]
THIRD += [f'client c{k} at {k % 64}' for k in range(1024)]
THIRD += [f'c{k} {word} s{(k + turn) % 8} {SIXTH}' for turn in range(2) for k in range(1024) for word in ['lock', 'unlock']]

# What a model in another language makes of great scripts: the script's bytes, and for these words the status, how many bytes
# the journal has, and how many moves it is.
COUNTED = {
    'the widest': (WIDE, 178_091, [(['sim', 'first'], 3, 443_982, 3043)]),
    'the greatest of version 2 by a mode': (SECOND, None, [(['sim', 'first'], 0, 411_530, 8152)]),
    'the greatest of version 3 by a mode': (THIRD, 161_277, [(['sim', 'first'], 0, 413_543, 8538)]),
    'the longest queue': (QUEUE, None, [(['sim', 'first'], 3, 78_403, 2032)]),
}
DRAWN = (94_384, [(['sim', 'first'], 0, 347_418, 8900), (['sim', '7'], 0, 347_595, 9263)])

# A million lines without words and a comment of 3,000,001 bytes, a small script, and its journal.
LONG = b'\n' * 1_000_000 + b'#' * 3_000_001 + b'\nnodes 1\nset s\nclient a at 0\na lock s read\njournal\n'
LONG += b'move 1 0 act a\ngrant a s read\nheld a s read 1\nowner s 0 0\nend 1\n'

calls, wrong = 0, []


def call(name, program, words, data, status=0):
    """What the program writes, which is to end with this status."""
    global calls
    calls += 1
    ran = subprocess.run([program] + words, input=data, capture_output=True, env={}, check=False)
    if ran.returncode != status or ran.stderr:
        wrong.append(f'{name}: {Path(program).name} {" ".join(words)}: status {ran.returncode}, {ran.stderr[-200:]!r}')
    return ran.stdout


def refused(name, program, words, data, status, line):
    """Has the program refuse the input with this status and this line, and write nothing."""
    global calls
    calls += 1
    ran = subprocess.run([program] + words, input=data, capture_output=True, env={}, check=False)
    told = f'{Path(program).name}: {line}\n'.encode()
    if (ran.returncode, ran.stdout, ran.stderr) != (status, b'', told):
        wrong.append(f'{name}: {Path(program).name} {" ".join(words)}: status {ran.returncode}, {ran.stderr[-200:]!r}')


def is_so(name, what, good):
    """Counts what else is wrong."""
    if not good:
        wrong.append(f'{name}: {what}')


for name, data in SCRIPTS.items():
    is_so(name, 'not ordered', call(name, RUN, ['order'], data) == b'ordered\n')
    for program, words in [(RUN, ['sim', 'first']), (RUN, ['sim', '7']), (RUN, ['run']), (LIVE, [])]:
        journal = call(name, program, words, data)
        whole = data + b'journal\n' + journal
        moves = journal.rsplit(b'end ', 1)[-1]
        is_so(name, f'{words}: another count of moves', call(name, RUN, ['check'], whole) == b'ok ' + moves)
        is_so(name, f'{words}: somebody waits', call(name, WAITS, [], whole) == b'no cycle\n')
for name, (lines, size, rows) in {**COUNTED, 'a drawn one': (None, *DRAWN)}.items():
    data = text_of(lines) if lines else call(name, RUN, 'make 16 64 4096 7'.split(), b'')
    is_so(name, 'another script', size in (None, len(data)))
    for words, status, size, moves in rows:
        journal = call(name, RUN, words, data, status)
        is_so(name, f'{words}: a journal of {len(journal)} bytes', len(journal) == size)
        whole = data + b'journal\n' + journal
        is_so(name, f'{words}: another count of moves', call(name, RUN, ['check'], whole) == b'ok %d\n' % moves)
    whole = data + b'journal\n' + call(name, RUN, ['run'], data, rows[0][1])
    call(name, RUN, ['check'], whole)
text = call('the longest line', RUN, ['sim', 'first'], b'nodes 1' + b' ' * 193)
is_so('the longest line', f'the journal {text[:200]!r}', text == b'end 0\n')
is_so('a long input', 'another count of moves', call('a long input', RUN, ['check'], LONG) == b'ok 1\n')
refused('a line after a long input', RUN, ['check'], LONG + b'end 1\n', 8, 'line 1000012: journal')
whole = b'nodes 1\nset s\nclient a at 0\njournal\n' + b'move 1 0 act a\n' * 100_000
refused('a long bad journal', RUN, ['check'], whole, 8, 'line 5: journal')
for name, words, lines, last in [
    ('a ring', ['sim', '0'], RING, b'cycle ' + b' '.join(b'c%d' % k for k in range(8))),
    ('a long ring', ['sim', '0'], LONG_RING, b'cycle ' + b' '.join(b'c%d' % k for k in range(16))),
    ('a ring from outside', ['sim', '0'], OUTSIDE, b'cycle a b'),
    ('the longest queue', ['sim', 'first'], QUEUE, b'ends c1023 c0'),
]:
    journal = call(name, RUN, words, text_of(lines), 3)
    report = call(name, WAITS, [], text_of(lines) + b'journal\n' + journal)
    is_so(name, f'the report ends with {report[-200:]!r}', report.splitlines()[-1:] == [last])
for name, data in NESTS.items():
    text = call(name, NEST, [], data)
    is_so(name, 'a lock is left', text.splitlines()[-2:-1] == [b'commit t1' if b'\nt1 ' in data else b'commit t'])
whole = text_of(ALONE + ['journal'] + JOURNAL)
is_so('the most commands alone', 'another count of moves', call('alone', RUN, ['check'], whole) == b'ok 4096\n')
for name, (lines, fault) in REFUSED_SCRIPTS.items():
    for program, words in [(RUN, ['sim', 'first']), (RUN, ['sim', '7']), (RUN, ['run']), (RUN, ['order']), (LIVE, [])]:
        refused(name, program, words, text_of(lines), 2, fault)
    for program, words in [(RUN, ['check']), (WAITS, []), (WAITS, ['why'])]:
        refused(name, program, words, text_of(lines), 2, fault)
        if lines:
            refused(name, program, words, text_of(lines + ['journal'] + JOURNAL), 2, fault)
for name, (lines, bad) in BAD_JOURNALS.items():
    for program, words in [(RUN, ['check']), (WAITS, []), (WAITS, ['why'])]:
        fault = f'line {len(ALONE) + 1 + bad}: journal'
        refused(name, program, words, text_of(ALONE + ['journal'] + lines), 8, fault)
for name, (lines, bad) in REFUSED_NESTS.items():
    refused(name, NEST, [], text_of(lines), 2, f'line {bad}')
is_so('no byte', 'another text of no line', call('no byte', NEST, [], b'') == b'end 0\n')
print(f'tests/gate/extremes.py: {calls} calls, {len(wrong)} wrong')
for what in wrong:
    print(f'  {what}')
sys.exit(1 if wrong else 0)

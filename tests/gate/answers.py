#!/usr/bin/env python3
"""Runs the proved programs on small inputs, and compares what they write, their statuses and the first line of standard
error. The answers are by the rules, or by a program that was written apart. What `check` reads comes to it in small pieces
too, and journals also with each line exchanged for another. It prints how many calls were made."""
import json
import subprocess
import sys
from pathlib import Path

TOP = Path(__file__).resolve().parents[2]
DONE, USAGE, REFUSED, STUCK, BAD, SHARE = 0, 1, 2, 3, 8, 10

ONE_LOCK = 'nodes 1\nset s\nclient a at 0\na lock s write\na unlock s write\n'
ITS_JOURNAL = 'move 1 0 act a\ngrant a s write\nmove 2 0 act a\nunlock a s write\nowner s 0 0\nend 2\n'

# A script whose clients hold their locks at the end, on threads too.
THREE_READERS = 'nodes 3\nset s\nclient a at 0\nclient b at 1\nclient c at 2\na lock s read\nb lock s read\nc lock s read\n'
THEIR_LOCKS = ['held a s read 1', 'held b s read 1', 'held c s read 1']

# Scripts, and what their runs in the fixed order end with.
RUNS = [
    (ONE_LOCK, DONE, ITS_JOURNAL),
    ('nodes 1', DONE, 'end 0\n'),
    ('''\
nodes 1
set s
client a at 0
client b at 0
a lock s write
b lock s write
''', STUCK, '''\
move 1 0 act a
grant a s write
move 2 0 act b
wait b s write
held a s write 1
waiting b s write
owner s 0 0
end 2
'''),
    ('''\
nodes 3
set s
client a at 0
client b at 1
client c at 2
a lock s read
b lock s read
c lock s read
''', DONE, '''\
move 1 0 act a
grant a s read
move 1 1 act b
wait b s read
move 2 0 take 1
copy s 1 b read
move 3 1 take 0
grant b s read
move 1 2 act c
wait c s read
move 3 0 take 2
copy s 2 c read
move 4 2 take 0
grant c s read
held a s read 1
held b s read 1
held c s read 1
owner s 0 0
end 7
'''),
    ('''\
nodes 2
set s
client a at 0
client b at 1
a lock s intention_read
b lock s read
''', DONE, '''\
move 1 0 act a
grant a s intention_read
move 1 1 act b
wait b s read
move 2 0 take 1
token s 1 1
move 3 1 take 0
grant b s read
freeze s 0 1 none
move 4 0 take 1
held a s intention_read 1
held b s read 1
owner s 1 1
end 5
'''),
    ('''\
nodes 2
set s
client a at 0
client b at 1
a lock s upgrade
a change s upgrade write
b lock s read
b unlock s read
''', DONE, '''\
move 1 0 act a
grant a s upgrade
move 1 1 act b
wait b s read
move 2 0 take 1
copy s 1 b read
move 3 1 take 0
grant b s read
move 3 0 act a
wait a s write
freeze s 1 1 intention_read read upgrade intention_write write
move 4 1 take 0
move 5 1 act b
unlock b s read
move 6 0 take 1
change a s upgrade write
held a s write 1
owner s 0 0
end 8
'''),
    ('''\
nodes 2
set s
client a at 0
client b at 1
a lock s read
a change s read write
b lock s read
b change s read write
''', STUCK, '''\
move 1 0 act a
grant a s read
move 1 1 act b
wait b s read
move 2 0 take 1
copy s 1 b read
move 3 1 take 0
grant b s read
move 3 0 act a
wait a s write
freeze s 1 1 intention_read read upgrade intention_write write
move 4 1 take 0
move 5 1 act b
wait b s write
move 6 0 take 1
held a s read 1
held b s read 1
waiting a s write
waiting b s write
owner s 0 0
end 8
'''),
    ('''\
nodes 1
set s
set r with s
client b at 0
client c at 0
client a at 0
b lock s write
b lock r read
c lock s read
a drop c s
a drop b s
''', DONE, '''\
move 1 0 act b
grant b s write
move 2 0 act c
wait c s read
move 3 0 act a
busy a c s
move 4 0 act b
grant b r read
move 5 0 act a
drop a b s 2
grant c s read
held c s read 1
owner s 0 0
owner r 0 0
end 5
'''),
    ('''\
nodes 4
set s
client b at 1
client c at 2
client d at 3
client a at 0
b lock s write
c lock s write
d lock s write
a lock s write
''', STUCK, '''\
move 1 1 act b
wait b s write
move 2 0 take 1
token s 1 1
move 3 1 take 0
grant b s write
move 1 2 act c
wait c s write
move 3 0 take 2
move 4 1 take 0
move 1 3 act d
wait d s write
move 4 0 take 3
move 5 2 take 0
move 5 0 act a
wait a s write
move 6 3 take 0
held b s write 1
waiting c s write
waiting d s write
waiting a s write
owner s 1 1
end 11
'''),
    ('''\
nodes 3
set x
set y
set z
client a at 0
client b at 1
client c at 2
a lock x write
b lock y write
c lock z write
a lock y read
b lock z read
c lock x read
''', STUCK, '''\
move 1 0 act a
grant a x write
move 1 1 act b
wait b y write
move 2 0 take 1
token y 1 1
move 3 1 take 0
grant b y write
move 1 2 act c
wait c z write
move 3 0 take 2
token z 2 1
move 4 2 take 0
grant c z write
move 4 0 act a
wait a y read
move 5 1 take 0
move 6 1 act b
wait b z read
move 7 0 take 1
move 8 2 take 0
move 9 2 act c
wait c x read
move 10 0 take 2
held a x write 1
held b y write 1
held c z write 1
waiting a y read
waiting b z read
waiting c x read
owner x 0 0
owner y 1 1
owner z 2 1
end 14
'''),
]

# What `lockwaits` reports of those runs of which it isn't `no cycle` alone, by their place.
REPORTS = {
    2: 'waits b a\nno cycle\nends b a\n',
    6: 'waits a b\nwaits b a\ncycle a b\n',
    8: 'waits c b\nwaits d b\nwaits d c\nwaits a b\nwaits a d\nno cycle\nends c b\nends d b\nends a b\n',
    9: 'waits a b\nwaits b c\nwaits c a\ncycle a b c\n',
}

# Scripts with a fault, and the line that tells it. A row of None has none.
SCRIPTS = [
    ('', 'line 1: S5'),
    ('\n# nothing\n\t\r\n', 'line 4: S5'),
    ('nodes 2\nset s\nclient a at 0\nclient b at 1\na drop b s\n', 'line 5: S11'),
    ('nodes 1\r\nset s', None),
    ('nodes 0\n', 'line 1: S4'),
    ('nodes 17\n', 'line 1: S9'),
    ('set s\n', 'line 1: S5'),
    ('nodes 1\nnodes 1\n', 'line 2: S5'),
    ('nodes 1\nset 9s\n', 'line 2: S6'),
    ('nodes 1\nset s\nclient s at 0\n', 'line 3: S7'),
    ('nodes 1\r\nset s\r\nset s\r\n', 'line 3: S7'),
    ('nodes 1\nclient a at 1\n', 'line 2: S4'),
    ('# one\nnodes 1\nclient lock at x\n', 'line 3: S4'),
    ('nodes 1\nset s\na lock s read\n', 'line 3: S8'),
    ('nodes 1\n\nset s with r\n', 'line 3: S8'),
    ('nodes 1\nset s\nclient a at 0\na lock s reed\n', 'line 4: S10'),
    ('nodes 1\nset s\nclient a at 0\na grab s read\n', 'line 4: S3'),
    ('nodes 1\nset s\1\n', 'line 2: S1'),
    ('# \1\r?\nnodes 1\n', None),
    ('nodes 1\nset s\nclient a at 0\na lock s read_intention_write\n', 'line 4: S10'),
    ('version 2\nnodes 1\nset s\nclient a at 0\na lock s read_intention_write\na unlock s read_intention_write\n', None),
    ('version 3\nnodes 1\nset s\nclient a at 0\na withdraw a s\na lock s read_intention_write\n', None),
    ('version 3\nnodes 1\nset s\nclient a at 0\na withdraw b s\n', 'line 5: S8'),
    ('version 3\nnodes 2\nset s\nclient a at 0\nclient b at 1\na withdraw b s\n', 'line 6: S11'),
    ('version 3\nnodes 1\nset s\nclient a at 0\na withdraw s\n', 'line 5: S3'),
    ('version 2\nnodes 1\nset s\nclient a at 0\na withdraw a s\n', 'line 5: S3'),
    ('nodes 1\nset s\nclient a at 0\na withdraw a s\n', 'line 4: S3'),
    ('version 3\nnodes 1\nversion 3\n', 'line 3: S5'),
    ('version 3\nnodes 1\nversion 2\n', 'line 3: S5'),
    ('version 2\nnodes 1\nversion 3\n', 'line 3: S3'),
    ('nodes 1\nversion 3\n', 'line 2: S3'),
    ('version 3\nnodes 65\n', 'line 2: S9'),
    ('version 4\nnodes 1\n', 'line 1: S3'),
    ('version 02\nnodes 1\n', 'line 1: S3'),
    ('version 2\nnodes 1\nversion 2\n', 'line 3: S5'),
    ('nodes 1\nversion 2\n', 'line 2: S5'),
    ('version 2\nset s\n', 'line 2: S5'),
    ('version 2\n', 'line 2: S5'),
    ('\n# two\n version\t2 \r\nnodes 64\n', None),
    ('version 2\nnodes 65\n', 'line 2: S9'),
    ('version 2\nnodes 1\nset s\nclient a at 0\na lock s reed\n', 'line 5: S10'),
    ('nodes 1\n' + ''.join(f'set s{k}\n' for k in range(9)), 'line 10: S9'),
    ('nodes 1' + ' ' * 193, None),
    ('nodes 1' + ' ' * 194, 'line 1: S2'),
    ('nodes 16\n' + ''.join(f'client c{k} at {k % 16}\n' for k in range(65)), 'line 66: S9'),
    ('nodes 1\njournal x\n', 'line 2: S3'),
]

# Scripts, and whether they are ordered.
ORDERS = [
    ('nodes 1', 'ordered\n'),
    ('nodes 1\nset s\nclient a at 0\nclient b at 0\na lock s write\na unlock s write\nb lock s write\n', 'not ordered b\n'),
    ('nodes 1\nset s\nset r\nclient a at 0\nclient b at 0\na lock s write\na unlock s write\nb lock r write\n'
     'b lock s write\nb unlock s write\nb unlock r write\n', 'not ordered b\n'),
]

# Words that make a script, others that mean the same, and the script or the sum of its bytes.
FOUR = 'set s0\nset s1\nset s2\nset s3\n'
MADE = [
    ('1 1 0 0', '01 001 000000000 00000000000000000000', f'nodes 1\n{FOUR}client c0 at 0\n'),
    ('1 1 1 1', None, f'nodes 1\n{FOUR}client c0 at 0\nc0 unlock s0 read\n'),
    ('1 1 1 5', None, f'nodes 1\n{FOUR}client c0 at 0\nc0 unlock s0 read\n'),
    ('2 3 5 42', None, f'nodes 2\n{FOUR}client c0 at 0\nclient c1 at 1\nclient c2 at 0\nc0 lock s0 upgrade\n'
     'c0 unlock s0 upgrade\nc1 lock s0 upgrade\nc1 change s0 upgrade write\nc1 unlock s0 write\n'),
    ('3 2 7 18446744073709551615', None, f'nodes 3\n{FOUR}client c0 at 0\nclient c1 at 1\nc0 lock s2 upgrade\n'
     'c0 change s2 upgrade write\nc0 unlock s2 write\nc1 lock s0 upgrade\nc1 unlock s0 upgrade\nc0 lock s0 read\nc0 unlock s0 read\n'),
    ('2 2 9 7', '000000002 02 009 00000000000000000007', f'nodes 2\n{FOUR}client c0 at 0\nclient c1 at 1\nc0 lock s1 upgrade\n'
     'c0 change s1 upgrade write\nc0 unlock s1 write\nc1 lock s1 intention_read\nc1 unlock s1 intention_read\n'
     'c0 lock s1 intention_write\nc0 unlock s1 intention_write\nc1 lock s3 intention_read\nc1 unlock s3 intention_read\n'),
    ('16 64 4096 0', None, 1205663168),
    ('16 64 4096 18446744073709551615', None, 1153509600),
    ('4 64 1000 12345', None, 1396763040),
    ('1 16 4095 99', None, 2889249749),
    ('5 7 333 9223372036854775808', None, 1772200195),
]

# Words that are no command; they are parted by one space.
OTHERS = [
    'sim 18446744073709551616', 'sim 000000000000000000007', 'sim 99999999999999999999', 'sim -1', 'sim +1', 'sim 1_0', 'sim ',
    'sim 1 2', 'sim First', 'first sim', 'sim first x', 'sim', 'soak 18446744073709551616', 'soak first', 'soak', 'soak 7 7',
    'make 17 64 4096 0', 'make 16 65 4096 0', 'make 16 64 4097 0', 'make 16 64 4096 18446744073709551616', 'make 0 1 1 5',
    'make 1 0 1 5', 'make 1 17 1 5', 'make 3 49 1 5', 'make 0000000001 1 1 5', 'make 1 0000000001 1 5', 'make 1 1 0000000001 5',
    'make 257 1 1 5', 'make 1 65537 1 5', 'make 1 1 4294967297 5', 'make 1 1 1', 'make 1 1 1 5 5', 'make 1 1 1 ', 'make  1 1 5',
    'make 1 1 1 first', 'made 1 1 1 5', 'run x', 'run run', ' run', 'run ', 'check x', 'order x', 'ordered', 'journal', 'Run', '-h',
    '-1', '',
]

TWO_NODES = RUNS[4]
HEAD, LINES = TWO_NODES[0] + 'journal\n', TWO_NODES[2].splitlines(keepends=True)


def with_lines(first, *lines):
    """The journal of two nodes with these lines in place of one, which counts from 1."""
    return ''.join([*LINES[:first - 1], *(line + '\n' for line in lines), *LINES[first:]])


# Inputs of `check`, and the first bad line of each, or how many moves it has.
CHECKED = [(HEAD + journal, 7 + bad, None) for journal, bad in [
    (with_lines(6, 'copy s 1 b read'), 6),
    (with_lines(6), 6),
    (with_lines(6, 'token s 1 1', 'move 3 0 take 1'), 7),
    (with_lines(6, 'token s 1 1', 'token s 1 1'), 7),
    (with_lines(8, 'freeze s 0 1 none', 'grant b s read'), 8),
    (with_lines(5, 'move 3 0 take 1'), 5),
    (with_lines(5, 'move 2 0 take 0'), 5),
    (with_lines(5, 'move 02 0 take 1'), 5),
    (with_lines(14, 'end 5', 'end 5'), 15),
    (with_lines(14), 14),
    (''.join(LINES[:6]), 7),
    (''.join(LINES)[:-2], 14),
    (''.join(LINES)[:-7], 14),
]] + [
    (HEAD + ''.join(LINES)[:-1], None, 5),
    (HEAD.replace('journal', '\t journal \r') + ''.join(LINES), None, 5),
    ('nodes 1\njournal\nend 0\r\n', None, 0),
    ('nodes 1\njournal\nend 0\r', None, 0),
    ('nodes 1\njournal\nend 0', None, 0),
    ('nodes 1\n# journal\njournal\nend 0\n', None, 0),
    ('nodes 1\n# journal\njournal\njournal\nend 0\n', 4, None),
    ('nodes 1\njournal', 3, None),
    ('nodes 1\n', 2, None),
    ('nodes 1', 2, None),
] + [('nodes 1\njournal\n' + journal, 2 + bad, None) for journal, bad in [
    ('end 0\rx', 1), ('', 1), ('end 0\n\n', 2), ('end 0\nend 0\n', 2), ('en', 1), ('cut 0\n', 1), ('cut 1', 1), ('e' * 300, 1), ('end', 1),
    ('end 00', 1), ('end 18446744073709551616', 1), ('end 0 ', 1), (' end 0', 1), ('end  0', 1), ('end\t0', 1), ('End 0', 1),
    ('# end 0', 1), ('move 1 1 act a', 1),
]]

# Lines of nested transactions, and what comes of them.
NESTS = [
    # A child locks beside its parent; another transaction waits for both.
    ('''\
set s
p begin
c begin in p
o begin
p lock s write
c lock s read
o lock s read
c commit
p commit
''', '''\
begin p
begin c
begin o
grant p s write
grant c s read
wait o s read
commit c
commit p
grant o s read
held o s read 1
end 9
'''),
    # Siblings stand against each other; a parent with open children doesn't commit.
    ('''\
set s
p begin
c begin in p
d begin in p
c lock s write
d try s read
d lock s read
d lock s read
p commit
c abort
d abort
d abort
''', '''\
begin p
begin c
begin d
grant c s write
try d s read false
wait d s read
busy d
children p
abort c
grant d s read
abort d
not_open d
end 12
'''),
    # An abort ends what is under the transaction, and drops what it held and waited for.
    ('''\
set s
set r
p begin
c begin in p
g begin in c
o begin
o lock r write
g lock s write
g lock r read
o lock s upgrade
c abort
g lock s read
''', '''\
begin p
begin c
begin g
begin o
grant o r write
grant g s write
wait g r read
wait o s upgrade
abort c
grant o s upgrade
not_open g
held o s upgrade 1
held o r write 1
end 12
'''),
]

# The modes that each mode conflicts with.
CONFLICTS = {
    'intention_read': 'write',
    'read': 'intention_write read_intention_write write',
    'upgrade': 'upgrade intention_write read_intention_write write',
    'intention_write': 'read upgrade read_intention_write write',
    'read_intention_write': 'read upgrade intention_write read_intention_write write',
    'write': 'intention_read read upgrade intention_write read_intention_write write',
}

calls, wrong = 0, []


def call(program, words, text, status, output=None, line=''):
    """What the program writes to these words and this input. Its status is to be this, and so the first line of standard
    error, or its beginning, and all that it writes."""
    return call_in(program, words, text, len(text) + 1, status, output, line)


def call_in(program, words, text, size, status, output=None, line=''):
    """The same, where the input comes in pieces of so many characters."""
    global calls
    calls += 1
    path = TOP / f'crates/{program}/out/{program}'
    with subprocess.Popen([path, *words], stdin=subprocess.PIPE, stdout=subprocess.PIPE, stderr=subprocess.PIPE, env={}) as ran:
        try:
            for at in range(0, len(text), size):
                ran.stdin.write(text[at:at + size].encode())
                ran.stdin.flush()
        except BrokenPipeError:
            pass
        told, said = (part.decode() for part in ran.communicate())
    first = said.partition('\n')[0]
    if status not in (None, ran.returncode) or output not in (None, told) or not first.startswith(line) or bool(first) != bool(line):
        wrong.append(f'{program} {" ".join(words)} of {text[:300]!r}: status {ran.returncode}, {first!r}, {told[:300]!r}')
    return told


def runs():
    """Runs, their journals checked whole, with each line exchanged, and by `lockwaits`; a run on live sessions."""
    for place, (script, status, journal) in enumerate(RUNS):
        call('lockrun', ['sim', 'first'], script, status, journal)
        head = script.rstrip('\n') + '\njournal\n'
        moves = journal.rsplit('end ', 1)[-1]
        call('lockwaits', [], head + journal, DONE, REPORTS.get(place, 'no cycle\n'))
        for size in [1, 2, 3, 7]:
            call_in('lockrun', ['check'], head + journal, size, DONE, f'ok {moves}')
        lines = journal.splitlines(keepends=True)
        for k in range(len(lines)):
            bad = ''.join([*lines[:k], f'end {moves[:-1]} \n', *lines[k + 1:]])
            call('lockrun', ['check'], head + bad, BAD, '', f'lockrun: line {head.count(chr(10)) + k + 1}: journal')
    for program, words in [('lockrun', ['run']), ('lockrun', ['sim', '7']), ('locklive', [])]:
        call(program, words, ONE_LOCK, DONE, ITS_JOURNAL)
    for program, words in [('lockrun', ['run']), ('locklive', [])]:
        journal = call(program, words, THREE_READERS, DONE)
        if [line for line in journal.splitlines() if line.startswith('held ')] != THEIR_LOCKS:
            wrong.append(f'{program} of three readers: {journal}')
        call('lockrun', ['check'], f'{THREE_READERS}journal\n{journal}', DONE, f'ok {journal.rsplit("end ", 1)[-1]}')


def given_up():
    """Runs in which waits are given up, by a model of the rules that was written apart: each made in the fixed order where
    its moves stand in that, and checked; who waits behind a void ask at its end; and a run of its script on live sessions."""
    for row in json.loads((TOP / 'tests/lib/withdraw.json').read_text()):
        script, journal = ('\n'.join(row[part]) + '\n' for part in ('script', 'journal'))
        if row['fixed_order']:
            call('lockrun', ['sim', 'first'], script, row['status'], journal)
        call('lockrun', ['check'], f'{script}journal\n{journal}', DONE, f'ok {journal.rsplit("end ", 1)[-1]}')
        behind = ''.join(f'void {client} {other}\n' for client, other in row.get('behind', []))
        call('lockwaits', [], f'{script}journal\n{journal}', DONE, f'no cycle\n{behind}')
        for program, words in [('lockrun', ['run']), ('lockrun', ['sim', '7']), ('locklive', [])]:
            made = call(program, words, script, None)
            call('lockrun', ['check'], f'{script}journal\n{made}', DONE, f'ok {made.rsplit("end ", 1)[-1]}')


def scripts():
    """Scripts with a fault and without, ordered ones, and those that are made."""
    for script, fault in SCRIPTS:
        for words in [['sim', 'first'], ['order']]:
            call('lockrun', words, script, REFUSED if fault else DONE, '' if fault else None, f'lockrun: {fault}' if fault else '')
    for script, told in ORDERS:
        call('lockrun', ['order'], script, DONE, told)
    for words, same, made in MADE:
        text = call('lockrun', ['make', *words.split()], '', DONE)
        if same:
            call('lockrun', ['make', *same.split()], '', DONE, text)
        found = 0
        for byte in text.encode():
            found = (31 * found + byte) % 2**32
        if made not in (text, found):
            wrong.append(f'make {words}: another script: {text[:300]!r}')


def conflicts():
    """Of each two modes, whether a client gets a lock of the second while another one holds one of the first."""
    for mode, barred in CONFLICTS.items():
        script = f'version 2\nnodes 1\nset s\nclient a at 0\nclient b at 0\na lock s {mode}\n'
        script += ''.join(f'b try s {other}\nb unlock s {other}\n' for other in CONFLICTS)
        journal = call('lockrun', ['sim', 'first'], script, DONE)
        for other in CONFLICTS:
            if f'\ntry b s {other} {"false" if other in barred.split() else "true"}\n' not in journal:
                wrong.append(f'{other} beside {mode}: {journal}')


def others():
    """Words that are no command, inputs of `check`, shares of sessions, the longest input, and nested transactions."""
    for words in OTHERS:
        call('lockrun', words.split(' '), '', USAGE, '', 'lockrun: usage: ')
    call('lockwaits', ['x'], '', USAGE, '', 'lockwaits: usage')
    call('lockrun', ['sim', '007'], ONE_LOCK, DONE, ITS_JOURNAL)
    call('lockrun', ['soak', '7'], '', DONE, 'nodes 16\nsets 4\nclients 64\ncommands 4096\nheld 0\nwaiting 0\n')
    for text, bad, moves in CHECKED:
        for size in [1, 2, 3, 7, len(text)]:
            status, line = (BAD, f'lockrun: line {bad}: journal') if bad else (DONE, '')
            call_in('lockrun', ['check'], text, size, status, '' if bad else f'ok {moves}\n', line)
        call('lockwaits', [], text, status, None, line.replace('lockrun', 'lockwaits'))
    call('lockwaits', [], 'nodes 0\njournal\nend 0\n', REFUSED, '', 'lockwaits: line 1: S4')
    many = 'nodes 16\nset s\n' + ''.join(f'client c{k} at {k % 16}\n' for k in range(64)) + 64 * 'c0 lock s read\n'
    call('locklive', [], many, DONE)
    call('locklive', [], many + 'c0 lock s read\n', SHARE, '', 'locklive: too many commands of client 0')
    longest = 'nodes 1\n'.ljust(2**20, '#')
    call('lockrun', ['sim', 'first'], longest, DONE, 'end 0\n')
    call('lockrun', ['sim', 'first'], longest + '#', REFUSED, '', 'lockrun: input too long')
    for lines, told in NESTS:
        call('locknest', [], lines, DONE, told)


def main():
    """Makes all calls; the status is 0 if nothing is wrong."""
    for part in [runs, given_up, scripts, conflicts, others]:
        part()
    for fault in wrong:
        print(f'tests/gate/answers.py: {fault}')
    print(f'tests/gate/answers.py: {calls} calls, {len(wrong)} wrong')
    return 1 if wrong else 0


if __name__ == '__main__':
    sys.exit(main())

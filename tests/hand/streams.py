#!/usr/bin/env python3
"""Runs the proved programs with streams, limits and machines of all kinds, and sees that each answer is one that the
documents say. Streams are closed, full, broken, directories, or come byte by byte and with halts; the address space
and the stack are small; no thread can be made; inputs are as long as they may be. It prints the least sizes, and of long
inputs the time and the memory. On Linux."""
import argparse
import os
import resource
import shutil
import signal
import subprocess
import sys
import tempfile
import time
from pathlib import Path

TOP = Path(__file__).resolve().parents[2]
READERS = b'nodes 3\nset s\nclient a at 0\nclient b at 1\nclient c at 2\na lock s read\nb lock s read\nc lock s read\n'
KIB, MIB = 1024, 1024 * 1024
MOST_JOURNAL = 64 * MIB
PARTS = ['streams', 'pieces', 'memory', 'stacks', 'threads', 'long']


class Answers:
    """The programs, and what was wrong."""

    def __init__(self, args):
        self.run_program, self.nest_program, self.waits_program = args.program, args.nest, args.waits
        self.tried, self.wrong = 0, []
        make = ['make', '4', '16', '256', '7']
        self.drawn = self.call(self.run_program, make)[1]
        self.journal = self.call(self.run_program, ['sim', 'first'], self.drawn)[1]
        self.nested = (TOP / 'crates/locknest/stdin').read_bytes()
        self.whole = self.drawn + b'journal\n' + self.journal
        ring = b'journal\n'.join((TOP / f'examples/ring-of-three.{part}').read_bytes() for part in ['script', 'journal'])
        # Names, programs, words, inputs; whether the input is read; whether the moves come in any order.
        self.cases = [
            ('sim first', self.run_program, ['sim', 'first'], self.drawn, True, False),
            ('run', self.run_program, ['run'], self.drawn, True, True),
            ('run of three nodes', self.run_program, ['run'], READERS, True, True),
            ('check', self.run_program, ['check'], self.whole, True, False),
            ('order', self.run_program, ['order'], self.drawn, True, False),
            ('make', self.run_program, make, b'', False, False),
        ]
        for name, program, data in [('nested', self.nest_program, self.nested), ('waits', self.waits_program, ring)]:
            if Path(program).exists():
                self.cases.append((name, program, [], data, True, False))
            else:
                print(f'tests/hand/streams.py: {program} is not built: its part is left out')
        self.usual = {case[0]: self.call(case[1], case[2], case[3]) for case in self.cases}

    @staticmethod
    def call(program, words, data=b'', **how):
        """Status, output and standard error."""
        ran = subprocess.run([program] + words, input=data, capture_output=True, env={}, check=False, **how)
        return ran.returncode, ran.stdout, ran.stderr

    def say(self, name, good, what):
        """Counts a try."""
        self.tried += 1
        if not good:
            self.wrong.append(f'{name}: {what}')

    def is_usual(self, case, answer):
        """Whether it is the usual answer: of a run on threads, any that `check` accepts."""
        name, program, _, data, _, drawn = case
        if not drawn:
            return answer == self.usual[name]
        if answer[0] != 0 or answer[2]:
            return False
        return self.call(program, ['check'], data + b'journal\n' + answer[1])[0] == 0


def line(program, text):
    """A line on standard error."""
    return f'{Path(program).name}: {text}\n'.encode()


def redirected(program, words, data, shell):
    """Runs a program from a shell with this redirection, its input in a file."""
    with tempfile.NamedTemporaryFile() as kept:
        kept.write(data)
        kept.flush()
        script = f'exec "$0" "$@" {shell}'
        ran = subprocess.run(['sh', '-c', script, program] + words, stdin=open(kept.name, 'rb'), capture_output=True,
                             check=False)
    return ran.returncode, ran.stdout, ran.stderr


def streams(found):
    """Closed, full and broken streams, and directories."""
    for case in found.cases:
        name, program, words, data, reads, _ = case
        unread = [('closed input', '<&-'), ('a directory as input', '</'), ('an input that is open to write', '0>/dev/null')]
        for what, shell in unread:
            answer = redirected(program, words, data, shell)
            good = answer == (4, b'', line(program, 'read fault')) if reads else found.is_usual(case, answer)
            found.say(f'{name}, {what}', good, answer[0::2])
        for what, shell in [('closed output', '>&-'), ('a full output', '>/dev/full'),
                            ('an output that is open to read', '1</dev/null')]:
            answer = redirected(program, words, data, shell)
            found.say(f'{name}, {what}', answer == (5, b'', line(program, 'write fault')), answer[0::2])
        for what, shell in [('closed error', '2>&-'), ('a full error', '2>/dev/full')]:
            answer = redirected(program, words, data, shell)
            found.say(f'{name}, {what}', found.is_usual(case, answer), answer[0::2])
            answer = redirected(program, words, data, f'>&- {shell}')
            found.say(f'{name}, closed output and {what}', answer == (5, b'', b''), answer[0::2])
            if reads:
                answer = redirected(program, words, data, f'<&- {shell}')
                found.say(f'{name}, closed input and {what}', answer == (4, b'', b''), answer[0::2])
        answer = redirected(program, words, data, '<&- >&- 2>&-')
        found.say(f'{name}, all closed', answer == (4 if reads else 5, b'', b''), answer[0::2])
        answer = redirected(program, words, b'', '</dev/null')
        empty = found.call(program, words)
        found.say(f'{name}, no input', found.is_usual(case, answer) if not reads else answer == empty, answer[0::2])
        broken(found, case)
    answer = redirected(found.run_program, ['sim', 'last'], b'', '2>&-')
    found.say('no command, closed error', answer == (1, b'', b''), answer)


def broken(found, case):
    """An output that nobody reads; an output that is read in part; standard error that nobody reads."""
    name, program, words, data, _, _ = case
    for what, wanted in [('nobody', 0), ('a reader of 10 bytes', 10)]:
        seen, told = os.pipe()
        if not wanted:
            os.close(seen)
        child = subprocess.Popen([program] + words, stdin=subprocess.PIPE, stdout=told, stderr=subprocess.PIPE, env={})
        os.close(told)
        try:
            child.stdin.write(data)
        except BrokenPipeError:
            pass
        child.stdin.close()
        if wanted:
            os.read(seen, wanted)
            os.close(seen)
        said = child.stderr.read()
        status = child.wait()
        # What fits into the pipe at once may have been written before its reader went.
        answers = [(5, line(program, 'write fault'))] + ([(0, b'')] if wanted else [])
        found.say(f'{name}, output to {what}', (status, said) in answers, (status, said))
    seen, told = os.pipe()
    os.close(seen)
    with open('/dev/full', 'wb') as full:
        ran = subprocess.run([program] + words, input=data, stdout=full, stderr=told, env={}, check=False)
    os.close(told)
    found.say(f'{name}, error to nobody', ran.returncode == 5, ran.returncode)


def pieces(found):
    """Inputs and outputs byte by byte, and with halts."""
    for case in found.cases:
        name, program, words, data, reads, drawn = case
        if not reads:
            continue
        part = data if len(data) < 20_000 else data[:20_000].rsplit(b'\n', 1)[0] + b'\n'
        usual = found.call(program, words, part)
        child = subprocess.Popen([program] + words, stdin=subprocess.PIPE, stdout=subprocess.PIPE, stderr=subprocess.PIPE,
                                 env={}, bufsize=0)
        for k in range(len(part)):
            child.stdin.write(part[k:k + 1])
            if k % 1000 == 0:
                child.send_signal(signal.SIGSTOP)
                time.sleep(0.005)
                child.send_signal(signal.SIGCONT)
        child.stdin.close()
        out, said = read_slowly(child)
        answer = (child.wait(), out, said)
        good = answer == usual
        if drawn and answer[0] == usual[0] == 0:
            good = found.call(program, ['check'], part + b'journal\n' + out)[0] == 0
        found.say(f'{name}, byte by byte', good, (answer[0], len(out), said))
    halts(found)


def read_slowly(child):
    """Takes the output byte by byte for a while, and then the rest."""
    out = b''.join(child.stdout.read(1) for _ in range(1000))
    return out + child.stdout.read(), child.stderr.read()


def halts(found):
    """Stop and go, while the threads of a run are at work."""
    case = next(case for case in found.cases if case[0] == 'run')
    for _ in range(20):
        child = subprocess.Popen([case[1]] + case[2], stdin=subprocess.PIPE, stdout=subprocess.PIPE, stderr=subprocess.PIPE,
                                 env={})
        child.stdin.write(case[3])
        child.stdin.close()
        for _ in range(10):
            time.sleep(0.002)
            child.send_signal(signal.SIGSTOP)
            time.sleep(0.002)
            child.send_signal(signal.SIGCONT)
        out, said = child.stdout.read(), child.stderr.read()
        answer = (child.wait(), out, said)
        found.say('run, stop and go', found.is_usual(case, answer), (answer[0], len(out), said))


def within(kind, size):
    """What a child does first: it gets a limit."""
    return lambda: resource.setrlimit(kind, (size, size))


def memory(found):
    """Address spaces from 3 MiB up: the program doesn't start, or it runs out of memory, or it answers as usual."""
    sizes = [size * MIB // 4 for size in range(12, 64)] + [size * MIB for size in range(16, 80, 2)]
    sizes += [size * MIB for size in range(80, 1025, 16)]
    for case in found.cases:
        name, program, words, data, _, _ = case
        starts = done = none = None
        for size in sizes:
            answer = found.call(program, words, data, preexec_fn=within(resource.RLIMIT_AS, size))
            if is_not_started(answer):
                found.say(f'{name}, {size // KIB} KiB of address space', starts is None, answer)
                continue
            starts = starts or size
            if answer == (6, b'', line(program, 'no memory')):
                found.tried, none = found.tried + 1, size
                continue
            good = found.is_usual(case, answer)
            found.say(f'{name}, {size // KIB} KiB of address space', good, (answer[0], len(answer[1]), answer[2]))
            if good and done is None:
                done = size
            if done and size > 4 * done:
                break
        print(f'{name}: address space: it starts with {shown(starts)}, answers "no memory" up to {shown(none)}, '
              f'and answers as usual from {shown(done)} on', flush=True)


def is_not_started(answer):
    """Whether the kernel or the dynamic linker gave up before the program began."""
    status, out, said = answer
    return not out and (status == 127 or status < 0 and not said)


def shown(size):
    """A size in words."""
    return 'none' if size is None else f'{size / KIB:g} KiB'


def stacks(found):
    """Small stacks: prints the least with which a command answers as usual; with 64 KiB each has to."""
    for case in found.cases:
        name, program, words, data, _, _ = case
        least = None
        for size in range(8 * MIB // KIB, 0, -1):
            if size > 128 and size & (size - 1) or size > 64 and size % 16 or size % 4:
                continue
            answer = found.call(program, words, data, preexec_fn=within(resource.RLIMIT_STACK, size * KIB))
            good = found.is_usual(case, answer)
            if size >= 64:
                found.say(f'{name}, a stack of {size} KiB', good, (answer[0], len(answer[1]), answer[2]))
            if not good:
                print(f'{name}: stack: {size} KiB: status {answer[0]}, {answer[2]!r}', flush=True)
                break
            least = size
        print(f'{name}: stack: as usual down to {least} KiB', flush=True)


def without_threads():
    """What a child does first: it becomes a user who may make no thread."""
    resource.setrlimit(resource.RLIMIT_NPROC, (0, 0))
    if os.getuid() == 0:
        os.setgroups([])
        os.setgid(65534)
        os.setuid(65534)


def threads(found):
    """A machine that gives no thread: a run works on the caller's."""
    control = 'import threading\ntry: threading.Thread(target=print).start()\nexcept RuntimeError: raise SystemExit(9)'
    alone = subprocess.run([shutil.which('python3', path='/usr/bin:/usr/local/bin') or sys.executable, '-c', control], preexec_fn=without_threads, capture_output=True, check=False)
    if alone.returncode != 9:
        found.say('threads', False, f'a thread can be made here all the same: {alone}')
        return
    with tempfile.TemporaryDirectory() as room:
        os.chmod(room, 0o755)
        for case in found.cases:
            name, program, words, data, _, _ = case
            copy = f'{room}/{Path(program).name}'
            subprocess.run(['install', '-m', '755', program, copy], check=True)
            start = time.monotonic()
            answer = found.call(copy, words, data, preexec_fn=without_threads)
            found.say(f'{name}, no threads', found.is_usual(case, answer), (answer[0], len(answer[1]), answer[2]))
            if name.startswith('run'):
                print(f'{name}: no thread can be made: status {answer[0]}, {time.monotonic() - start:.2f} s', flush=True)


def measured(program, words, path):
    """Its answer, the processor time in seconds, and the most memory in KiB."""
    with open(path, 'rb') as source, tempfile.TemporaryFile() as out, tempfile.TemporaryFile() as said:
        child = subprocess.Popen([program] + words, stdin=source, stdout=out, stderr=said, env={})
        _, status, used = os.wait4(child.pid, 0)
        child.returncode = os.waitstatus_to_exitcode(status)
        out.seek(0)
        said.seek(0)
        answer = (child.returncode, out.read(), said.read())
    return answer, used.ru_utime + used.ru_stime, used.ru_maxrss


def filled(path, size, head, body):
    """Writes an input of so many bytes: a head, and then the body again and again."""
    with open(path, 'wb') as made:
        made.write(head[:size])
        left = size - made.tell()
        block = body * max(1, MIB // len(body))
        while left > 0:
            left -= made.write(block[:left])


def bad(program, number):
    """The answer to a bad line of a journal."""
    return (8, b'', line(program, f'line {number}: journal'))


def long(found):
    """Inputs of 64 MiB of each kind: the time by length, and the most memory."""
    program = found.run_program
    lines = found.whole.count(b'\n')
    small = b'nodes 1\nset s\nclient a at 0\njournal\n'
    kinds = [
        ('empty lines', b'', b'\n', lambda size: (2, b'', line(program, f'line {size + 1}: S5'))),
        ('one line', b'', b'x', lambda size: (2, b'', line(program, 'line 1: S2'))),
        ('one comment', b'', b'#', lambda size: (2, b'', line(program, 'line 2: S5'))),
        ('a script without a line journal', b'nodes 1\n', b'# none\n', None),
        ('a script with a fault', b'nodes 0\n', b'# none\n', lambda size: (2, b'', line(program, 'line 1: S4'))),
        ('empty lines after journal', small, b'\n', lambda size: bad(program, 5)),
        ('one line after journal', small, b'x', lambda size: bad(program, 5)),
        ('lines of a move', small, b'move 1 0 act a\n', lambda size: bad(program, 5)),
        ('a journal that goes on', found.whole, found.journal, lambda size: bad(program, lines + 1)),
        ('bytes of no text', small, b'\xff\x00\r', lambda size: bad(program, 5)),
    ]
    with tempfile.TemporaryDirectory() as room:
        path = f'{room}/input'
        for name, head, body, wanted in kinds:
            figures = []
            for size in [MOST_JOURNAL // 4, MOST_JOURNAL // 2, MOST_JOURNAL]:
                filled(path, size, head, body)
                answer, seconds, most = measured(program, ['check'], path)
                good = answer == wanted(size) if wanted else answer[0] == 8 and not answer[1]
                found.say(f'check, {name}, {size} bytes', good, answer)
                figures.append(f'{size // MIB} MiB {seconds:.2f} s {most // KIB} MiB')
            print(f'check, {name}: {", ".join(figures)}: {answer[2].decode().strip()}', flush=True)
            if Path(found.waits_program).exists():
                same, seconds, most = measured(found.waits_program, [], path)
                found.say(f'waits, {name}', (*same[:2], same[2].replace(b'lockwaits', b'lockrun')) == answer, same)
            filled(path, MOST_JOURNAL + 1, head, body)
            answer, seconds, most = measured(program, ['check'], path)
            found.say(f'check, {name}, a byte more', answer == (2, b'', line(program, 'input too long')), answer)
            for word in ['run', 'order']:
                answer, seconds, most = measured(program, [word], path)
                found.say(f'{word}, {name}', answer == (2, b'', line(program, 'input too long')), answer)
            if Path(found.nest_program).exists():
                answer, seconds, most = measured(found.nest_program, [], path)
                found.say(f'nested, {name}', answer == (2, b'', line(found.nest_program, 'input too long')), answer)


def main():
    """Tries all parts, or those that are named, and prints what is wrong."""
    parser = argparse.ArgumentParser(description=__doc__, formatter_class=argparse.RawDescriptionHelpFormatter)
    parser.add_argument('--program', default=str(TOP / 'crates/lockrun/out/lockrun'), help='the proved lockrun')
    parser.add_argument('--nest', default=str(TOP / 'crates/locknest/out/locknest'), help='the proved locknest')
    parser.add_argument('--waits', default=str(TOP / 'crates/lockwaits/out/lockwaits'), help='the proved lockwaits')
    parser.add_argument('parts', nargs='*', choices=[[], *PARTS], help='the parts to be tried; all, if none is named')
    args = parser.parse_args()
    found = Answers(args)
    for part in args.parts or PARTS:
        before = found.tried
        globals()[part](found)
        print(f'{part}: {found.tried - before} tries', flush=True)
    for fault in found.wrong[:50]:
        print(fault)
    print(f'tests/hand/streams.py: {found.tried} tries, {len(found.wrong)} wrong answers')
    return 1 if found.wrong else 0


if __name__ == '__main__':
    sys.exit(main())

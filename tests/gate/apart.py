#!/usr/bin/env python3
"""Runs nodes in processes of their own, whose frames go through a carrier that delays, cuts, repeats, leaves out, exchanges, flips
and makes up frames, and gives frames again from the last one that came. Each frame that isn't the next one has to be refused with
its code, and the node has to be as it was; no lock may be granted twice; and once all are done, what the nodes say of their moves,
joined, has to be accepted by `lockrun check`.

usage: tests/gate/apart.py [RUNS [FLIPS [SEED]]]: so many runs of 2 to 8 processes (6), and so many frames that are flipped, cut and made
up for one node (20000). LOCKRUN_LIBRARY names liblockrun.so, else clients/link makes it; LOCKRUN names the program."""
import hashlib
import mmap
import os
import random
import select
import signal
import socket
import struct
import subprocess
import sys
import tempfile
import time
from pathlib import Path

TOP = Path(__file__).resolve().parents[2]
sys.path.insert(0, str(TOP / 'clients' / 'python'))
sys.dont_write_bytecode = True
import lockrun  # noqa: E402
from lockrun_apart import Apart  # noqa: E402

KEY, OTHER_KEY = b'a key that the nodes share', b'another key'
HEAD, SEAL, SETS, SECONDS = 23, 16, 3, 120
WORD = struct.Struct('=q')
ANSWER = struct.Struct('=BIIQ')
FAILED = []


def fail(what):
    """Says what is wrong, and goes on."""
    FAILED.append(what)
    print(f'tests/gate/apart.py: {what}', flush=True)


def script(nodes, sets=SETS):
    """The nodes, sets and clients, one at each node."""
    lines = [f'nodes {nodes}'] + [f'set s{k}' for k in range(sets)] + [f'client c{k} at {k}' for k in range(nodes)]
    return '\n'.join(lines) + '\n'


def sealed(body, key):
    """A frame of this head and letter."""
    return body + hashlib.sha256(key + body).digest()[:SEAL]


class Nowhere:
    """A transport that keeps what is to be carried, and from which nothing comes."""

    def __init__(self):
        self.out = {}

    def carry(self, node, frames):
        """Keeps frames."""
        self.out.setdefault(node, []).append(frames)

    def sleep(self, _patience):
        """Nothing comes."""
        return ()


class Link:
    """The transport of a node of a run: a socket to the carrier, which is told what came of each frame."""

    def __init__(self, stream, me):
        self.stream, self.me, self.apart, self.quits, self.asked = stream, me, None, False, False
        self.received = {}

    def carry(self, node, frames):
        """Gives the carrier each frame."""
        while frames:
            size = HEAD + SEAL + int.from_bytes(frames[:4], 'little')
            self.stream.send(b'F' + bytes([node]) + frames[:size])
            frames = frames[size:]

    def sleep(self, patience):
        """Waits for a message of the carrier; frames are received at once."""
        if self.asked:
            self.asked = False
            self.stream.send(b'P')
        if patience is not None and not select.select([self.stream], [], [], patience)[0]:
            return ()
        message = self.stream.recv(1 << 20)
        if message[:1] == b'M':
            node, before = message[1], self.apart.received
            used, code = self.apart.receive(node, bytearray(message[2:]))
            self.received[node] = self.received.get(node, 0) + self.apart.received - before
            self.stream.send(b'A' + ANSWER.pack(node, code, used, self.received[node]))
        self.asked, self.quits = message[:1] == b'P', not message or message[:1] == b'Q'
        return ()


class Holders:
    """Of each set who holds it, how often it was held, and how often two held it: words that all processes see."""

    def __init__(self):
        self.words = mmap.mmap(-1, WORD.size * 3 * SETS)

    def get(self, place):
        """A word."""
        return WORD.unpack_from(self.words, WORD.size * place)[0]

    def put(self, place, value):
        """Writes a word."""
        WORD.pack_into(self.words, WORD.size * place, value)

    def hold(self, name, me):
        """What a process does that has the lock by `write`."""
        if self.get(3 * name) != 0:
            self.put(3 * name + 2, 1)
        self.put(3 * name, me + 1)
        count = self.get(3 * name + 1)
        os.sched_yield()
        self.put(3 * name + 1, count + 1)
        if self.get(3 * name) != me + 1:
            self.put(3 * name + 2, 1)
        self.put(3 * name, 0)


def run_node(stream, me, nodes, start, holders, locks, folder):
    """The process of a node: its client takes locks one after the other, and then it serves the others."""
    link = Link(stream, me)
    link.apart = apart = Apart(script(nodes), me, nodes, KEY, start, link, keep=True)
    session, draw = apart.session(f'c{me}'), random.Random(start * 64 + me)
    for _ in range(locks):
        name = draw.randrange(SETS)
        with session.lock(f's{name}', 'write'):
            holders.hold(name, me)
    stream.send(b'D')
    while not link.quits:
        apart.serve(None)
    journal = apart.finish()
    Path(folder, f'part.{me}').write_text(journal.script + 'journal\n' + journal.text, encoding='ascii')


class Carrier:
    """What stands between the nodes. Of each pair it keeps all frames, and how many came."""

    def __init__(self, streams, draw):
        self.streams, self.draw, self.nodes = streams, draw, len(streams)
        self.frames = {(p, q): [] for p in range(self.nodes) for q in range(self.nodes) if p != q}
        self.came = dict.fromkeys(self.frames, 0)
        self.waits = {}
        self.done, self.pinged, self.seen = set(), set(), 0
        self.codes = {}

    def work(self):
        """Carries until all are done and all came: whether that was so in time."""
        end = time.monotonic() + SECONDS
        while time.monotonic() < end:
            self.take(0.002)
            self.deliver()
            if self.is_over():
                return True
        return False

    def take(self, patience):
        """Takes what the nodes say."""
        for stream in select.select(list(self.streams), [], [], patience)[0]:
            node = self.streams.index(stream)
            message = stream.recv(1 << 20)
            if not message:
                raise EOFError(f'node {node} has ended')
            if message[:1] == b'F':
                self.frames[node, message[1]].append(message[2:])
                self.seen += 1
            elif message[:1] == b'A':
                self.judge(node, *ANSWER.unpack(message[1:]))
            elif message[:1] == b'D':
                self.done.add(node)
            elif message[:1] == b'P':
                self.pinged.add(node)

    def is_over(self):
        """Whether all are done, all frames came, and since then no node gave another one out."""
        if len(self.done) < self.nodes or self.waits or any(self.came[pair] < len(self.frames[pair]) for pair in self.frames):
            return False
        before, self.pinged = self.seen, set()
        for stream in self.streams:
            stream.send(b'P')
        while len(self.pinged) < self.nodes:
            self.take(0.01)
        return self.seen == before

    def deliver(self):
        """Gives some nodes something."""
        for to in range(self.nodes):
            if to in self.waits or self.draw.random() < 0.2:
                continue
            pairs = [pair for pair in self.frames if pair[1] == to and self.frames[pair]]
            if not pairs:
                continue
            pair = self.draw.choice(pairs)
            bytes_, wanted, more = self.next(pair)
            if bytes_:
                self.waits[to] = pair[0], wanted, more
                self.streams[to].send(b'M' + bytes([pair[0]]) + bytes_)

    def next(self, pair):
        """What a pair's receiver is given: bytes, the codes that it may answer, and how many frames it receives."""
        frames, came = self.frames[pair], self.came[pair]
        if came == len(frames):
            return (frames[self.draw.randrange(came)], {lockrun.AGAIN}, 0) if self.draw.random() < 0.1 else (b'', (), 0)
        due = frames[came]
        kind = self.draw.randrange(16)
        if kind < 6:
            count = self.draw.randrange(1, 1 + min(4, len(frames) - came))
            return b''.join(frames[came:came + count]), {lockrun.OK}, None
        if kind == 6 and came:
            return frames[self.draw.randrange(came)], {lockrun.AGAIN}, 0
        if kind == 7 and came + 1 < len(frames):
            return frames[self.draw.randrange(came + 1, len(frames))], {lockrun.MISSING}, 0
        if kind == 8:
            return due[:self.draw.randrange(len(due))], {lockrun.OK}, 0
        if kind == 9:
            return sealed(due[:-SEAL], OTHER_KEY), {lockrun.BAD_SEAL}, 0
        if kind == 10:
            other = [frame for q, frames in self.frames.items() if q[1] != pair[1] for frame in frames[-1:]]
            return (self.draw.choice(other), {lockrun.OTHER_NODE}, 0) if other else (due, {lockrun.OK}, None)
        if kind == 11:
            return due + flipped(frames[came + 1], self.draw)[0] if came + 1 < len(frames) else due, None, None
        return (*flipped(due, self.draw), 0)

    def judge(self, to, node, code, used, received):
        """Sees that the answer is one that may be."""
        from_, wanted, more = self.waits.pop(to)
        pair = from_, to
        self.codes[code] = self.codes.get(code, 0) + 1
        gained = received - self.came[pair]
        if node != from_ or (wanted is not None and code not in wanted) or (more is not None and gained != more):
            fail(f'node {to} answered {code}, used {used} bytes and received {gained} frames, and not {wanted} and {more}')
        if not 0 <= gained <= len(self.frames[pair]) - self.came[pair]:
            fail(f'node {to} received {gained} frames')
        self.came[pair] = received


def flipped(frame, draw):
    """The frame with a bit changed, and the codes that it may be refused with."""
    place = draw.randrange(len(frame))
    changed = bytearray(frame)
    changed[place] ^= 1 << draw.randrange(8)
    if place < 4:
        return bytes(changed), {lockrun.OK, lockrun.TOO_LONG, lockrun.BAD_SEAL}
    if place == 4:
        return bytes(changed), {lockrun.OTHER_VERSION}
    if place < 13:
        return bytes(changed), {lockrun.OTHER_SERVICE}
    if place < 15:
        return bytes(changed), {lockrun.OTHER_NODE}
    return bytes(changed), {lockrun.BAD_SEAL}


def run(number, nodes, locks, folder):
    """One run: which codes came, and how often."""
    holders, streams, processes = Holders(), [], []
    for me in range(nodes):
        mine, other = socket.socketpair(socket.AF_UNIX, socket.SOCK_SEQPACKET)
        process = os.fork()
        if process == 0:
            mine.close()
            status = 1
            try:
                run_node(other, me, nodes, number, holders, locks, folder)
                status = 0
            except BaseException as error:  # noqa: BLE001 the process ends here
                print(f'tests/gate/apart.py: run {number}, node {me}: {error!r}', flush=True)
            os._exit(status)
        other.close()
        streams.append(mine)
        processes.append(process)
    carrier = Carrier(streams, random.Random(number))
    try:
        if not carrier.work():
            fail(f'run {number} of {nodes} nodes is not done after {SECONDS} seconds')
        for stream in streams:
            stream.send(b'Q')
    except (EOFError, OSError) as error:
        fail(f'run {number} of {nodes} nodes: {error}')
        for process in processes:
            os.kill(process, signal.SIGKILL)
    statuses = [os.waitpid(process, 0)[1] for process in processes]
    if any(statuses):
        fail(f'run {number} of {nodes} nodes: the processes ended with {statuses}')
        return carrier.codes
    if any(holders.get(3 * name + 2) for name in range(SETS)):
        fail(f'run {number} of {nodes} nodes: two held a set')
    if sum(holders.get(3 * name + 1) for name in range(SETS)) != nodes * locks:
        fail(f'run {number} of {nodes} nodes: a lock did not keep others away')
    check(number, [Path(folder, f'part.{me}') for me in range(nodes)])
    return carrier.codes


def check(number, parts):
    """Sees that what the nodes say, joined, is the journal of a run."""
    joined = subprocess.run([TOP / 'tools' / 'join', *parts], capture_output=True, check=False)
    program = os.environ.get('LOCKRUN', TOP / 'crates' / 'lockrun' / 'out' / 'lockrun')
    if joined.returncode:
        fail(f'run {number}: {joined.stderr.decode()}')
    elif os.access(program, os.X_OK):
        said = subprocess.run([program, 'check'], input=joined.stdout, capture_output=True, check=False)
        if said.returncode or not said.stdout.startswith(b'ok '):
            fail(f'run {number}: lockrun check says {said.stdout[:100]} {said.stderr[:100]}')


def two_nodes(start=1, key=KEY, text=script(2)):
    """Two nodes in this process."""
    return [Apart(text, me, 2, key, start, Nowhere()) for me in range(2)]


def ask(apart, kind=lockrun.LOCK):
    """Submits a command of a node's client on the first set, and lets the node make its moves."""
    session = next(iter(apart.sessions.values()))
    lockrun.said(apart.library.lockrun_submit(session.handle, kind, 0, lockrun.MODES.index('write'), 0))
    apart.turn()
    return session


def reply_of(apart):
    """The next reply of a node's client, by its number."""
    count = lockrun.c_uint64()
    return apart.library.lockrun_poll(next(iter(apart.sessions.values())).handle, count)


def want(what, said, wanted):
    """Sees that it is this."""
    if said != wanted:
        fail(f'{what}: {said} and not {wanted}')


def try_codes():
    """Each code of a frame that isn't the next one; after each the next one is received."""
    one, two = two_nodes()
    ask(two)
    frame = b''.join(two.transport.out[0])
    want('a frame of an earlier start', Apart(script(2), 0, 2, KEY, 2, Nowhere()).receive(1, frame), (0, lockrun.OTHER_SERVICE))
    want('a frame of another script', Apart(script(2, 2), 0, 2, KEY, 1, Nowhere()).receive(1, frame), (0, lockrun.OTHER_SERVICE))
    want('a frame of another key', Apart(script(2), 0, 2, OTHER_KEY, 1, Nowhere()).receive(1, frame), (0, lockrun.BAD_SEAL))
    want('a frame for another node', two.receive(0, frame), (0, lockrun.OTHER_NODE))
    body = bytearray(frame[:-SEAL])
    want('a frame of another version', one.receive(1, sealed(body[:4] + b'\x02' + body[5:], KEY)), (0, lockrun.OTHER_VERSION))
    want('a later frame', one.receive(1, sealed(body[:15] + b'\x01' + body[16:], KEY)), (0, lockrun.MISSING))
    want('a long frame', one.receive(1, b'\xff\xff\xff\x7f' + frame[4:]), (0, lockrun.TOO_LONG))
    want('no letter', one.receive(1, sealed(b'\x01\0\0\0' + body[4:HEAD] + b'?', KEY)), (0, lockrun.NO_LETTER))
    want('no node', one.receive(7, frame), (0, lockrun.BAD_ARGUMENT))
    want('itself', one.receive(0, frame), (0, lockrun.BAD_ARGUMENT))
    want('a piece of a frame', one.receive(1, frame[:-1]), (0, lockrun.OK))
    want('the frame, and a piece', one.receive(1, frame + frame[:9]), (len(frame), lockrun.OK))
    want('the frame again', one.receive(1, frame), (0, lockrun.AGAIN))
    one.turn()
    want('what the token is', two.receive(0, b''.join(one.transport.out[1]))[1], lockrun.OK)
    two.turn()
    want('the reply', reply_of(two), lockrun.GRANTED)


def try_pending():
    """What waits for a node that is gone waits, and is told; and a buffer without room says how much it wants."""
    one, two = two_nodes()
    session = next(iter(two.sessions.values()))
    lockrun.said(two.library.lockrun_submit(session.handle, lockrun.LOCK, 0, lockrun.MODES.index('write'), 0))
    want('pending before', two.pending(0), False)
    two.make_moves()
    want('pending', two.pending(0), True)
    length = lockrun.c_size_t()
    want('no reply', reply_of(two), lockrun.NOTHING)
    want('no room', two.library.lockrun_send(two.handle, 0, two.frames, 10, length), lockrun.FULL)
    want('still pending', two.pending(0), True)
    want('the room that it wants', two.library.lockrun_send(two.handle, 0, two.frames, length, length), lockrun.OK)
    want('nothing more', two.library.lockrun_send(two.handle, 0, two.frames, 1000, length), lockrun.NOTHING)
    want('pending after', two.pending(0), False)
    want('to itself', two.library.lockrun_send(two.handle, 1, two.frames, 1000, length), lockrun.BAD_ARGUMENT)
    want('to a session', two.library.lockrun_pending(session.handle, 0), lockrun.WRONG_HANDLE)
    want('received', one.receive(1, bytes(two.frames[:length.value])), (length.value, lockrun.OK))


def try_flips(count, draw):
    """Frames that are flipped, cut and made up: all are refused, and then the right one is received, and a lock is granted."""
    one, two = two_nodes()
    ask(two)
    frame = b''.join(two.transport.out[0])
    for _ in range(count):
        kind = draw.randrange(3)
        if kind == 0:
            bytes_, wanted = flipped(frame, draw)
        elif kind == 1:
            bytes_, wanted = frame[:draw.randrange(len(frame))], {lockrun.OK}
        else:
            bytes_, wanted = draw.randbytes(draw.randrange(100)), None
        used, code = one.receive(1, bytes_)
        if used or (wanted is not None and code not in wanted):
            fail(f'{bytes_.hex()} was answered by {code}, and {used} bytes were used')
    want('the right frame', one.receive(1, frame), (len(frame), lockrun.OK))
    one.turn()
    grant = b''.join(one.transport.out[1])
    want('the grant', two.receive(0, grant), (len(grant), lockrun.OK))
    two.turn()
    want('the lock', reply_of(two), lockrun.GRANTED)


def try_flood():
    """A node that sends more letters than another one has places for: the rest is received once that one has made turns."""
    text = 'version 3\nnodes 2\n' + ''.join(f'set s{k}\n' for k in range(8)) + ''.join(f'client c{k} at 1\n' for k in range(16))
    one, two = two_nodes(text=text)
    kinds = ((lockrun.LOCK, lockrun.MODES.index('write')), (lockrun.WITHDRAW, None))
    for name in range(8):
        for kind, mode in kinds:
            for session in two.sessions.values():
                first = session.client if mode is None else mode
                lockrun.said(two.library.lockrun_submit(session.handle, kind, name, first, 0))
                two.turn()
                while two.library.lockrun_poll(session.handle, lockrun.c_uint64()) != lockrun.NOTHING:
                    pass
    frames = b''.join(two.transport.out[0])
    used, code = one.receive(1, frames)
    want('what a flood is answered', code, lockrun.OK)
    if not 0 < used < len(frames):
        fail(f'{used} of {len(frames)} bytes of a flood were used at once')
    while used < len(frames):
        one.turn()
        more, code = one.receive(1, frames[used:])
        if code != lockrun.OK or not more:
            fail(f'after {used} bytes of a flood {code} came, and {more} were used')
            return
        used += more
    for _ in range(1000):
        if one.receive(1, frames)[1] != lockrun.AGAIN:
            fail('a frame of a flood was received again')


class Plain(Carrier):
    """A carrier that gives each frame once and in order, and nothing to a node that is gone."""

    def next(self, pair):
        """The due frames."""
        frames, came = self.frames[pair], self.came[pair]
        return b''.join(frames[came:]), {lockrun.OK}, None

    def work_until(self, over):
        """Carries until this is so: whether it was in time."""
        end = time.monotonic() + SECONDS
        while time.monotonic() < end and not over():
            self.take(0.002)
            self.deliver()
        return over()


def run_beside(stream, me, phases):
    """The process of a node of which node 2 stops while it holds s0: who asks for that gives up, and the others go on."""
    link = Link(stream, me)
    link.apart = apart = Apart(script(3), me, 3, KEY, 1, link)
    session = apart.session(f'c{me}')
    if me == 2:
        guard = session.lock('s0', 'write')
        phases.put(0, 1)
        while guard:
            apart.serve(None)
    while phases.get(0) == 0:
        apart.serve(0.01)
    try:
        session.lock('s0', 'write', timeout=0.3)
        phases.put(2, 1)
    except lockrun.Withdrawn:
        pass
    for _ in range(20):
        with session.lock('s1', 'write'):
            phases.put(1, phases.get(1) + 1)
    stream.send(b'D')
    while not link.quits:
        apart.serve(None)


def try_stop():
    """A node that stops while it holds a lock: nobody else is granted it, who asks for it may give up, and others go on."""
    phases, streams, processes = Holders(), [], []
    for me in range(3):
        mine, other = socket.socketpair(socket.AF_UNIX, socket.SOCK_SEQPACKET)
        process = os.fork()
        if process == 0:
            try:
                run_beside(other, me, phases)
            finally:
                os._exit(0)
        other.close()
        streams.append(mine)
        processes.append(process)
    carrier = Plain(streams, random.Random(1))
    if not carrier.work_until(lambda: phases.get(0) == 1):
        fail('the node that is to stop got no lock')
    os.kill(processes[2], signal.SIGSTOP)
    if not carrier.work_until(lambda: carrier.done == {0, 1}):
        fail('the others did not go on')
    want('locks of the others', phases.get(1), 40)
    want('a lock that a stopped node holds', phases.get(2), 0)
    for process in processes:
        os.kill(process, signal.SIGKILL)
        os.waitpid(process, 0)


def main():
    """The status is 0 if nothing failed."""
    runs, flips, seed = (list(map(int, sys.argv[1:])) + [6, 20000, 1][len(sys.argv) - 1:])[:3]
    try_codes()
    try_pending()
    try_flood()
    try_stop()
    try_flips(flips, random.Random(seed))
    codes = {}
    with tempfile.TemporaryDirectory() as folder:
        for number in range(seed, seed + runs):
            for code, count in run(number, 2 + number % 7, 12, folder).items():
                codes[code] = codes.get(code, 0) + count
    names = {getattr(lockrun, name): name for name in ('OK', 'OTHER_VERSION', 'OTHER_SERVICE', 'OTHER_NODE', 'MISSING', 'AGAIN',
                                                       'TOO_LONG', 'BAD_SEAL', 'NO_LETTER', 'MISFIT', 'NO_MEMORY')}
    print('tests/gate/apart.py:', ', '.join(f'{names.get(code, code)} {codes[code]}' for code in sorted(codes)))
    print(f'tests/gate/apart.py: {runs} runs, {flips} frames, {len(FAILED)} faults')
    return 1 if FAILED else 0


def linked():
    """The status of the same with a library that is made for it."""
    with tempfile.TemporaryDirectory() as room:
        subprocess.run([TOP / 'clients/link', room], check=True)
        return subprocess.call([sys.executable, *sys.argv], env=os.environ | {'LOCKRUN_LIBRARY': f'{room}/liblockrun.so'})


if __name__ == '__main__':
    sys.exit(main() if 'LOCKRUN_LIBRARY' in os.environ else linked())

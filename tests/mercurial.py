#!/usr/bin/python3
"""Has Mercurial's own server code read what the archive sends.

    /usr/bin/python3 tests/mercurial.py [REQUESTS [SEED]]

It is run by hand: it needs Debian's package mercurial (6.3.2), which no other test does. Random requests, 5,000 by default, are
sent by the archive, as lines `send` of tests/replay, which is built first if it must be. Mercurial's wireprotoframing then reads
the frames and its serverreactor says which command is to be run: its name, arguments, request id and data are held to what was
asked for. It prints one line of figures, or one line that says what differs, and then its status is 1.

Of Mercurial's server: it wants each request id once, so that a reactor here gets as many requests as a session has; it takes a
frame on a stream that is open or that the frame begins, as the channel does; its decoder makes Python's objects of the arguments,
so that a set or a map with both 1 and True in it would come back with one of them: those are left out.
"""
import io
import os
import random
import subprocess
import sys

# This folder goes first in the path, and this file has the package's name.
del sys.path[0]
try:
    from mercurial import ui, wireprotoframing
    from mercurial.utils import cborutil
except ImportError:
    sys.exit("mercurial.py: the Python that runs this has no package mercurial; Debian's is for /usr/bin/python3")

REPLAY = os.path.join(os.path.dirname(os.path.abspath(__file__)), 'replay')
LONGEST_COMMAND = 2048
LARGEST_SIZE = 4096
LARGEST_OUTPUT = 100000
# What must come up, at least once in each hundred requests.
SHAPES = (
    'one command frame', 'several command frames', 'no data', 'empty data', 'one data frame', 'several data frames',
    'a full last data frame', 'no arguments', 'set', 'array', 'map', 'size 1', 'largest size', 'wide heads', 'begin', 'no begin',
    'end', 'no end',
)


def fail(reason):
    print('mercurial.py: ' + reason)
    sys.exit(1)


# ---- arguments, and their bytes


def head(chance, wide, major, number):
    """A head of CBOR. One in so many as `wide` has more bytes than it needs; none where `wide` is 0."""
    widths = [width for width, most in ((0, 23), (1, 0xff), (2, 0xffff), (4, 0xffffffff), (8, 2**64 - 1)) if number <= most]
    width = chance.choice(widths) if wide and chance.randrange(wide) == 0 else widths[0]
    if width == 0:
        return bytes([major << 5 | number])
    return bytes([major << 5 | {1: 24, 2: 25, 4: 26, 8: 27}[width]]) + number.to_bytes(width, 'big')


def encode(chance, wide, value):
    if value is None or isinstance(value, bool):
        return {False: b'\xf4', True: b'\xf5', None: b'\xf6'}[value]
    if isinstance(value, int):
        return head(chance, wide, 0, value) if value >= 0 else head(chance, wide, 1, -1 - value)
    if isinstance(value, bytes):
        return head(chance, wide, 2, len(value)) + value
    if isinstance(value, dict):
        pairs = b''.join(encode(chance, wide, part) for pair in value.items() for part in pair)
        return head(chance, wide, 5, len(value)) + pairs
    # Python's order of a set differs from run to run.
    items = sorted(value, key=repr) if isinstance(value, set) else value
    tag = head(chance, wide, 6, 258) if isinstance(value, set) else b''
    return tag + head(chance, wide, 4, len(value)) + b''.join(encode(chance, wide, item) for item in items)


def plain(chance):
    kind = chance.randrange(3)
    if kind == 0:
        any_width = chance.getrandbits(chance.randrange(1, 65))
        number = chance.choice((any_width, any_width, 23, 24, 255, 256, 2**63, 2**64 - 1))
        # 0 and 1 are left to False and True.
        return max(number, 2) if chance.randrange(2) else -1 - number
    if kind == 1:
        return chance.choice((False, True, None))
    return chance.randbytes(chance.choice((0, 1, 3, 23, 24, 60)))


def value(chance, levels):
    kind = chance.randrange(8) if levels else 0
    count = chance.choice((0, 1, 2, 3))
    if kind == 5:
        return [value(chance, levels - 1) for _ in range(count)]
    if kind == 6:
        return {plain(chance) for _ in range(count)}
    if kind == 7:
        return {plain(chance): value(chance, levels - 1) for _ in range(count)}
    return plain(chance)


def same(one, other):
    """Whether two values are equal and of the same types, in which True is not 1."""
    if type(one) is not type(other):
        return False
    if isinstance(one, list):
        return len(one) == len(other) and all(map(same, one, other))
    if isinstance(one, set):
        return {(type(item), item) for item in one} == {(type(item), item) for item in other}
    if isinstance(one, dict):
        keys = {(type(key), key) for key in one} == {(type(key), key) for key in other}
        return keys and all(same(one[key], other[key]) for key in one)
    return one == other


# ---- requests


class Request:
    """A request of a session in which the streams of `streams` are open."""

    def __init__(self, chance, id, streams):
        self.id = id
        self.stream = chance.choice((1, 3, 5, 127, 255))
        self.begin = self.stream not in streams
        self.end = chance.randrange(2) == 1
        self.name = chance.randbytes(chance.choice((1, 3, 8, 23, 24, 64)))
        self.wide = chance.choice((0, 0, 1, 4))
        while True:
            count = chance.choice((0, 1, 2, 3, 6, 30))
            self.args = {chance.randbytes(chance.randrange(1, 9)): value(chance, 6) for _ in range(count)}
            self.pairs = self.encoded(chance)
            if len(self.name) + len(self.pairs) + 16 <= LONGEST_COMMAND:
                break
        self.size = chance.choice((1, 2, 16, 64, 255, 1000, LARGEST_SIZE - 1, LARGEST_SIZE, LARGEST_SIZE, chance.randint(1, LARGEST_SIZE)))
        most = min(3 * self.size, LARGEST_OUTPUT // 12)
        lengths = (0, min(self.size, most), most, chance.randrange(1, most + 1), chance.randrange(1, most + 1))
        self.data = None if chance.randrange(3) == 0 else chance.randbytes(chance.choice(lengths))

    def encoded(self, chance):
        """The pairs: by Mercurial's own encoder, or with heads that are wider than they need be."""
        if self.wide == 0:
            return b''.join(b''.join(cborutil.streamencode(part)) for pair in self.args.items() for part in pair)
        return b''.join(encode(chance, self.wide, part) for pair in self.args.items() for part in pair)

    def line(self):
        spelled = [part.hex() or '-' for part in (self.name, self.pairs)]
        data = 'none' if self.data is None else self.data.hex() or '-'
        command = (LARGEST_OUTPUT, spelled[0], len(self.args), spelled[1])
        frames = (self.id, self.stream, int(self.begin), int(self.end), self.size, data)
        return ' '.join(map(str, ('send',) + command + frames)) + '\n'

    def shapes(self, frames):
        commands = sum(frame.typeid == wireprotoframing.FRAME_TYPE_COMMAND_REQUEST for frame in frames)
        data = [len(frame.payload) for frame in frames[commands:]]
        types = {type(item) for item in self.args.values()}
        met = {
            'one command frame': commands == 1, 'several command frames': commands > 1, 'no data': not data,
            'empty data': data == [0], 'one data frame': len(data) == 1 and data != [0], 'several data frames': len(data) > 1,
            'a full last data frame': bool(data) and data[-1] == self.size, 'no arguments': not self.args, 'set': set in types,
            'array': list in types, 'map': dict in types, 'size 1': self.size == 1, 'largest size': self.size == LARGEST_SIZE,
            'wide heads': self.wide > 0 and bool(self.args), 'begin': self.begin, 'no begin': not self.begin,
            'end': self.end, 'no end': not self.end,
        }
        return [shape for shape in SHAPES if met[shape]]


def make(chance, count):
    """Sessions of up to twelve requests each, with ids of their own, and streams that stay open or do not."""
    sessions = []
    while count > 0:
        session, streams = [], set()
        for id in chance.sample(range(1, 65536, 2), min(count, chance.randrange(1, 13))):
            request = Request(chance, id, streams)
            (streams.discard if request.end else streams.add)(request.stream)
            session.append(request)
        count -= len(session)
        sessions.append(session)
    return sessions


# ---- what the archive writes, and what Mercurial reads


def send(requests):
    lines = ''.join(request.line() for request in requests)
    ended = subprocess.run([REPLAY], input=lines, capture_output=True, text=True)
    if ended.returncode != 0:
        fail('tests/replay ended with %d: %s' % (ended.returncode, ended.stderr.strip().replace('\n', '; ')))
    answers = ended.stdout.splitlines()
    if len(answers) != len(requests):
        fail('%d answers of tests/replay to %d requests' % (len(answers), len(requests)))
    return answers


def written(answer):
    """The bytes of an answer `sent` that accepts; else None."""
    words = answer.split(' ')
    if len(words) != 4 or words[:2] != ['sent', '0'] or 2 * int(words[2]) != len(words[3]):
        return None
    return bytes.fromhex(words[3])


def read(reactor, request, sent):
    """The frames, and what is wrong with them. The last one, and no other, has the reactor run the command."""
    file = io.BytesIO(sent)
    frames = list(iter(lambda: wireprotoframing.readframe(file), None))
    for place, frame in enumerate(frames, 1):
        wanted = b'runcommand' if place == len(frames) else b'wantframe'
        try:
            action, meta = reactor.onframerecv(frame)
        except Exception as error:
            return frames, 'frame %d of %d raises %r' % (place, len(frames), error)
        if action != wanted:
            return frames, 'frame %d of %d is answered %s: %r' % (place, len(frames), action.decode(), meta)
    asked = {'requestid': request.id, 'command': request.name, 'args': request.args, 'redirect': None, 'data': request.data}
    for key in asked:
        got = meta[key.encode()]
        if not same(got, asked[key]):
            return frames, '%s is %r, not %r' % (key, got, asked[key])
    return frames, None


def main():
    try:
        count, seed = [int(word) for word in sys.argv[1:]] + [5000, 1][len(sys.argv) - 1:]
        if count < 1:
            raise ValueError
    except ValueError:
        fail('usage: /usr/bin/python3 tests/mercurial.py [REQUESTS [SEED]]')
    sessions = make(random.Random(seed), count)
    answers = iter(send([request for session in sessions for request in session]))
    met = dict.fromkeys(SHAPES, 0)
    total_frames = total_bytes = number = 0
    for session in sessions:
        reactor = wireprotoframing.serverreactor(ui.ui())
        for request in session:
            number += 1
            answer = next(answers)
            sent = written(answer)
            if sent is None:
                fail('request %d of seed %d: answered %s' % (number, seed, answer[:60]))
            frames, reason = read(reactor, request, sent)
            if reason is not None:
                fail('request %d of seed %d: %s' % (number, seed, reason[:300]))
            total_frames += len(frames)
            total_bytes += len(sent)
            for shape in request.shapes(frames):
                met[shape] += 1
    for shape in SHAPES:
        if met[shape] * 100 < count:
            fail('"%s" came up only %d times in %d requests' % (shape, met[shape], count))
    figures = (
        '%d requests to %d reactors' % (count, len(sessions)), '%d frames' % total_frames, '%d bytes' % total_bytes,
        '%d with data, %d of them empty' % (count - met['no data'], met['empty data']),
        '%d in frames of 1 byte and %d of 4,096' % (met['size 1'], met['largest size']),
    )
    print('mercurial.py: %s: each read as asked for' % ', '.join(figures))


main()

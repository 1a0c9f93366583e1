#!/usr/bin/env python3
"""Writes a capture to standard output: the bytes that Mercurial's own client code sends for several requests at once.

    /usr/bin/python3 samples/mercurial.py >samples/mercurial.capture
    /usr/bin/python3 samples/mercurial.py large >samples/mercurial-large.capture

It needs Debian's package mercurial (6.3.2), which nothing else here does. Mercurial's module wireprotoframing makes every
byte, heads and frames; this script says which commands are called and sends the requests' frames in turn. In the first capture
it limits the frames, so that commands and data are cut into several; in the second they are as long as Mercurial makes them.
"""
import functools
import io
import sys

# This folder goes first in the path, and this file has the package's name.
del sys.path[0]
try:
    from mercurial import ui, wireprotoframing
except ImportError:
    sys.exit("mercurial.py: the Python that runs this has no package mercurial; Debian's is for /usr/bin/python3")

# The payload of a full frame in the first capture. Mercurial's own limit is 32,768.
LIMIT = 64


def call(reactor, name, args, data=None, redirect=None):
    """The frames of a command."""
    datafh = None if data is None else io.BytesIO(data)
    _, action, meta = reactor.callcommand(name, args, datafh=datafh, redirect=redirect)
    assert action == b'sendframes'
    return meta[b'framegen']


def in_turn(requests):
    """One frame of each request, then the next of each, until all have ended."""
    while requests:
        left = []
        for frames in requests:
            frame = next(frames, None)
            if frame is not None:
                yield bytes(frame)
                left.append(frames)
        requests = left


def limit_frames():
    wireprotoframing.DEFAULT_MAX_FRAME_SIZE = LIMIT
    wireprotoframing.createcommandframes = functools.partial(wireprotoframing.createcommandframes, maxframesize=LIMIT)


def short_requests(reactor):
    return [
        # no arguments: Mercurial leaves `args` out
        call(reactor, b'off', {}),
        # data in two frames
        call(reactor, b'upload', {b'track': 7}, data=bytes(range(100))),
        call(reactor, b'set', {b'coil': 3, b'on': True}),
        # no arguments, and data of no bytes
        call(reactor, b'stop', {}, data=b''),
        call(reactor, b'label', {b'coil': 15, b'text': b'engine shed'}),
        # no arguments, with a redirect; and data that fills a frame, so that the last one is empty
        call(reactor, b'upload', {}, data=b'\xa5' * LIMIT, redirect={b'targets': [b'north', b'south'], b'hashes': [b'sha1']}),
        # a command in two frames, with a value of each type
        call(reactor, b'points', {b'left': {3, 5}, b'right': [-1, 1 << 40], b'until': None, b'by': {b'key': False}, b'hold': 250}),
    ]


def large_requests(reactor):
    """A timetable of 70,000 bytes, which are two full frames and a part of a third, beside a short command."""
    timetable = b''.join(b'train %04d leaves the engine shed; ' % train for train in range(1, 2001))
    return [
        call(reactor, b'upload', {b'track': 7, b'bytes': len(timetable)}, data=timetable),
        call(reactor, b'set', {b'coil': 3, b'on': True}),
    ]


def main(words):
    if words not in ([], ['large']):
        sys.exit('mercurial.py: its one word is `large`')
    requests = large_requests
    if not words:
        limit_frames()
        requests = short_requests
    reactor = wireprotoframing.clientreactor(ui.ui(), hasmultiplesend=True, buffersends=False)
    for frame in in_turn(requests(reactor)):
        sys.stdout.buffer.write(frame)


main(sys.argv[1:])

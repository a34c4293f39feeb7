#!/usr/bin/env python3
"""Feeds the stream program its input in pieces, through a pipe, and compares what it writes with the output that is expected.

    tests/pieces.py PROGRAM INPUT EXPECTED [sheet]

Four ways: a byte at a time; in pieces of random lengths; a command at a time, the next only when the last one's line has come (not
for the sheet, where not every command has a line); and all at once to a reader that lags, so that a write fails. The pipes hand over each piece as it was sent (O_DIRECT), so that each is a
read of its own. In the last way what is out must be a beginning of what is expected, and the exit status 1 where it is not all; in the
others it must be all, and the status 0.
"""

import fcntl
import os
import random
import select
import subprocess
import sys
import threading
import time

sys.dont_write_bytecode = True
sys.path.insert(0, os.path.dirname(os.path.abspath(__file__)))
from coverage import LENGTHS

WAIT = 20


class Fed:
    """The program with a pipe at each end."""

    def __init__(self, program, blocking=True):
        inner, self.feed = os.pipe2(os.O_DIRECT)
        self.out, outer = os.pipe()
        if not blocking:
            fcntl.fcntl(outer, fcntl.F_SETFL, os.O_NONBLOCK)
        self.process = subprocess.Popen([program], stdin=inner, stdout=outer, stderr=None if blocking else subprocess.DEVNULL)
        os.close(inner)
        os.close(outer)
        self.text = b""

    def send(self, piece):
        """False where the program reads no more."""
        try:
            return os.write(self.feed, piece) == len(piece)
        except BrokenPipeError:
            return False

    def read(self):
        """What comes next, or nothing at the end. Fails if it does not come."""
        if not select.select([self.out], [], [], WAIT)[0]:
            raise AssertionError(f"nothing came for {WAIT} s, after {len(self.text)} bytes")
        part = os.read(self.out, 65536)
        self.text += part
        return part

    def end(self):
        """The exit status, once all is read."""
        while self.read():
            pass
        os.close(self.out)
        return self.process.wait(WAIT)

    def finish(self):
        assert self.end() == 0, "the exit status is not 0"
        return self.text


def in_pieces(program, pieces):
    fed = Fed(program)

    def send():
        for piece in pieces:
            if not fed.send(piece):
                break
        os.close(fed.feed)

    sender = threading.Thread(target=send)
    sender.start()
    text = fed.finish()
    sender.join()
    return text


def cut(stream, lengths):
    """The stream in pieces of these lengths, over and over."""
    at, n = 0, 0
    while at < len(stream):
        yield stream[at : at + lengths[n % len(lengths)]]
        at += lengths[n % len(lengths)]
        n += 1


def by_commands(program, stream):
    """A command at a time. Where a line is expected, it must come before anything more is sent."""
    fed = Fed(program)
    at, lines = 0, 0
    while at < len(stream):
        length = LENGTHS.get(stream[at], 1)
        command = stream[at : at + length]
        at += length
        # In two pieces, of which the first has no line yet.
        if len(command) > 1:
            fed.send(command[:1])
        fed.send(command[1:] or command)
        if len(command) == length:
            lines += 1
            while fed.text.count(b"\n") < lines:
                assert fed.read(), f"the program ended before line {lines}"
            if fed.text.endswith(b"\n3\n") or fed.text == b"3\n":
                break
    os.close(fed.feed)
    return fed.finish()


def to_a_reader_that_lags(program, stream):
    """A pipe that does not wait: once it is full a write fails, though there is room again later."""
    fed = Fed(program, blocking=False)
    half = len(stream) // 2
    for part in (stream[:half], stream[half:]):
        for piece in cut(part, [4096]):
            if not fed.send(piece):
                break
        time.sleep(0.1)
        while select.select([fed.out], [], [], 0)[0] and fed.read():
            pass
    os.close(fed.feed)
    return fed.end(), fed.text


def main():
    program, given, wanted, *what = sys.argv[1:]
    with open(given, "rb") as f:
        stream = f.read()
    with open(wanted, "rb") as f:
        expected = f.read()
    some = random.Random(len(stream))
    lengths = [some.choice((1, 2, 3, 5, 8, 13, 23, 24, 25, 100, 1000, 4096)) for _ in range(997)]
    assert in_pieces(program, cut(stream, [1])) == expected, "byte by byte the output differs"
    assert in_pieces(program, cut(stream, lengths)) == expected, "in pieces the output differs"
    if what != ["sheet"]:
        assert by_commands(program, stream) == expected, "command by command the output differs"
    status, text = to_a_reader_that_lags(program, stream)
    assert expected.startswith(text), "to a reader that lags the output is no beginning of what it should be"
    assert status == (0 if text == expected else 1), "to a reader that lags the exit status does not tell whether all is out"


main()

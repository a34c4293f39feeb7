"""Commands of a stream that is written to standard output, each numbered one more than the last accepted one."""

import struct
import sys

_number = 0
_last = b""


def ahead(count):
    """So many more than the last accepted number."""
    return _number + count


def write(code, numbered, operands=b""):
    raw = struct.pack(">BI", code, numbered) + operands
    sys.stdout.buffer.write(raw)
    return raw


def put(code, operands=b"", at=None):
    """A command that is accepted; `at` is its number, if not the next."""
    global _number, _last
    _number = ahead(1) if at is None else at
    _last = write(code, _number, operands)


def refused(code, operands=b""):
    """A command that is refused, with the number that would be next."""
    write(code, ahead(1), operands)


def again():
    """The last accepted command once more."""
    sys.stdout.buffer.write(_last)

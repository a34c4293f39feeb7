#!/usr/bin/env python3
"""Writes the stdin of crates/sheets_run, or with `expected` and the plain unit's program what it must print.

A case is a stream; its record is its length in two bytes and 1,024 bytes of which it is the first. After its sheet comes a line.
"""

import os
import struct
import subprocess
import sys

sys.dont_write_bytecode = True
sys.path.insert(0, os.path.dirname(os.path.abspath(__file__)))
from sheet import accepted, sheet

START = bytes.fromhex("01 00000001 00 00A0 0190 02BC 01F4 1E 14 14 1E 0A 0F 32 017C 0D")


def numbered(command, number):
    return command[:1] + number.to_bytes(4, "big") + command[5:]


def state(number, to):
    """Command 02, to a state."""
    return numbered(bytes.fromhex("02 00000000") + bytes([to]), number)


def settled():
    """A start and reports at a stand until there is a reference pressure: numbers 1 to 32."""
    standing = bytes.fromhex("10 00000000 0000 0000 0000 03E8 00")
    return START + b"".join(numbered(standing, number) for number in range(2, 33))


def event(number, which, speed=0):
    """Command 50."""
    return numbered(bytes.fromhex("50 00000000") + bytes([which]) + speed.to_bytes(2, "big"), number)


def record(number, ident, category, metres, speed):
    """Command 51, on the level."""
    return numbered(bytes.fromhex("51 00000000") + struct.pack(">BBHHb", ident, category, metres, speed, 0), number)


def signal(number, kind, route):
    """Command 52."""
    return numbered(bytes.fromhex("52 00000000") + bytes([kind, route]), number)


def record_end(number, ident):
    """Command 53."""
    return numbered(bytes.fromhex("53 00000000") + bytes([ident]), number)


def fast(number, moved):
    """A report at 90 km/h."""
    return numbered(bytes.fromhex("10 00000000 09C4") + moved.to_bytes(2, "big") + bytes.fromhex("0000 03E8 00"), number)


def changes(first, count):
    """A start and changes of state, each of which gets a line, between CS and HS: as many lines as asked for."""
    return numbered(START, first) + b"".join(state(first + i, 1 if i % 2 else 2 if i else 1) for i in range(1, count))


CASES = [
    # Nothing at all.
    b"",
    # Bytes that are refused, and no accepted command.
    b"\x7f",
    state(1, 1) + START[:-1],
    # One line, and then repeats and refusals only: 100, 7, 9, 10, 6 and 3.
    START + START + state(3, 1) + state(2, 5) + state(2, 3) + state(0, 1) + START + b"\x7f",
    # A start and a later one: the line before it counts, so that DE is not printed twice.
    START + START[:5] + b"\x01" + START[6:] + state(2, 1) + START + state(2, 1),
    # Numbers of ten digits, and of nine.
    changes(999999998, 4),
    changes(4294967290, 6),
    # FA: order 3, causes 0000, shown id 255.
    START + state(2, 1) + state(3, 4) + state(3, 4) + state(4, 1) + START,
    # A page with one line to spare, a full one, and one line more; two full pages, and one line more.
    changes(1, 48),
    changes(1, 49),
    changes(1, 50),
    changes(1, 98),
    changes(1, 99),
    # Area events in DA: a line for 130, for a GMD's 90 and for fully equipped, none for the same 90, a group or a refused event.
    settled() + state(33, 3) + event(34, 2) + event(35, 1, 90) + event(36, 1, 90) + event(37, 2) + event(37, 6) + event(38, 3),
    # In HS none.
    START + state(2, 1) + state(3, 2) + event(4, 4) + event(5, 1, 90) + event(6, 6),
    # ET records in DA: a line where a signal makes one active, for its repeater and for its end; none for a board, for one that is
    # terminated or passive, nor for a signal, a repeater or an end that is refused.
    settled() + state(33, 3) + record(34, 200, 1, 0, 40) + record(34, 200, 1, 0, 40) + record(35, 201, 3, 0, 30) + record(36, 202, 0, 0, 20)
    + signal(37, 0, 0) + signal(38, 1, 1) + signal(39, 2, 0) + record(39, 202, 1, 0, 20) + record(39, 200, 1, 100, 50) + signal(40, 0, 0)
    + record_end(41, 201) + record_end(41, 200),
    # A locked one brakes in the report of the 100 m; in FA it is not shown.
    settled() + state(33, 3) + record(34, 7, 2, 90, 40) + b"".join(fast(35 + i, 1200) for i in range(8)) + fast(43, 399) + fast(44, 1)
    + state(45, 4),
    # In HS no line.
    START + state(2, 1) + state(3, 2) + record(4, 9, 1, 0, 40) + signal(5, 0, 0) + record_end(6, 9),
]

if __name__ == "__main__":
    for case in CASES:
        if sys.argv[1:2] == ["expected"]:
            lines = subprocess.run([sys.argv[2]], input=case, capture_output=True, check=True).stdout.decode().splitlines()
            sys.stdout.write(sheet(accepted(case, lines)) + "end of the sheet\n")
        else:
            sys.stdout.buffer.write(len(case).to_bytes(2, "big") + case.ljust(1024, b"\0"))

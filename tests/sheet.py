#!/usr/bin/env python3
"""Lays out the trip sheet of a stream, from its bytes and the lines that the stream program prints for it.

python3 tests/sheet.py STREAM LINES writes the sheet. Written from 02, F-5, apart from the definitions; the lines are the plain unit's.
"""

import os
import sys

sys.dont_write_bytecode = True
sys.path.insert(0, os.path.dirname(os.path.abspath(__file__)))
from coverage import LENGTHS

STATES = ["DE", "CS", "HS", "DA", "FA"]
INTERVALS = ["", "A", "Ab", "Bf", "B", "C", "D", "E", "F"]


def commands(stream):
    """The commands as the stream program takes them, with what it is given last."""
    at = 0
    while at < len(stream):
        length = LENGTHS.get(stream[at], 1)
        yield stream[at : at + length]
        at += length
        if length == 1:
            return


def accepted(stream, lines):
    """The number and report of each command that is answered 0."""
    for command, line in zip(commands(stream), lines):
        answer, _, report = line.partition(" ")
        if answer == "0":
            yield int.from_bytes(command[1:5], "big"), bytes.fromhex(report)


def text(number, report):
    state, order = report[0], report[1]
    causes, permitted, vmax = (int.from_bytes(report[i : i + 2], "big") for i in (2, 4, 6))
    return (
        f"{number:>10} {STATES[state]} {order} {permitted:>3} {vmax:>3} {report[8]:>3} {INTERVALS[report[9]]:<2} {causes:04X}"
    ).ljust(64)


def sheet(entries):
    """The sheet of accepted commands, as text."""
    paper, last = [], None
    for number, report in entries:
        said = report[0], report[1], report[4:6]
        if said == last:
            continue
        if len(paper) % 50 == 0:
            page = len(paper) // 50 + 1
            if page > 9999:
                break
            paper.append(f"TRIP SHEET{page:>54}")
        paper.append(text(number, report))
        last = said
    return "".join(line + "\n" for line in paper)


if __name__ == "__main__":
    with open(sys.argv[1], "rb") as f:
        given = f.read()
    with open(sys.argv[2]) as f:
        answered = f.read().splitlines()
    sys.stdout.write(sheet(accepted(given, answered)))

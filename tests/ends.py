#!/usr/bin/env python3
"""Writes the stdin and stdout of the runs that show how a stream ends. The outputs are written by hand from 01 and 02."""

import os

CRATES = os.path.join(os.path.dirname(os.path.dirname(os.path.abspath(__file__))), "crates")
# The start of 01's example, and its line.
START = bytes.fromhex("01 00000001 00 00A0 0190 02BC 01F4 1E 14 14 1E 0A 0F 32 017C 0D")
STARTED = b"0 0000000000000000FF0000000000FFFFFFFF08\n"

ENDS = {
    # An empty rest ends it with no line.
    "nothing_run": (b"", b""),
    # A byte that is no code is refusal 3.
    "no_code_run": (b"\x7f", b"3\n"),
    # A start that lacks its last byte is refusal 4.
    "cut_start_run": (START[:-1], b"4\n"),
    # So are three bytes after a whole command.
    "three_more_run": (START + b"\x02\x00\x00", STARTED + b"4\n"),
}

if __name__ == "__main__":
    for crate, (given, expected) in ENDS.items():
        for name, content in (("stdin", given), ("stdout", expected)):
            with open(os.path.join(CRATES, crate, name), "wb") as f:
                f.write(content)

#!/usr/bin/env python3
"""Writes a command stream that goes through the figures of document 01 that a report shows."""

import struct
import sys

LOSS = 1
number = 0


def put(code, operands=b""):
    global number
    number += 1
    sys.stdout.buffer.write(struct.pack(">BI", code, number) + operands)


def start(flags, speed):
    """Train data with full deceleration 700, T_B 30, F margin 10 and P_FULL 380."""
    put(0x01, struct.pack(">BHHHHBBBBBBBHB", flags, speed, 400, 700, 500, 30, 20, 20, 30, 10, 15, 50, 380, 100))


def odometer(speed, moved=0, measured=0, half_kpa=1000, buttons=0):
    put(0x10, struct.pack(">HHhhB", speed, moved, measured, half_kpa, buttons))


def reference(half_kpa):
    """Reports at a standstill until there is a reference pressure, then DA."""
    for _ in range(31):
        odometer(0, half_kpa=half_kpa)
    put(0x02, b"\x03")


def curve(ident, kind, metres, speed):
    put(0x20, struct.pack(">BBHHb", ident, kind, metres, speed, 0))


# b 700, 2,500 cm/s, target 40, T_B 30: D at 43,324 cm, not at 43,325; E at 35,824, not at 35,825.
start(0, 100)
reference(1000)
curve(1, 0, 434, 40)
odometer(2500, moved=75)
odometer(2500, moved=1)
curve(1, 0, 359, 40)
odometer(2500, moved=75)
odometer(2500, moved=1)
put(0x21, b"\x01")

# Release 40, d 0: 1,111 is A, 1,112 with F margin 10 is F.
start(0, 100)
reference(1000)
curve(2, 1, 0, 40)
odometer(1111)
odometer(1112)

# VMAX 100: 3,055 no order, 3,056 bit 0; releasable at 2,916, not 2,917.
start(0, 100)
reference(1000)
odometer(3055)
odometer(3056)
odometer(2917, buttons=LOSS)
odometer(2917)
odometer(2916)
odometer(2916, buttons=LOSS)

# Full deceleration 700: 490 measured frees bit 6, 489 doesn't.
put(0x30, b"\x01")
odometer(1000, measured=489, buttons=0)
odometer(1000, measured=489, buttons=LOSS)
odometer(1000, measured=490)
odometer(1000, buttons=LOSS)

# P_FULL 380, cylinder: 956 kPa gives 500 and the message, so that it sets a reference and is no braking.
start(2, 100)
reference(1912)
odometer(0, half_kpa=760)

#!/usr/bin/env python3
"""Writes a command stream that goes through F-1 of document 02: each figure is met by a report that moves just so much, and then
passed by one that moves a centimetre more. The figures are those of tests/curve.py."""

import os
import struct
import sys

sys.dont_write_bytecode = True
sys.path.insert(0, os.path.dirname(os.path.abspath(__file__)))
import curve as curves

HALKA = 4
SPEED = 2500
TO_40 = curves.Curve(0, 0, 40, 0, 0)
STOP = curves.Curve(1, 0, 10, 0, 0)
number = 0


def put(code, operands=b""):
    global number
    number += 1
    sys.stdout.buffer.write(struct.pack(">BI", code, number) + operands)


def odometer(speed, moved=0, buttons=0):
    put(0x10, struct.pack(">HHhhB", speed, moved, 0, 1000, buttons))


def in_da(train):
    """A start with this train, a reference pressure, and DA."""
    put(0x01, struct.pack(">BHHHHBBBBBBBHB", 0, 100, 400, train.full, train.soft, train.t_b, train.g_c, train.g_p, train.g_bf,
                          train.margin, 15, 50, 380, 100))
    for _ in range(31):
        odometer(0)
    put(0x02, b"\x03")


def place(train, curve, speed, buttons=0, ident=1):
    """Puts a curve so that a report at this speed leaves it d centimetres away."""
    metres = curve.d // 100 + 1
    put(0x20, struct.pack(">BBHHb", ident, curve.kind, metres, curve.speed, curve.gradient))
    odometer(speed, 100 * metres - curve.d, buttons)


def meet(train, curve, speed, ahead, buttons=0):
    """Brings a curve within `ahead` cm of the end of its interval; a report then moves just to it, and one a cm more."""
    d = curve.d - curves.to_change(train, curve, speed) + ahead
    place(train, curve._replace(d=d), speed, buttons)
    odometer(speed, ahead, buttons)
    odometer(speed, 1, buttons)
    place(train, curve._replace(d=d), speed, buttons)
    odometer(speed, ahead + 1, buttons)


def intervals(train, curve, speed, buttons=0):
    """From A on, each interval in turn."""
    d = 200000
    while curves.to_change(train, curve._replace(d=d), speed) != 0xFFFFFFFF:
        here = curve._replace(d=d)
        meet(train, here, speed, min(417, curves.to_change(train, here, speed)), buttons)
        d -= curves.to_change(train, here, speed) + 1


MARKED = curves.MARKED
in_da(MARKED)
for to in (TO_40, STOP):
    intervals(MARKED, to, SPEED)
# With HALKA, on a slope, and with all gaps 0, where C is passed over and B begins with D's lead 30 tenths before.
intervals(MARKED._replace(halka=1), TO_40, SPEED, HALKA)
intervals(MARKED, TO_40._replace(gradient=-7), SPEED)
in_da(MARKED._replace(g_c=0, g_p=0, g_bf=0))
intervals(MARKED._replace(g_c=0, g_p=0, g_bf=0), TO_40, SPEED)
# Within B the permitted boundary, at 53,324 cm, is passed with no change.
in_da(MARKED)
place(MARKED, TO_40._replace(d=53500), SPEED)
odometer(SPEED, 200)
# Past in B and slow, shown as Ab: Bf is the next.
odometer(1500)
ab = TO_40._replace(d=27000)
place(MARKED, ab, 1500)
odometer(1500, curves.to_change(MARKED, ab, 1500))
odometer(1500, 1)
# In E with u' at or under w; at the floor; under it; at d 0.
place(MARKED, TO_40._replace(d=1467), 1200)
odometer(1200, 1200)
odometer(1111, 0)
odometer(1000, 200)
odometer(1200, 1200)
# Another command writes it anew: a curve put nearer, a second curve that is shown, that one ended, the last ended.
place(MARKED, TO_40._replace(d=60000), SPEED)
put(0x20, struct.pack(">BBHHb", 1, 0, 480, 40, 0))
put(0x20, struct.pack(">BBHHb", 2, 0, 400, 40, 0))
put(0x21, b"\x02")
put(0x21, b"\x01")

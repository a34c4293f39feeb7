#!/usr/bin/env python3
"""Writes a command stream that meets document 01's limits and refusals.

Every operand comes at each of its limits and one past it, every code in every state, every path between the states is
tried, and each refusal from 6 on comes with each later one that it can come with.
"""

import struct
import sys

LAST = 0xFFFFFFFF
DE, CS, HS, DA, FA = range(5)
LOSS, TEXT, HALKA, NEUTRAL = 1, 2, 4, 8
START_FORM = ">BHHHHBBBBBBBHB"
TRAIN = {"flags": 0, "speed": 160, "length": 400, "full": 700, "soft": 500, "t_b": 30, "g_c": 20, "g_p": 20, "g_bf": 30,
         "f_margin": 10, "e_margin": 15, "sufficient": 50, "p_full": 380, "t_ebchk": 13}
RANGES = {"flags": (0, 3), "speed": (10, 300), "length": (10, 1000), "full": (400, 2000), "t_b": (1, 100),
          "g_c": (0, 200), "g_p": (0, 200), "g_bf": (0, 200), "f_margin": (1, 30), "e_margin": (11, 30),
          "sufficient": (30, 150), "p_full": (150, 600), "t_ebchk": (1, 100)}

number = 0
last = b""


def put(command, at=None):
    """A command that is accepted."""
    global number, last
    number = number + 1 if at is None else at
    last = command[:1] + struct.pack(">I", number) + command[1:]
    sys.stdout.buffer.write(last)


def refused(command, at=None):
    """A command that is refused, with the number that would be next."""
    at = number + 1 if at is None else at
    sys.stdout.buffer.write(command[:1] + struct.pack(">I", at & LAST) + command[1:])


def again():
    sys.stdout.buffer.write(last)


def start(**changes):
    train = dict(TRAIN, **changes)
    return b"\x01" + struct.pack(START_FORM, *(train[name] for name in TRAIN))


def state(to):
    return bytes([0x02, to])


def odometer(speed=0, moved=0, measured=0, half_kpa=1000, buttons=0):
    return b"\x10" + struct.pack(">HHhhB", speed, moved, measured, half_kpa, buttons)


def curve(ident, kind=0, metres=500, speed=40, gradient=0):
    return b"\x20" + struct.pack(">BBHHb", ident, kind, metres, speed, gradient)


def curve_end(ident):
    return bytes([0x21, ident])


def section(ident, speed=100):
    return b"\x22" + struct.pack(">BH", ident, speed)


def section_end(ident):
    return bytes([0x23, ident])


def stop_passed(kind):
    return bytes([0x30, kind])


PROCEED = b"\x31"
BALISE_ERROR = b"\x32"
TRACK = [curve(1), curve_end(1), section(1), section_end(1), PROCEED]
STOPS = [stop_passed(0), stop_passed(1), stop_passed(2), BALISE_ERROR]
OUT_OF_RANGE = [curve(1, kind=2), curve_end(255), section(1, speed=9), section_end(255), stop_passed(3)]


def settle():
    """Reports at a standstill until there is a reference pressure."""
    for _ in range(31):
        put(odometer())


# ---------------------------------------------------------------- operands


def limits_of_start():
    for name, (low, high) in RANGES.items():
        soft = 400 if name == "full" else 500
        top = 0xFFFF if name in ("speed", "length", "full", "p_full") else 0xFF
        for value in (low, high):
            put(start(**dict({"soft": soft}, **{name: value})))
        for value in (low - 1, high + 1):
            if 0 <= value <= top:
                refused(start(**dict({"soft": soft}, **{name: value})))
    # Flags 4, here and above, are taken since F-3. The start after them has the same number, so the commands are as they were.
    for bit in range(2, 8):
        refused(start(flags=1 << bit))
    for flags in (1, 2):
        put(start(flags=flags))
    for soft in (400, 700):
        put(start(soft=soft))
    for soft in (399, 701):
        refused(start(soft=soft))


def limits_of_odometer():
    put(start())
    for speed in (0, 10000):
        put(odometer(speed=speed))
    for moved in (0, 1200):
        put(odometer(moved=moved))
    refused(odometer(speed=10001))
    refused(odometer(moved=1201))
    for end in (-32768, 32767):
        put(odometer(measured=end))
        put(odometer(half_kpa=end))
    for buttons in (0, LOSS, TEXT, HALKA, NEUTRAL, 15):
        put(odometer(buttons=buttons))
    for bit in range(4, 8):
        refused(odometer(buttons=1 << bit))


def limits_of_track():
    """In DA, where the report shows each."""
    for ident in (0, 254):
        put(curve(ident))
        put(section(ident))
        put(curve_end(ident))
        put(section_end(ident))
    for command in (curve(255), section(255), curve_end(255), section_end(255)):
        refused(command)
    for kind, speeds, others in ((0, (10, 300), (9, 301)), (1, (10, 40), (9, 11, 39, 41))):
        for speed in speeds:
            put(curve(1, kind, speed=speed))
        for speed in others:
            refused(curve(1, kind, speed=speed))
    for kind in (2, 255):
        refused(curve(1, kind))
    for metres in (0, 10000):
        put(curve(1, metres=metres))
    refused(curve(1, metres=10001))
    for gradient in (-30, 30):
        put(curve(1, gradient=gradient))
    for gradient in (-31, 31, -128, 127):
        refused(curve(1, gradient=gradient))
    for speed in (10, 300):
        put(section(1, speed))
    for speed in (9, 301):
        refused(section(1, speed))
    put(curve_end(1))
    put(section_end(1))


# ---------------------------------------------------------------- states


def in_each_state():
    """Each code and each path in each state, on three units with and without a reference pressure."""
    put(start())
    again()
    for to in (DE, HS, DA):
        refused(state(to))
    refused(state(5))
    for command in TRACK + STOPS + OUT_OF_RANGE:
        refused(command)
    put(odometer())
    put(start())
    in_failure()
    put(start())

    put(state(CS))
    again()
    for to in (DE, CS, DA):
        refused(state(to))
    for command in TRACK + STOPS + OUT_OF_RANGE:
        refused(command)
    put(odometer())
    put(start())
    put(state(CS))
    in_failure()
    put(start())

    put(state(CS))
    put(state(HS))
    again()
    for to in (DE, HS, DA):
        refused(state(to))
    for command in STOPS + OUT_OF_RANGE:
        refused(command)
    put(odometer())
    for command in TRACK:
        put(command)
        again()
    put(state(CS))
    put(state(HS))
    put(start())
    put(state(CS))
    put(state(HS))
    in_failure()
    put(start())

    settle()
    for to in (DE, HS):
        refused(state(to))
    put(state(DA))
    put(state(CS))
    refused(state(DA))
    put(state(HS))
    put(state(DA))
    again()
    for to in (DE, HS, DA):
        refused(state(to))
    for command in OUT_OF_RANGE:
        refused(command)
    limits_of_track()
    for command in TRACK + STOPS:
        put(command)
        again()
    in_failure()
    put(start())


def in_failure():
    """Into FA, where a start and the last command are taken and all else is refused."""
    put(state(FA))
    for to in range(5):
        refused(state(to))
    refused(odometer())
    refused(odometer(buttons=16))
    for command in TRACK + STOPS + OUT_OF_RANGE:
        refused(command)
    refused(PROCEED, at=0)
    refused(PROCEED, at=number + 2)
    refused(start(t_b=0))
    again()


# ---------------------------------------------------------------- places


def sixteen_curves():
    """Sixteen held and one too many; one replaced, one ended, and its place used again."""
    for ident in range(16):
        put(curve(10 * ident))
    full(curve(254), curve(254, gradient=31))
    put(curve(150, metres=600))
    put(curve_end(70))
    refused(curve_end(70))
    put(curve(254))
    refused(curve(70))


def sixteen_sections():
    """The same with sections, where the place of an ended one is free once the train's length is moved."""
    for ident in range(16):
        put(section(10 * ident))
    full(section(254), section(254, speed=301))
    put(section(150, 120))
    refused(section_end(71))
    put(section_end(70))
    refused(section_end(70))
    refused(section(254))
    put(section(70))
    put(section_end(70))
    put(odometer(moved=999))
    refused(section(254))
    put(odometer(moved=1))
    put(section(254))
    refused(section(70))


def full(seventeenth, out_of_range):
    """A new id where all places are held: 6, 7 and 9 come before 13."""
    refused(seventeenth)
    refused(seventeenth, at=0)
    refused(seventeenth, at=number + 2)
    refused(out_of_range)


def places():
    put(start(length=10))
    put(state(CS))
    refused(state(DA))
    put(state(HS))
    for command in (state(DA), curve_end(1), section_end(1)):
        refused(command)
        refused(command, at=0)
        refused(command, at=number + 2)
    sixteen_curves()
    sixteen_sections()
    settle()
    put(state(DA))
    put(BALISE_ERROR)
    put(start(length=10))
    put(state(CS))
    put(state(HS))
    sixteen_curves()
    sixteen_sections()
    put(state(FA))
    for command in (curve(1), section(1), curve_end(1), section_end(1)):
        refused(command)


# ---------------------------------------------------------------- numbers


def numbers():
    """Up to FFFFFFFF, after which only a start is taken."""
    put(start(), at=LAST - 1)
    put(state(CS))
    again()
    for at in (0, 1, LAST - 1, LAST):
        refused(state(HS), at=at)
    again()
    put(start(), at=LAST)
    again()
    for at in (0, 1, LAST):
        refused(odometer(), at=at)
    put(start(), at=1)


limits_of_start()
limits_of_odometer()
in_each_state()
places()
numbers()

#!/usr/bin/env python3
"""Writes a command stream that goes through F-6 of document 02: every event in every area, the 50 m from a group without overlap to the
centimetre, VMAX in the partially equipped area, what a GMD deletes, and the area in every state."""

import os
import struct
import sys

sys.dont_write_bytecode = True
sys.path.insert(0, os.path.dirname(os.path.abspath(__file__)))
from chain import again, ahead, put, refused, write

LAST = 0xFFFFFFFF
DE, CS, HS, DA, FA = range(5)
LOSS = 1
PARTIAL, NON_EQUIPPED, FULL, HT = 4, 7, 8, 9
SIGNAL, GMD, HT_DELETED, NO_OVERLAP, TO_NON_EQUIPPED, TO_HT, TO_FULL = EVENTS = range(7)
# The areas in which each event is taken.
TAKEN = {SIGNAL: (NON_EQUIPPED, HT), GMD: (NON_EQUIPPED, PARTIAL), HT_DELETED: (FULL,), NO_OVERLAP: (FULL,),
         TO_NON_EQUIPPED: (PARTIAL, FULL, HT), TO_HT: (PARTIAL, NON_EQUIPPED, FULL), TO_FULL: (PARTIAL, NON_EQUIPPED, HT)}
AT_140, AT_145 = 3889, 4028  # the least cm/s at VMAX 130 with bit 0, and with bit 1
area = FULL


def reading(speed=0, moved=0, buttons=0):
    return struct.pack(">HHhhB", speed, moved, 0, 1000, buttons)


def odometer(speed=0, moved=0, buttons=0):
    put(0x10, reading(speed, moved, buttons))


def ground(centimetres, speed=0):
    """Reports over so much ground, each over 1,200 cm as long as there is more."""
    while centimetres > 0:
        odometer(speed, min(1200, centimetres))
        centimetres -= 1200


def train(speed=200, length=1000, t_b=100, t_ebchk=100):
    return struct.pack(">BHHHHBBBBBBBHB", 0, speed, length, 700, 500, t_b, 20, 20, 30, 10, 15, 50, 380, t_ebchk)


def start(at=None, **figures):
    global area
    put(0x01, train(**figures), at)
    area = FULL


def state(*path):
    for to in path:
        put(0x02, bytes([to]))


def in_hs(**figures):
    start(**figures)
    state(CS, HS)


def in_da(**figures):
    start(**figures)
    for _ in range(31):
        odometer()
    state(DA)


def operands(event, speed=0):
    return struct.pack(">BH", event, speed)


def event(which, speed=0):
    """An event that is taken."""
    global area
    put(0x50, operands(which, speed))
    area = {NO_OVERLAP: FULL, TO_NON_EQUIPPED: NON_EQUIPPED, TO_HT: HT, TO_FULL: FULL}.get(which, PARTIAL)


def untaken(which, speed=0):
    refused(0x50, operands(which, speed))


def bring(to):
    """Into an area, if it is not there."""
    if area == to:
        return
    if to != PARTIAL:
        event({NON_EQUIPPED: TO_NON_EQUIPPED, HT: TO_HT, FULL: TO_FULL}[to])
    else:
        bring(FULL)
        event(HT_DELETED)


def section(ident, speed):
    put(0x22, struct.pack(">BH", ident, speed))


def section_end(ident):
    put(0x23, bytes([ident]))


def curve(ident, metres, target):
    put(0x20, struct.pack(">BBHHb", ident, 0, metres, target, 0))


def past_50_m():
    """The area after the 50 m that pend."""
    global area
    area = PARTIAL


# ---------------------------------------------------------------- answers


def every_pair():
    """Each event in each area."""
    for here in (NON_EQUIPPED, PARTIAL, HT, FULL):
        for which in EVENTS:
            bring(here)
            speed = 120 if which == GMD else 0
            if here in TAKEN[which]:
                event(which, speed)
                again()
            else:
                untaken(which, speed)


def out_of_range():
    """Events above 6; the speed of a GMD at its limits and past them; any speed of another event."""
    for which, speed in ((7, 0), (255, 0), (7, 90), (GMD, 0), (GMD, 9), (GMD, 301), (GMD, 0xFFFF)):
        untaken(which, speed)
    for which in EVENTS:
        if which != GMD:
            for speed in (1, 10, 256, 300):
                untaken(which, speed)


def in_each_state():
    """10 in DE and CS, after 9 and before 16; in FA 8 before them all; 6 and 7 first."""
    start()
    for path in ((), (CS,)):
        state(*path)
        for which in EVENTS:
            untaken(which, 90 if which == GMD else 0)
        out_of_range()
    state(HS)
    out_of_range()
    bring(NON_EQUIPPED)
    out_of_range()
    for speed in (10, 300, 10):
        event(GMD, speed)
    out_of_range()
    write(0x50, 0, operands(SIGNAL))
    write(0x50, ahead(2), operands(SIGNAL))
    write(0x50, ahead(0), operands(SIGNAL))
    again()
    untaken(SIGNAL)
    again()
    state(FA)
    for which in EVENTS:
        untaken(which, 90 if which == GMD else 0)
    out_of_range()
    write(0x50, 0, operands(SIGNAL))
    again()
    # the last number of all
    start(at=LAST - 3)
    state(CS, HS)
    event(TO_HT)
    again()
    write(0x50, LAST, operands(SIGNAL))
    start(at=1)


# ---------------------------------------------------------------- the 50 m


def to_the_centimetre(speed=0):
    """4,999 cm, then 5,000 and 5,001, reached at once or from 4,999."""
    for more in (1, 2):
        bring(FULL)
        event(NO_OVERLAP)
        ground(4999, speed)
        odometer(speed, more)
        past_50_m()
        again()
        again()
    for far in (5000, 5001, 6000):
        bring(FULL)
        event(NO_OVERLAP)
        again()
        odometer(speed, 0)
        ground(far, speed)
        past_50_m()


def with_others_between():
    """Repeated and refused reports, a second group, refused events and other commands leave the ground as it is."""
    bring(FULL)
    event(NO_OVERLAP)
    for moved in (1200, 1200, 1200, 1200, 199):
        odometer(0, moved)
        again()
        refused(0x10, reading(10001, 1200))
        write(0x10, ahead(2), reading(0, 1200))
        write(0x10, 0, reading(0, 1200))
    odometer(0, 1)
    past_50_m()
    again()
    # a second group half way, and one a centimetre before the end
    bring(FULL)
    event(NO_OVERLAP)
    ground(2400)
    event(NO_OVERLAP)
    again()
    ground(2599)
    event(NO_OVERLAP)
    odometer(0, 1)
    past_50_m()
    bring(FULL)
    event(NO_OVERLAP)
    ground(4999)
    for which, speed in ((SIGNAL, 0), (GMD, 90), (TO_FULL, 0), (7, 0), (NO_OVERLAP, 1), (HT_DELETED, 130), (TO_HT, 1)):
        untaken(which, speed)
    write(0x50, ahead(2), operands(TO_HT))
    refused(0x02, bytes([5]))
    curve(1, 500, 40)
    section(1, 190)
    section_end(1)
    put(0x31)
    put(0x21, b"\x01")
    odometer(0, 1)
    past_50_m()


def ended():
    """By events 2, 4 and 5 and by CS: as much ground again changes nothing, and a later group counts from 0."""
    for which in (HT_DELETED, TO_NON_EQUIPPED, TO_HT):
        bring(FULL)
        event(NO_OVERLAP)
        ground(4999)
        event(which)
        if which == HT_DELETED:
            event(GMD, 170)
        ground(5001)
        bring(FULL)
        ground(1200)
        event(NO_OVERLAP)
        ground(4999)
        odometer(0, 1)
        past_50_m()
    # back in 8 at once
    bring(FULL)
    event(NO_OVERLAP)
    ground(2400)
    event(TO_HT)
    event(TO_FULL)
    ground(5001)
    # CS, with ground in it
    event(NO_OVERLAP)
    ground(4999)
    state(CS)
    ground(5001)
    state(HS)
    ground(5001)
    event(NO_OVERLAP)
    ground(4999)
    odometer(0, 1)
    past_50_m()


def over_states():
    """From HS into DA; by a start; ground before any group, in DE, CS, HS and DA; in FA."""
    start()
    for _ in range(31):
        odometer(0, 200)
    state(CS)
    ground(5001)
    state(HS)
    ground(5001)
    event(NO_OVERLAP)
    ground(2400)
    state(DA)
    ground(2599)
    odometer(0, 1)
    past_50_m()
    bring(FULL)
    ground(5001)
    event(NO_OVERLAP)
    ground(4999)
    in_hs()
    ground(5001)
    event(NO_OVERLAP)
    ground(4999)
    state(FA)
    refused(0x10, reading(0, 1200))
    again()
    in_da()
    event(NO_OVERLAP)
    ground(4999)
    put(0x32)
    put(0x30, b"\x01")
    odometer(0, 1)
    past_50_m()


# ---------------------------------------------------------------- VMAX


def stays():
    """130, or the last GMD of the stay, up or down; nothing of an earlier stay, and nothing in 7, 8 and 9."""
    in_da()
    event(HT_DELETED)
    for speed in (90, 170, 129, 130, 131, 200, 201, 300, 10):
        event(GMD, speed)
        odometer()
    for which, back in ((TO_HT, SIGNAL), (TO_NON_EQUIPPED, SIGNAL), (TO_FULL, HT_DELETED)):
        event(which)
        odometer()
        event(back)
        odometer()
        event(GMD, 90)
    event(TO_NON_EQUIPPED)
    event(GMD, 150)
    odometer()
    event(GMD, 140)
    event(TO_FULL)
    event(NO_OVERLAP)
    ground(5000)
    past_50_m()
    # GMDs of two stays, one after the other
    event(TO_NON_EQUIPPED)
    event(GMD, 110)
    event(TO_NON_EQUIPPED)
    event(GMD, 160)
    # a slower train, and one as fast
    for speed in (100, 130):
        in_da(speed=speed)
        event(HT_DELETED)
        for gmd in (120, 90, 300):
            event(GMD, gmd)
            odometer()


def with_others():
    """With sections, ending too, and with the 40."""
    in_da()
    event(HT_DELETED)
    section(1, 150)
    section(2, 80)
    event(GMD, 60)
    event(GMD, 100)
    section_end(2)
    event(GMD, 70)
    event(GMD, 170)
    put(0x30, b"\x01")
    event(GMD, 30)
    event(GMD, 120)
    put(0x31)
    odometer()


def at_the_50_m():
    """The report that reaches them is judged by 130: bit 0 at 140 km/h, none a cm/s below; bit 1 at 145."""
    for speed in (AT_140, AT_140 - 1, AT_145, AT_145 - 1):
        in_da()
        event(NO_OVERLAP)
        ground(4999, speed)
        odometer(speed, 1)
        past_50_m()
        again()
        odometer(3611)
        odometer(3611, 0, LOSS)
    # a start later the 130 is gone
    in_da()
    odometer(AT_145)


def before_the_next_report():
    """A lower VMAX by 50 orders nothing before a report; a higher one offers a release and drops nothing."""
    in_da()
    odometer(AT_140)
    event(HT_DELETED)
    again()
    odometer(AT_140)
    event(TO_FULL)
    odometer(AT_140, 0, LOSS)
    event(TO_NON_EQUIPPED)
    event(GMD, 60)
    event(GMD, 50)
    put(0x31)
    odometer(AT_140)
    event(GMD, 140)
    event(TO_HT)
    odometer(AT_140, 0, LOSS)
    odometer(0)


# ---------------------------------------------------------------- sections


def kept():
    """A standing section, then an ending one, through each event and the 50 m, up to an entering GMD."""
    for is_ending in (False, True):
        section(1, 50)
        if is_ending:
            section_end(1)
        for which in (NO_OVERLAP, HT_DELETED, TO_NON_EQUIPPED, SIGNAL, TO_HT, SIGNAL):
            event(which)
            odometer(0, 100)
        event(GMD, 70)
        event(TO_FULL)
        event(NO_OVERLAP)
        ground(5000)
        past_50_m()
        bring(NON_EQUIPPED)
        event(GMD, 120)
        refused(0x23, b"\x01")
        bring(FULL)


def deleted():
    """All sixteen, standing and ending, by an entering GMD: none can be ended, and sixteen others have room. A curve and the 40 stay."""
    bring(NON_EQUIPPED)
    for ident in range(16):
        section(100 + ident, 20 + ident)
    section_end(100)
    section_end(107)
    refused(0x22, struct.pack(">BH", 7, 90))
    curve(9, 2000, 40)
    odometer(0, 100)
    event(GMD, 150)
    again()
    for ident in (100, 107, 115):
        refused(0x23, bytes([ident]))
    for ident in range(16):
        section(ident, 155 + ident)
    refused(0x22, struct.pack(">BH", 100, 90))
    event(GMD, 160)
    refused(0x22, struct.pack(">BH", 100, 90))
    section_end(3)
    odometer(0, 100)


def under_the_40():
    """An entering GMD leaves the 40 of an unexpected stop."""
    bring(NON_EQUIPPED)
    put(0x30, b"\x01")
    section(50, 30)
    event(GMD, 100)
    put(0x31)


def sections():
    in_hs()
    kept()
    deleted()
    in_da()
    kept()
    deleted()
    in_da()
    under_the_40()
    # those of before a start or CS are gone by themselves
    section(1, 90)
    state(CS, HS)
    bring(NON_EQUIPPED)
    event(GMD, 80)


# ---------------------------------------------------------------- states


def through_states():
    """Each area from HS through DA, CS, HS and DA into FA, with the GMD of its stay; a start makes it 8."""
    for here in (NON_EQUIPPED, HT, PARTIAL, FULL):
        in_da()
        state(CS, HS)
        bring(here)
        state(CS, HS, DA)
        odometer(100, 10)
        state(CS)
        odometer(100, 10)
        state(HS)
        odometer(100, 10)
        state(DA)
        state(FA)
        again()
    for speed in (90, 160):
        in_da()
        event(HT_DELETED)
        event(GMD, speed)
        state(CS, HS, DA)
        odometer()
        state(CS, HS)
        event(TO_HT)
        state(CS, HS)
        event(SIGNAL)
        state(DA)
    # into FA by the emergency check, at 145 km/h in 4
    in_da(t_ebchk=2)
    event(HT_DELETED)
    for _ in range(3):
        odometer(AT_145)
    again()
    # and at the report of the 50 m
    in_da(t_ebchk=2)
    event(NO_OVERLAP)
    ground(3600)
    put(0x30, b"\x00")
    ground(1400)
    again()
    start()
    again()


def main():
    in_hs()
    every_pair()
    in_da()
    every_pair()
    in_each_state()
    in_hs()
    to_the_centimetre()
    with_others_between()
    ended()
    in_da()
    to_the_centimetre()
    with_others_between()
    ended()
    over_states()
    stays()
    with_others()
    at_the_50_m()
    before_the_next_report()
    sections()
    through_states()


if __name__ == "__main__":
    main()

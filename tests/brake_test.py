#!/usr/bin/env python3
"""Writes a command stream that goes through F-3 of document 02: brake tests that settle, pass and fail, each limit met and missed, and the
curves of a train that no approved ETCS test covers, each boundary with the extra lead and without. The boundaries are those of
tests/curve.py."""

import os
import struct
import sys

sys.dont_write_bytecode = True
sys.path.insert(0, os.path.dirname(os.path.abspath(__file__)))
import curve as curves
from chain import again, ahead, put, refused, write

LAST = 0xFFFFFFFF
DE, CS, HS, DA, FA = range(5)
LOSS, HALKA = 1, 4
SOFT, CYLINDER, UNTESTED = 1, 2, 4
STEADY = 1000  # half kPa, as every pressure here
SPEED = 2500
BOUNDARIES = ("Bf", "B", "permitted", "C", "D", "E", "F")
TO_40 = curves.Curve(0, 0, 40, 0, 0)
STOP = curves.Curve(1, 0, 10, 0, 0)
MARKED = curves.MARKED


def reading(half=STEADY, speed=0, moved=0, buttons=0):
    return struct.pack(">HHhhB", speed, moved, 0, half, buttons)


def odometer(half=STEADY, speed=0, moved=0, buttons=0):
    put(0x10, reading(half, speed, moved, buttons))


def odometers(count, half=STEADY):
    for _ in range(count):
        odometer(half)


def train(flags=0, t_b=3, p_full=380, t_ebchk=100):
    """The operands of a start, but for T_B those of MARKED."""
    return struct.pack(">BHHHHBBBBBBBHB", flags, 100, 400, 700, 500, t_b, 20, 20, 30, 10, 15, 50, p_full, t_ebchk)


def start(*figures, **others):
    put(0x01, train(*figures, **others))


def state(to):
    put(0x02, bytes([to]))


def test():
    put(0x40)


def settled(half=STEADY):
    """A test, up to the report that settles it."""
    test()
    odometers(31, half)


def passed(half=STEADY):
    settled(half)
    odometer(half - 120)


def failed():
    test()
    odometer(speed=1)


# ---------------------------------------------------------------- answers


def answers():
    """40 in every state; 14, 15 and what comes before them; a repeat, of which neither judges."""
    start()
    test()
    again()
    refused(0x40)
    write(0x40, 0)
    write(0x40, ahead(2))
    again()
    # refused commands leave it running: to HS and to DE, no reference for DA, no such state, a flag that is none
    for to in (HS, DE, DA, 5):
        refused(0x02, bytes([to]))
    refused(0x01, train(8))
    refused(0x31)
    odometer()
    again()
    refused(0x40)
    for to in (CS, HS):
        state(to)
        refused(0x40)
        write(0x40, 0)
        write(0x40, ahead(2))
    odometers(31)
    state(DA)
    refused(0x40)
    state(FA)
    refused(0x40)
    write(0x40, 0)
    write(0x40, ahead(2))
    again()
    # the last number of all
    put(0x01, train(), at=LAST - 1)
    test()
    again()
    write(0x10, LAST, reading())
    write(0x40, 0)
    put(0x01, train(), at=1)
    # with a speed standing and with a sensor's fault standing: only reports are judged
    odometer(speed=500)
    test()
    odometers(2)
    start()
    odometer(1911)
    test()
    odometers(2)


# ---------------------------------------------------------------- settling


def settling():
    """At the 31st report and not before; what is judged as if waiting."""
    start()
    test()
    for _ in range(30):
        odometer()
        again()
        refused(0x10, reading(speed=10001))
    odometer()
    again()
    refused(0x40)
    odometer(880)
    again()
    # 20 from the saved pressure goes on to the 31st; a drop of 20 at the report that settles it, then 60
    start()
    test()
    odometer()
    for half in (960, 1040) * 14:
        odometer(half)
    odometers(2, 960)
    odometers(1, 880)
    # half a kPa more is saved anew and counted from there, back at 500 too; under 400 it waits
    start()
    test()
    odometers(30)
    odometer(1041)
    odometers(29, 1041)
    odometer(1000)
    odometers(10, 1000)
    odometer(799)
    odometer(799)
    odometers(30, 800)
    odometer(820)
    odometer(680)
    # 550 is saved, too
    start()
    settled(1100)
    odometer(980)


def own_phase():
    """A test begins afresh, and the unit's own feedback goes on."""
    # with a reference standing: 31 reports again, at 510; the reference becomes 501.5, 503 and 504.5 meanwhile
    start()
    odometers(31)
    settled(1020)
    odometer(901)
    odometer(900)
    state(DA)
    shows_reference(1009)
    # lower than the reference: 60 under it are no 60 under the saved pressure; the reference goes down to 498
    start(t_b=12)
    odometers(31)
    settled(960)
    odometers(9, 960)
    odometer(841)
    odometer(840)
    state(DA)
    shows_reference(996, 12)
    # the unit's settles at its own 31st report, the test's 26th; DA is then allowed, and ends the test
    start()
    odometers(5)
    test()
    odometers(25, 1030)
    refused(0x02, bytes([DA]))
    odometer(1030)
    state(DA)
    shows_reference(1000)
    # the unit's is thrown back where the test's is not, and settles a report later; then the other way round
    start()
    odometers(5, 1050)
    test()
    odometer(1020)
    odometers(30, 1009)
    refused(0x02, bytes([DA]))
    odometer(1009)
    state(DA)
    start()
    odometer()
    test()
    odometer(1030)
    odometers(30, 970)
    odometer(970)
    odometer(850)
    state(DA)
    shows_reference(1000)
    # the unit's goes on where a test ends
    start()
    test()
    odometers(20)
    state(CS)
    odometers(10)
    state(HS)
    refused(0x02, bytes([DA]))
    odometer()
    state(DA)


def shows_reference(half, t_b=3):
    """The mode of a curve in D that does not brake: 4 where the drop is a half kPa under the sufficient 50, then 3."""
    slow = 1300
    place(1, TO_40._replace(d=curves.edges_of_d(MARKED._replace(t_b=t_b), TO_40, slow, "D")[0]), slow, STEADY)
    odometer(half - 99, slow)
    odometer(half - 100, slow)


# ---------------------------------------------------------------- passing and failing


def drops():
    """60 kPa and a half less, at each count up to T_B."""
    start()
    settled()
    odometer(881)
    odometer(880)
    odometer()
    settled()
    odometers(2, 881)
    odometer(880)
    settled()
    odometers(3, 881)
    odometers(2, 880)
    # T_B 1: the next report decides
    start(t_b=1)
    settled()
    odometer(880)
    settled()
    odometer(881)
    # T_B 12: a drop in between, at the last, and after it
    start(t_b=12)
    settled()
    odometers(6)
    odometer(0)
    settled()
    odometers(11)
    odometer(880)
    settled()
    odometers(12)
    odometer(880)
    # T_B 100
    start(t_b=100)
    settled()
    odometers(99)
    odometer(880)


def failing():
    """Speed 1, −50.5 and 955.5 kPa in both phases, where it would settle and where it would pass; not −50, 955 or ground alone."""
    start()
    for bad in ((STEADY, 1), (-101, 0), (1911, 0)):
        test()
        odometer(*bad)
        test()
        odometers(30)
        odometer(*bad)
        settled()
        odometer(*bad)
        odometer(880)
    test()
    odometer(-32768)
    test()
    odometer(32767, 10000)
    settled()
    odometer(880, speed=1)
    settled()
    odometers(2)
    odometer(880, speed=1)
    # settling: −50 is no pressure to save, 955 is limited to 550; both may go on, and so may ground alone
    test()
    odometer(-100)
    odometer(1910)
    for _ in range(30):
        odometer(1910, moved=1200)
    odometer(1910, moved=1200)
    odometer(980, moved=1200)
    # braking: 955 is no drop, −50 is one
    settled()
    odometer(1910)
    odometer(-100)


def cylinder():
    """The converted pressure: 500 at rest, 60 less at 152 kPa of 380; the drop is of f32 figures."""
    start(CYLINDER)
    settled(0)
    odometer(303)
    odometer(304)
    # −50 counts as 0, 955 as braking; past them it fails
    settled(-100)
    odometer(-100)
    odometer(1910)
    for bad in (-101, 1911):
        test()
        odometer(bad)
        settled(0)
        odometer(bad)
    # P_FULL 155: 62 kPa more are 60 in fractions, and 59.99997 or 60.00003 in f32
    start(CYLINDER, p_full=155)
    settled(26)
    odometer(150)
    odometer(151)
    settled(1)
    odometer(125)


def leaving():
    """To CS, DA and FA in both phases; a start in both."""
    for to in (CS, DA, FA):
        start()
        odometers(31)
        test()
        odometers(3)
        state(to)
        if to == FA:
            again()
        start()
        odometers(31)
        settled()
        odometer()
        state(to)
        if to == CS:
            odometer()
            state(HS)
            odometer(1911)
            state(DA)
            odometer(speed=SPEED)
    start()
    test()
    odometers(3)
    start()
    odometer()
    settled()
    start()
    odometer()


def results():
    """Bits 4 and 5 tell of the last ended test, while another runs too; a start forgets both."""
    start()
    passed()
    test()
    odometers(31)
    odometers(3)
    test()
    odometer()
    odometer(speed=1)
    passed()
    state(CS)
    state(HS)
    state(DA)
    odometer()
    state(CS)
    # a failed one, then a passed one; DRIFTBROMSFEL and NÖDBROMSFEL beside bit 4
    start(t_ebchk=5)
    odometer()
    failed()
    passed()
    state(DA)
    put(0x30, b"\x00")
    odometers(5)
    start()
    failed()
    start()
    test()


def soft():
    """Order 2 with flag bit 0, and no cause, check or offer by it."""
    start(SOFT)
    odometers(31)
    settled()
    odometer(buttons=LOSS)
    odometer()
    odometer(buttons=LOSS)
    settled()
    odometer(881)
    state(DA)
    odometers(4)
    # the same braking in DA is order 1 by bit 9, whose check counts from its own beginning
    put(0x32)
    odometers(3)
    # T_B 1: a check begun by the test would judge at the first report in DA
    start(t_b=1)
    odometers(31)
    settled()
    state(DA)
    odometers(2)
    for flags in (SOFT | UNTESTED, CYLINDER | UNTESTED, SOFT | CYLINDER | UNTESTED):
        start(flags)
        settled(1000 if not flags & CYLINDER else 0)
        odometer(1000 if not flags & CYLINDER else 0)
        odometer(880 if not flags & CYLINDER else 304)


# ---------------------------------------------------------------- the extra lead


def curve(ident, metres, to):
    put(0x20, struct.pack(">BBHHb", ident, to.kind, metres, to.speed, to.gradient))


def place(ident, to, speed, half=880, buttons=0):
    """Puts a curve so that a report at this speed leaves it d centimetres away."""
    metres = to.d // 100 + 1
    curve(ident, metres, to)
    odometer(half, speed, 100 * metres - to.d, buttons)


def beside(figures, to, boundary, buttons=0):
    """A cm before the boundary, and at it."""
    d = curves.edges_of_d(figures, to, SPEED, boundary)[0]
    place(1, to._replace(d=d + 1), SPEED, 880, buttons)
    odometer(880, SPEED, 1, buttons)


def boundaries(figures, to, buttons=0):
    for boundary in BOUNDARIES:
        beside(figures, to, boundary, buttons)
    put(0x21, b"\x01")


def into_da(flags=UNTESTED, tests=(), t_b=30):
    """A start with these tests, a reference, and DA."""
    start(flags, t_b)
    for way in tests:
        way()
    odometers(31)
    state(DA)


def extra():
    """Every boundary of a train with the extra lead, and of one whose test has passed."""
    untested = MARKED._replace(t_b=80)
    into_da()
    boundaries(untested, TO_40)
    boundaries(untested, STOP)
    boundaries(untested._replace(halka=1), TO_40, HALKA)
    boundaries(untested, TO_40._replace(gradient=-7))
    into_da(tests=[failed])
    boundaries(untested, TO_40)
    into_da(tests=[passed])
    boundaries(MARKED, TO_40)
    boundaries(MARKED, STOP)
    into_da(tests=[passed, failed])
    boundaries(MARKED, TO_40)
    into_da(tests=[failed, passed])
    boundaries(MARKED, TO_40)
    # a start with the flag has it again; without the flag there is none, whatever the tests
    into_da()
    beside(untested, TO_40, "D")
    into_da(flags=0, tests=[failed])
    boundaries(MARKED, TO_40)
    # a test that DA itself ends has failed
    start(UNTESTED, 30)
    odometers(31)
    test()
    state(DA)
    beside(untested, TO_40, "D")


def unextended():
    """Bit 11 and the test itself go by T_B alone."""
    into_da(t_b=5)
    put(0x32)
    odometers(5)
    start(UNTESTED, t_b=5)
    settled()
    odometers(5)
    # in D by the extra, and braking: bit 2 with too little drop; without the extra none, and a drop of 60 by T_B
    for tests in ((), (passed,)):
        into_da(tests=tests, t_b=5)
        place(1, TO_40._replace(d=45000), SPEED, STEADY)
        odometers(1)
        odometer(880)
        odometers(5)


def main():
    answers()
    settling()
    own_phase()
    drops()
    failing()
    cylinder()
    leaving()
    results()
    soft()
    extra()
    unextended()


if __name__ == "__main__":
    main()

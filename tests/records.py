#!/usr/bin/env python3
"""Writes a command stream that goes through F-7 of document 02: every row of 001's table 4.6-2, the 100 m to the centimetre, repeaters and
ends of every condition, the eight places, and records as curves from A to F, with HALKA, past in B, shown and in the next change."""

import os
import struct
import sys

sys.dont_write_bytecode = True
sys.path.insert(0, os.path.dirname(os.path.abspath(__file__)))
from chain import again, ahead, put, refused, write

LAST = 0xFFFFFFFF
DE, CS, HS, DA, FA = range(5)
LOSS, HALKA = 1, 4
RF, RH, GF, GH = CATEGORIES = range(4)
MAIN, DISTANT = KINDS = range(2)
R, G = ROUTES = range(2)
SPEED = 2500  # 90 km/h
FULL, SOFT, T_B, G_C, G_P, G_BF, F_MARGIN = 700, 500, 30, 20, 20, 30, 10
LEADS = {"Bf": T_B + G_C + G_P + 30 + G_BF, "B": T_B + G_C + G_P + 30, "permitted": T_B + G_C + G_P, "C": T_B + G_C, "D": T_B, "E": 0}


def reading(speed=0, moved=0, buttons=0, half_kpa=1000):
    return struct.pack(">HHhhB", speed, moved, 0, half_kpa, buttons)


def odometer(speed=0, moved=0, buttons=0, half_kpa=1000):
    put(0x10, reading(speed, moved, buttons, half_kpa))


def ground(centimetres, speed=0, buttons=0):
    """Reports over so much ground, each over 1,200 cm as long as there is more."""
    while centimetres > 0:
        odometer(speed, min(1200, centimetres), buttons)
        centimetres -= 1200


def train(flags=0, t_b=T_B, t_ebchk=100):
    return struct.pack(">BHHHHBBBBBBBHB", flags, 200, 400, FULL, SOFT, t_b, G_C, G_P, G_BF, F_MARGIN, 15, 50, 380, t_ebchk)


def start(at=None, **figures):
    put(0x01, train(**figures), at)


def state(*path):
    for to in path:
        put(0x02, bytes([to]))


def in_hs(**figures):
    start(**figures)
    for _ in range(31):
        odometer()
    state(CS, HS)


def in_da(**figures):
    start(**figures)
    for _ in range(31):
        odometer()
    state(DA)


def board(ident, category=RH, metres=5000, speed=40, gradient=0):
    return struct.pack(">BBHHb", ident, category, metres, speed, gradient)


def record(ident, *figures):
    put(0x51, board(ident, *figures))


def signal(kind, route):
    put(0x52, bytes([kind, route]))


def end(ident):
    put(0x53, bytes([ident]))


def curve(ident, metres=5000, speed=40, kind=0):
    put(0x20, struct.pack(">BBHHb", ident, kind, metres, speed, 0))


def curve_end(ident):
    put(0x21, bytes([ident]))


def controlling(category):
    return MAIN if category in (RH, GH) else DISTANT


def own(category):
    """The route of a category."""
    return R if category in (RF, RH) else G


def decide(category, route):
    """Passes the controlling signal of a category."""
    signal(controlling(category), route)


def active(ident, *figures, category=RH):
    """A record that its signal makes active: definitely, or of an F category preliminarily."""
    record(ident, category, *figures)
    decide(category, own(category))


def preliminarily(ident, *figures):
    active(ident, *figures, category=GF)


def passive(ident, *figures, category=RF):
    record(ident, category, *figures)
    decide(category, 1 - own(category))


def locked(ident, *figures, category=RH):
    record(ident, category, *figures)
    ground(10000)


def fate(category, kind, route):
    """What a signal makes of an undecided record."""
    if kind != controlling(category):
        return "undecided"
    if kind == MAIN:
        return "active" if route == own(category) else "terminated"
    return "active" if route == own(category) else "passive"


def ask(ident, condition):
    """By a report, by a repeater and by an end."""
    odometer(SPEED)
    if condition in ("active", "terminated"):
        record(ident, GF, 4000, 50)
        odometer(SPEED)
    refused(0x51, board(ident, GH, 3000, 60))
    again()
    end(ident)
    refused(0x53, bytes([ident]))
    again()


# ---------------------------------------------------------------- the table


def every_row():
    """Each category, with each signal alone; then after one that does not control; then with every signal after the one that decides."""
    for category in CATEGORIES:
        for kind in KINDS:
            for route in ROUTES:
                record(1, category)
                signal(kind, route)
                again()
                ask(1, fate(category, kind, route))
        for first in ROUTES:
            for route in ROUTES:
                record(2, category)
                signal(1 - controlling(category), first)
                odometer(SPEED, 100)
                decide(category, route)
                ask(2, fate(category, controlling(category), route))
        for route in ROUTES:
            record(3, category)
            decide(category, route)
            for kind in KINDS:
                for later in ROUTES:
                    signal(kind, later)
                    odometer(SPEED)
            ask(3, fate(category, controlling(category), route))


def all_at_once():
    """A signal decides all that it controls, and none of the others. One with no record is taken."""
    for kind in KINDS:
        for route in ROUTES:
            signal(kind, route)
            for ident in range(8):
                record(ident, CATEGORIES[ident % 4], 5000 - 100 * ident, 40 + ident)
            signal(kind, route)
            odometer(SPEED)
            refused(0x51, board(100 if kind == DISTANT else 0, RF))
            for ident in range(8):
                if fate(ident % 4, kind, route) == "terminated":
                    refused(0x53, bytes([ident]))
                else:
                    end(ident)
            again()


# ---------------------------------------------------------------- the 100 m


def is_locked(ident, category):
    """Of a record past the 100 m: signals and a repeater leave it."""
    for kind in KINDS:
        for route in ROUTES:
            signal(kind, route)
    odometer(1000)
    refused(0x51, board(ident, category))
    end(ident)


def to_the_centimetre(speed=0):
    """9,999 cm and its signal still decides; then 10,000 and 10,001, reached at once or from 9,999."""
    for category in CATEGORIES:
        for route in ROUTES:
            record(1, category, 5000, 50)
            ground(9999, speed)
            decide(category, route)
            odometer(speed, 1)
            ask(1, fate(category, controlling(category), route))
        for more in (1, 2):
            record(2, category, 5000, 50)
            ground(9999, speed)
            odometer(speed, more)
            again()
            is_locked(2, category)
        for far in (10000, 10001, 10800):
            record(3, category, 5000, 50)
            again()
            odometer(speed)
            ground(far, speed)
            is_locked(3, category)
        # a signal that does not control, within the 100 m
        record(4, category, 5000, 50)
        signal(1 - controlling(category), own(category))
        ground(4800, speed)
        signal(1 - controlling(category), 1 - own(category))
        ground(5199, speed)
        odometer(speed, 1)
        is_locked(4, category)


def with_others_between():
    """Repeated and refused reports, refused records, ends and signals, and other commands leave the ground as it is."""
    record(1, RH, 2000, 60)
    for moved in [1200] * 8 + [399]:
        odometer(0, moved)
        again()
        refused(0x10, reading(10001, 1200))
        write(0x10, ahead(2), reading(0, 1200))
        write(0x10, 0, reading(0, 1200))
        refused(0x51, board(1, GF, 100, 40))
        refused(0x51, board(255))
        refused(0x52, b"\2\0")
        refused(0x53, b"\2")
        again()
    odometer(0, 1)
    again()
    is_locked(1, RH)
    record(1, GF, 2000, 60)
    ground(9999)
    curve(1)
    put(0x22, struct.pack(">BH", 1, 190))
    put(0x23, b"\1")
    put(0x31)
    curve_end(1)
    put(0x50, b"\5\0\0")
    put(0x50, b"\6\0\0")
    record(2, GF, 3000, 60)
    signal(MAIN, G)
    odometer(0, 1)
    # the second has one centimetre, and is decided
    signal(DISTANT, R)
    is_locked(1, GF)
    ask(2, "passive")
    # each has ground of its own
    for ident in range(4):
        record(ident, RF, 6000 + ident, 50 + ident)
        ground(3000)
    odometer(0, 999)
    odometer(0, 1)
    signal(DISTANT, R)
    for ident in range(4):
        end(ident)


def over_states():
    """Ground in HS and DA makes one sum; a record's ground begins with it; CS and a start end it."""
    in_hs()
    ground(10001)
    record(1, RH, 3000, 50)
    ground(6000)
    state(DA)
    odometer()
    ground(3999)
    odometer(0, 1)
    is_locked(1, RH)
    ground(10001)
    record(2, GH, 3000, 50)
    ground(9999)
    state(CS)
    ground(5000)
    state(HS)
    refused(0x53, b"\2")
    record(2, GH, 3000, 50)
    ground(9999)
    state(DA)
    signal(MAIN, R)
    refused(0x53, b"\2")
    record(2, GF, 3000, 50)
    ground(9999)
    in_hs()
    record(2, RF, 3000, 50)
    ground(9999)
    state(DA)
    odometer()
    signal(DISTANT, R)
    odometer(SPEED)
    # active in HS, locked in HS, seen in DA
    for make in (active, locked, passive):
        in_hs()
        make(1, 2000, 50)
        odometer(SPEED)
        state(DA)
        again()
        odometer(SPEED)


# ---------------------------------------------------------------- answers


def repeaters():
    """Over each condition, with each category, another distance and speed."""
    for category in CATEGORIES:
        for was in (RH, RF, GH, GF):
            active(1, 3000, 50, category=was)
            odometer(SPEED)
            record(1, category, 500, 120, -5)
            again()
            odometer(SPEED)
            # not once more
            refused(0x51, board(1, category, 500, 120, -5))
            decide(category, own(category))
            odometer(SPEED, 100)
            record(1, category, 500, 120, -5)
            ground(10000, SPEED)
            refused(0x51, board(1, category))
            end(1)
            # for the other route
            active(1, 3000, 50, category=was)
            record(1, category, 3000, 50)
            decide(category, 1 - own(category))
            odometer(SPEED)
            if controlling(category) == DISTANT:
                refused(0x51, board(1, category))
                end(1)
            refused(0x53, b"\1")
        record(1, category)
        refused(0x51, board(1, category))
        odometer(SPEED)
        end(1)
        for was in (RF, GF):
            passive(1, 3000, 50, category=was)
            refused(0x51, board(1, category))
            odometer(SPEED)
            end(1)
        for was in CATEGORIES:
            locked(1, 3000, 50, category=was)
            refused(0x51, board(1, category, 3000, 50))
            odometer(SPEED)
            end(1)


def ends():
    """53 in each condition: the place and the id are free. 12 of an id that no record holds."""
    for make in (record, active, passive, locked):
        make(1)
        end(1)
        again()
        refused(0x53, b"\1")
        again()
        record(1, GF)
        end(1)
    active(1, category=GF)
    end(1)
    record(1, RH)
    signal(MAIN, G)
    refused(0x53, b"\1")
    for ident in (0, 2, 254):
        refused(0x53, bytes([ident]))


def eight():
    """All held, in each condition: 17 of another id, 18 or 0 of a held one. A place freed by 53 or by a signal is used again."""
    for ident in range(8):
        record(20 + ident, RF)
    refused(0x51, board(28))
    refused(0x51, board(27))
    signal(MAIN, G)
    refused(0x51, board(28))
    signal(DISTANT, G)
    odometer(SPEED)
    # all passive: each place is still held
    refused(0x51, board(28))
    refused(0x51, board(20))
    end(23)
    refused(0x53, b"\x17")
    record(28, RH)
    refused(0x51, board(23))
    again()
    refused(0x51, board(29))
    signal(MAIN, R)
    refused(0x51, board(29))
    record(28, GH)
    refused(0x51, board(29))
    # terminated: the ninth fits
    signal(MAIN, R)
    record(29, GH)
    refused(0x51, board(28))
    signal(MAIN, G)
    ground(10000)
    refused(0x51, board(28))
    for ident in (20, 21, 22):
        end(ident)
    for ident in (1, 2, 3):
        record(ident, GH)
    refused(0x51, board(4))
    ground(10000)
    refused(0x51, board(4))
    refused(0x51, board(1))
    # 9 before 17 and 18
    for wrong in (board(4, 4), board(1, 4), board(4, RF, 10001), board(1, RF, 10001), board(4, RF, 100, 9), board(1, RF, 100, 301)):
        refused(0x51, wrong)
    state(CS, HS)
    for ident in range(8):
        record(ident, GF)
    refused(0x51, board(8))
    for ident in range(8):
        end(ident)


def apart_from_curves():
    """The same ids: 21 ends no record, 53 no curve, and sixteen curves leave eight places."""
    for ident in range(16):
        curve(ident)
    for ident in range(8):
        record(ident, RH)
    refused(0x51, board(8))
    refused(0x20, struct.pack(">BBHHb", 16, 0, 5000, 40, 0))
    signal(MAIN, R)
    odometer(SPEED)
    end(3)
    refused(0x53, b"\3")
    curve_end(3)
    refused(0x21, b"\3")
    refused(0x53, b"\x0f")
    curve_end(15)
    record(15, RH)
    refused(0x21, b"\x0f")
    curve(3)
    refused(0x53, b"\3")
    end(15)
    for ident in [*range(3), *range(4, 8)]:
        end(ident)
    for ident in range(15):
        curve_end(ident)


def limits():
    """Each operand at its limits and one past them."""
    for ident in (0, 254):
        record(ident)
        end(ident)
    for category in CATEGORIES:
        record(1, category)
        end(1)
    for metres in (0, 1, 9999, 10000):
        record(1, RF, metres)
        end(1)
    for speed in (10, 11, 299, 300):
        record(1, RF, 100, speed)
        end(1)
    for gradient in (-30, 30):
        record(1, RF, 100, 40, gradient)
        end(1)
    past_the_limits()
    for kind in KINDS:
        for route in ROUTES:
            signal(kind, route)


def past_the_limits():
    for wrong in (board(255), board(1, 4), board(1, 255), board(1, RF, 10001), board(1, RF, 65535), board(1, RF, 100, 9),
                  board(1, RF, 100, 0), board(1, RF, 100, 301), board(1, RF, 100, 65535), board(1, RF, 100, 40, 31),
                  board(1, RF, 100, 40, -31), board(1, RF, 100, 40, 127), board(1, RF, 100, 40, -128), board(255, 4, 10001, 9, 31)):
        refused(0x51, wrong)
    for kind, route in ((2, 0), (0, 2), (255, 0), (1, 255), (2, 2)):
        refused(0x52, bytes([kind, route]))
    refused(0x53, b"\xff")


def in_each_state():
    """10 in DE and CS, after 9; in FA 8 before them all; 6 and 7 first."""
    start()
    for path in ((), (CS,)):
        state(*path)
        refused(0x51, board(1))
        for kind in KINDS:
            for route in ROUTES:
                refused(0x52, bytes([kind, route]))
        refused(0x53, b"\1")
        past_the_limits()
    state(HS)
    past_the_limits()
    record(1)
    for code, operands in ((0x51, board(2)), (0x52, b"\0\0"), (0x53, b"\1"), (0x53, b"\2"), (0x51, board(1))):
        write(code, 0, operands)
        write(code, ahead(2), operands)
        write(code, ahead(0), operands)  # of the last it is a repeat
    again()
    for ident in range(2, 9):
        record(ident)
    write(0x51, ahead(2), board(9))
    write(0x51, 0, board(9))
    state(FA)
    for code, operands in ((0x51, board(9)), (0x51, board(1)), (0x52, b"\0\0"), (0x53, b"\1"), (0x53, b"\x09"), (0x51, board(255))):
        refused(code, operands)
        write(code, 0, operands)
        write(code, ahead(2), operands)
    again()
    # the last numbers of all
    start(at=LAST - 5)
    state(CS, HS)
    record(1)
    signal(MAIN, R)
    end(1)
    again()
    write(0x51, LAST, board(1))
    start(at=1)


def dropped():
    """CS and a start drop records of each condition, and their places."""
    for leave in (lambda: state(CS, HS), in_hs, in_da):
        in_da()
        passive(0)
        active(1, category=GF)
        for ident in (2, 3):
            active(ident)
        for ident in range(4, 6):
            record(ident, GH)
        ground(10000)
        for ident in range(6, 8):
            record(ident, GH)
        refused(0x51, board(8))
        odometer(SPEED)
        leave()
        for ident in range(8):
            refused(0x53, bytes([ident]))
        odometer(SPEED)
        for ident in range(8):
            record(100 + ident)
        refused(0x51, board(0))


# ---------------------------------------------------------------- as curves


def reaches(boundary, v=SPEED, target=40, b=FULL, extra=0):
    """The greatest distance in cm at which a boundary is reached."""
    if boundary == "F":
        u, lead = 9 * v - 250 * F_MARGIN, 0
    else:
        u, lead = 9 * v, LEADS[boundary] + (extra if boundary != "E" else 0)
    return (50 * (u * u - (250 * target) ** 2) + 81 * b * v * lead) // (810 * b)


BOUNDARIES = ("Bf", "B", "permitted", "C", "D", "E", "F")


def through_the_intervals(make, buttons=0, b=FULL, flags=0):
    """A record a centimetre before each boundary, at it, and at a stand; then the release."""
    for boundary in BOUNDARIES:
        d = reaches(boundary, b=b, extra=50 if flags & 4 else 0)
        if make == "locked":
            # locked in the report that brings it there
            metres = -(-(d + 1 + 10000) // 100)
            record(1, GF, metres, 40)
            ground(100 * metres - d - 1 - 1200, SPEED, buttons)
            odometer(SPEED, 1200, buttons)
        else:
            metres = d // 100 + 1
            active(1, metres, 40, category=make)
            odometer(SPEED, 100 * metres - d - 1, buttons)
        again()
        odometer(SPEED, 1, buttons)
        again()
        odometer(SPEED, 1, buttons)
        odometer(SPEED, 0, buttons | LOSS)
        odometer(1388, 0, buttons)
        odometer(1388, 0, buttons | LOSS)
        odometer(1389, 0, buttons, 800)
        odometer(0, 0, buttons)
        odometer(0, 0, buttons | LOSS)
        odometer(0, 0, buttons)
        end(1)


def braking():
    in_da()
    for make in (RH, GH, RF, GF, "locked"):
        through_the_intervals(make)
    for make in (RH, RF, "locked"):
        through_the_intervals(make, HALKA, SOFT)
    in_da(flags=4)
    for make in (GH, "locked"):
        through_the_intervals(make, flags=4)
    # in D with a sufficient drop, and then without
    in_da()
    active(1, 430, 40)
    odometer(SPEED, 0, 0, 800)
    odometer(SPEED, 0, 0, 901)
    odometer(SPEED, 100, 0, 800)
    end(1)
    odometer(SPEED, 0, LOSS, 800)
    # on slopes
    for gradient in (-30, -7, 7, 30):
        active(1, 500, 40, gradient)
        for d in range(500, 200, -12):
            odometer(SPEED, 1200, 0, 800)
        end(1)
        odometer(0, 0, 0, 800)
        odometer(0, 0, LOSS, 800)


def locked_and_braking():
    """Nothing a centimetre before the 100 m; at them the record brakes in that very report."""
    for metres, speed, buttons in ((100, SPEED, 0), (500, SPEED, 0), (450, SPEED, 0), (350, SPEED, 0), (200, SPEED, HALKA), (500, 4000, 0)):
        in_da()
        record(7, RH, metres, 40)
        ground(9999, speed, buttons)
        again()
        odometer(speed, 1, buttons)
        again()
        odometer(speed, 1, buttons | LOSS)
    # by more than a centimetre, with another undecided beside it
    in_da()
    record(7, RH, 300, 40)
    ground(1200, SPEED)
    record(8, RH, 150, 30)
    ground(8799, SPEED)
    odometer(SPEED, 700)
    signal(MAIN, G)
    ground(1200, SPEED)
    odometer(0, 0, 0, 800)
    odometer(0, 0, LOSS, 800)


def run_out():
    """A distance that reaches 0 while undecided: nothing, and then by signal or by the 100 m the record at its target."""
    for metres in (0, 1, 50, 99, 100):
        for way in ("signal", "ground", "end", "terminated"):
            in_da()
            record(1, RH, metres, 40)
            ground(9999, SPEED)
            if way == "signal":
                signal(MAIN, R)
                odometer(SPEED, 0)
            elif way == "ground":
                odometer(SPEED, 1)
            elif way == "end":
                end(1)
                odometer(SPEED, 1)
            else:
                signal(MAIN, G)
                odometer(SPEED, 1)
            odometer(1111, 0, 0, 800)
            odometer(1111, 0, LOSS, 800)
            if way in ("signal", "ground"):
                end(1)
            else:
                refused(0x53, b"\1")
    # the record's target is the last that it was given; passive too
    in_da()
    passive(1, 0, 40)
    ground(12000, SPEED)
    record(2, RF, 0, 100)
    signal(DISTANT, R)
    odometer(SPEED)


def no_cause_before_a_report():
    """51, 52 and 53 write the report anew with the last figures and order nothing."""
    in_da()
    odometer(SPEED)
    record(1, RH, 100, 40)
    again()
    signal(MAIN, R)
    again()
    record(1, RF, 200, 40)
    signal(DISTANT, R)
    put(0x31)
    odometer(SPEED, 0, 0, 800)
    # an end, or a repeater, offers the release, and drops nothing
    end(1)
    again()
    odometer(SPEED, 0, LOSS, 800)
    for after in (lambda: end(1), lambda: record(1, GH, 300, 40)):
        active(1, 100, 40)
        odometer(SPEED, 0, 0, 800)
        odometer(SPEED, 0, LOSS, 800)
        after()
        odometer(SPEED, 0, 0, 800)
        odometer(SPEED, 0, LOSS, 800)
    # the last HALKA, too
    in_da()
    odometer(SPEED, 0, HALKA)
    active(1, 380, 40)
    odometer(SPEED)
    # service ordered by a record, with no drop by T_B; emergency with none by T_EBCHK
    in_da(t_b=3)
    active(1, 350, 40)
    for _ in range(5):
        odometer(SPEED)
    end(1)
    odometer(0, 0, LOSS, 800)
    in_da(t_ebchk=2)
    active(1, 100, 40)
    for _ in range(3):
        odometer(SPEED)
    again()


def past_in_b():
    """Ab of a record that was in B; of none that was so while undecided, passive or in HS, nor after a repeater."""
    in_da()
    near = reaches("B") // 100
    active(1, near, 40)
    odometer(SPEED)
    odometer(1200)
    active(2, near - 10, 40, category=GF)
    odometer(1200)
    end(1)
    odometer(SPEED)
    odometer(1200)
    # past in B is kept over a report of the other, lost by a repeater
    record(2, GF, near, 40)
    odometer(SPEED)
    odometer(1200)
    signal(DISTANT, G)
    odometer(1200)
    odometer(SPEED)
    odometer(1200)
    # ended and given anew
    end(2)
    active(2, near, 40, category=GF)
    odometer(1200)
    # undecided in B's ground
    in_da()
    record(1, RH, near, 40)
    odometer(SPEED)
    odometer(1200)
    signal(MAIN, R)
    odometer(1200)
    # in HS
    in_hs()
    active(1, near, 40)
    odometer(SPEED)
    odometer(1200)
    state(DA)
    odometer(1200)
    odometer(SPEED)
    odometer(1200)
    # locked, and so shown in Ab
    in_da()
    record(1, RH, near + 100, 40)
    ground(10000, SPEED)
    odometer(1200)
    # a curve of the same id keeps its own past, and gives none
    in_da()
    curve(1, near, 40)
    odometer(SPEED)
    active(1, near, 40)
    odometer(1200)
    curve_end(1)
    odometer(1200)
    odometer(SPEED)
    curve(1, near, 40)
    odometer(1200)
    end(1)
    odometer(1200)


def shown():
    """Interval, permitted speed, curves before records, id."""
    in_da()
    # a curve before a record, equal in all: with either id
    for of_curve, of_record in ((3, 7), (7, 3), (5, 5), (0, 254), (254, 0)):
        for make in (active, locked):
            for fast, metres in ((1000, 1000), (SPEED, 1000), (SPEED, 600)):
                make(of_record, metres if make == active else metres + 100, 40)
                curve(of_curve, metres, 40)
                odometer(fast)
                curve_end(of_curve)
                curve(of_curve, metres, 40)
                end(of_record)
                make(of_record, metres if make == active else metres + 100, 40)
                if make == locked:
                    curve(of_curve, metres, 40)
                odometer(fast)
                curve_end(of_curve)
                odometer(fast)
                end(of_record)
    # the lowest id among records, in either order of coming
    for order in ((4, 9, 2), (2, 4, 9), (9, 4, 2)):
        for ident in order:
            record(ident, RH, 1000, 40)
        signal(MAIN, R)
        odometer(SPEED)
        for ident in sorted(order):
            end(ident)
    # a record in a later interval, a curve in one; the lower permitted speed of the two, with both in one
    for first, second in ((700, 600), (600, 700), (1000, 990), (990, 1000)):
        curve(1, first, 40)
        active(2, second, 40)
        odometer(SPEED)
        curve_end(1)
        end(2)
    for first, second in ((40, 39), (39, 40), (100, 40), (40, 100)):
        curve(1, 3000, first)
        active(0, 3000, second)
        odometer(SPEED)
        odometer(1000)
        curve_end(1)
        end(0)
    # a far record in A is not shown before a curve in B, nor a near passive or undecided one
    curve(9, 700, 40)
    passive(1, 10, 10)
    record(2, GH, 10, 10)
    odometer(SPEED)
    active(3, 9000, 40)
    odometer(SPEED)
    curve_end(9)
    odometer(SPEED)
    state(FA)


def ineffective():
    """Passive and undecided records with a close target at high speed: no curve, no permitted speed, no braking, no past."""
    for make in (record, passive):
        in_da()
        for ident in range(8):
            make(ident, *([RF] if make == record else []), 0 if ident % 2 else 30, 10 + ident, 3 * ident - 10)
        for speed in (0, 1000, 5500, 5700, 5000):
            odometer(speed)
            odometer(speed, 1200)
            odometer(speed, 1200, HALKA)
    # passive to the end of its ground and far beyond the 100 m
    in_da()
    passive(1, 20, 10)
    ground(24000, SPEED)
    odometer(0)
    end(1)
    odometer(SPEED)


def in_reports():
    """Bit 6 beside the other messages; not in HS, CS or FA."""
    in_da()
    active(5, 1000, 40)
    odometer(SPEED)
    odometer(SPEED, 0, 0, 2000)
    odometer(SPEED)
    state(FA)
    again()
    in_hs()
    active(5, 1000, 40)
    odometer(SPEED, 1200)
    again()
    state(DA)
    state(CS)
    again()
    # with a brake test that failed and one that passed
    for half_kpa in (880, 2000):
        start()
        put(0x40)
        for _ in range(31):
            odometer()
        odometer(0, 0, 0, half_kpa)
        for _ in range(31):
            odometer()
        state(DA)
        active(5, 1000, 40)
        odometer(SPEED)
        curve(5, 1000, 40)
        odometer(SPEED)


def next_change():
    """The figure of a shown record, met and then passed by a centimetre."""
    in_da()
    for make in (active, preliminarily, locked):
        for here, then in (("Bf", "B"), ("B", "C"), ("C", "D"), ("D", "E"), ("E", "F")):
            d = reaches(here)
            far = d - reaches(then) - 1
            metres = -(-d // 100) + (100 if make == locked else 0)
            make(1, metres, 40)
            odometer(SPEED, 100 * metres - d - (10000 if make == locked else 0), 0, 800)
            left = far
            while left > 0:
                odometer(SPEED, min(1200, left), 0, 800)
                left -= 1200
            odometer(SPEED, 1, 0, 800)
            end(1)
            odometer(0, 0, 0, 800)
            odometer(0, 0, LOSS, 800)


def main():
    in_hs()
    every_row()
    all_at_once()
    in_da()
    every_row()
    all_at_once()
    in_hs()
    to_the_centimetre()
    with_others_between()
    in_da()
    to_the_centimetre()
    to_the_centimetre(1300)
    with_others_between()
    over_states()
    in_hs()
    repeaters()
    in_da()
    repeaters()
    ends()
    eight()
    ends()
    apart_from_curves()
    limits()
    in_da()
    ends()
    eight()
    in_da()
    apart_from_curves()
    limits()
    in_each_state()
    dropped()
    braking()
    locked_and_braking()
    run_out()
    no_cause_before_a_report()
    past_in_b()
    shown()
    ineffective()
    in_reports()
    next_change()


if __name__ == "__main__":
    main()

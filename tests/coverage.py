#!/usr/bin/env python3
"""Checks that the recorded runs have what docs/TRACE.md says of them.

Of crates/trips_run each command is read beside its line, and beside the picture that tests/trips.py keeps of a unit. Of
crates/answers_run each record is read beside its line. The tables here are written from documents 01 and 02. The exit status is 1
if something claimed is not met, or if an answer or a report is not as the tables and the picture have it.
"""

import functools
import os
import struct
import sys
from collections import Counter, namedtuple
from fractions import Fraction

sys.dont_write_bytecode = True
sys.path.insert(0, os.path.dirname(os.path.abspath(__file__)))
import curve as curves
import pressure as pressures
from trips import Picture, at, upto

LAST = 0xFFFFFFFF
DE, CS, HS, DA, FA = range(5)
STATES = ["DE", "CS", "HS", "DA", "FA"]
LOSS, TEXT, HALKA, NEUTRAL = 1, 2, 4, 8
LENGTHS = {0x01: 24, 0x02: 6, 0x10: 14, 0x20: 12, 0x21: 6, 0x22: 8, 0x23: 6, 0x30: 6, 0x31: 5, 0x32: 5, 0x40: 5,
           0x50: 8, 0x51: 12, 0x52: 7, 0x53: 6}

# An operand of a code: where it stands among the operands, its form, values in range at its limits, values out of
# range next to them, and for the speeds of a curve and of an event the place and values of the byte that they go by.
Operand = namedtuple("Operand", "code name at form good bad going_by", defaults=[None])
OPERANDS = [
    Operand(0x01, "flags", 0, "B", tuple(range(8)), (8, 16, 32, 64, 128)),
    Operand(0x01, "train speed", 1, "H", (10, 300), (9, 301)),
    Operand(0x01, "length", 3, "H", (10, 1000), (9, 1001)),
    Operand(0x01, "full deceleration", 5, "H", (400, 2000), (399, 2001)),
    Operand(0x01, "soft deceleration", 7, "H", (400,), (399,)),  # up to full: see in_range
    Operand(0x01, "T_B", 9, "B", (1, 100), (0, 101)),
    Operand(0x01, "gC", 10, "B", (0, 200), (201,)),
    Operand(0x01, "gP", 11, "B", (0, 200), (201,)),
    Operand(0x01, "gBf", 12, "B", (0, 200), (201,)),
    Operand(0x01, "F margin", 13, "B", (1, 30), (0, 31)),
    Operand(0x01, "emergency margin", 14, "B", (11, 30), (10, 31)),
    Operand(0x01, "sufficient application", 15, "B", (30, 150), (29, 151)),
    Operand(0x01, "P_FULL", 16, "H", (150, 600), (149, 601)),
    Operand(0x01, "T_EBCHK", 18, "B", (1, 100), (0, 101)),
    Operand(0x02, "state", 0, "B", (0, 1, 2, 3, 4), (5,)),
    Operand(0x10, "speed", 0, "H", (0, 10000), (10001,)),
    Operand(0x10, "moved", 2, "H", (0, 1200), (1201,)),
    Operand(0x10, "measured deceleration", 4, "h", (-32768, 32767), ()),
    Operand(0x10, "P_EXT", 6, "h", (-32768, 32767), ()),
    Operand(0x10, "buttons", 8, "B", (0, 1, 2, 4, 8, 15), (16, 32, 64, 128)),
    Operand(0x20, "id", 0, "B", (0, 254), (255,)),
    Operand(0x20, "kind", 1, "B", (0, 1), (2,)),
    Operand(0x20, "distance", 2, "H", (0, 10000), (10001,)),
    Operand(0x20, "target", 4, "H", (10, 300), (9, 301), (1, (0,))),
    Operand(0x20, "release speed", 4, "H", (10, 40), (9, 11, 39, 41), (1, (1,))),
    Operand(0x20, "gradient", 6, "b", (-30, 30), (-31, 31, -128, 127)),
    Operand(0x21, "id", 0, "B", (0, 254), (255,)),
    Operand(0x22, "id", 0, "B", (0, 254), (255,)),
    Operand(0x22, "speed", 1, "H", (10, 300), (9, 301)),
    Operand(0x23, "id", 0, "B", (0, 254), (255,)),
    Operand(0x30, "stop", 0, "B", (0, 1, 2), (3,)),
    Operand(0x50, "event", 0, "B", (0, 1, 2, 3, 4, 5, 6), (7, 255)),
    Operand(0x50, "speed of a GMD", 1, "H", (10, 300), (0, 9, 301), (0, (1,))),
    *(Operand(0x50, f"speed of event {event}", 1, "H", (0,), (1, 10, 256, 300), (0, (event,))) for event in (0, 2, 3, 4, 5, 6)),
    Operand(0x51, "id", 0, "B", (0, 254), (255,)),
    Operand(0x51, "category", 1, "B", (0, 1, 2, 3), (4, 255)),
    Operand(0x51, "distance", 2, "H", (0, 10000), (10001,)),
    Operand(0x51, "speed", 4, "H", (10, 300), (9, 301)),
    Operand(0x51, "gradient", 6, "b", (-30, 30), (-31, 31, -128, 127)),
    Operand(0x52, "kind", 0, "B", (0, 1), (2, 255)),
    Operand(0x52, "route", 1, "B", (0, 1), (2, 255)),
    Operand(0x53, "id", 0, "B", (0, 254), (255,)),
]

# What each code is answered in DE, CS, HS, DA and FA, all else being in order.
CODES = {0x01: (0, 0, 0, 0, 0), 0x10: (0, 0, 0, 0, 8), 0x20: (10, 10, 0, 0, 8), 0x21: (10, 10, 0, 0, 8),
         0x22: (10, 10, 0, 0, 8), 0x23: (10, 10, 0, 0, 8), 0x30: (10, 10, 10, 0, 8), 0x31: (10, 10, 0, 0, 8),
         0x32: (10, 10, 10, 0, 8), 0x40: (0, 14, 14, 14, 8), 0x50: (10, 10, 0, 0, 8),
         0x51: (10, 10, 0, 0, 8), 0x52: (10, 10, 0, 0, 8), 0x53: (10, 10, 0, 0, 8)}
# What command 02 is answered, from each state to DE, CS, HS, DA and FA, where there is a reference pressure.
PATHS = ((10, 0, 10, 0, 0), (10, 10, 0, 10, 0), (10, 0, 10, 0, 0), (10, 0, 10, 10, 0), (8, 8, 8, 8, 8))

# Two refusals that one command can meet. 9 and 11 cannot (an order of DA is in range), nor 10 and 13 (where 20 and 22
# are not allowed nothing is held), and 11, 12 and 13 are of different codes. 14 and 15 are of a code that has no operands
# and is never 10, and a test runs in DE alone. 16 is of a code of its own, and so are 17 and 18, one of an id that is held and one of
# an id that is not; where 51 is not allowed no record is held.
PAIRS = [(5, 6), (5, 9)] + [(6, n) for n in range(7, 19)] + [(7, n) for n in range(8, 19)] + [
    (8, n) for n in (*range(9, 15), 16, 17, 18)] + [(9, n) for n in (10, 12, 13, 16, 17, 18)] + [(10, 11), (10, 12), (10, 16)]

# Table 4.4-4 of 001 with what 02 adds to it: for each area the area after events 0 to 6, None where the event is not taken. Event 3
# leads from 8 to 4 too, 50 m on.
AREAS = {7: (4, 4, None, None, None, 9, 8),
         4: (None, 4, None, None, 7, 9, 8),
         9: (4, None, None, None, 7, None, 8),
         8: (None, None, 4, 8, 7, 9, None)}
GMD, NO_OVERLAP = 1, 3
KEEPING = ["event 0", "event 2", "event 3", "event 4", "event 5", "event 6", "a GMD inside", "the 50 m"]

# Table 4.6-2 of 001: what a main signal for R and for G, and a distant one for R and for G, make of an undecided record of RF, RH, GF, GH.
SIGNALLED = (("undecided", "undecided", "preliminarily active", "preliminarily passive"),
             ("definitely active", "terminated", "undecided", "undecided"),
             ("undecided", "undecided", "preliminarily passive", "preliminarily active"),
             ("terminated", "definitely active", "undecided", "undecided"))
DECIDED = {(category, i // 2, i % 2): word for category, row in enumerate(SIGNALLED) for i, word in enumerate(row)}
CATEGORIES, SIGNALS, ROUTES = ("RF", "RH", "GF", "GH"), ("main", "distant"), ("R", "G")
ACTIVE = ("definitely active", "preliminarily active")
AS_CURVES = (*ACTIVE, "locked")
HELD = ("undecided", *ACTIVE, "preliminarily passive", "locked")  # the conditions of a record that is held
BETWEEN = ["a repeated report", "a refused report", "a refused record", "a refused signal", "a refused end",
           "a curve, a section and others", "another record", "a signal that does not control"]

# The causes' strengths: soft, full, emergency.
STRENGTHS = "SEFSEEEFFSSE"
# Bit 1 comes with bit 0 (its margin is over 10) and both are releasable below VMAX+5; bit 4 comes with bit 2 or 3, and
# all are releasable where no curve brakes. So LOSS drops each with its companion, and neither stands alone.
NEVER_ALONE = (1, 4)

INTERVALS = ["none", "A", "Ab", "Bf", "B", "C", "D", "E", "F"]
# Table 4.8-5 of 001, row by row, after the one for no curve: interval; past permitted, drop sufficient (None: either); bar, mode.
ROWS = {"no curve": ("none", None, None, 0, 0), "a) A": ("A", None, None, 0, 0), "b) Bf": ("Bf", None, None, 1, 1),
        "c) Ab": ("Ab", None, None, 2, 2), "c) B": ("B", False, None, 2, 2), "d) B": ("B", True, None, 2, 3),
        "e) C": ("C", None, None, 2, 3), "f) D": ("D", None, True, 2, 3), "g) D": ("D", None, False, 2, 4),
        "h) E": ("E", None, None, 2, 4), "i) F": ("F", None, None, 2, 4)}


def claims():
    """Every claim, by the headings of docs/TRACE.md."""
    yield "Commands", [f"{code:02X} accepted" for code in LENGTHS]
    yield "Operands", [f"{o.code:02X} {o.name} {value}" for o in OPERANDS for value in o.good + o.bad] + [
        "01 soft deceleration = full", "01 soft deceleration = full + 1"]
    yield "States", [f"{code:02X} in {name}: {answer}" for code, row in CODES.items() for name, answer in zip(STATES, row)]
    yield "Paths", [f"{STATES[a]} to {STATES[b]}: {PATHS[a][b]}" for a in range(5) for b in range(5)] + [
        "DE to DA: 11", "HS to DA: 11", "CS to DA: 10 without a reference"]
    yield "Answers", [f"answer {n}" for n in (0, *range(4, 19), 100)] + [f"{code:02X} again" for code in LENGTHS] + [
        "again in FA", "again after a refusal", *(f"again where {n} would refuse" for n in (10, 12, 15, 16, 18)),
        "again, with ground under a curve", "same number, other bytes: 7",
        "FFFFFFFF accepted", "after FFFFFFFF: 6", "after FFFFFFFF: 7", "after FFFFFFFF: 100", "after FFFFFFFF: a start",
        "a refused number accepted", "12 of a curve", "12 of a section", "12 of an ending section", "12 of a record", "13 of a curve",
        "13 of a section", "13 with an ending section", "a held curve replaced", "a held curve with a past replaced",
        "an ending section stands again", "a freed curve's place used", "a freed section's place used",
        "start over curves, sections and causes", "CS with curves", "CS with sections", "CS with causes", "CS with the 40",
        "CS with a check running", "CS with ground rolled", "CS and back to DA with the old reference"] + [
        f"{a} before {b}" for a, b in PAIRS]
    yield "Feedback", [f"reports in DA, {feed}" for feed in ("pipe", "cylinder")] + [
        f"reference set in {name}" for name in ("DE", "CS", "HS")]
    yield "Curves", [
        "a curve shown at d 0", "a curve removed by 21", "VMAX by the train", "VMAX by a section",
        "VMAX by an ending section", "VMAX by the 40", "VMAX by the area", "ending section 1 cm before the length", "section gone at the length",
        "a proceed signal ends the 40", "permitted speed is VMAX", "permitted speed below VMAX"]
    yield "Causes and release", [f"report in {name}" for name in ("DE", "CS", "HS", "DA")] + [
        "ground in HS under a curve", "DA entered at VMAX+10", "LOSS held from before DA releases nothing",
        "past in B noted", "in B in HS, then A or Bf in DA", "past in B kept by a replaced curve",
        "30 0 adds 5", "30 1 adds 6 and 7",
        "30 2 adds 8", "32 adds 9", "since of 5 starts again", "since of 6 starts again", "since of 8 starts again"] + [
        f"bit {bit} alone" for bit in range(12) if bit not in NEVER_ALONE] + [
        f"bit {bit} alone, flag bit 0 {flag}: order {order}" for bit in range(12) if STRENGTHS[bit] in "SF"
        for flag, order in ((0, 2), (1, 1 if STRENGTHS[bit] == "S" else 2))] + [
        f"bit {bit} makes order 3" for bit in range(12) if STRENGTHS[bit] == "E"] + [
        "soft and full, flag bit 0 1: order 2"] + [
        f"bit {bit} ordered" for bit in (0, 1, 2, 3, 4, 10, 11)] + [f"bit {bit} dropped" for bit in range(12)] + [
        f"bit {bit} not released by a fresh press" for bit in range(12) if bit != 10] + [
        "LOSS leaves bit 10", "bits 2 and 3 together",
        "bit 0 at VMAX+10", "no bit 0 a cm/s below", "bit 1 at VMAX+margin", "no bit 1 a cm/s below",
        "bits 0, 1, 7 at VMAX+5 not offered", "bits 0, 1, 7 a cm/s below offered", "bit 9 offered at 80 km/h",
        "bit 9 not offered a cm/s above", "D, braking, drop sufficient: no order", "D, braking, half a kPa less: order",
        "speed 0 with ground is no halt", "moved 0 with speed is no halt", "freed at the report of its halt",
        "a held LOSS releases nothing", "a held text releases nothing",
        "500 cm rolled", "501 cm rolled: bit 10", "over 500 cm rolled in DA before a halt",
        "over 500 cm from 0 after a drop of bit 10", "over 500 cm after gear",
        "DRIFTBROMSFEL without bit 11", "DRIFTBROMSFEL gone with the last cause", "DRIFTBROMSFEL in FA",
        "bit 11 at the T_B-th report", "FA at the T_EBCHK-th report", "FA by the emergency check alone",
        "FA by both checks at one report",
        "FA at a fresh LOSS that would release all", "bit 11 begins the emergency check",
        "service check satisfied at its limit", "emergency check satisfied at its limit", "a drop of 60 satisfies",
        "a drop of 59.5 doesn't", "a drop at the beginning doesn't count", "a check begun by a command",
        "a check begun by a report", "over T_B reports after bit 11"]
    yield "Report", [f"state {name}" for name in STATES] + [f"order {n}" for n in range(4)] + [
        f"interval, bar, mode: {interval}, {bar}, {mode}" for interval, _, _, bar, mode in ROWS.values()] + [
        "DRIFTBROMSFEL", "NÖDBROMSFEL", "TRYCKGIVARFEL"] + [f"TRYCKGIVARFEL in {name}" for name in STATES] + [
        f"offer {n}" for n in range(4)] + [
        "shown by interval", "shown by interval, not the lowest permitted", "shown by permitted speed, not the lowest id",
        "shown by id", "another command changes the interval shown", "another command changes VMAX",
        "another command changes the offer", "a curve given in F, no cause"]
    yield "F-1", [f"{name}: moved {words}" for name in INTERVALS[1:8] for words in ("the figure, the same", "one more, another")] + [
        "no change down to 0 in F", "no change down to 0 in E, u' at or under w", "no change down to 0 at the floor",
        "no change down to 0 at distance 0", "no curve", "outside DA", "at the report that leads to FA", "a figure of 0",
        "past the permitted boundary in B, no change", "an interval passed over", "a figure with HALKA", "a figure downhill",
        "a figure of an Expect Stop", "of two curves the shown one's", "another command writes it anew",
        "43,324 cm: 7,499", "43,325 cm: 0"]
    yield "F-2", [
        "an error at 2,222 cm/s", "an error at 2,223 cm/s", "an error at rest",
        "low: fresh LOSS at the 19th at rest, bit 9 stands", "low: fresh LOSS at the 19th above 80 km/h, bit 9 stands",
        "low: the 19th offers nothing", "low: the 20th offers above 80 km/h", "low: LOSS held at the 20th, bit 9 stands",
        "low: fresh LOSS at the 20th above 80 km/h drops it", "low: fresh LOSS later above 80 km/h drops it",
        "low: fresh LOSS later at rest drops it",
        "high: fresh LOSS above 80 km/h at the first, bit 9 stands", "high: fresh LOSS above 80 km/h after the 20th, bit 9 stands",
        "high: up to 80 km/h it is offered before the 20th", "high: fresh LOSS up to 80 km/h drops it before the 20th",
        "low, then high", "high, then low", "low, then low before the 20th, dropped at the 20th of the second",
        "an offer taken back by an error at low speed", "an offer taken back by an error at high speed",
        "a second error begins no check", "a repeat in between", "a refused report in between", "an error again, and refused",
        "bit 0 dropped while bit 9 is held", "bit 11 not dropped while bit 9 is held", "bits 9 and 11 dropped together at the 20th",
        "FA at a fresh LOSS that would drop bit 9", "CS while bit 9 is held", "a start while bit 9 is held"]
    yield "F-3", [
        "asked before any report", "asked with a speed standing", "asked with TRYCKGIVARFEL standing", "asked with a reference",
        "asked with flag bit 2", "asked without flag bit 2", "asked after one that passed", "asked after one that failed",
        "the 30th report: no order yet", "the 31st report: order 2", "the 31st report: order 2, with a reference from before",
        "a repeat in between counts nothing", "a refused report in between counts nothing", "order 2 again",
        "15 while waiting", "15 while settling", "15 while braking",
        "399.5 kPa is not saved", "400 kPa is saved", "550 kPa is saved", "20 kPa from the saved pressure: settling goes on",
        "20.5 kPa from it: saved anew", "over 20 kPa from it, under 400: waiting", "thrown back at the 31st report",
        "a drop of 20 kPa where it settles: no end", "59.5 kPa at count 1: braking", "60 kPa at count 1: passed",
        "60 kPa before T_B: passed", "60 kPa at T_B: passed", "59.5 kPa at T_B: failed", "no drop at T_B: failed",
        "T_B 1: passed", "T_B 1: failed", "T_B 100: passed at count 100", "a drop after a failure: still failed",
        "cylinder: passed", "cylinder: 60 kPa less 1/32,768: braking", "cylinder: 60 kPa and 1/32,768: passed",
        "60 kPa under P_REF, not under the saved pressure: braking", "60 kPa under the saved pressure, not under P_REF: passed"] + [
        f"{phase}: {words} fails it" for phase in ("waiting", "settling", "braking")
        for words in ("speed 1", "−50.5 kPa", "955.5 kPa")] + [
        "settling: fails where it would settle", "braking: fails where it would pass"] + [
        f"{phase}: {words} fails nothing" for phase in ("settling", "braking") for words in ("−50 kPa", "955 kPa", "ground alone")] + [
        f"left to {name} while {phase}: failed" for name in ("CS", "DA", "FA") for phase in ("settling", "braking")] + [
        f"02 refused {n}: it runs on" for n in (9, 10, 11)] + [
        "a refused start: it runs on", "a start while settling", "a start while braking", "a start forgets a pass",
        "a start forgets a failure", "passed, then failed", "failed, then passed", "bit 4 while another runs",
        "bit 5 while another runs"] + [f"bit {bit} in {name}" for bit in (4, 5) for name in STATES] + [
        "bit 4 with NÖDBROMSFEL", "order 2 with flag bit 0", "a fresh LOSS while it brakes",
        "over T_B reports in DA after it braked: no bit 11", "T_B 1: none at the first report in DA", "P_REF set while a test runs",
        "P_REF changed while settling", "P_REF changed while braking", "settled before there is a reference",
        "DA: the drop is from the changed P_REF"] + [
        f"{name} {words}, {side}" for words in ("with the extra", "after a pass") for name in (*curves.BOUNDARIES, "permitted")
        for side in ("its last cm", "a cm before")] + [
        "extra after a failure", "no extra after a pass and a failure", "no extra after a failure and a pass",
        "an extra again after a start", "no extra without flag bit 2", "an extra with HALKA", "an extra downhill",
        "an extra of an Expect Stop", "permitted speed by the extra", "a figure by the extra", "bit 2 by the extra alone",
        "bit 11 at T_B with the extra", "failed at T_B with the extra"]
    yield "F-4", [f"row {name}, drop {word}" for name, row in ROWS.items() for word, is_so in (("sufficient", True), ("insufficient", False))
                  if row[2] in (None, is_so)]
    yield "F-6", [
        f"event {event} in area {area}, {name}: {16 if to is None else 0}"
        for area, row in AREAS.items() for event, to in enumerate(row) for name in ("HS", "DA")] + [
        "event 3 again", "the report of the 50 m again"] + [
        f"{words} in {name}" for words in ("4,999 cm: area 8", "5,000 cm: area 4", "5,001 cm: area 4") for name in ("HS", "DA")] + [
        "the 50 m over HS and DA"] + [
        f"the 50 m with {words} in between" for words in (
            "a repeated report", "a refused report", "a second group", "an event refused 9", "an event refused 16",
            "an event 3 again", "a curve, a section and a proceed signal", "a stop and a balise error")] + [
        f"over 50 m from the group, ended by {words}: area {area}" for words, area in (
            ("event 2", 4), ("event 4", 7), ("event 5", 9), ("CS", 8), ("a start", 8))] + [
        "over 50 m from the group, ended by CS, in CS", "over 50 m from the group, ended by event 2: the GMD's speed stands",
        "a group after one that was ended: 4,999 cm, area 8", "FA while the 50 m pend"] + [
        f"over 50 m in {name} before the group, then 4,999 cm: area 8" for name in ("DE", "CS", "HS", "DA")] + [
        "VMAX by 130", "VMAX by a GMD", "a GMD above 130", "a GMD above the train", "a train slower than 130", "a GMD inside, up",
        "a GMD inside, down", "a section below 130 or the GMD", "an ending section below 130 or the GMD", "a GMD below a section",
        "the 40 below 130 or the GMD", "a GMD below the 40"] + [
        f"VMAX above 130 in area {area}" for area in (7, 9, 8)] + [
        f"130 after a stay with a GMD, by {words}" for words in ("event 0", "event 2", "the 50 m")] + [
        "a GMD after a stay with another"] + [
        f"{words} kept by CS" for words in ("130", "a GMD under 130", "a GMD above 130")] + [
        "130 after a stay with a GMD and CS", "no 130 after a start from area 4",
        "bit 0 at the report of the 50 m", "no bit 0 there a cm/s below", "bit 1 at the report of the 50 m", "no bit 1 there a cm/s below",
        "50 lowers VMAX to the speed less 10: no cause", "then bit 0 at the next report", "50 raises VMAX: a release offered"] + [
        f"an entering GMD deletes {words}, {name}" for words in ("a standing section", "an ending section") for name in ("HS", "DA")] + [
        "an entering GMD raises VMAX", "12 of a deleted section", "12 of a deleted section that was ending",
        "sixteen sections after sixteen deleted", "13 after those", "an entering GMD keeps the shown curve",
        "an entering GMD keeps the 40"] + [
        f"{words} keeps {kind}" for words in KEEPING for kind in ("a standing section", "an ending section")] + [
        "area 8 in DE"] + [f"area {area} in {name}" for area in AREAS for name in STATES[1:]] + [
        f"area {area} kept from {way}" for area in AREAS for way in ("HS to DA", "DA to CS", "HS to CS", "CS to HS", "DA to FA")] + [
        f"a start from area {area}" for area in AREAS] + [
        "FA by the emergency check in area 4", "FA at the report of the 50 m"]
    yield "F-7", list(record_claims())
    yield "Figures", [
        "VMAX 100: 3,055 no order", "VMAX 100: 3,056 bit 0", "VMAX 100: 2,916 offered", "VMAX 100: 2,917 not offered",
        "P_FULL 380: 956 kPa gives 500 and the message", "full 700: 490 measured frees bit 6", "full 700: 489 doesn't"]
    yield "Areas", [f"area written at {n}" for n in (0, 100)] + [f"area left alone at {n}" for n in range(1, 19)] + [
        f"area of {n} bytes: 1" for n in (0, 14, 18, 20, 32)] + [f"1 before {n}" for n in (2, 3, 4)] + [
        f"area left alone at {words}" for words in ("12 of a curve", "12 of a section", "12 of an ending section", "12 of a record",
                                                    "13 of a curve", "13 of a section")] + [
        "a refused number accepted, with an area"]


def record_claims():
    """Those of F-7. What is said of a condition is asked for afterwards: by a repeater, by an end, or in DA by a report."""
    states = ("HS", "DA")
    for category, kind, route in DECIDED:
        for name in states:
            yield f"{CATEGORIES[category]}, {SIGNALS[kind]} {ROUTES[route]}: {DECIDED[category, kind, route]}, {name}"
    for category, name in enumerate(CATEGORIES):
        fates = sorted({DECIDED[category, kind, route] for kind in (0, 1) for route in (0, 1)} - {"undecided"})
        for fate in fates:
            yield f"{name}, signals that do not control, then {fate}"
            yield f"{name}, 9,999 cm, then {fate}"
        for fate in (*fates, "locked"):
            if fate != "terminated":
                yield f"{name}, {fate}: all four signals touch nothing"
        yield f"{name}, 9,999 cm: no curve in DA"
        for far in ("10,000", "10,001"):
            for state in states:
                yield f"{name}, {far} cm: locked, {state}"
        yield f"{name}, locked after signals that do not control"
    for kind in SIGNALS:
        for route in ROUTES:
            yield f"{kind} {route}: four of eight decided, four not"
    yield from (f"a signal with no record, {name}" for name in states)
    yield "a signal that decides none of those held"
    yield from ("locked over HS and DA", "a new record after over 100 m: undecided", "of four records two locked by their own ground")
    yield from (f"locked at 10,000 cm with {words} in between" for words in BETWEEN)
    for condition in HELD:
        for name in states:
            yield f"repeater over {condition}: {0 if condition in ACTIVE else 18}, {name}"
            yield f"53 of {condition}, {name}"
        yield from (f"{by} drops a record that is {condition}: 12" for by in ("CS", "a start"))
        yield f"17 with one that is {condition} among the eight"
    for old in CATEGORIES:
        yield from (f"{new} repeats {old}" for new in CATEGORIES)
    yield from ("a repeater of another distance", "a repeater of another speed", "a repeater of the same figures",
                "a repeater made active again", "a repeater locked", "a repeater terminated", "a repeater made passive",
                "a repeater takes the shown record away")
    yield from ("12 of a terminated record", "12 after 53", "12 of a curve's id", "12 of an id never held", "21 of a record's id: 12",
                "53 leaves a curve of the same id", "21 leaves a record of the same id")
    yield from (f"17 in {name}" for name in states)
    yield from ("18 with eight held", "a repeater with eight held", "a ninth after 53", "a ninth after a terminated one",
                "eight records beside sixteen curves", "eight records after CS", "an ended id given anew")
    for condition in AS_CURVES:
        yield from (f"{condition}, shown in {interval}" for interval in INTERVALS[1:])
        for name in (*curves.BOUNDARIES, "permitted"):
            yield f"{condition}, {name}: its last cm"
            yield f"{condition}, {name}: a cm before"
        yield from (f"{condition}: moved the figure in {interval}, the same" for interval in ("Bf", "B", "C", "D", "E"))
        yield from (f"{condition}: moved one more in {interval}, another" for interval in ("Bf", "B", "C", "D", "E"))
        yield from (f"bit {bit} by one that is {condition}" for bit in (2, 3, 4))
        yield f"LOSS releases none while one that is {condition} brakes"
        yield f"Ab of one that is {condition}"
    yield from (f"locked and braking in one report, in {interval}" for interval in "DEF")
    yield from (f"record boundaries {words}" for words in ("with HALKA", "with the extra", "downhill", "uphill"))
    yield from ("D, a record brakes, drop sufficient: no order", "a release offered by 53", "a release offered by a repeater",
                "LOSS drops a record's bits", "52 brings one in F: no cause", "51, 52 and 53 with a cause standing",
                "bit 11 after a record's order", "FA by a record's order", "permitted speed by a record", "a record shown at d 0")
    yield from (f"d 0 while undecided, then {fate}" for fate in ("definitely active", "locked", "terminated", "ended"))
    yield from (f"no Ab of one in B {words}" for words in ("while undecided", "in HS", "before a repeater", "before an end"))
    yield from ("a curve's past gives a record of its id none", "a record's past gives a curve of its id none")
    yield from (f"a curve before a record, its id {words}, {interval}" for words in ("lower", "higher", "the same")
                for interval in ("in A", "later"))
    yield from ("of records the lowest id", "a record in a later interval than a curve", "a curve in a later interval than a record",
                "a record that permits less than a curve", "a curve that permits less than a record")
    yield from (f"{condition} at its target, 100 km/h too fast: nothing" for condition in ("undecided", "preliminarily passive"))
    yield "preliminarily passive over 200 m: nothing"
    yield from (f"bit 6 with bit {bit}" for bit in (2, 4, 5))
    yield from ("an active one in HS: no bit 6", "CS after a shown one: no bit 6", "FA after a shown one: no bit 6")


class Board:
    """An ET record, with the ground and the signals that came after its board. Its condition is told by them."""

    def __init__(self, operands):
        self.ident, self.category, metres, self.speed, self.gradient = struct.unpack(">BBHHb", operands)
        self.metres = metres
        self.came = []  # ground, and signals as kind and route
        self.past = False
        self.between, self.states = set(), set()
        self.asked = set()  # claims that wait for a question
        self.repeats = None  # the record that it took the place of
        self.was_in_b = set()  # where it was in B without being a curve

    @property
    def ground(self):
        return sum(ground for ground in self.came if isinstance(ground, int))

    @property
    def d(self):
        return max(0, 100 * self.metres - self.ground)

    @property
    def condition(self):
        far = 0
        for what in self.came:
            if isinstance(what, int):
                far += what
                if far >= 10000:
                    return "locked"
            elif DECIDED[(self.category, *what)] != "undecided":
                return DECIDED[(self.category, *what)]
        return "undecided"

    @property
    def signals(self):
        return [what for what in self.came if not isinstance(what, int)]

    @property
    def is_curve(self):
        return self.condition in AS_CURVES

    def curve(self):
        return curves.Curve(0, self.d, self.speed, self.gradient, 0)

    @property
    def figures(self):
        return self.metres, self.speed, self.gradient


class BrakeTest:
    """A brake test, by the pressures of its reports since its 40; P_REF as it stood then."""

    def __init__(self, reference):
        self.pressures, self.reference = [], reference

    def told(self):
        """Phase, saved pressure, and how many reports have come within 20 kPa of it or, braking, since."""
        saved, count = None, 0
        for number, p in enumerate(self.pressures, 1):
            if saved is None or abs(pressures.f32(p - saved)) > 20:
                saved, count = p if 400 <= p <= 550 else None, 0
            else:
                count += 1
            if count == 30:
                return "braking", saved, len(self.pressures) - number
        return "waiting" if saved is None else "settling", saved, count

    @property
    def phase(self):
        return self.told()[0]

    @property
    def saved(self):
        return self.told()[1]

    @property
    def count(self):
        return self.told()[2]

    def drop_at(self, p):
        return pressures.f32(self.saved - p)


class Track:
    """The area since a start, with the GMDs of the stay in it, the ground from a group on and the sections, all as they were told."""

    def __init__(self, train_length, ended=None):
        self.length = train_length
        self.area, self.by = 8, "a start"
        self.gmds, self.group = [], None  # of this stay; the reports' ground since the first group
        self.between, self.states = set(), set()
        self.ended = ended  # what ended a group, and the ground from it on
        self.anew = self.in_cs = self.earlier = self.earlier_in_cs = False
        self.before = Counter()  # ground in each state while no group pends
        self.sections = {}  # id to speed, and ground since its end
        self.deleted = {}  # id to whether it was ending

    @property
    def ground(self):
        return None if self.group is None else sum(self.group)

    def limit(self):
        """What VMAX takes of the area."""
        return [(self.gmds or [130])[-1]] if self.area == 4 else []

    def enter(self, area, by):
        if self.area == 4 and self.gmds:
            self.earlier, self.earlier_in_cs = True, self.in_cs
        self.ended = None
        self.end_group(by)
        self.area, self.by, self.gmds, self.in_cs = area, by, [], False

    def end_group(self, by):
        if self.group is not None and by != "the 50 m":
            self.ended = by, self.ground
        self.group = None

    def comes_between(self, words):
        """Something that leaves the ground from a group on as it is."""
        if self.group is not None:
            self.between.add(words)

    def has_sixteen_others(self):
        """All places are held by sections that came after sixteen deleted ones."""
        return len(self.deleted) == len(set(self.sections) - set(self.deleted)) == 16

    def passes(self, event, speed):
        """An event that is taken."""
        if event == NO_OVERLAP and self.group is None:
            self.group, self.between, self.states = [], set(), set()
            self.anew, self.ended = self.ended is not None, None
        elif event == NO_OVERLAP:
            self.comes_between("a second group")
        elif not (event == GMD and self.area == 4):
            if event == GMD:
                self.deleted = {ident: ground is not None for ident, (_, ground) in self.sections.items()}
                self.sections = {}
            self.enter(AREAS[self.area][event], f"event {event}")
        if event == GMD:
            self.gmds.append(speed)

    def moves(self, ground, state):
        """A report in HS or DA: its ground is of sections that end, and of the group."""
        for ident, (speed, on) in list(self.sections.items()):
            if on is not None and on + ground >= self.length:
                del self.sections[ident]
            elif on is not None:
                self.sections[ident] = speed, on + ground
        if self.group is None:
            return
        self.group.append(ground)
        if ground:
            self.states.add(state)
        if self.ground >= 5000:
            self.enter(4, "the 50 m")

    def vmax(self, train_speed, forty):
        return min([train_speed] + [40] * forty + [speed for speed, _ in self.sections.values()] + self.limit())


class Coverage:
    def __init__(self):
        self.claims = list(claims())
        self.seen = Counter({claim: 0 for _, group in self.claims for claim in group})
        self.wrong = []

    def see(self, claim, met=True):
        if claim not in self.seen:
            raise KeyError(claim)
        self.seen[claim] += bool(met)

    def expect(self, met, words):
        if not met:
            self.wrong.append(f"command {self.line}: {words}")

    # -- a stream

    def read(self, stream, lines):
        self.unit = Picture()
        self.report = None
        self.refused_numbers = set()
        self.refused_since = False
        self.figure_before = None
        self.error = None
        self.test = self.tested = None
        self.track = None
        self.boards, self.gone = {}, {}
        at_byte = 0
        for self.line, text in enumerate(lines, 1):
            length = LENGTHS.get(stream[at_byte], 0)
            raw = stream[at_byte:at_byte + length]
            at_byte += length
            answer, _, digits = text.partition(" ")
            answer = int(answer)
            self.see(f"answer {answer}")
            if answer == 4:
                self.expect(len(raw) < length and self.line == len(lines), "4 is of a rest too short, the last")
                break
            self.command(raw, answer, bytes.fromhex(digits))
        self.expect(at_byte >= len(stream), "the whole stream is answered")

    def command(self, raw, answer, report):
        code, number, operands = raw[0], struct.unpack(">I", raw[1:5])[0], raw[5:]
        state = None if self.report is None else self.report[0]
        again = self.unit.started and raw == self.unit.last
        self.refusals(code, number, operands, state, again, answer)
        self.operands(code, operands, state, answer)
        if code == 0x50 and answer in (0, 16):
            self.event_answered(operands[0], state, answer)
        if code in (0x51, 0x53) and answer in (0, 12, 17, 18):
            self.board_asked(code, operands[0], state, answer)
        if answer == 0:
            self.see(f"{code:02X} accepted")
            before = self.picture()
            self.accepted(code, number, operands, raw, report, before)
            self.refused_since = False
            self.report = report
        elif answer == 100:
            self.repeated(code, number, operands, report)
        else:
            self.see("a refused report in between", code == 0x10 and self.is_held())
            self.see("an error again, and refused", code == 0x32 and self.is_held())
            self.refused_in_test(code, answer)
            self.refused_on_track(code, operands, answer)
            self.refused_with_boards(code, operands, answer)
            self.expect(not report, "a refusal has no report")
            self.refused_numbers.add(number)
            self.refused_since = True

    # -- answers

    def refusals(self, code, number, operands, state, again, answer):
        """The refusals that the command meets, the first of which must be the answer."""
        unit = self.unit
        meets = []
        if not unit.started:
            meets += [5] * (code != 0x01)
        meets += [6] * (number == 0)
        if unit.started and code != 0x01 and not again:
            meets += [7] * (number != unit.number + 1 or unit.number == LAST)
            meets += [8] * (state == FA)
        early = bool(meets)
        meets += [9] * (not in_range(code, operands))
        if unit.started:
            meets += self.late_refusals(code, operands, state)
        expected = meets[0] if meets and (early or not again) else 100 if again else 0
        self.expect(answer == expected, f"the answer is {answer}, not {expected}")
        if answer == 100:
            for n in meets:
                if n in (10, 12, 15, 16, 18):
                    self.see(f"again where {n} would refuse")
        for n in meets[1:]:
            if (meets[0], n) in PAIRS and answer == meets[0]:
                self.see(f"{answer} before {n}")
        if unit.started and unit.number == LAST and code != 0x01 and answer in (6, 7, 100):
            self.see(f"after FFFFFFFF: {answer}")
        if unit.started and unit.number == LAST and code == 0x01 and answer == 0:
            self.see("after FFFFFFFF: a start")
        if answer == 7 and number == unit.number and code == unit.last[0]:
            self.see("same number, other bytes: 7")
        if answer == 12:
            kind = {0x21: "a curve", 0x53: "a record"}.get(code, "an ending section" if operands[0] in unit.sections else "a section")
            self.see(f"12 of {kind}")
        if answer == 13:
            self.see("13 of a curve" if code == 0x20 else "13 of a section")
            self.see("13 with an ending section", code == 0x22 and any(g is not None for _, g in unit.sections.values()))

    def late_refusals(self, code, operands, state):
        unit = self.unit
        if code == 0x02:
            to = operands[0]
            if to > FA:
                return []
            return [10] * (state == FA or PATHS[state][to] == 10) + [11] * (to == DA and unit.reference is None)
        if code == 0x40:
            return [14] * (state != DE) + [15] * (self.test is not None)
        if code == 0x50:
            untaken = operands[0] < 7 and AREAS[self.track.area][operands[0]] is None
            return [10] * (state not in (HS, DA)) + [16] * untaken
        meets = [10] * (state == FA and code not in (0x01, 0x10) or CODES[code][state] == 10)
        if code == 0x21:
            meets += [12] * (operands[0] not in unit.curves)
        if code == 0x23:
            meets += [12] * (operands[0] not in unit.sections or unit.sections[operands[0]][1] is not None)
        if code == 0x51:
            board = self.boards.get(operands[0])
            meets += [17] * (board is None and len(self.boards) == 8) + [18] * (board is not None and board.condition not in ACTIVE)
        if code == 0x53:
            meets += [12] * (operands[0] not in self.boards)
        if code in (0x20, 0x22):
            held = unit.curves if code == 0x20 else unit.sections
            meets += [13] * (operands[0] not in held and len(held) == 16)
        return meets

    def operands(self, code, operands, state, answer):
        if answer in (0, *range(9, 19)):
            self.expect((answer == 9) != in_range(code, operands), "9 is for an operand out of range")
            for o in OPERANDS:
                if applies(o, code, operands):
                    value = operand(o, operands)
                    if value in o.good:
                        self.see(f"{code:02X} {o.name} {value}", answer == (10 if (o.name, value) == ("state", DE) else 0))
                    elif value in o.bad:
                        alone = in_range(code, placed(o, operands, o.good[-1]))
                        self.see(f"{code:02X} {o.name} {value}", answer == 9 and alone)
            if code == 0x01:
                full, soft = struct.unpack(">HH", operands[5:9])
                self.see("01 soft deceleration = full", soft == full and answer == 0)
                self.see("01 soft deceleration = full + 1",
                         soft == full + 1 and answer == 9 and in_range(code, operands[:7] + operands[5:7] + operands[9:]))
        if state is None or answer not in (0, 8, 10, 11, 14):
            return
        if code == 0x02 and operands[0] <= FA:
            way = f"{STATES[state]} to {STATES[operands[0]]}"
            if answer == 11 or answer == PATHS[state][operands[0]]:
                self.see(f"{way}: {answer}")
            self.see("CS to DA: 10 without a reference",
                     way == "CS to DA" and answer == 10 and self.unit.reference is None)
        elif code != 0x02 and answer == CODES[code][state]:
            self.see(f"{code:02X} in {STATES[state]}: {answer}")

    def repeated(self, code, number, operands, report):
        self.see(f"{code:02X} again")
        self.see("a repeat in between", code == 0x10 and self.is_held())
        self.see("a repeat in between counts nothing", code == 0x10 and self.test is not None)
        self.see("order 2 again", report[:2] == b"\0\2")
        self.expect(report == self.report, "the report of a repeat is the last one")
        self.repeated_on_track(code, operands)
        if code == 0x10:
            self.between_boards("a repeated report")
        self.see("again in FA", report[0] == FA)
        self.see("again after a refusal", self.refused_since)
        self.see("again, with ground under a curve",
                 code == 0x10 and report[0] == DA and struct.unpack(">H", operands[2:4])[0] > 0
                 and any(c["d"] > 0 for c in self.unit.curves.values()))

    # -- what an accepted command does

    def picture(self):
        unit = self.unit
        if not unit.started:
            return None
        old = Picture()
        old.__dict__.update(unit.__dict__)
        old.curves = {ident: dict(c) for ident, c in unit.curves.items()}
        old.records = {ident: dict(r) for ident, r in unit.records.items()}
        old.sections, old.since = dict(unit.sections), set(unit.since)
        return old

    def accepted(self, code, number, operands, raw, report, before):
        unit = self.unit
        self.see("CS while bit 9 is held", code == 0x02 and operands[0] == CS and self.is_held())
        self.see("a start while bit 9 is held", code == 0x01 and self.is_held())
        if code == 0x01 or code == 0x02 and operands[0] == CS:
            self.error = None
        self.expect(unit.take(raw) == 0, "the picture accepts it")
        self.see("a refused number accepted", code != 0x01 and number in self.refused_numbers)
        self.refused_numbers.clear()
        self.see("FFFFFFFF accepted", number == LAST and code != 0x01)
        if code == 0x01:
            self.afresh()
            self.see("start over curves, sections and causes",
                     before and before.curves and before.sections and before.causes and before.state == DA)
        elif code == 0x02:
            self.entered(before, report)
        elif code == 0x10:
            self.reported(before, operands, report)
        else:
            self.told(code, operands, before, report)
        self.tests(code, operands, before, report)
        self.on_track(code, operands, before, report)
        self.with_boards(code, operands, before, report)
        if unit.state in (DA, FA):
            self.braking(code, before, report)
        self.written(report)

    def afresh(self):
        """What is remembered beside the picture, after a start or CS."""
        self.freed_curve = self.freed_section = False
        self.left = []
        self.b_in_hs = set()
        self.halted = self.geared = self.dropped_10 = False
        self.neutral_ground = 0
        self.begun_with_drop = self.faulted = self.loss_before_da = False
        self.since_order = self.since_emergency = self.since_fault = 0

    def entered(self, before, report):
        unit = self.unit
        if unit.state == CS:
            self.afresh()
            self.left = [claim for claim, met in (
                ("CS with curves", before.curves), ("CS with sections", before.sections), ("CS with causes", before.causes),
                ("CS with the 40", before.forty), ("CS with ground rolled", before.rolled),
                ("CS with a check running", before.service is not None or before.emergency is not None),
                ("CS and back to DA with the old reference", before.state == DA)) if met]
        if unit.state == DA:
            for claim in self.left:
                self.see(claim)
            self.see("DA entered at VMAX+10", unit.v >= at(unit.vmax + 10) and report[2:4] == b"\0\0")
            self.loss_before_da = bool(unit.buttons & LOSS)

    def told(self, code, operands, before, report):
        """Commands 20 to 32."""
        unit, ident = self.unit, operands[0] if operands else None
        if code == 0x20:
            held = before.curves.get(ident)
            self.see("a held curve replaced", held)
            self.see("a held curve with a past replaced", held and held["past"])
            self.see("a freed curve's place used", not held and self.freed_curve and len(unit.curves) == 16)
            self.see("past in B kept by a replaced curve",
                     held and held["past"] and unit.state == DA and shown_in(report) == (False, ident) and report[9] == 2)
            self.see("a curve given in F, no cause", unit.state == DA and shown_in(report) == (False, ident) and report[9] == 8
                     and not report[3] & 0b11100)
        elif code == 0x21:
            self.see("a curve removed by 21")
            self.b_in_hs.discard(ident)
            self.freed_curve = self.freed_curve or len(before.curves) == 16
        elif code == 0x22:
            held = before.sections.get(ident)
            self.see("an ending section stands again", held and held[1] is not None)
            self.see("a freed section's place used", not held and self.freed_section and len(unit.sections) == 16)
        elif code == 0x30:
            kind = ident
            added = (1 << 5, 1 << 6 | 1 << 7, 1 << 8)[kind]
            self.expect(unit.causes == before.causes | added, "30 adds its causes")
            self.see(("30 0 adds 5", "30 1 adds 6 and 7", "30 2 adds 8")[kind])
            bit = (5, 6, 8)[kind]
            self.see(f"since of {bit} starts again", before.causes >> bit & 1 and bit in before.since)
        elif code == 0x31:
            self.see("a proceed signal ends the 40", before.forty and unit.vmax > before.vmax)
        elif code == 0x32:
            self.see("32 adds 9", not before.causes >> 9 & 1 and unit.causes >> 9 & 1)
            self.error_comes(before, report)
        if unit.state == DA and before.state == DA and self.report[0] == DA:
            old = self.report
            self.see("another command changes the interval shown", shown_in(old) == shown_in(report) is not None and old[9] != report[9])
            self.see("another command changes VMAX", old[6:8] != report[6:8])
            self.see("another command changes the offer", old[13] != report[13] and old[2:4] == report[2:4])
            if code not in (0x30, 0x32):
                self.expect(old[2:4] == report[2:4], "no cause comes or goes")

    def reported(self, before, operands, report):
        unit = self.unit
        v, moved, measured, half, buttons = struct.unpack(">HHhhB", operands)
        self.see(f"report in {STATES[before.state]}")
        if unit.reference is not None and before.reference is None and before.state in (DE, CS, HS):
            self.see(f"reference set in {STATES[before.state]}")
        if unit.train["flags"] & 2 and unit.train["p_full"] == 380:
            self.see("P_FULL 380: 956 kPa gives 500 and the message", half == 1912 and unit.p_int == 500 and report[12] & 4)
        if before.state in (HS, DA):
            self.grounds(before, moved, report)
        if before.state == HS:
            for ident, c in unit.curves.items():
                self.see("ground in HS under a curve", before.curves[ident]["d"] > c["d"])
                if unit.interval(c, v) not in ("A", "Bf") and not c["past"]:
                    self.b_in_hs.add(ident)
        if before.state != DA:
            return
        self.see("reports in DA, " + ("cylinder" if unit.train["flags"] & 2 else "pipe"))
        for ident, c in unit.curves.items():
            self.see("past in B noted", c["past"] and not before.curves[ident]["past"])
        if unit.state == DA:
            self.limits_in_da(before, v, report)
            self.pressed(before, v, moved, buttons, report)
            self.rolled(before, v, moved, buttons, report)
        self.checks(before, buttons)
        self.held(before, v, buttons, report)
        self.figures(before, v, measured, report)

    # -- F-3: a test is kept here with the pressures of its reports, and what a start or an ended test leaves

    def tests(self, code, operands, before, report):
        if code == 0x01:
            self.forgotten(operands[0], report)
        elif code == 0x40:
            self.asked(before)
        elif code == 0x02 and self.test is not None:
            self.left_in_test(operands[0])
        elif code == 0x10 and self.test is not None:
            self.tried(before, *struct.unpack(">HHhhB", operands), report)
        elif code == 0x10 and before.state == DE:
            self.see("a drop after a failure: still failed",
                     self.tested is False and self.unit.reference is not None and self.unit.drop >= 60)
        elif code == 0x10 and before.state == DA:
            self.in_da += 1
            self.see("over T_B reports in DA after it braked: no bit 11",
                     self.braked and self.in_da > self.unit.train["t_b"] and report[2:4] == b"\0\0")
            self.see("T_B 1: none at the first report in DA",
                     self.braked and self.in_da == self.unit.train["t_b"] == 1 and report[2:4] == b"\0\0")
        self.messages(report)

    def forgotten(self, flags, report):
        """A start: neither a test nor a result is left."""
        self.see("a start while settling", self.test is not None and self.test.phase == "settling")
        self.see("a start while braking", self.test is not None and self.test.phase == "braking")
        self.see("a start forgets a pass", self.tested is True)
        self.see("a start forgets a failure", self.tested is False)
        self.over_pass = self.tested is True
        self.test = self.tested = None
        self.ended = []
        self.extra = 50 if flags & 4 else 0
        self.in_da = 0
        self.braked = self.p_ref_changed = False

    def asked(self, before):
        flags = self.unit.train["flags"]
        self.see("asked before any report", before.last[0] == 0x01)
        self.see("asked with a speed standing", before.v > 0)
        self.see("asked with TRYCKGIVARFEL standing", self.report[12] & 4)
        self.see("asked with a reference", before.reference is not None)
        self.see("asked with flag bit 2" if flags & 4 else "asked without flag bit 2")
        self.see("asked after one that passed", self.tested is True)
        self.see("asked after one that failed", self.tested is False)
        self.test = BrakeTest(before.reference)

    def refused_in_test(self, code, answer):
        if self.test is None:
            return
        if code == 0x02 and answer in (9, 10, 11):
            self.see(f"02 refused {answer}: it runs on")
        self.see("a refused start: it runs on", code == 0x01)
        self.see("a refused report in between counts nothing", code == 0x10)
        if answer == 15:
            self.see(f"15 while {self.test.phase}")

    def left_in_test(self, to):
        phase = self.test.phase
        if phase != "waiting":
            self.see(f"left to {STATES[to]} while {phase}: failed")
        self.braked = phase == "braking"
        self.test_ends(False)

    def test_ends(self, passed):
        self.see("passed, then failed", self.tested is True and not passed)
        self.see("failed, then passed", self.tested is False and passed)
        self.test, self.tested = None, passed
        self.ended.append(passed)
        if passed:
            self.extra = 0

    def tried(self, before, v, moved, _, half, buttons, report):
        """A report in DE while a test runs."""
        unit, test = self.unit, self.test
        cylinder, p_full = unit.train["flags"] >> 1 & 1, unit.train["p_full"]
        p, fault = pressures.pressure(cylinder, p_full, Fraction(half, 2), Fraction(0))
        self.own_feedback(before, test)
        if fault or v > 0:
            self.broken_off(test, v, half, p)
            self.test_ends(False)
            return
        phase, saved, count = test.phase, test.saved, test.count
        test.pressures.append(p)
        for words, met in (("−50 kPa", half == -100), ("955 kPa", half == 1910), ("ground alone", moved > 0)):
            if phase != "waiting" and test.phase == phase:
                self.see(f"{phase}: {words} fails nothing", met)
        if phase == "braking":
            self.braking_test(test, p, cylinder)
        else:
            self.settling_test(test, phase, saved, count, p, report)
        if self.test is not None and test.phase == "braking":
            self.see("order 2 with flag bit 0", unit.train["flags"] & 1 and report[1] == 2)
            self.see("a fresh LOSS while it brakes", buttons & ~before.buttons & LOSS)

    def own_feedback(self, before, test):
        """What the unit's own feedback does at a test's report."""
        if before.reference is None:
            self.see("P_REF set while a test runs", self.unit.reference is not None)
        elif self.unit.reference != before.reference:
            self.p_ref_changed = True
            if test.phase != "waiting":
                self.see(f"P_REF changed while {test.phase}")

    def broken_off(self, test, v, half, p):
        for words, met in (("speed 1", v == 1), ("−50.5 kPa", half == -101), ("955.5 kPa", half == 1911)):
            self.see(f"{test.phase}: {words} fails it", met)
        near = test.phase == "settling" and abs(pressures.f32(p - test.saved)) <= 20
        self.see("settling: fails where it would settle", near and test.count == 29)
        self.see("braking: fails where it would pass", test.phase == "braking" and test.drop_at(p) >= 60)

    def settling_test(self, test, phase, saved, count, p, report):
        number = len(test.pressures)
        self.see("the 30th report: no order yet", number == 30 and test.count == 29 and report[1] == 0)
        if test.phase == "braking":
            self.expect(count == 29 and number >= 31, "it settles at the 31st report at the earliest")
            self.see("the 31st report: order 2", number == 31 and report[1] == 2)
            self.see("the 31st report: order 2, with a reference from before",
                     number == 31 and report[1] == 2 and test.reference is not None)
            self.see("a drop of 20 kPa where it settles: no end", test.drop_at(p) == 20)
            self.see("settled before there is a reference", self.unit.reference is None)
        if phase == "waiting":
            self.see("399.5 kPa is not saved", p == Fraction(799, 2) and test.phase == "waiting")
            self.see("400 kPa is saved", p == 400 and test.saved == 400)
            self.see("550 kPa is saved", p == 550 and test.saved == 550)
        else:
            away = abs(pressures.f32(p - saved))
            self.see("20 kPa from the saved pressure: settling goes on", away == 20 and test.saved == saved)
            self.see("20.5 kPa from it: saved anew", away == Fraction(41, 2) and test.saved == p)
            self.see("over 20 kPa from it, under 400: waiting", away > 20 and test.phase == "waiting")
            self.see("thrown back at the 31st report", number == 31 and count == 29 and away > 20)

    def braking_test(self, test, p, cylinder):
        t_b, count, drop = self.unit.train["t_b"], test.count, test.drop_at(p)
        passes, fails = drop >= 60, drop < 60 and count == t_b
        near = drop == Fraction(119, 2)
        self.see("59.5 kPa at count 1: braking", near and count == 1 and not fails)
        self.see("60 kPa at count 1: passed", drop == 60 and count == 1)
        self.see("60 kPa before T_B: passed", drop == 60 and 1 < count < t_b)
        self.see("60 kPa at T_B: passed", drop == 60 and count == t_b > 1)
        self.see("59.5 kPa at T_B: failed", near and fails)
        self.see("no drop at T_B: failed", drop == 0 and fails)
        self.see("T_B 1: passed", t_b == 1 and passes)
        self.see("T_B 1: failed", t_b == 1 and fails)
        self.see("T_B 100: passed at count 100", t_b == count == 100 and passes)
        self.see("cylinder: passed", cylinder and passes)
        self.see("cylinder: 60 kPa less 1/32,768: braking", cylinder and drop == 60 - Fraction(1, 32768) and not fails)
        self.see("cylinder: 60 kPa and 1/32,768: passed", cylinder and drop == 60 + Fraction(1, 32768))
        self.see("failed at T_B with the extra", fails and self.extra)
        if self.unit.reference is not None:
            own = self.unit.drop >= 60
            self.see("60 kPa under P_REF, not under the saved pressure: braking", own and not passes and not fails)
            self.see("60 kPa under the saved pressure, not under P_REF: passed", passes and not own)
        if passes or fails:
            self.test_ends(passes)

    def messages(self, report):
        """Bits 3 to 5 in every state, and the order in DE."""
        runs = self.test is not None
        self.expect(report[12] >> 3 & 7 == runs | (self.tested is True) << 1 | (self.tested is False) << 2, "bits 3 to 5 go by the tests")
        if report[0] == DE:
            self.expect(report[1] == (2 if runs and self.test.phase == "braking" else 0), "the order in DE goes by the test")
        for bit in (4, 5):
            self.see(f"bit {bit} in {STATES[report[0]]}", report[12] >> bit & 1)
            self.see(f"bit {bit} while another runs", runs and report[12] >> bit & 1)
        self.see("bit 4 with NÖDBROMSFEL", report[12] & 18 == 18)
        if self.p_ref_changed and report[0] == DA and report[9] == 6:
            enough = self.unit.train["sufficient"]
            self.see("DA: the drop is from the changed P_REF", self.unit.drop == enough and report[11] == 3)
            self.expect(self.unit.drop >= enough or report[11] == 4, "the mode in D goes by the drop")

    def leads(self, train, held, shown, report):
        """The curves of a train with flag bit 2, in DA: each boundary with the extra or, after a pass, without."""
        v, flag = self.unit.v, self.unit.train["flags"] & 4
        plain = train._replace(t_b=self.unit.train["t_b"])
        self.see("no extra without flag bit 2", not flag and self.ended == [False])
        if not flag:
            return
        least = min([self.unit.vmax] + [permitted(train, c) for c in held.values()])
        self.expect(struct.unpack(">H", report[4:6])[0] == least, "the permitted speed goes by the extra")
        words = "with the extra" if self.extra else "after a pass"
        for name in (*curves.BOUNDARIES, "permitted"):
            here, nearer, farther = (curves.reached(train, shown._replace(d=max(0, shown.d + by)), v, name) for by in (0, -1, 1))
            self.see(f"{name} {words}, its last cm", here and not farther)
            self.see(f"{name} {words}, a cm before", nearer and not here)
        self.see("extra after a failure", self.extra and self.ended == [False])
        self.see("no extra after a pass and a failure", not self.extra and self.ended == [True, False])
        self.see("no extra after a failure and a pass", not self.extra and self.ended == [False, True])
        self.see("an extra again after a start", self.extra and self.over_pass)
        if self.extra and curves.interval(train, shown, v) != curves.interval(plain, shown, v):
            self.see("an extra with HALKA", train.halka)
            self.see("an extra downhill", shown.gradient < 0)
            self.see("an extra of an Expect Stop", shown.kind == 1)
            self.see("bit 2 by the extra alone", report[3] & 4 and not self.report[3] & 4 and not curves.brakes(plain, shown, v))
        self.see("permitted speed by the extra", least < min([self.unit.vmax] + [permitted(plain, c) for c in held.values()]))
        self.see("a figure by the extra", curves.to_change(train, shown, v) != curves.to_change(plain, shown, v))

    # -- F-6: the area is kept here, with all that it goes by

    def event_answered(self, event, state, answer):
        track = self.track
        if state in (HS, DA) and answer == (16 if AREAS[track.area][event] is None else 0):
            self.see(f"event {event} in area {track.area}, {STATES[state]}: {answer}")

    def on_track(self, code, operands, before, report):
        was = None if self.track is None else self.track.area
        if code == 0x01:
            self.track_started()
        elif code == 0x02:
            self.track_entered(before.state, operands[0])
        elif code == 0x10:
            self.track_moved(before, *struct.unpack(">HH", operands[:4]), report)
        elif code == 0x50:
            self.track_passed(*struct.unpack(">BH", operands), before, report)
        else:
            self.track_told(code, operands)
        self.at_50_m = code == 0x10 and (was, self.track.area) == (8, 4)
        self.expect(report[18] == self.track.area, "the area is the one that was entered last")
        if report[18] == self.track.area:
            self.see(f"area {report[18]} in {STATES[report[0]]}")
        if report[0] == DA:
            self.track_vmax(report)

    def track_started(self):
        old, ended = self.track, None
        if old is not None:
            self.see(f"a start from area {old.area}")
            ended = None if old.group is None else ("a start", old.ground)
        self.track = Track(100 * self.unit.train["length"], ended)
        self.from_4 = old is not None and old.area == 4
        self.lowered = False

    def track_told(self, code, operands):
        """Commands 20 to 40."""
        track = self.track
        if code == 0x22:
            track.sections[operands[0]] = struct.unpack(">H", operands[1:])[0], None
            self.see("sixteen sections after sixteen deleted", track.has_sixteen_others())
        elif code == 0x23:
            track.sections[operands[0]] = track.sections[operands[0]][0], 0
        track.comes_between("a stop and a balise error" if code in (0x30, 0x32) else "a curve, a section and a proceed signal")

    def track_entered(self, state, to):
        track = self.track
        if (state, to) in ((HS, DA), (DA, CS), (HS, CS), (CS, HS), (DA, FA)):
            self.see(f"area {track.area} kept from {STATES[state]} to {STATES[to]}")
        self.see("FA while the 50 m pend", to == FA and track.group is not None)
        if to == CS:
            track.end_group("CS")
            track.in_cs, track.sections = True, {}

    def track_moved(self, before, v, moved, report):
        track, state = self.track, before.state
        counted = track.ground
        if state in (HS, DA):
            track.moves(moved, state)
        if counted is None:
            track.before[state] += moved
            self.track_after_end(moved, state, report)
        else:
            self.track_counted(counted + moved, state, report)
            if state == DA and track.area == 4:
                self.track_judged(before, v, report)
        if state == DA:
            self.see("then bit 0 at the next report", self.lowered and report[3] & 1)
            self.lowered = False
        self.see("FA by the emergency check in area 4", (state, report[0], report[18]) == (DA, FA, 4))

    def track_counted(self, ground, state, report):
        """The ground from a group on, at a report."""
        track, name = self.track, STATES[state]
        self.see(f"4,999 cm: area 8 in {name}", ground == 4999 and report[18] == 8)
        self.see(f"5,000 cm: area 4 in {name}", ground == 5000 and report[18] == 4)
        self.see(f"5,001 cm: area 4 in {name}", ground == 5001 and report[18] == 4)
        if ground == 4999 and report[18] == 8:
            self.see("a group after one that was ended: 4,999 cm, area 8", track.anew)
            for before, far in track.before.items():
                self.see(f"over 50 m in {STATES[before]} before the group, then 4,999 cm: area 8", far > 5000)
        if report[18] == 4:
            self.see("the 50 m over HS and DA", track.states == {HS, DA})
            self.see("FA at the report of the 50 m", report[0] == FA)
            for words in track.between:
                self.see(f"the 50 m with {words} in between", ground == 5000)
            self.track_kept("the 50 m", report)
            track.before.clear()

    def track_judged(self, before, v, report):
        """The report of the 50 m in DA, where nothing but 130 is at the limit."""
        if before.causes or report[6:8] != b"\0\x82":
            return
        margin = self.unit.train["e_margin"]
        self.see("bit 0 at the report of the 50 m", v == at(140) and report[3] & 1)
        self.see("no bit 0 there a cm/s below", v == at(140) - 1 and not report[3] & 1)
        self.see("bit 1 at the report of the 50 m", v == at(130 + margin) and report[3] & 2)
        self.see("no bit 1 there a cm/s below", v == at(130 + margin) - 1 and not report[3] & 2)

    def track_after_end(self, moved, state, report):
        """Ground after what ended a group, up to over 50 m in all since."""
        track = self.track
        if track.ended is None:
            return
        by, ground = track.ended
        track.ended = by, ground + moved
        if ground + moved > 5000:
            self.see("over 50 m from the group, ended by CS, in CS", by == "CS" and state == CS and report[18] == 8)
            if state in (HS, DA) and by in ("CS", "a start", track.by) and report[18] == track.area:
                self.see(f"over 50 m from the group, ended by {by}: area {track.area}")
            self.see("over 50 m from the group, ended by event 2: the GMD's speed stands",
                     by == "event 2" and report[0] == DA and track.gmds and report[6:8] == struct.pack(">H", track.gmds[-1]))

    def track_passed(self, event, speed, before, report):
        track, state = self.track, before.state
        was, held, standing = track.area, dict(track.sections), track.gmds[-1:]
        track.passes(event, speed)
        if event == GMD and was == 4:
            self.see("a GMD inside, up", report[0] == DA and report[6:8] > self.report[6:8] and standing)
            self.see("a GMD inside, down", report[0] == DA and report[6:8] < self.report[6:8] and standing)
            self.track_kept("a GMD inside", report)
        elif event == GMD:
            self.gmd_entered(held, before, report)
        else:
            self.track_kept(f"event {event}", report)
        if state == DA:
            vmax = struct.unpack(">H", report[6:8])[0]
            lower = report[6:8] < self.report[6:8]
            self.lowered = lower and before.v >= at(vmax + 10) and not report[3] & 1
            self.see("50 lowers VMAX to the speed less 10: no cause", self.lowered)
            self.see("50 raises VMAX: a release offered", report[6:8] > self.report[6:8] and report[13] == 1 > self.report[13])

    def gmd_entered(self, held, before, report):
        name = STATES[before.state]
        self.expect(not self.unit.sections, "an entering GMD deletes all sections")
        for _, ground in held.values():
            self.see(f"an entering GMD deletes {'a standing' if ground is None else 'an ending'} section, {name}")
        if report[0] == DA and held:
            self.see("an entering GMD raises VMAX", report[6:8] > self.report[6:8])
            self.see("an entering GMD keeps the shown curve", report[8] == self.report[8] != 255)
            self.see("an entering GMD keeps the 40", before.forty and report[6:8] == b"\0\x28")

    def track_kept(self, words, report):
        """In DA, with VMAX by a section."""
        least = [ground for speed, ground in self.track.sections.values() if report[6:8] == struct.pack(">H", speed)]
        if report[0] == DA and len(least) == 1 and self.track.sections:
            self.see(f"{words} keeps {'a standing' if least[0] is None else 'an ending'} section")

    def track_vmax(self, report):
        """VMAX in DA, by what is kept here."""
        track, train, forty = self.track, self.unit.train["speed"], self.unit.forty
        vmax = struct.unpack(">H", report[6:8])[0]
        self.expect(vmax == track.vmax(train, forty), "VMAX has the area's part")
        if track.area != 4:
            self.see(f"VMAX above 130 in area {track.area}", vmax > 130)
            self.see("no 130 after a start from area 4", self.from_4 and vmax > 130)
            return
        limit, = track.limit()
        standing = [speed for speed, ground in track.sections.values() if ground is None]
        ending = [speed for speed, ground in track.sections.values() if ground is not None]
        others = [train, *standing, *ending] + [40] * forty
        self.see("VMAX by 130", vmax == 130 < min(others) and not track.gmds)
        self.see("VMAX by a GMD", vmax == limit < min(others) and track.gmds)
        self.see("a GMD above 130", vmax == limit > 130)
        self.see("a GMD above the train", track.gmds and vmax == train < limit)
        self.see("a train slower than 130", not track.gmds and vmax == train < 130)
        self.see("a section below 130 or the GMD", vmax in standing and vmax < min([limit, train, *ending]))
        self.see("an ending section below 130 or the GMD", vmax in ending and vmax < min([limit, train, *standing]))
        self.see("a GMD below a section", track.gmds and vmax == limit < min(standing, default=0))
        self.see("the 40 below 130 or the GMD", forty and vmax == 40 < limit)
        self.see("a GMD below the 40", forty and vmax == limit < 40)
        self.track_stay(vmax == limit)

    def track_stay(self, is_limit):
        """Whose speed counts: of this stay, over CS too, and of none before it."""
        track = self.track
        if track.gmds and is_limit:
            self.see("a GMD after a stay with another", track.by == "event 1" and track.earlier)
            self.see("a GMD under 130 kept by CS", track.in_cs and track.gmds[-1] < 130)
            self.see("a GMD above 130 kept by CS", track.in_cs and track.gmds[-1] > 130)
        elif is_limit:
            self.see("130 kept by CS", track.in_cs)
            if track.earlier:
                self.see(f"130 after a stay with a GMD, by {track.by}")
                self.see("130 after a stay with a GMD and CS", track.earlier_in_cs)

    def repeated_on_track(self, code, operands):
        self.see("event 3 again", code == 0x50 and operands[0] == NO_OVERLAP)
        self.see("the report of the 50 m again", code == 0x10 and self.at_50_m)
        if code in (0x10, 0x50):
            self.track.comes_between("a repeated report" if code == 0x10 else "an event 3 again")

    def refused_on_track(self, code, operands, answer):
        track = self.track
        if track is None:
            return
        if code == 0x10:
            track.comes_between("a refused report")
        if code == 0x50 and answer in (9, 16):
            track.comes_between(f"an event refused {answer}")
        if code == 0x23 and answer == 12 and operands[0] in track.deleted:
            self.see("12 of a deleted section that was ending" if track.deleted[operands[0]] else "12 of a deleted section")
        self.see("13 after those", code == 0x22 and answer == 13 and track.has_sixteen_others())

    # -- F-7: each record is kept here with what came after its board

    def see_record(self, key, words):
        if key[0] and f"{self.boards[key[1]].condition}{words}" in self.seen:
            self.see(f"{self.boards[key[1]].condition}{words}")

    def between_boards(self, words):
        for board in self.boards.values():
            if board.condition == "undecided":
                board.between.add(words)

    def board_asked(self, code, ident, state, answer):
        """A record or an end, answered 0, 12, 17 or 18: what it tells of the record that is held."""
        board, name = self.boards.get(ident), STATES[state]
        if answer == 17:
            self.see(f"17 in {name}")
            for other in self.boards.values():
                self.see(f"17 with one that is {other.condition} among the eight")
        if code == 0x53 and answer == 12:
            self.not_held(ident)
        if board is None and self.gone.get(ident, (None,))[0] == "terminated" and answer in (0, 12):
            board = self.gone[ident][1]
        elif board is None:
            return
        elif code == 0x51:
            self.see(f"repeater over {board.condition}: {0 if board.condition in ACTIVE else 18}, {name}")
        self.see("18 with eight held", answer == 18 and len(self.boards) == 8)
        for claim in board.asked:
            self.see(claim.replace("STATE", name))
        board.asked.clear()

    def not_held(self, ident):
        way, board = self.gone.get(ident, (None, None))
        self.see("12 of a terminated record", way == "terminated")
        self.see("12 after 53", way == "53")
        self.see("12 of a curve's id", ident in self.unit.curves)
        self.see("12 of an id never held", way is None)
        if way in ("CS", "a start"):
            self.see(f"{way} drops a record that is {board.condition}: 12")

    def refused_with_boards(self, code, operands, answer):
        words = {0x10: "a refused report", 0x51: "a refused record", 0x52: "a refused signal", 0x53: "a refused end"}.get(code)
        if words:
            self.between_boards(words)
        self.see("21 of a record's id: 12", code == 0x21 and answer == 12 and operands[0] in self.boards)

    def with_boards(self, code, operands, before, report):
        self.found = {}  # what this command makes of records: id to the condition it had
        if code == 0x01 or code == 0x02 and operands[0] == CS:
            by = "CS" if code == 0x02 else "a start"
            self.see("CS after a shown one: no bit 6", by == "CS" and self.report[12] & 64 and not report[12] & 64)
            self.gone = {ident: (by, board) for ident, board in self.boards.items()}
            self.boards, self.far, self.ended_past = {}, 0, set()
        elif code == 0x02:
            self.see("FA after a shown one: no bit 6", operands[0] == FA and self.report[12] & 64 and not report[12] & 64)
        elif code == 0x10 and before.state in (HS, DA):
            self.buttons_then = before.buttons
            self.boards_moved(*struct.unpack(">HH", operands[:4]), before.state, report)
            self.see("FA by a record's order", report[0] == FA and self.unit.causes & 16 and not self.unit.curves)
        elif code == 0x51:
            self.board_passed(Board(operands), report)
        elif code == 0x52:
            self.signal_passed(*operands)
        elif code == 0x53:
            self.board_ended(operands[0], report)
        elif code != 0x10:
            self.between_boards("a curve, a section and others")
        if code == 0x21 and before.curves[operands[0]]["past"]:
            self.ended_past.add(operands[0])
        if code == 0x21 and operands[0] in self.boards:
            self.see("21 leaves a record of the same id", shown_in(report) == (True, operands[0]))
        self.expect(report[0] == DA or not report[12] & 64, "bit 6 stands in DA only")
        self.expect(not report[12] & 128, "bit 7 is free")
        self.see("an active one in HS: no bit 6", report[0] == HS and any(b.is_curve for b in self.boards.values()))
        self.see("eight records beside sixteen curves", len(self.boards) == 8 and len(self.unit.curves) == 16)
        if report[0] == DA and self.report is not None and self.report[0] == DA and code in (0x51, 0x52, 0x53):
            self.expect(self.report[1:4] == report[1:4], "51, 52 and 53 add no cause and take none")
            self.see("51, 52 and 53 with a cause standing", report[3])

    def board_passed(self, board, report):
        ident = board.ident
        old = self.boards.pop(ident, None)
        if old is not None:
            board.repeats = old
            self.see(f"{CATEGORIES[board.category]} repeats {CATEGORIES[old.category]}")
            self.see("a repeater of another distance", board.metres != old.metres)
            self.see("a repeater of another speed", board.speed != old.speed)
            self.see("a repeater of the same figures", board.figures == old.figures and board.category == old.category)
            self.see("a repeater with eight held", len(self.boards) == 7)
            self.see("a repeater takes the shown record away",
                     self.report[0] == DA and shown_in(self.report) == (True, ident) != shown_in(report))
            self.see("a release offered by a repeater", report[0] == DA and report[13] & 1 > self.report[13] & 1)
        else:
            ways = {way for way, _ in self.gone.values()}
            last = len(self.boards) == 7
            self.see("a ninth after 53", last and "53" in ways)
            self.see("a ninth after a terminated one", last and "terminated" in ways)
            self.see("eight records after CS", last and "CS" in ways)
            self.see("an ended id given anew", self.gone.get(ident, (None,))[0] == "53")
        self.between_boards("another record")
        if self.far > 10000:
            board.asked.add("a new record after over 100 m: undecided")
        board.ended_before = self.gone.pop(ident, (None, None))
        self.boards[ident] = board

    def signal_passed(self, kind, route):
        name = STATES[self.unit.state]
        decided = []
        self.see(f"a signal with no record, {name}", not self.boards)
        for ident, board in list(self.boards.items()):
            was, signals, ground = board.condition, board.signals, board.ground
            board.came.append((kind, route))
            now, category = board.condition, CATEGORIES[board.category]
            if was != "undecided":
                if {(0, 0), (0, 1), (1, 0), (1, 1)} <= set(board.signals[-4:]) and (was == "locked" or len(signals) > 3):
                    board.asked.add(f"{category}, {was}: all four signals touch nothing")
                continue
            if not signals and not ground:
                board.asked.add(f"{category}, {SIGNALS[kind]} {ROUTES[route]}: {now}, STATE")
            if now == "undecided":
                board.between.add("a signal that does not control")
                continue
            board.asked.discard("a new record after over 100 m: undecided")
            decided.append(board)
            if signals:
                board.asked.add(f"{category}, signals that do not control, then {now}")
            if ground == 9999:
                board.asked.add(f"{category}, 9,999 cm, then {now}")
            if board.repeats:
                board.asked.add({"terminated": "a repeater terminated", "preliminarily passive": "a repeater made passive"}.get(
                    now, "a repeater made active again"))
            if board.d == 0 and now in ("definitely active", "terminated"):
                board.asked.add(f"d 0 while undecided, then {now}")
            if now == "terminated":
                del self.boards[ident]
                self.gone[ident] = "terminated", board
        self.see("a signal that decides none of those held", self.boards and not decided)
        if len(decided) == 4 and sum(b.condition == "undecided" for b in self.boards.values()) == 4:
            for board in decided:
                board.asked.add(f"{SIGNALS[kind]} {ROUTES[route]}: four of eight decided, four not")

    def board_ended(self, ident, report):
        board = self.boards.pop(ident)
        self.gone[ident] = "53", board
        self.see(f"53 of {board.condition}, {STATES[self.unit.state]}")
        self.see("d 0 while undecided, then ended", board.condition == "undecided" and board.d == 0)
        self.see("53 leaves a curve of the same id", report[0] == DA and shown_in(report) == (False, ident))
        self.see("a release offered by 53", report[0] == DA and report[13] & 1 > self.report[13] & 1)

    def boards_moved(self, v, moved, state, report):
        self.far += moved
        train = self.judged()[0]
        for board in self.boards.values():
            was = self.found[board.ident] = board.condition
            board.came.append(moved)
            if moved:
                board.states.add(state)
            interval = curves.interval(train, board.curve(), v)
            if interval not in ("A", "Bf"):
                if not board.is_curve:
                    board.was_in_b.add("while undecided")
                elif state == HS:
                    board.was_in_b.add("in HS")
                else:
                    board.past = True
            if was == "undecided":
                self.board_locked(board, state, report)
        here = [board.condition for board in self.boards.values()]
        self.see("of four records two locked by their own ground", sorted(here) == ["locked", "locked", "undecided", "undecided"])

    def board_locked(self, board, state, report):
        """An undecided record at a report: up to 100 m, and at them."""
        category, far = CATEGORIES[board.category], board.ground
        if board.condition == "undecided":
            self.see(f"{category}, 9,999 cm: no curve in DA", far == 9999 and report[0] == DA and shown_in(report) != (True, board.ident))
            return
        board.asked.discard("a new record after over 100 m: undecided")
        for cm, words in ((10000, "10,000"), (10001, "10,001")):
            if far == cm:
                board.asked.add(f"{category}, {words} cm: locked, {STATES[state]}")
        if board.signals:
            board.asked.add(f"{category}, locked after signals that do not control")
        if board.states == {HS, DA}:
            board.asked.add("locked over HS and DA")
        if board.repeats:
            board.asked.add("a repeater locked")
        if far == 10000:
            for words in board.between:
                board.asked.add(f"locked at 10,000 cm with {words} in between")
        if 100 * board.metres <= far - board.came[-1]:
            self.see("d 0 while undecided, then locked", report[0] == DA and shown_in(report) == (True, board.ident))

    def boards_in_da(self, train, held, shown, report):
        """A report in DA with records, of which those that are curves count and the others do not."""
        unit, v = self.unit, self.unit.v
        own = {key: permitted(train, c) for key, c in held.items()}
        least = min([unit.vmax, *own.values()])
        self.expect(struct.unpack(">H", report[4:6])[0] == least, "the permitted speed has the records' part")
        self.see("permitted speed by a record", least < min([unit.vmax, *(k for key, k in own.items() if not key[0])]))
        braking = {key: curves.interval(train, c, v) for key, c in held.items() if curves.brakes(train, c, v)}
        bits = report[3] & 0b11100
        if bits == (report[2] << 8 | report[3]):
            self.expect(not bits or report[13] == (not braking), "a release is offered where no curve and no record brakes")
        by_record = braking and all(key[0] for key in braking)
        if self.found:
            self.boards_judged(train, held, shown, braking, by_record, report)
        elif by_record and not bits:
            self.see("52 brings one in F: no cause", "F" in braking.values())
        if shown is not None and shown[0]:
            self.record_shown(train, held, shown, own, report)
        elif shown is not None and held[shown] and any(key[0] for key in held):
            self.curve_shown(train, held, shown, own)
        for board in self.boards.values():
            self.board_unseen(board, held, v, report)

    def boards_judged(self, train, held, shown, braking, by_record, report):
        """The causes at a report in DA, by the curves and records that brake."""
        unit = self.unit
        enough = unit.drop >= unit.train["sufficient"]
        ordered = [n for n in braking.values() if n in "EF" or not enough]
        due = (8 if train.halka else 4) * bool(ordered) + 16 * ("F" in ordered)
        then = self.report[3] & 0b11100 if self.report[0] == DA else 0
        bits = report[3] & 0b11100
        self.expect(bits & due == due, "a braking curve or record orders")
        self.expect(not bits & ~(due | then), "no other does")
        self.see("D, a record brakes, drop sufficient: no order", by_record and set(braking.values()) == {"D"} and enough and not bits)
        self.see("LOSS drops a record's bits", then and not bits and len(held) == 0)
        fresh = unit.buttons & LOSS and not self.buttons_then & LOSS
        if by_record:
            for _, ident in braking:
                condition = self.boards[ident].condition
                for bit in (2, 3, 4):
                    self.see(f"bit {bit} by one that is {condition}", bits & ~then & due & 1 << bit and len(braking) == 1)
                if fresh and then and bits & then == then:
                    self.see(f"LOSS releases none while one that is {condition} brakes")
                if self.found.get(ident) == "undecided" and braking[True, ident] in "DEF":
                    self.see(f"locked and braking in one report, in {braking[True, ident]}", bits & ~then or braking[True, ident] == "D")
            self.see("bit 11 after a record's order", report[2] & 8)

    def record_shown(self, train, held, shown, own, report):
        unit, board = self.unit, self.boards[shown[1]]
        now, v = curves.interval(train, held[shown], unit.v), unit.v
        told = INTERVALS[report[9]]
        self.expect(told == ("Ab" if board.past and now in ("A", "Bf") else now), "a record past in B is shown as Ab")
        condition = board.condition
        self.see(f"{condition}, shown in {told}")
        for name in (*curves.BOUNDARIES, "permitted"):
            here, nearer, farther = (curves.reached(train, held[shown]._replace(d=max(0, board.d + by)), v, name) for by in (0, -1, 1))
            last, before = here and not farther, nearer and not here
            self.see(f"{condition}, {name}: its last cm", last)
            self.see(f"{condition}, {name}: a cm before", before)
            if last:
                self.see("record boundaries with HALKA", train.halka)
                self.see("record boundaries with the extra", self.extra)
        if now not in ("A", "Bf"):
            self.see("record boundaries downhill", board.gradient < 0)
            self.see("record boundaries uphill", board.gradient > 0)
        self.see(f"Ab of one that is {condition}", told == "Ab")
        if told in ("A", "Bf") and now in ("A", "Bf"):
            for words in ("while undecided", "in HS"):
                self.see(f"no Ab of one in B {words}", board.was_in_b == {words})
            self.see("no Ab of one in B before a repeater", board.repeats and board.repeats.past)
            way, old = board.ended_before
            self.see("no Ab of one in B before an end", way == "53" and old.past)
            self.see("a curve's past gives a record of its id none", not board.repeats and shown[1] in self.ended_past)
        for bit in (2, 4, 5):
            self.see(f"bit 6 with bit {bit}", report[12] >> bit & 1)
        rank = self.rank_of(train, held)
        others = [key for key in held if not key[0]]
        if others:
            self.see("a record in a later interval than a curve", all(rank[key] < rank[shown] for key in others))
            self.see("a record that permits less than a curve", any(rank[key] == rank[shown] and own[key] > own[shown] for key in others))

    def curve_shown(self, train, held, shown, own):
        rank = self.rank_of(train, held)
        records = [key for key in held if key[0]]
        self.see("a curve in a later interval than a record", all(rank[key] < rank[shown] for key in records))
        self.see("a curve that permits less than a record", any(rank[key] == rank[shown] and own[key] > own[shown] for key in records))
        now = curves.interval(train, held[shown], self.unit.v)
        old = self.boards.get(shown[1]) or self.gone.get(shown[1], (None, None))[1]
        self.see("a record's past gives a curve of its id none",
                 old and old.past and now in ("A", "Bf") and not self.unit.curves[shown[1]]["past"])

    def rank_of(self, train, held):
        return {key: ("A", *curves.BOUNDARIES).index(curves.interval(train, c, self.unit.v)) for key, c in held.items()}

    def shown_before(self, lowest, interval):
        """Of those that are equal in interval and permitted speed."""
        curve, record = (min((n for is_record, n in lowest if is_record == of), default=None) for of in (False, True))
        if record is not None and curve is not None:
            words = "lower" if curve < record else "higher" if curve > record else "the same"
            self.see(f"a curve before a record, its id {words}, {interval}")
        self.see("of records the lowest id", curve is None and len(lowest) > 1)

    def board_unseen(self, board, held, v, report):
        """A record that is no curve: with nothing else held, nothing is shown and nothing ordered."""
        if held or board.is_curve:
            return
        nothing = report[1:4] == b"\0\0\0" and report[4:6] == report[6:8] and report[8:12] == b"\xff\0\0\0"
        self.see(f"{board.condition} at its target, 100 km/h too fast: nothing", nothing and board.d == 0 and v >= at(board.speed + 100))
        self.see("preliminarily passive over 200 m: nothing", nothing and board.condition == "preliminarily passive" and board.ground > 20000)

    # -- F-2: an error is kept here with its speed, and with the number of reports in DA since

    def is_held(self):
        """Bit 9 stands after an error at low speed, and under 20 reports have come."""
        return self.unit.started and self.unit.causes >> 9 & 1 and self.error and self.error[0] <= 2222 and self.error[1] < 20

    def error_comes(self, before, report):
        v = before.v
        self.see("an error at 2,222 cm/s", v == 2222)
        self.see("an error at 2,223 cm/s", v == 2223)
        self.see("an error at rest", v == 0)
        self.error_before = None
        if before.causes >> 9 & 1:
            low, count = self.error[0] <= 2222, self.error[1]
            self.see("low, then high", low and v > 2222)
            self.see("high, then low", not low and v <= 2222)
            self.error_before = low and v <= 2222 and count < 20
            if before.causes == 1 << 9 and self.report[13] == 1:
                self.see("an offer taken back by an error at low speed", v <= 2222 and report[13] == 0)
                self.see("an offer taken back by an error at high speed", v > 2222 and report[13] == 0)
        self.error = (v, 0)

    def held(self, before, v, buttons, report):
        """Bit 9 at a report in DA; `report` is what is written, in DA or in FA."""
        if self.error is None:
            return
        self.error = (self.error[0], self.error[1] + 1)
        at_error, count = self.error
        low, loss, above = at_error <= 2222, buttons & LOSS, v > 2222
        fresh = loss and not before.buttons & LOSS
        free = count >= 20 if low else not above
        if not before.causes >> 9 & 1:
            return
        if report[0] == FA:
            self.see("FA at a fresh LOSS that would drop bit 9", fresh and free)
            return
        if before.causes == 1 << 9 and report[2] & 8:
            self.see("a second error begins no check", count < self.unit.train["t_b"])
        stands = report[2] >> 1 & 1
        self.expect(stands == (not (fresh and free)), "bit 9 goes by its hold")
        alone = report[2:4] == b"\x02\x00"
        if low:
            self.see("low: fresh LOSS at the 19th at rest, bit 9 stands", count == 19 and fresh and v == 0)
            self.see("low: fresh LOSS at the 19th above 80 km/h, bit 9 stands", count == 19 and fresh and above)
            self.see("low: the 19th offers nothing", count == 19 and alone and report[13] == 0)
            self.see("low: the 20th offers above 80 km/h", count == 20 and alone and above and report[13] == 1)
            self.see("low: LOSS held at the 20th, bit 9 stands", count == 20 and loss and not fresh)
            self.see("low: fresh LOSS at the 20th above 80 km/h drops it", count == 20 and fresh and above)
            self.see("low: fresh LOSS later above 80 km/h drops it", count > 20 and fresh and above)
            self.see("low: fresh LOSS later at rest drops it", count > 20 and fresh and v == 0)
            self.see("low, then low before the 20th, dropped at the 20th of the second",
                     self.error_before and count == 20 and fresh)
            if count < 20:
                self.see("bit 0 dropped while bit 9 is held", before.causes & 1 and not report[3] & 1)
                self.see("bit 11 not dropped while bit 9 is held", fresh and before.causes >> 11 & 1 and report[2] & 8)
            self.see("bits 9 and 11 dropped together at the 20th", count == 20 and before.causes >> 11 & 1 and not report[2] & 10)
        else:
            self.see("high: fresh LOSS above 80 km/h at the first, bit 9 stands", count == 1 and fresh and above)
            self.see("high: fresh LOSS above 80 km/h after the 20th, bit 9 stands", count > 20 and fresh and above)
            self.see("high: up to 80 km/h it is offered before the 20th", count < 20 and alone and not above and report[13] == 1)
            self.see("high: fresh LOSS up to 80 km/h drops it before the 20th", count < 20 and fresh and not above)

    def figures(self, before, v, measured, report):
        """01's figures on orders and releases."""
        unit = self.unit
        if unit.vmax == 100 and unit.state == DA:
            self.see("VMAX 100: 3,055 no order", v == 3055 and not unit.causes)
            self.see("VMAX 100: 3,056 bit 0", v == 3056 and unit.causes == 1)
            self.see("VMAX 100: 2,916 offered", v == 2916 and unit.causes == 1 and report[13] == 1)
            self.see("VMAX 100: 2,917 not offered", v == 2917 and unit.causes == 1 and report[13] == 0)
        if before.causes >> 6 & 1 and 6 not in before.since and unit.train["full"] == 700:
            self.see("full 700: 490 measured frees bit 6", measured == 490 and 6 in unit.since)
            self.see("full 700: 489 doesn't", measured == 489 and 6 not in unit.since)

    def grounds(self, before, moved, report):
        unit = self.unit
        length = 100 * unit.train["length"]
        for ident, (speed, ground) in before.sections.items():
            if ground is not None:
                on = ground + moved
                self.expect((ident in unit.sections) == (on < length), "a section ends at the train's length")
                self.see("ending section 1 cm before the length", on == length - 1)
                self.see("section gone at the length", on == length)
                if on >= length and len(before.sections) == 16:
                    self.freed_section = True

    def limits_in_da(self, before, v, report):
        unit = self.unit
        causes, offer = unit.causes, report[13]
        margin = unit.train["e_margin"]
        self.see("bit 0 at VMAX+10", v == at(unit.vmax + 10) and causes & 1)
        self.see("no bit 0 a cm/s below", v == at(unit.vmax + 10) - 1 and not causes & 1)
        self.see("bit 1 at VMAX+margin", v == at(unit.vmax + margin) and causes & 2)
        self.see("no bit 1 a cm/s below", v == at(unit.vmax + margin) - 1 and not causes & 2)
        if causes and not causes & ~0b10000011:
            self.see("bits 0, 1, 7 at VMAX+5 not offered", v == at(unit.vmax + 5) and offer == 0)
            self.see("bits 0, 1, 7 a cm/s below offered", v == at(unit.vmax + 5) - 1 and offer == 1)
        if causes == 1 << 9:
            self.see("bit 9 offered at 80 km/h", v == upto(80) and offer == 1)
            self.see("bit 9 not offered a cm/s above", v == upto(80) + 1 and offer == 0)
        braking = [unit.interval(c, v) for c in unit.supervised if unit.brakes(c, v)]
        if braking and set(braking) == {"D"}:
            enough = unit.train["sufficient"]
            self.see("D, braking, drop sufficient: no order", unit.drop == enough and not causes & 0b1100)
            self.see("D, braking, half a kPa less: order", unit.drop == enough - 0.5 and causes & 0b1100
                     and not before.causes & 0b1100)

    def pressed(self, before, v, moved, buttons, report):
        unit = self.unit
        fresh, held = buttons & ~before.buttons, buttons & before.buttons
        for bit in range(12):
            button = TEXT if bit == 10 else LOSS
            had, has = before.causes >> bit & 1, unit.causes >> bit & 1
            if has and not had:
                self.see(f"bit {bit} ordered")
            self.expect(not had or has or fresh & button, "a cause goes by a fresh press")
            if had and not has:
                self.see(f"bit {bit} dropped")
                self.see("freed at the report of its halt", bit in (5, 8) and bit not in before.since)
            if had and has and fresh & button:
                if bit == 10:
                    self.expect(False, "text drops bit 10")
                else:
                    self.see(f"bit {bit} not released by a fresh press")
        self.see("LOSS leaves bit 10", fresh == LOSS and before.causes >> 10 & 1)
        self.see("bits 2 and 3 together", unit.causes & 0b1100 == 0b1100)
        self.see("a held LOSS releases nothing", held & LOSS and report[13] & 1 and not unit.causes & ~before.causes)
        self.see("a held text releases nothing", held & TEXT and report[13] & 2)
        if self.loss_before_da:
            self.see("LOSS held from before DA releases nothing", held & LOSS and report[13] & 1)
            self.loss_before_da = bool(buttons & LOSS)
        alone = unit.causes in (1 << 5, 1 << 8)
        self.see("speed 0 with ground is no halt", alone and v == 0 and moved > 0 and report[13] == 0)
        self.see("moved 0 with speed is no halt", alone and v > 0 and moved == 0 and report[13] == 0)

    def rolled(self, before, v, moved, buttons, report):
        """Ground in neutral, counted here too: since a halt, a drop of bit 10, or where it doesn't count."""
        unit = self.unit
        self.see("500 cm rolled", unit.rolled == 500 and not unit.causes >> 10 & 1)
        self.see("501 cm rolled: bit 10", unit.rolled == 501 and unit.causes >> 10 & 1 and not before.causes >> 10 & 1)
        if v == 0 and moved == 0:
            self.neutral_ground, self.geared, self.halted = 0, False, True
        elif not buttons & NEUTRAL:
            self.neutral_ground, self.geared = 0, self.halted
        else:
            self.neutral_ground = self.neutral_ground + moved
        over = self.neutral_ground > 500
        self.see("over 500 cm rolled in DA before a halt", over and not self.halted and not unit.causes >> 10 & 1)
        self.see("over 500 cm after gear", over and self.geared and not unit.causes >> 10 & 1)
        if before.causes >> 10 & 1 and not unit.causes >> 10 & 1:
            self.dropped_10 = True
        elif v == 0 and moved == 0 or not buttons & NEUTRAL:
            self.dropped_10 = False
        self.see("over 500 cm from 0 after a drop of bit 10",
                 self.dropped_10 and unit.causes >> 10 & 1 and not before.causes >> 10 & 1 and unit.rolled > 500)

    def checks(self, before, buttons):
        """Both checks at a report in DA, the reports counted here since the order began."""
        unit = self.unit
        t_b, t_ebchk = unit.train["t_b"], unit.train["t_ebchk"]
        self.since_order += 1
        self.since_emergency += 1
        fault = unit.causes >> 11 & 1 and not before.causes >> 11 & 1
        if fault:
            self.expect(self.since_order == t_b, "bit 11 comes at the T_B-th report")
            self.see("bit 11 at the T_B-th report")
            self.see("bit 11 at T_B with the extra", self.extra)
            self.see("a drop at the beginning doesn't count", self.begun_with_drop)
            self.see("bit 11 begins the emergency check", before.emergency is None and unit.emergency == 0)
            self.since_fault = 0
        elif unit.causes >> 11 & 1:
            self.since_fault += 1
            self.see("over T_B reports after bit 11", self.since_fault > t_b)
        if unit.state == FA:
            self.expect(self.since_emergency == t_ebchk, "NÖDBROMSFEL comes at the T_EBCHK-th report")
            self.see("FA at the T_EBCHK-th report")
            self.see("FA by both checks at one report" if fault else "FA by the emergency check alone")
            fresh = buttons & ~before.buttons
            left = unit.causes & ~unit.releasable(unit.v, any(unit.brakes(c, unit.v) for c in unit.supervised))
            self.see("FA at a fresh LOSS that would release all", fresh & LOSS and not left)
        if before.service is not None:
            at_limit = before.service + 1 == t_b
            self.see("service check satisfied at its limit", at_limit and unit.drop >= 60 and not unit.causes >> 11 & 1)
            self.see("a drop of 60 satisfies", unit.drop == 60 and unit.service is None)
            self.see("a drop of 59.5 doesn't", unit.drop == 59.5 and unit.service is not None)
        if before.emergency is not None:
            at_limit = before.emergency + 1 == t_ebchk
            self.see("emergency check satisfied at its limit", at_limit and unit.drop >= 60 and unit.state == DA)

    def braking(self, code, before, report):
        """The orders that begin and end with a command, and DRIFTBROMSFEL."""
        unit = self.unit
        emergency = sum(1 << bit for bit in range(12) if STRENGTHS[bit] == "E")
        if unit.causes and not before.causes:
            self.since_order = 0
            self.begun_with_drop = code == 0x10 and unit.drop >= 60
            self.see("a check begun by a report" if code == 0x10 else "a check begun by a command")
        if unit.causes & emergency and not before.causes & emergency:
            self.since_emergency = 0
        drift = report[12] & 1
        self.see("DRIFTBROMSFEL without bit 11", drift and not unit.causes >> 11 & 1 and unit.state == DA)
        self.see("DRIFTBROMSFEL gone with the last cause", self.faulted and not drift and unit.state == DA)
        self.see("DRIFTBROMSFEL in FA", drift and unit.state == FA)
        self.faulted = drift

    # -- the report

    def written(self, report):
        unit = self.unit
        state, order, causes = report[0], report[1], report[2] << 8 | report[3]
        permitted, vmax = report[4] << 8 | report[5], report[6] << 8 | report[7]
        self.expect(state == unit.state, "the state is the picture's")
        self.see(f"state {STATES[state]}")
        self.see(f"order {order}")
        for bit, name in enumerate(("DRIFTBROMSFEL", "NÖDBROMSFEL", "TRYCKGIVARFEL")):
            self.see(name, report[12] >> bit & 1)
        self.see(f"TRYCKGIVARFEL in {STATES[state]}", report[12] & 4)
        if state != DA:
            ordered = 3 if state == FA else order if state == DE else 0  # in DE: see messages
            outside = bytes([state, ordered, 0, 0, 0, 0, 0, 0, 255, 0, 0, 0, report[12], 0, 255, 255, 255, 255, self.track.area])
            self.expect(report == outside, "the report outside DA")
            self.see("outside DA")
            self.see("at the report that leads to FA", state == FA and self.report is not None and self.report[0] == DA)
            return
        self.expect(causes == unit.causes, "the causes are the picture's")
        self.expect(vmax == unit.vmax, "VMAX is the picture's")
        self.orders(order, causes)
        self.see(f"offer {report[13]}")
        self.see("permitted speed is VMAX" if permitted == vmax else "permitted speed below VMAX")
        limits = {"VMAX by the train": [unit.train["speed"]], "VMAX by the 40": [40] * unit.forty,
                  "VMAX by a section": [s for s, g in unit.sections.values() if g is None],
                  "VMAX by an ending section": [s for s, g in unit.sections.values() if g is not None],
                  "VMAX by the area": self.track.limit()}
        least = [name for name, speeds in limits.items() if vmax in speeds]
        if len(least) == 1:
            self.see(least[0])
        self.see(f"interval, bar, mode: {INTERVALS[report[9]]}, {report[10]}, {report[11]}")
        train, held = self.judged()
        shown = shown_in(report)
        self.expect(shown in held if held else shown is None, "a curve or record is shown where one is held")
        if shown in held:
            of_record, ident = shown
            self.see("in B in HS, then A or Bf in DA", not of_record and ident in self.b_in_hs and report[9] in (1, 3))
            self.see("a record shown at d 0" if of_record else "a curve shown at d 0", held[shown].d == 0)
            self.shown(train, held, shown)
        if self.boards:
            self.boards_in_da(train, held, shown, report)
        self.change(train, held, shown, report)

    def change(self, train, held, key, report):
        """The figure of the shown curve, by halving, and what the report before it told."""
        unit, figure = self.unit, struct.unpack(">I", report[14:18])[0]
        if key not in held:
            self.expect(figure == LAST, "no figure where no curve is shown")
            self.see("no curve")
            self.row(report, False)
            self.figure_before = None
            return
        shown = held[key]
        now = curves.interval(train, shown, unit.v)
        self.expect(figure == curves.to_change(train, shown, unit.v), "the figure is the most with no change")
        self.expect(INTERVALS[report[9]] == now or report[9] == 2 and now in ("A", "Bf"), "the interval is the computed one, or Ab")
        self.leads(train, held, shown, report)
        if figure == LAST:
            floor = not 9 * unit.v > 250 * shown.speed
            self.see("no change down to 0 in F", now == "F")
            self.see("no change down to 0 in E, u' at or under w", now == "E" and shown.d > 0)
            self.see("no change down to 0 at the floor", floor and shown.d > 0)
            self.see("no change down to 0 at distance 0", shown.d == 0)
        else:
            self.see("a figure of 0", figure == 0)
            self.see("a figure with HALKA", train.halka)
            self.see("a figure downhill", shown.gradient < 0)
            self.see("a figure of an Expect Stop", shown.kind == 1)
            self.see("of two curves the shown one's",
                     any(curves.to_change(train, c, unit.v) != figure for c in held.values()) if len(held) == 2 else False)
        if shown == curves.MARKED_40._replace(d=shown.d) and train == curves.MARKED and unit.v == 2500:
            self.see("43,324 cm: 7,499", shown.d == 43324 and figure == 7499)
            self.see("43,325 cm: 0", shown.d == 43325 and figure == 0)
        self.against(train, unit.v, report, key, shown, now)
        over = curves.reached(train, shown, unit.v, "permitted")
        self.row(report, over)
        self.figure_before = (key, train, unit.v, shown, now, INTERVALS[report[9]], figure, over)

    def against(self, train, v, report, key, shown, now):
        """This report and the figure before it, of the same curve."""
        if self.figure_before is None or self.figure_before[0] != key:
            return
        _, train_then, v_then, then, interval, told, figure, over = self.figure_before
        if then._replace(d=0) == shown._replace(d=0) and (train_then, v_then) == (train, v) and then.d > shown.d:
            moved = then.d - shown.d
            if moved <= figure:
                self.expect(now == interval, "up to the figure the interval stays")
            if moved == figure:
                self.see(f"{told}: moved the figure, the same")
                self.see_record(key, f": moved the figure in {told}, the same")
            if moved == figure + 1:
                self.expect(now != interval, "one cm more is another interval")
                self.see(f"{told}: moved one more, another")
                self.see_record(key, f": moved one more in {told}, another")
                self.see("an interval passed over", curves.BOUNDARIES.index(now) > (("A",) + curves.BOUNDARIES).index(interval))
            self.see("past the permitted boundary in B, no change",
                     interval == now == "B" and not over and curves.reached(train, shown, v, "permitted"))
        elif (train_then, v_then) == (train, v) and then != shown:
            self.see("another command writes it anew", self.figure_before[6] != struct.unpack(">I", report[14:18])[0])

    def row(self, report, past):
        """The one row that holds for what is shown."""
        sufficient = self.unit.drop >= self.unit.train["sufficient"]
        held = [name for name, row in ROWS.items()
                if row[0] == INTERVALS[report[9]] and row[1] in (None, past) and row[2] in (None, sufficient)]
        self.expect(len(held) == 1, "one row holds")
        self.expect(ROWS[held[0]][3:] == (report[10], report[11]), "bar and mode are the row's")
        self.see(f"row {held[0]}, drop {'sufficient' if sufficient else 'insufficient'}")

    def judged(self):
        """The train, and the curves and the records that are curves, as tests/curve.py has them: by whether it is a record, and by id."""
        unit, t = self.unit, self.unit.train
        train = curves.Train(t["full"], t["soft"], int(bool(unit.buttons & HALKA)), t["t_b"] + self.extra, t["g_c"], t["g_p"],
                             t["g_bf"], t["f_margin"])
        held = {(False, n): curves.Curve(c["kind"], c["d"], c["speed"], c["gradient"], 0) for n, c in unit.curves.items()}
        return train, held | {(True, n): board.curve() for n, board in self.boards.items() if board.is_curve}

    def orders(self, order, causes):
        flag = self.unit.train["flags"] & 1
        standing = [STRENGTHS[bit] for bit in range(12) if causes >> bit & 1]
        expected = 3 if "E" in standing else 2 if "F" in standing else (2 - flag) if standing else 0
        self.expect(order == expected, "the order is the strongest of the causes")
        for bit in range(12):
            if causes == 1 << bit:
                self.expect(bit not in NEVER_ALONE, f"bit {bit} never stands alone")
                self.see(f"bit {bit} alone")
                if STRENGTHS[bit] != "E":
                    self.see(f"bit {bit} alone, flag bit 0 {flag}: order {order}")
            if STRENGTHS[bit] == "E" and causes >> bit & 1 and standing.count("E") == 1:
                self.see(f"bit {bit} makes order 3")
        self.see("soft and full, flag bit 0 1: order 2", flag and set(standing) == {"S", "F"})

    def shown(self, train, held, ident):
        """By what the shown curve is the first: with two or more held."""
        unit = self.unit
        if len(held) < 2:
            return
        ranks = {n: ("A", "Bf", "B", "C", "D", "E", "F").index(curves.interval(train, c, unit.v)) for n, c in held.items()}
        latest = [n for n in held if ranks[n] == max(ranks.values())]
        self.expect(ident in latest, "the shown curve is in the latest interval")
        if len(latest) == 1:
            self.see("shown by interval")
            if self.seen["shown by interval, not the lowest permitted"] < 5:
                own = {n: permitted(train, c) for n, c in held.items()}
                self.see("shown by interval, not the lowest permitted", own[ident] > min(own.values()))
            return
        own = {n: permitted(train, held[n]) for n in latest}
        lowest = [n for n in latest if own[n] == min(own.values())]
        self.expect(ident == min(lowest), "the shown one permits the least, a curve before a record, with the lowest id")
        if len(lowest) == 1:
            self.see("shown by permitted speed, not the lowest id", ident != min(latest))
        else:
            self.see("shown by id")
        self.shown_before(lowest, "in A" if max(ranks.values()) == 0 else "later")

    # -- areas

    def areas(self, records, lines):
        """The records of crates/answers_run: area, length, and 32 bytes of which the command is the first."""
        given, refused, last = set(), set(), None
        for self.line, text in enumerate(lines, 1):
            record = records[34 * (self.line - 1):34 * self.line]
            area, command = record[0], record[2:2 + record[1]]
            _, answer, _, held, _, part = text.split(" ")
            answer = int(answer)
            left = held == "AA" * area
            self.expect(left == (answer not in (0, 100)), "a refusal leaves the area alone, an answer writes it")
            self.expect(part == ("" if 1 <= answer <= 4 else command[5:].hex().upper()), "the operand part")
            self.see(f"area {'left alone' if left else 'written'} at {answer}")
            code = command[0] if command else None
            if answer in (0, 100):
                self.expect(answer == 0 or held == last, "the report of a repeat is the last one")
                self.see("a refused number accepted, with an area", command[1:5] in refused and code != 0x01)
                refused, last = set(), held
            elif answer > 4:
                refused.add(command[1:5])
            if answer == 0:
                given = given | {command[5]} if code == 0x22 else set() if code in (0x01, 0x02) else given
            elif answer == 1:
                self.see(f"area of {area} bytes: 1")
                if code not in LENGTHS or len(command) != LENGTHS[code]:
                    self.see(f"1 before {2 if code is None else 4 if code in LENGTHS else 3}")
            elif answer == 12:
                kind = {0x21: "a curve", 0x53: "a record"}.get(code, "an ending section" if command[5] in given else "a section")
                self.see(f"area left alone at 12 of {kind}")
            elif answer == 13:
                self.see(f"area left alone at 13 of a {'curve' if code == 0x20 else 'section'}")

    # -- the verdict

    def tell(self):
        for title, group in self.claims:
            unmet = [claim for claim in group if not self.seen[claim]]
            print(f"{title}: {len(group) - len(unmet)} of {len(group)}")
            for claim in unmet:
                print(f"  NOT MET {claim}")
        for words in self.wrong[:20]:
            print(f"WRONG {words}")
        return 1 if self.wrong or not all(self.seen.values()) else 0


def shown_in(report):
    """Whether the shown id is a record's, and the id; None where none is shown."""
    return None if report[8] == 255 else (bool(report[12] & 64), report[8])


@functools.cache
def permitted(train, curve):
    return curves.permitted(train, curve)


def applies(o, code, operands):
    return o.code == code and (o.going_by is None or operands[o.going_by[0]] in o.going_by[1])


def operand(o, operands):
    return struct.unpack_from(">" + o.form, operands, o.at)[0]


def placed(o, operands, value):
    changed = bytearray(operands)
    struct.pack_into(">" + o.form, changed, o.at, value)
    return bytes(changed)


def in_range(code, operands):
    for o in OPERANDS:
        if applies(o, code, operands):
            value = operand(o, operands)
            high = struct.unpack_from(">H", operands, 5)[0] if o.name == "soft deceleration" else max(o.good)
            if value not in o.good if o.name == "release speed" else not min(o.good) <= value <= high:
                return False
    return True


def recorded(program):
    folder = os.path.join(os.path.dirname(os.path.abspath(__file__)), "..", "crates", program)
    with open(os.path.join(folder, "stdin"), "rb") as file:
        given = file.read()
    with open(os.path.join(folder, "stdout"), encoding="utf-8") as file:
        return given, file.read().splitlines()


def main():
    coverage = Coverage()
    coverage.read(*recorded("trips_run"))
    print(f"{coverage.line} lines of trips_run")
    coverage.areas(*recorded("answers_run"))
    print(f"{coverage.line} lines of answers_run")
    return coverage.tell()


if __name__ == "__main__":
    sys.exit(main())

#!/usr/bin/env python3
"""Writes a command stream that steers a supervision unit into its rules.

    trips.py SEED COUNT [unknown|short] [by-01]

The same seed and count always give the same stream. COUNT commands are written,
each of a known code and its whole length. With "unknown" one byte that is no code
follows them, with "short" a command that breaks off. With "by-01" the trips steer
by 01 alone, as before F-2, F-3, F-6 and F-7 of 02: then they are the commands recorded before.

A picture of the unit is kept beside the stream, so that the trips know what would
be taken next and where the limits lie. Only the stream is written.
"""

import random
import struct
import sys

LAST = 0xFFFFFFFF
DE, CS, HS, DA, FA = range(5)
LOSS, TEXT, HALKA, NEUTRAL = 1, 2, 4, 8
START, STATE, ODOMETER = 0x01, 0x02, 0x10
CURVE, CURVE_END, SECTION, SECTION_END = 0x20, 0x21, 0x22, 0x23
STOP_PASSED, PROCEED, BALISE_ERROR, TEST_BRAKES, AREA_EVENT = 0x30, 0x31, 0x32, 0x40, 0x50
RECORD, SIGNAL_PASSED, RECORD_END = 0x51, 0x52, 0x53
OF_02 = (TEST_BRAKES, AREA_EVENT, RECORD, SIGNAL_PASSED, RECORD_END)
LENGTHS = {START: 24, STATE: 6, ODOMETER: 14, CURVE: 12, CURVE_END: 6, SECTION: 8,
           SECTION_END: 6, STOP_PASSED: 6, PROCEED: 5, BALISE_ERROR: 5, TEST_BRAKES: 5, AREA_EVENT: 8,
           RECORD: 12, SIGNAL_PASSED: 7, RECORD_END: 6}
PARTIAL, NON_EQUIPPED, FULLY_EQUIPPED, HT = 4, 7, 8, 9
SIGNAL, GMD, HT_DELETED, NO_OVERLAP, TO_NON_EQUIPPED, TO_HT, TO_FULLY_EQUIPPED = range(7)
ENTRIES = {TO_NON_EQUIPPED: NON_EQUIPPED, TO_HT: HT, TO_FULLY_EQUIPPED: FULLY_EQUIPPED}
TAKEN_FROM = {SIGNAL: (NON_EQUIPPED, HT), GMD: (NON_EQUIPPED, PARTIAL), HT_DELETED: (FULLY_EQUIPPED,),
              NO_OVERLAP: (FULLY_EQUIPPED,), TO_NON_EQUIPPED: (PARTIAL, FULLY_EQUIPPED, HT),
              TO_HT: (PARTIAL, NON_EQUIPPED, FULLY_EQUIPPED), TO_FULLY_EQUIPPED: (PARTIAL, NON_EQUIPPED, HT)}
CATEGORIES = range(4)  # RF, RH, GF, GH
MAIN, DISTANT = range(2)
PATHS = {(DE, CS), (DE, DA), (CS, HS), (HS, CS), (HS, DA), (DA, CS)}
EMERGENCY = 1 << 1 | 1 << 4 | 1 << 5 | 1 << 6 | 1 << 11
START_FIELDS = (("flags", "B", 0, 7), ("speed", "H", 10, 300), ("length", "H", 10, 1000),
                ("full", "H", 400, 2000), ("soft", "H", 400, 2000), ("t_b", "B", 1, 100),
                ("g_c", "B", 0, 200), ("g_p", "B", 0, 200), ("g_bf", "B", 0, 200),
                ("f_margin", "B", 1, 30), ("e_margin", "B", 11, 30),
                ("sufficient", "B", 30, 150), ("p_full", "H", 150, 600), ("t_ebchk", "B", 1, 100))
START_FORM = ">" + "".join(form for _, form, _, _ in START_FIELDS)
BY_01 = (("flags", "B", 0, 3),) + START_FIELDS[1:]


def f32(x):
    return struct.unpack("f", struct.pack("f", x))[0]


def at(k):
    """The least speed in cm/s that is at least k km/h."""
    return -(-250 * k // 9)


def below(k):
    """The greatest speed in cm/s below k km/h."""
    return max(0, at(k) - 1)


def upto(k):
    """The greatest speed in cm/s that isn't above k km/h."""
    return 250 * k // 9


def settled(phase, pressure, count, p):
    """The phase of a pressure that waits or settles, after a report of p."""
    if phase == "settling" and abs(f32(p - pressure)) <= 20:
        return ("set", pressure, 0) if count == 29 else ("settling", pressure, count + 1)
    return ("settling", p, 0) if 400 <= p <= 550 else ("waiting", pressure, count)


def controls(category):
    """The kind of signal that controls a category, and the category's route."""
    return (MAIN if category % 2 else DISTANT), category // 2


# ---------------------------------------------------------------- the picture


class Picture:
    """What the trips believe of the unit: all but its report."""

    def __init__(self, by_01=False):
        """`by_01`: with the release of bit 9, the flags and the codes that 01 has, before F-2, F-3, F-6 and F-7 of 02."""
        self.by_01 = by_01
        self.start_fields = BY_01 if by_01 else START_FIELDS
        self.started = False
        self.number = 0
        self.last = b""

    def begin(self, train):
        self.started = True
        self.train = train
        self.state = DE
        self.phase = "waiting"
        self.pressure = 0.0
        self.count = 0
        self.p_int = 0.0
        self.v = 0
        self.buttons = 15
        self.test = None  # of a brake test that runs: phase, pressure and count
        self.tested = None  # whether the last one that ended passed
        self.extra = 50 if train["flags"] & 4 else 0
        self.enter_area(FULLY_EQUIPPED)
        self.clear()

    def enter_area(self, area):
        self.area = area
        self.gmd = 130  # the last GMD of a stay in the partially equipped area
        self.pending = None  # ground since a group without overlap

    def clear(self):
        self.pending = None
        self.curves = {}
        self.records = {}
        self.sections = {}
        self.forty = False
        self.causes = 0
        self.since = set()
        self.low = None
        self.rolled = None
        self.service = None
        self.emergency = None

    def take(self, raw):
        code, number, operands = raw[0], struct.unpack(">I", raw[1:5])[0], raw[5:]
        if not self.started and code != START:
            return 5
        if number == 0:
            return 6
        again = self.started and raw == self.last
        if code != START and not again and (self.number == LAST or number != self.number + 1):
            return 7
        if self.started and self.state == FA and code != START and not again:
            return 8
        if again:
            return 100
        answer = getattr(self, f"take_{code:02x}")(operands)
        if answer == 0:
            self.number, self.last = number, raw
        return answer

    @property
    def reference(self):
        return self.pressure if self.phase == "set" else None

    @property
    def drop(self):
        return f32(self.pressure - self.p_int)

    @property
    def vmax(self):
        limits = [self.train["speed"]] + [speed for speed, _ in self.sections.values()]
        return min(limits + [40] * self.forty + [self.gmd] * (self.area == PARTIAL))

    @property
    def supervised(self):
        """The curves, and the records that are curves."""
        return [*self.curves.values(), *(r for r in self.records.values() if r["is"] in ("active", "locked"))]

    def take_01(self, operands):
        values = struct.unpack(START_FORM, operands)
        for value, (_, _, low, high) in zip(values, self.start_fields):
            if not low <= value <= high:
                return 9
        train = {name: value for value, (name, _, _, _) in zip(values, self.start_fields)}
        if train["soft"] > train["full"]:
            return 9
        self.begin(train)
        return 0

    def take_02(self, operands):
        to = operands[0]
        if to > FA:
            return 9
        if to != FA and (self.state, to) not in PATHS:
            return 10
        if to == DA and self.reference is None:
            return 11
        self.state = to
        if self.test is not None:
            self.end_test(False)
        if to == CS:
            self.clear()
        return 0

    def take_10(self, operands):
        v, moved, measured, half, buttons = struct.unpack(">HHhhB", operands)
        if v > 10000 or moved > 1200 or buttons > 15:
            return 9
        if self.state in (HS, DA):
            for curve in self.curves.values():
                curve["d"] = max(0, curve["d"] - moved)
            for record in self.records.values():
                record["d"] = max(0, record["d"] - moved)
                record["ground"] += moved
                if record["is"] == "undecided" and record["ground"] >= 10000:
                    record["is"] = "locked"
            for number, (speed, ground) in list(self.sections.items()):
                if ground is not None:
                    if ground + moved >= 100 * self.train["length"]:
                        del self.sections[number]
                    else:
                        self.sections[number] = (speed, ground + moved)
            if self.pending is not None:
                self.pending += moved
                if self.pending >= 5000:
                    self.enter_area(PARTIAL)
        self.measure(half)
        fresh = buttons & ~self.buttons
        self.v, self.buttons = v, buttons
        if self.test is not None:
            self.try_brakes(v, half)
        if self.state == DA:
            self.judge(v, moved, measured, fresh)
        return 0

    def take_20(self, operands):
        number, kind, distance, speed, gradient = struct.unpack(">BBHHb", operands)
        ranges = {0: range(10, 301), 1: (10, 40)}
        if number > 254 or speed not in ranges.get(kind, ()) or distance > 10000 or abs(gradient) > 30:
            return 9
        if self.state not in (HS, DA):
            return 10
        if number not in self.curves and len(self.curves) == 16:
            return 13
        past = number in self.curves and self.curves[number]["past"]
        self.curves[number] = {"kind": kind, "d": 100 * distance, "speed": speed,
                               "gradient": gradient, "past": past}
        return 0

    def take_21(self, operands):
        return self.ended(operands[0], self.curves, lambda number: self.curves.pop(number))

    def take_22(self, operands):
        number, speed = struct.unpack(">BH", operands)
        if number > 254 or not 10 <= speed <= 300:
            return 9
        if self.state not in (HS, DA):
            return 10
        if number not in self.sections and len(self.sections) == 16:
            return 13
        self.sections[number] = (speed, None)
        return 0

    def take_23(self, operands):
        def end(number):
            self.sections[number] = (self.sections[number][0], 0)
        standing = [number for number, (_, ground) in self.sections.items() if ground is None]
        return self.ended(operands[0], standing, end)

    def ended(self, number, held, end):
        if number > 254:
            return 9
        if self.state not in (HS, DA):
            return 10
        if number not in held:
            return 12
        end(number)
        return 0

    def take_30(self, operands):
        kind = operands[0]
        if kind > 2:
            return 9
        if self.state != DA:
            return 10
        before = self.causes
        self.causes |= (1 << 5, 1 << 6 | 1 << 7, 1 << 8)[kind]
        self.since.discard((5, 6, 8)[kind])
        self.forty = self.forty or kind == 1
        self.start_checks(before)
        return 0

    def take_31(self, _):
        if self.state not in (HS, DA):
            return 10
        self.forty = False
        return 0

    def take_32(self, _):
        if self.state != DA:
            return 10
        before = self.causes
        self.causes |= 1 << 9
        self.low = 0 if self.v <= upto(80) and not self.by_01 else None
        self.start_checks(before)
        return 0

    def take_40(self, _):
        if self.state != DE:
            return 14
        if self.test is not None:
            return 15
        self.test = ("waiting", 0.0, 0)
        return 0

    def take_50(self, operands):
        event, speed = struct.unpack(">BH", operands)
        if event > TO_FULLY_EQUIPPED or speed not in (range(10, 301) if event == GMD else (0,)):
            return 9
        if self.state not in (HS, DA):
            return 10
        if self.area not in TAKEN_FROM[event]:
            return 16
        if event == NO_OVERLAP:
            self.pending = self.pending or 0
        elif event == GMD and self.area == PARTIAL:
            self.gmd = speed
        else:
            self.enter_area(ENTRIES.get(event, PARTIAL))
            if event == GMD:
                self.gmd, self.sections = speed, {}
        return 0

    def take_51(self, operands):
        number, category, distance, speed, gradient = struct.unpack(">BBHHb", operands)
        if number > 254 or category not in CATEGORIES or distance > 10000 or not 10 <= speed <= 300 or abs(gradient) > 30:
            return 9
        if self.state not in (HS, DA):
            return 10
        if number not in self.records and len(self.records) == 8:
            return 17
        if number in self.records and self.records[number]["is"] != "active":
            return 18
        self.records[number] = {"kind": 0, "d": 100 * distance, "speed": speed, "gradient": gradient, "past": False,
                                "category": category, "is": "undecided", "ground": 0}
        return 0

    def take_52(self, operands):
        kind, route = operands
        if kind > 1 or route > 1:
            return 9
        if self.state not in (HS, DA):
            return 10
        for number, record in list(self.records.items()):
            if record["is"] == "undecided" and controls(record["category"])[0] == kind:
                if controls(record["category"])[1] == route:
                    record["is"] = "active"
                elif kind == DISTANT:
                    record["is"] = "passive"
                else:
                    del self.records[number]
        return 0

    def take_53(self, operands):
        return self.ended(operands[0], self.records, lambda number: self.records.pop(number))

    def try_brakes(self, v, half):
        """A report in DE for the brake test that runs."""
        phase, pressure, count = self.test
        if v > 0 or not -100 <= half <= 1910:
            self.end_test(False)
        elif phase != "set":
            self.test = settled(phase, pressure, count, self.p_int)
        elif f32(pressure - self.p_int) >= 60:
            self.end_test(True)
        elif count + 1 == self.train["t_b"]:
            self.end_test(False)
        else:
            self.test = (phase, pressure, count + 1)

    def end_test(self, passed):
        self.test, self.tested = None, passed
        self.extra = 0 if passed else self.extra

    def measure(self, half):
        kpa = half / 2
        if kpa < -50:
            p = self.pressure if self.phase == "set" else 0.0
        elif self.train["flags"] & 2:
            kpa = kpa if 0 <= kpa <= 955 else 0.0
            p = min(550.0, max(0.0, f32(500 - f32(f32(150 * kpa) / self.train["p_full"]))))
        else:
            p = min(550.0, max(0.0, kpa))
        self.p_int = p
        if self.phase == "set":
            self.count = (self.count + 1) % 10
            if self.count == 0:
                if self.pressure < p:
                    self.pressure = f32(self.pressure + 1.5)
                elif p < self.pressure <= f32(p + 30):
                    self.pressure = f32(self.pressure - 0.5)
        else:
            self.phase, self.pressure, self.count = settled(self.phase, self.pressure, self.count, p)

    def deceleration(self, curve):
        b = self.train["soft" if self.buttons & HALKA else "full"]
        return b + (9 if curve["gradient"] > 0 else 10) * curve["gradient"]

    def leads(self):
        t = self.train
        d = t["t_b"] + self.extra
        c = d + t["g_c"]
        p = c + t["g_p"]
        return {"Bf": p + 30 + t["g_bf"], "B": p + 30, "P": p, "C": c, "D": d, "E": 0}

    def boundary(self, curve, name, v):
        """The greatest distance in cm at which a boundary is reached, below 0 if none is."""
        if 9 * v <= 250 * curve["speed"]:
            return -1
        b, w = self.deceleration(curve), 0 if curve["kind"] else 250 * curve["speed"]
        u, lead = 9 * v, self.leads().get(name, 0)
        if name == "F":
            u -= 250 * self.train["f_margin"]
            if u <= w:
                return -1
        return (50 * (u * u - w * w) + 81 * b * v * lead) // (810 * b)

    def interval(self, curve, v):
        for name in ("F", "E", "D", "C", "B", "Bf"):
            if curve["d"] <= self.boundary(curve, name, v):
                return name
        return "A"

    def brakes(self, curve, v):
        if curve["kind"]:
            fast = 9 * v > 250 * curve["speed"]
        else:
            fast = 9 * v >= 250 * (curve["speed"] + 10)
        return fast and self.interval(curve, v) in ("D", "E", "F")

    def judge(self, v, moved, measured, fresh):
        before = self.causes
        halt = v == 0 and moved == 0
        if halt:
            self.since |= {5, 8}
            self.rolled = 0
        elif not self.buttons & NEUTRAL:
            self.rolled = None
        elif self.rolled is not None:
            self.rolled += moved
        if 10 * measured >= 7 * self.train["full"]:
            self.since.add(6)
        if self.low is not None:
            self.low += 1
        if v >= at(self.vmax + 10):
            self.causes |= 1 << 0
        if v >= at(self.vmax + self.train["e_margin"]):
            self.causes |= 1 << 1
        braking = False
        for curve in self.supervised:
            name = self.interval(curve, v)
            curve["past"] = curve["past"] or name not in ("A", "Bf")
            if self.brakes(curve, v):
                braking = True
                if name != "D" or self.drop < self.train["sufficient"]:
                    self.causes |= 1 << (3 if self.buttons & HALKA else 2)
                if name == "F":
                    self.causes |= 1 << 4
        if self.rolled is not None and self.rolled > 500:
            self.causes |= 1 << 10
        self.service, failed = self.checked(self.service, self.train["t_b"])
        if failed:
            self.causes |= 1 << 11
        self.emergency, failed = self.checked(self.emergency, self.train["t_ebchk"])
        if failed:
            self.state = FA
            return
        self.start_checks(before)
        if fresh & LOSS:
            self.causes &= ~self.releasable(v, braking) | 1 << 10
        if fresh & TEXT and self.causes & 1 << 10:
            self.causes &= ~(1 << 10)
            self.rolled = None if self.rolled is None else 0
        if not self.causes:
            self.service = None
        if not self.causes & EMERGENCY:
            self.emergency = None

    def checked(self, count, limit):
        if count is None or self.drop >= 60:
            return None, False
        return (None, True) if count + 1 == limit else (count + 1, False)

    def start_checks(self, before):
        if self.causes and not before:
            self.service = 0
        if self.causes & EMERGENCY and not before & EMERGENCY:
            self.emergency = 0

    def releasable(self, v, braking):
        slow = v < at(self.vmax + 5)
        unheld = v <= upto(80) if self.low is None else self.low >= 20
        free = 1 << 10
        for bits, condition in (((0, 1, 7), slow), ((2, 3, 4), not braking), ((5,), 5 in self.since),
                                ((6,), 6 in self.since), ((8,), 8 in self.since), ((9,), unheld)):
            if condition:
                free |= sum(1 << bit for bit in bits)
        if not self.causes & ~free & ~(1 << 11):
            free |= 1 << 11
        return self.causes & free


# ---------------------------------------------------------------- the trips


class Finished(Exception):
    """As many commands are written as were asked for."""


class Over(Exception):
    """This trip can only go on with a new start."""


class Trips:
    def __init__(self, seed, count, by_01):
        self.random = random.Random(seed)
        self.left = count
        self.out = []
        self.unit = Picture(by_01)
        self.codes = [code for code in LENGTHS if code not in OF_02 or not by_01]
        self.decks = {}
        self.disturbing = 0.05
        self.fresh_driver()

    def fresh_driver(self):
        self.v = 0
        self.rest = 500.0
        self.halka = 0
        self.neutral = 0
        self.service_plan = self.emergency_plan = None

    # -- small choices

    def pick(self, *choices):
        return self.random.choice(choices)

    def chance(self, p):
        return self.random.random() < p

    def between(self, low, high):
        return self.random.randint(low, high)

    def spread(self, low, high):
        """A figure of a range, often at or next to one of its ends."""
        if self.chance(0.3):
            return self.pick(low, high, min(high, low + 1), max(low, high - 1))
        return self.between(low, high)

    def deal(self, name, cards):
        """The next card of a deck that is shuffled anew whenever it is used up."""
        if not self.decks.get(name):
            self.decks[name] = list(cards)
            self.random.shuffle(self.decks[name])
        return self.decks[name].pop()

    # -- sending

    def emit(self, code, number, operands=b""):
        raw = struct.pack(">BI", code, number & LAST) + operands
        assert len(raw) == LENGTHS[code]
        if self.left == 0:
            raise Finished
        self.left -= 1
        self.out.append(raw)
        return self.unit.take(raw)

    def send(self, code, operands=b""):
        if self.chance(self.disturbing):
            self.disturb()
        if self.unit.number == LAST:
            raise Over
        answer = self.emit(code, self.unit.number + 1, operands)
        if self.unit.state == FA:
            raise Over
        return answer

    def state(self, to):
        return self.send(STATE, bytes([to]))

    def curve(self, number, kind, metres, speed, gradient=0):
        return self.send(CURVE, struct.pack(">BBHHb", number, kind, metres, speed, gradient))

    def end_curve(self, number):
        return self.send(CURVE_END, bytes([number]))

    def section(self, number, speed):
        return self.send(SECTION, struct.pack(">BH", number, speed))

    def end_section(self, number):
        return self.send(SECTION_END, bytes([number]))

    def stop_passed(self, kind):
        return self.send(STOP_PASSED, bytes([kind]))

    def area_event(self, event, speed=0):
        return self.send(AREA_EVENT, struct.pack(">BH", event, speed))

    def record(self, number, category, metres, speed, gradient=0):
        return self.send(RECORD, struct.pack(">BBHHb", number, category, metres, speed, gradient))

    def signal(self, kind, route):
        return self.send(SIGNAL_PASSED, bytes([kind, route]))

    def end_record(self, number):
        return self.send(RECORD_END, bytes([number]))

    def odometer(self, v=None, moved=None, measured=None, drop=None, press=0, half=None):
        """One report; what is not given goes on as it was."""
        if v is not None:
            self.v = min(10000, max(0, v))
        if moved is None:
            moved = min(1200, self.v // 10)
        if measured is None:
            measured = self.pick(0, 0, self.between(-300, 1500))
        if half is None and drop is None:
            drop = self.planned_drop()
            if drop == 0 and self.unit.causes and self.chance(0.1):
                half = self.pick(-101, -32768, 1911)
            elif drop == 150 and self.chance(0.5):
                half = self.pick(1909, 1910) if self.unit.train["flags"] & 2 else self.pick(-100, -1, 0)
        if half is None:
            half = self.half_kpa(drop)
        buttons = press | HALKA * self.halka | NEUTRAL * self.neutral
        operands = struct.pack(">HHhhB", self.v, min(1200, max(0, moved)), measured, half, buttons)
        return self.send(ODOMETER, operands)

    def half_kpa(self, drop):
        """P_EXT for a pressure this much under the reference or the saved or resting pressure."""
        return self.half_for((self.rest if self.unit.phase == "waiting" else self.unit.pressure) - drop)

    def half_for(self, wanted):
        """P_EXT for this pressure."""
        train = self.unit.train
        if train["flags"] & 2:
            half = round(2 * (500 - wanted) * train["p_full"] / 150)
        else:
            half = round(2 * wanted)
        return min(32767, max(-32768, half))

    def planned_drop(self):
        """The pressure drop by the plans made for the two checks when they begin."""
        unit = self.unit
        if not unit.started or unit.state != DA or not unit.causes:
            self.service_plan = self.emergency_plan = None
            return self.pick(0, 0, 0, 0, 0, 10, 29.5, 30.5, -15) if unit.started else 0
        if unit.service is None:
            self.service_plan = None
        elif self.service_plan is None:
            self.service_plan = self.deal("service", ["now", "now", "limit", "never", "never"])
        if unit.emergency is None:
            self.emergency_plan = None
        elif self.emergency_plan is None:
            self.emergency_plan = self.deal("emergency", ["now"] * 4 + ["limit"] * 4 + ["never"])
        if unit.service is None and unit.emergency is None:
            return self.pick(150, 100, 60, 59.5, 30, 0)
        needed = False
        for plan, count, limit in ((self.service_plan, unit.service, unit.train["t_b"]),
                                   (self.emergency_plan, unit.emergency, unit.train["t_ebchk"])):
            if plan == "now" or (plan == "limit" and count + 1 == limit):
                needed = True
        if needed:
            return self.pick(60, 60, 60.5, 75, 150)
        return self.pick(0, 0, 59.5, 59, 30)

    # -- commands that are refused, and repeats

    def disturb(self):
        unit = self.unit
        following = unit.number + 1
        kinds = ["again", "again", "altered", "number", "number", "zero", "range", "range",
                 "range", "state", "state", "end", "start"]
        kind = self.deal("disturb", kinds)
        if kind == "again":
            for _ in range(self.pick(1, 1, 2)):
                self.emit(unit.last[0], unit.number, unit.last[5:])
        elif kind == "altered":
            changed = bytearray(unit.last[5:])
            if changed and unit.last[0] != START:
                changed[-1] ^= 1
                self.emit(unit.last[0], unit.number, bytes(changed))
        elif kind == "number":
            wrong = self.pick(following + 1, following - 2, 1, LAST, self.between(1, LAST))
            code = self.pick(*self.codes)
            if code != START and wrong not in (following, unit.number):
                self.emit(code, wrong, bytes(LENGTHS[code] - 5))
        elif kind == "zero":
            code = self.pick(*self.codes)
            self.emit(code, 0, bytes(LENGTHS[code] - 5))
        elif kind == "range":
            code, operands = self.out_of_range()
            self.emit(code, following, operands)
        elif kind == "state":
            self.not_allowed(following)
        elif kind == "end":
            code = self.pick(CURVE_END, SECTION_END, *([] if unit.by_01 else [RECORD_END]))
            held = {CURVE_END: unit.curves, SECTION_END: unit.sections, RECORD_END: unit.records}[code]
            self.emit(code, following, bytes([self.pick(*(n for n in range(255) if n not in held))]))
        else:
            self.emit(START, self.pick(1, following, LAST), self.bad_start())
        if kind not in ("again", "altered") and self.chance(0.3):
            self.emit(unit.last[0], unit.number, unit.last[5:])

    def bad_start(self):
        train = self.train_data()
        name, form, low, high = self.deal("bad start", self.unit.start_fields)
        top = 255 if form == "B" else 65535
        outside = [value for value in (low - 1, high + 1, 0, top) if 0 <= value <= top
                   and not low <= value <= high]
        train[name] = self.pick(*outside)
        if name == "soft" and self.chance(0.5):
            train["soft"] = train["full"] + 1
        return self.packed(train)

    def out_of_range(self):
        """A command with one operand out of range."""
        if not self.unit.by_01 and self.chance(0.2):
            return AREA_EVENT, struct.pack(">BH", *self.deal("event range", (
                (7, 0), (255, 0), (GMD, 9), (GMD, 301), (GMD, 0), (SIGNAL, 1), (HT_DELETED, 10), (NO_OVERLAP, 130),
                (TO_NON_EQUIPPED, 300), (TO_HT, 256), (TO_FULLY_EQUIPPED, 65535))))
        if not self.unit.by_01 and self.chance(0.2):
            return self.deal("record range", (
                (RECORD, struct.pack(">BBHHb", 255, 0, 100, 40, 0)), (RECORD, struct.pack(">BBHHb", 1, 4, 100, 40, 0)),
                (RECORD, struct.pack(">BBHHb", 1, 255, 100, 40, 0)), (RECORD, struct.pack(">BBHHb", 1, 1, 10001, 40, 0)),
                (RECORD, struct.pack(">BBHHb", 1, 2, 100, 9, 0)), (RECORD, struct.pack(">BBHHb", 1, 3, 100, 301, 0)),
                (RECORD, struct.pack(">BBHHb", 1, 0, 100, 40, 31)), (RECORD, struct.pack(">BBHHb", 1, 1, 100, 40, -31)),
                (SIGNAL_PASSED, b"\2\0"), (SIGNAL_PASSED, b"\0\2"), (SIGNAL_PASSED, b"\xff\1"), (SIGNAL_PASSED, b"\1\xff"),
                (RECORD_END, b"\xff")))
        return self.deal("range", (
            (STATE, bytes([5])), (STATE, bytes([255])),
            (ODOMETER, struct.pack(">HHhhB", 10001, 0, 0, 1000, 0)),
            (ODOMETER, struct.pack(">HHhhB", 100, 1201, 0, 1000, 0)),
            (ODOMETER, struct.pack(">HHhhB", 100, 10, 0, 1000, 16)),
            (ODOMETER, struct.pack(">HHhhB", 100, 10, 0, 1000, 128)),
            (CURVE, struct.pack(">BBHHb", 255, 0, 100, 40, 0)),
            (CURVE, struct.pack(">BBHHb", 1, 2, 100, 40, 0)),
            (CURVE, struct.pack(">BBHHb", 1, 0, 10001, 40, 0)),
            (CURVE, struct.pack(">BBHHb", 1, 0, 100, 9, 0)),
            (CURVE, struct.pack(">BBHHb", 1, 0, 100, 301, 0)),
            (CURVE, struct.pack(">BBHHb", 1, 1, 100, 20, 0)),
            (CURVE, struct.pack(">BBHHb", 1, 1, 100, 41, 0)),
            (CURVE, struct.pack(">BBHHb", 1, 0, 100, 40, 31)),
            (CURVE, struct.pack(">BBHHb", 1, 0, 100, 40, -31)),
            (CURVE_END, bytes([255])), (SECTION_END, bytes([255])),
            (SECTION, struct.pack(">BH", 255, 40)),
            (SECTION, struct.pack(">BH", 1, 9)), (SECTION, struct.pack(">BH", 1, 301)),
            (STOP_PASSED, bytes([3])), (STOP_PASSED, bytes([255]))))

    def not_allowed(self, number):
        state = self.unit.state
        choices = [(STATE, bytes([to])) for to in range(4) if (state, to) not in PATHS]
        if state != DA:
            choices += [(STOP_PASSED, bytes([0])), (STOP_PASSED, bytes([1])), (BALISE_ERROR, b"")]
        if state not in (HS, DA):
            choices += [(CURVE, struct.pack(">BBHHb", 3, 1, 500, 40, -5)), (CURVE_END, b"\3"),
                        (SECTION, struct.pack(">BH", 3, 70)), (SECTION_END, b"\3"), (PROCEED, b"")]
        if self.unit.reference is None and (state, DA) in PATHS:
            choices += [(STATE, bytes([DA]))] * 3
        if not self.unit.by_01 and (state != DE or self.unit.test is not None):
            choices += [(TEST_BRAKES, b"")] * 3
        if not self.unit.by_01:
            choices += 2 * [(AREA_EVENT, struct.pack(">BH", event, 90 if event == GMD else 0)) for event in TAKEN_FROM
                            if state not in (HS, DA) or self.unit.area not in TAKEN_FROM[event]]
            if state not in (HS, DA):
                choices += 3 * [(RECORD, struct.pack(">BBHHb", 3, 1, 500, 40, -5)), (SIGNAL_PASSED, b"\1\0"), (RECORD_END, b"\3")]
            choices += [(RECORD, struct.pack(">BBHHb", held, 1, 500, 40, -5)) for held, record in self.unit.records.items()
                        if record["is"] != "active"]
        code, operands = self.pick(*choices)
        self.emit(code, number, operands)

    # -- starts

    def train_data(self):
        if self.chance(0.12):
            train = {name: self.pick(low, high) for name, _, low, high in self.unit.start_fields}
        else:
            train = {
                "flags": self.deal("flags", range(self.unit.start_fields[0][3] + 1)),
                "speed": self.pick(100, 160, 170, 200, self.spread(10, 300), self.spread(60, 300)),
                "length": self.pick(10, 11, 25, self.between(10, 60), self.between(10, 60),
                                    self.spread(10, 1000)),
                "full": self.pick(700, 500, 1000, 2000, self.spread(400, 2000)),
                "soft": self.pick(400, 500, 1000, self.spread(400, 2000)),
                "t_b": self.pick(1, 2, 3, 5, 8, 12, 30, self.spread(1, 100)),
                "g_c": self.pick(20, 20, self.spread(0, 200)),
                "g_p": self.pick(20, 20, self.spread(0, 200)),
                "g_bf": self.pick(30, 30, self.spread(0, 200)),
                "f_margin": self.pick(10, 9, 18, self.spread(1, 30)),
                "e_margin": self.pick(15, self.spread(11, 30)),
                "sufficient": self.pick(30, 50, 60, self.spread(30, 150)),
                "p_full": self.pick(380, 300, 75 * self.between(2, 8), 5 * self.between(30, 120),
                                    self.spread(150, 600)),
                "t_ebchk": self.pick(1, 2, 3, 5, 8, 13, self.spread(1, 100)),
            }
        train["soft"] = min(train["soft"], train["full"])
        if self.chance(0.15):
            train["t_ebchk"] = train["t_b"]
        return train

    def packed(self, train):
        return struct.pack(START_FORM, *(train[name] for name, _, _, _ in START_FIELDS))

    def start(self):
        number = self.deal("number", ["one", "one", "next", "any", "any", "high", "last"])
        number = {"one": 1, "next": min(LAST, self.unit.number + 1), "any": self.between(2, LAST - 5000),
                  "high": LAST - self.between(60, 160), "last": LAST}[number]
        self.emit(START, number, self.packed(self.train_data()))
        self.fresh_driver()

    def before_any_start(self):
        for _ in range(3):
            code = self.pick(*(code for code in self.codes if code != START))
            self.emit(code, self.between(0, 3), bytes(LENGTHS[code] - 5))
        self.emit(START, 0, self.packed(self.train_data()))
        self.emit(START, 1, self.bad_start())
        self.emit(STATE, 1, bytes([CS]))

    # -- pressure

    def settle(self):
        """Reports until there is a reference pressure, with or without setbacks."""
        train = self.unit.train
        cylinder = train["flags"] & 2
        self.rest = float(self.pick(500, 480, 400, 400, 450.5, self.between(400, 500)))
        if cylinder:
            self.rest = 500 - 75 * self.between(0, train["p_full"]) / train["p_full"]
        elif self.chance(0.6):
            self.rest = self.pick(550.0, 549.5, 549.0, float(self.between(400, 550)))
        if self.chance(0.4):
            half = self.pick(-101, -100, -1, 0, 799, 799, 1000, 1911, 32767, -32768)
            for _ in range(self.between(1, 3)):
                self.odometer(half=half)
        setback = self.between(3, 29) if self.chance(0.35) else None
        while self.unit.phase != "set":
            settling = self.unit.phase == "settling"
            if settling and self.unit.count == setback:
                setback = None
                self.odometer(drop=self.pick(20.5, -20.5, 150, 500))
                continue
            drop = self.pick(0, 0, 0, 5, -5, 20, -20) if settling else 0
            if cylinder and settling:
                drop = self.pick(0, 0, 0, 5, 19.5)
            self.odometer(drop=drop, press=self.pick(0, 0, 0, LOSS, TEXT))
            if not settling and self.unit.phase == "waiting":
                self.rest = 490.0
        if self.chance(0.5):
            self.adapt()

    def adapt(self):
        """Reports that move the reference, or just fail to."""
        drop = self.pick(30, 30.5, 0.5, -0.5, -30, 0, 31, 29.5)
        for _ in range(self.pick(10, 11, 20)):
            self.odometer(drop=drop)

    def over_550(self):
        """A reference above 550 kPa, and faults of the sensor while it stands."""
        train = self.unit.train
        if train["flags"] & 2 or self.unit.pressure < 545:
            return
        for _ in range(30):
            if self.unit.pressure > 550:
                break
            self.odometer(half=self.pick(1100, 1100, 1900))
        for _ in range(self.pick(10, 20)):
            self.odometer(half=self.pick(-101, -2000))

    # -- things that happen in DE

    def brake_tests(self):
        """Brake tests, one after the other, with a reference or without; the last may be left unfinished."""
        if self.chance(0.3):
            self.settle()
        for _ in range(self.pick(0, 1, 1, 2)):
            if self.unit.test is None:
                self.brake_test()
        self.v = 0

    def brake_test(self):
        """A brake test that ends in one of the ways there are, or is left open."""
        unit = self.unit
        end = self.deal("test", ("at once", "later", "later", "at T_B", "at T_B", "never", "never", "speed", "sensor", "start", "open",
                                 "early speed", "early sensor", "early start", "early open"))
        if self.chance(0.6):
            self.odometer(v=self.pick(0, 40), half=self.pick(None, None, 1911))
        self.send(TEST_BRAKES)
        if self.chance(0.3):
            self.emit(TEST_BRAKES, unit.number + self.pick(0, 1))
        self.settle_test(self.between(0, 30) if end.startswith("early") else None)
        if end in ("at once", "later", "at T_B", "never"):
            t_b = unit.train["t_b"]
            self.brake_for_test({"at once": 1, "later": self.between(1, t_b), "at T_B": t_b, "never": None}[end])
        elif end.endswith("speed"):
            self.odometer(v=self.pick(1, 1, 40, 10000), half=self.half_for(self.test_pressure() - self.pick(0, 60)))
        elif end.endswith("sensor"):
            self.odometer(v=0, half=self.pick(-101, 1911, -32768, 32767))
        elif end.endswith("start"):
            self.start()
        elif self.chance(0.2):
            self.state(FA)

    def test_pressure(self):
        """The pressure that the test saved, or one that it can save."""
        return self.rest if self.unit.test is None or self.unit.test[0] == "waiting" else self.unit.test[1]

    def settle_test(self, most):
        """Reports until the test's pressure is settled, with or without a setback, or so many at most."""
        unit, train = self.unit, self.unit.train
        cylinder = train["flags"] & 2
        self.rest = float(self.pick(400, 450.5, 500, 550, self.between(400, 550)))
        if cylinder:
            self.rest = 500 - 75 * self.between(0, train["p_full"]) / train["p_full"]
        setback = self.between(3, 29) if self.chance(0.35) else None
        reports = 0
        while unit.test is not None and unit.test[0] != "set" and reports != most:
            phase, _, count = unit.test
            drop = 0
            if phase == "settling":
                drop = self.pick(0, 0, 0, 5, 19.5) if cylinder else self.pick(0, 0, 0, 5, -5, 20, -20)
            if phase == "settling" and count == setback:
                setback, drop = None, self.pick(20.5, -20.5, 150, 500)
            self.odometer(v=0, moved=self.pick(0, 0, 0, 7), half=self.half_for(self.test_pressure() - drop))
            reports += 1

    def brake_for_test(self, at):
        """The reports after the one that settles it, with a drop of 60 kPa at the one of this count, or never."""
        unit = self.unit
        while unit.test is not None:
            enough = unit.test[2] + 1 == at
            drop = self.pick(60, 60, 60.5, 75, 150) if enough else self.pick(0, 30, 59, 59.5)
            half = self.half_for(self.test_pressure() - drop)
            if self.chance(0.05):
                half = self.pick(-100, 1910)
            self.odometer(v=0, moved=self.pick(0, 0, 0, 7), half=half, press=self.pick(0, 0, 0, LOSS, TEXT))

    # -- things that happen in DA

    def quiet(self):
        """A few reports under all limits."""
        limit = min([self.unit.vmax] + [curve["speed"] for curve in self.unit.supervised])
        for _ in range(self.between(1, 4)):
            self.odometer(v=self.between(0, below(limit)))

    def free(self):
        """Halts, brakes and presses until no cause stands."""
        for _ in range(3):
            if not self.unit.causes:
                break
            self.neutral = 0
            self.wait_for_hold()
            self.odometer(v=0, moved=0, measured=self.unit.train["full"])
            self.odometer(v=0, moved=0, press=LOSS | TEXT)
        if self.chance(0.5):
            self.odometer(v=0, moved=0)

    def wait(self):
        """Holds the speed until the running checks are through."""
        for _ in range(40):
            if self.unit.service is None and self.unit.emergency is None:
                break
            self.odometer(moved=self.pick(0, 5))

    def wait_for_hold(self):
        """Stands still until an error at low speed holds bit 9 no longer."""
        for _ in range(20):
            if self.unit.low is not None and self.unit.low < 19 and self.unit.causes >> 9 & 1:
                self.odometer(v=0, moved=0)

    def press(self, button):
        """A button pressed, held and let go, at the speed that stands."""
        for held in self.pick((0, 1, 1, 0), (1, 1, 0), (0, 1), (1, 0, 1)):
            self.odometer(press=button * held, moved=self.pick(0, 3))

    def any_id(self, held, places=16):
        """An id for a curve, section or record: held ones too, and only those when all are held."""
        if held and (len(held) == places or self.chance(0.4)):
            return self.pick(*held)
        return self.pick(0, 1, 2, 253, 254, self.between(0, 254))

    def overspeed(self):
        unit = self.unit
        speeds = [below(unit.vmax + 10), at(unit.vmax + 10)]
        if self.chance(0.5):
            margin = unit.train["e_margin"]
            speeds += [below(unit.vmax + margin), at(unit.vmax + margin)]
        for v in speeds:
            self.odometer(v=v)
        self.wait()
        self.odometer(v=at(unit.vmax + 5))
        self.press(LOSS)
        self.odometer(v=below(unit.vmax + 5))
        self.press(LOSS)

    def a_curve(self):
        """Figures of a curve and a speed above its floor, mostly one without overspeed."""
        unit = self.unit
        kind = self.deal("kind", (0, 1))
        top = unit.vmax + 9
        if self.chance(0.4):
            return self.a_round_curve(kind)
        if kind:
            floor = self.pick(10, 40)
        else:
            floor = self.pick(10, 40, self.spread(10, 300), self.spread(10, max(10, unit.vmax - 20)))
        gradient = self.pick(0, 0, self.spread(-30, 30))
        k = floor + self.pick(1, 9, 10, 11, self.between(1, 90), self.between(1, 90))
        if k > top and self.chance(0.8):
            floor = 10
            k = max(11, min(k, top))
        v = self.pick(at(k), at(k), below(k), upto(k) + 1, self.between(at(k), at(k + 1)))
        return kind, floor, gradient, min(10000, max(v, upto(floor) + 1))

    def a_round_curve(self, kind):
        """Figures that meet limits and boundaries exactly: whole 9 km/h are whole 250 cm/s."""
        floor = self.pick(10, 40) if kind else 9 * self.between(2, 12)
        low = floor // 9 + 1
        v = 250 * self.between(low, low + self.pick(2, 4, 8))
        return kind, floor, 0, min(9750, v)

    def grazing(self):
        """At a curve's target: its floor, the speed where it brakes and where F begins, each exactly."""
        unit = self.unit
        number = self.any_id(unit.curves)
        margin = unit.train["f_margin"]
        self.halka = self.pick(0, 1)
        for more in (0, 10, margin):
            floor = 9 * self.between(4, 10) - more
            self.curve(number, 0, 0, max(10, floor))
            k = max(10, floor) + more
            for v in (upto(k) - 1, upto(k), upto(k) + 1):
                self.odometer(v=v)
        self.after_curve(number, 10)
        self.halka = 0

    def boundaries(self):
        """A curve put just before each boundary in turn, and a report one cm on."""
        unit = self.unit
        kind, floor, gradient, v = self.a_curve()
        number = self.any_id(unit.curves)
        self.halka = self.pick(0, 0, 1)
        self.odometer(v=min(v, upto(floor)))
        names = ["Bf", "B", "P", "C", "D", "E", "F"]
        if self.chance(0.2):
            self.random.shuffle(names)
        model = {"kind": kind, "speed": floor, "gradient": gradient}
        for name in names:
            distance = unit.boundary(model, name, v)
            metres = distance // 100 + 1
            if distance < 0 or metres > 10000:
                continue
            self.curve(number, kind, metres, floor, gradient)
            drop = None
            if name == "D":
                enough = unit.train["sufficient"]
                drop = self.pick(0, enough, enough - 0.5, enough + 1, None)
            self.odometer(v=v, moved=100 * metres - distance - 1, drop=drop)
            self.odometer(moved=1, drop=drop)
        self.after_curve(number, floor)

    def approach(self):
        """A train that runs towards a curve and brakes in time, late or not at all."""
        unit = self.unit
        kind, floor, gradient, v = self.a_curve()
        self.halka = self.pick(0, 0, 1)
        self.odometer(v=min(v, upto(floor)))
        model = {"kind": kind, "speed": floor, "gradient": gradient}
        metres = min(10000, unit.boundary(model, "Bf", v) // 100 + self.between(1, 8))
        number = self.any_id(unit.curves)
        self.curve(number, kind, metres, floor, gradient)
        step = min(1200, max(1, 100 * metres // self.between(12, 30)))
        brake_at = self.deal("brake at", ("Bf", "B", "C", "D", "E", "F", "F"))
        order = ("A", "Bf", "B", "C", "D", "E", "F")
        braking = False
        for _ in range(45):
            curve = unit.curves.get(number)
            if curve is None or (curve["d"] == 0 and braking):
                break
            if order.index(unit.interval(curve, self.v)) >= order.index(brake_at):
                braking = True
            if braking:
                self.v = max(upto(floor) - 20, self.v - max(20, v // 12))
            self.odometer(v=self.v if braking else v, moved=step)
            if self.chance(0.05):
                self.halka ^= 1
        self.after_curve(number, floor)

    def after_curve(self, number, floor):
        unit = self.unit
        if self.chance(0.5):
            self.wait()
        if self.chance(0.5):
            self.press(LOSS)
        for v in (at(floor + 10), below(floor + 10), upto(floor) + 1, upto(floor)):
            if self.chance(0.6):
                self.odometer(v=v, moved=self.pick(0, 1))
        if unit.causes:
            self.press(LOSS)
        if self.chance(0.8) and number in unit.curves:
            self.end_curve(number)

    def halka_while_braking(self):
        """A curve that brakes while HALKA comes or goes."""
        unit = self.unit
        number = self.any_id(unit.curves)
        self.halka = self.pick(0, 1)
        kind = self.pick(0, 1)
        v = self.between(at(60), max(at(61), below(unit.vmax)))
        self.curve(number, kind, self.pick(0, 1, 20), 40, self.pick(0, -30, 30))
        self.odometer(v=v)
        self.wait()
        self.halka ^= 1
        self.odometer(v=v)
        self.odometer(v=v)
        self.after_curve(number, 40)
        self.halka = 0

    def only_service_on_a_curve(self):
        """A curve left in D or E: bit 2 or 3 without bit 4."""
        unit = self.unit
        number = self.any_id(unit.curves)
        floor = 10 if unit.vmax < 60 else 40
        v = at(floor + self.pick(10, 12, 15))
        self.halka = self.pick(0, 1)
        self.odometer(v=upto(floor))
        model = {"kind": 0, "speed": floor, "gradient": 0}
        name = self.pick("D", "D", "E")
        distance = unit.boundary(model, name, v)
        metres = distance // 100 + 1
        if metres > 10000:
            return
        self.curve(number, 0, metres, floor)
        self.odometer(v=v, moved=100 * metres - distance, drop=self.pick(0, 0, 59.5))
        for _ in range(self.between(1, 3)):
            self.odometer(moved=0)
        self.wait()
        self.after_curve(number, floor)
        self.halka = 0

    def in_d(self):
        """A curve in D that doesn't brake, where the mode tells whether the drop is sufficient."""
        unit = self.unit
        self.free()
        for number in list(unit.curves):
            self.end_curve(number)
        floor = self.pick(10, 40)
        v = at(floor + 5)
        distance = unit.boundary({"kind": 0, "speed": floor, "gradient": 0}, "D", v)
        metres = distance // 100 + 1
        self.halka = 0
        self.odometer(v=upto(floor))
        self.curve(self.any_id(unit.curves), 0, metres, floor)
        self.odometer(v=v, moved=100 * metres - distance)
        enough = unit.train["sufficient"]
        for _ in range(self.pick(6, 12, 24)):
            if unit.count == 9:
                drop = self.pick(-5, -5, 0.5, 29.5, 30, 30)
            else:
                drop = self.pick(enough, enough, enough, enough - 0.5, enough + 0.5)
            self.odometer(moved=0, drop=drop)

    def both_checks(self):
        """An emergency order without a drop to the end of both checks, LOSS pressed at it."""
        unit = self.unit
        self.free()
        if unit.train["t_b"] != unit.train["t_ebchk"] or unit.train["t_b"] > 20:
            return
        self.stop_passed(0)
        for left in range(unit.train["t_b"], 0, -1):
            self.odometer(v=0, moved=0, drop=self.pick(0, 59.5), press=LOSS if left == 1 else 0)

    def crowd(self):
        """Several curves at once, some of them alike but for their ids."""
        unit = self.unit
        kind, floor, gradient, v = self.a_curve()
        model = {"kind": kind, "speed": floor, "gradient": gradient}
        metres = min(10000, max(0, unit.boundary(model, self.pick("Bf", "B", "C", "D"), v) // 100 + 1))
        numbers = []
        for _ in range(self.between(2, 4)):
            number = self.any_id(unit.curves)
            near = max(0, min(10000, metres + self.pick(0, 0, 0, 5, -5)))
            self.curve(number, kind, near, floor, gradient)
            numbers.append(number)
        for _ in range(3):
            self.odometer(v=v, moved=self.pick(0, 100, 400))
        if self.chance(0.5):
            self.send(PROCEED)
        for number in numbers:
            if number in unit.curves and self.chance(0.7):
                self.end_curve(number)
        self.odometer()

    def fill_curves(self):
        """All sixteen places of curves, one too many, and a place used again."""
        unit = self.unit
        if unit.state == DA:
            self.odometer(v=self.between(0, 270))
        while len(unit.curves) < 16:
            number = self.pick(*(n for n in range(255) if n not in unit.curves))
            self.curve(number, self.pick(0, 1), self.spread(0, 10000), self.pick(10, 40),
                       self.spread(-30, 30))
        free = [n for n in range(255) if n not in unit.curves]
        self.curve(self.pick(*free), 0, 500, 40)
        self.curve(self.pick(*unit.curves), 0, self.between(0, 9000), self.between(10, 300))
        self.odometer()
        gone = self.pick(*unit.curves)
        self.end_curve(gone)
        self.end_curve(gone)
        self.curve(self.pick(*free), 1, 800, 40)
        self.odometer()
        self.thin_out(unit.curves, self.end_curve)

    def fill_sections(self):
        unit = self.unit
        self.odometer(v=self.between(0, 270))
        while len(unit.sections) < 16:
            number = self.pick(*(n for n in range(255) if n not in unit.sections))
            self.section(number, self.spread(10, 300))
        free = [n for n in range(255) if n not in unit.sections]
        self.section(self.pick(*free), 40)
        self.end_section(self.pick(*unit.sections))
        self.section(self.pick(*free), 40)
        self.run_over_length()
        self.section(self.pick(*free), self.between(100, 300))
        self.odometer()
        self.thin_out([n for n, (_, ground) in unit.sections.items() if ground is None],
                      self.end_section)
        self.run_over_length()

    def thin_out(self, held, end):
        for number in list(held):
            if self.chance(0.9):
                end(number)

    def run_over_length(self):
        """Ground until all ending sections are gone: to 1 cm before, then 1 cm more."""
        unit = self.unit
        for _ in range(self.pick(12, 12, 12, 90)):
            grounds = [ground for _, ground in unit.sections.values() if ground is not None]
            if not grounds:
                break
            rest = 100 * unit.train["length"] - max(grounds)
            self.odometer(moved=min(1200, rest - 1 if rest > 1 else 1))

    def sections(self):
        unit = self.unit
        number = self.any_id(unit.sections)
        speed = self.pick(10, 40, 70, 80, 85, 98, self.spread(10, 300), max(10, unit.train["speed"] - 30))
        self.section(number, speed)
        limit = unit.vmax
        self.odometer(v=self.pick(below(limit + 10), at(limit + 10), below(limit + 5), upto(limit)))
        if self.chance(0.4):
            self.section(number, self.spread(10, 300))
            self.odometer()
        self.end_section(number)
        if self.chance(0.4):
            self.end_section(number)
        if self.chance(0.3):
            self.odometer(moved=100)
            self.section(number, self.pick(speed, self.spread(10, 300)))
            self.odometer(moved=1000)
            self.end_section(number)
        self.odometer(v=min(self.v, below(unit.vmax + 5)))
        self.press(LOSS)
        self.run_over_length()

    def aimed_stop(self):
        self.passed(0)

    def landslide(self):
        self.passed(2)

    def passed(self, kind):
        """A stop that only a halt frees: tried before it, then at it."""
        if self.chance(0.3):
            self.odometer(v=0, moved=0)
        self.stop_passed(kind)
        self.odometer(v=self.pick(0, 5, 400), moved=self.pick(1, 30), press=self.pick(0, LOSS))
        self.wait()
        self.press(LOSS)
        self.odometer(v=0, moved=self.pick(0, 1))
        if self.chance(0.3):
            self.stop_passed(kind)
            self.press(LOSS)
        self.odometer(v=0, moved=0, press=self.pick(0, LOSS))
        self.press(LOSS)

    def unexpected_stop(self):
        unit = self.unit
        first = self.deal("unexpected", ("brakes", "slows"))
        if self.chance(0.6):
            self.free()
            self.thin_out(unit.curves, self.end_curve)
        self.odometer(v=self.pick(at(45), below(45), below(50), at(50), 300))
        self.stop_passed(1)
        seven_tenths = -(-7 * unit.train["full"] // 10)
        if first == "brakes":
            self.odometer(v=at(unit.vmax + 5), measured=seven_tenths - 1, press=0)
            self.odometer(measured=seven_tenths - 1, press=LOSS)
            self.odometer(measured=seven_tenths)
            self.odometer(measured=0, press=LOSS)
            self.wait()
            self.odometer(v=below(unit.vmax + 5))
        else:
            self.odometer(v=below(unit.vmax + 5), measured=self.pick(-32768, seven_tenths - 1))
            self.odometer(measured=-100, press=LOSS)
            self.wait()
            self.odometer(measured=self.pick(seven_tenths, 32767))
        self.press(LOSS)
        if self.chance(0.7):
            self.send(PROCEED)
            self.odometer()

    def stops_in_a_row(self):
        """One stop freed by its halt, and another passed after it."""
        for kind in self.pick((0, 2), (2, 0), (0, 1), (2, 1), (1, 0), (1, 2)):
            self.stop_passed(kind)
            self.odometer(v=0, moved=0, measured=self.pick(0, self.unit.train["full"]))
        self.stop_passed(self.pick(0, 1, 2))
        self.odometer(v=5, moved=1, measured=0, press=LOSS)
        self.odometer(v=0, moved=0)
        self.odometer(press=LOSS)

    def balise_error(self):
        self.odometer(v=self.pick(upto(80), upto(80) + 1, 300))
        self.send(BALISE_ERROR)
        self.odometer(v=upto(80) + 1)
        self.press(LOSS)
        self.wait()
        self.odometer(v=upto(80))
        if self.chance(0.2):
            self.send(BALISE_ERROR)
        self.press(LOSS)
        for _ in range(22):
            if self.unit.low is not None and self.unit.causes >> 9 & 1:
                self.odometer(v=self.pick(0, upto(80), upto(80) + 1), moved=0, press=self.pick(0, LOSS))

    def roll(self):
        """Rolling in neutral to 500 cm and over."""
        self.odometer(v=0, moved=0)
        self.neutral = 1
        self.odometer(v=self.pick(0, 40), moved=self.pick(1, 100, 250))
        if self.chance(0.25):
            self.neutral = 0
            self.odometer(v=self.pick(0, 40), moved=self.pick(0, 5) or 5)
            self.neutral = 1
        rest = 500 - (self.unit.rolled or 0)
        held = self.pick(0, 0, TEXT)
        if rest > 0:
            self.odometer(v=40, moved=rest, press=held)
        self.odometer(v=40, moved=1, press=self.pick(held, held, TEXT))
        if held:
            self.odometer(v=40, moved=1, press=held)
        ends = self.deal("roll", ("text", "text", "wait", "loss", "go on", "in gear"))
        if ends == "wait":
            self.neutral = self.pick(0, 1)
            self.wait()
        elif ends == "loss":
            self.press(LOSS)
        elif ends == "go on":
            self.odometer(v=90, moved=600)
        elif ends == "in gear":
            self.neutral = 0
            self.odometer(v=40, moved=4)
            self.neutral = 1
        self.press(TEXT)
        self.odometer(v=40, moved=self.pick(499, 500, 501))
        self.neutral = 0
        self.press(self.pick(TEXT, LOSS | TEXT))

    def failing_service(self):
        """An order without a drop, until bit 11 comes."""
        unit = self.unit
        self.free()
        if unit.train["t_b"] > 40:
            return
        what = self.deal("failing", ("balise", "overspeed", "landslide", "curve") + 4 * ("roll",))
        if what == "balise":
            self.send(BALISE_ERROR)
        elif what == "overspeed":
            self.odometer(v=at(unit.vmax + 10))
        elif what == "landslide":
            self.stop_passed(2)
        elif what == "curve":
            self.curve(self.any_id(unit.curves), 0, 0, 30)
            self.odometer(v=at(40), moved=0)
        else:
            self.odometer(v=0, moved=0)
            self.neutral = 1
            self.odometer(v=30, moved=501)
        if not unit.causes:
            return
        self.service_plan = "never"
        for _ in range(unit.train["t_b"]):
            if unit.service is None:
                break
            at_limit = unit.service + 1 == unit.train["t_b"]
            self.service_plan = "never"
            self.odometer(moved=self.pick(0, 2), press=self.pick(0, 0, 0, LOSS) if at_limit else 0)
        self.wait()
        self.neutral = 0
        if self.chance(0.08):
            self.state(FA)
        if what == "roll":
            self.odometer()
            self.odometer(press=self.deal("failed roll", (TEXT, TEXT, TEXT, LOSS, LOSS | TEXT)))
            self.odometer()
        self.odometer(v=0, moved=0)
        self.press(self.pick(LOSS, LOSS | TEXT))

    def pile(self):
        """Many causes at once, freed in some order."""
        unit = self.unit
        for _ in range(self.between(2, 5)):
            what = self.deal("pile", ("aimed", "unexpected", "landslide", "balise", "overspeed",
                                      "curve", "wild"))
            if what == "balise":
                self.send(BALISE_ERROR)
            elif what == "overspeed":
                self.odometer(v=at(unit.vmax + 10))
            elif what == "curve":
                self.curve(self.any_id(unit.curves), 1, 0, 10)
            elif what == "wild":
                self.odometer(v=self.spread(0, 10000), moved=self.spread(0, 1200))
            else:
                self.stop_passed(("aimed", "unexpected", "landslide").index(what))
        if self.chance(0.5):
            self.odometer(v=0, moved=0)
            self.neutral = 1
            self.odometer(v=30, moved=501)
            self.neutral = 0
        self.wait()
        for v in (at(unit.vmax + 5), below(unit.vmax + 5), upto(80), upto(10), 0):
            if self.chance(0.6):
                self.odometer(v=v, measured=self.pick(0, unit.train["full"]), press=self.pick(0, LOSS, TEXT))
        self.press(LOSS | TEXT)

    def sensor(self):
        """Pressures at and past the ends of the sensor."""
        for _ in range(self.between(2, 5)):
            self.odometer(half=self.pick(-101, -100, -99, -1, 0, 1, 1099, 1100, 1101, 1909, 1910, 1911,
                                         32767, -32768))
        if self.chance(0.3):
            self.adapt()

    def extremes(self):
        """Operands at the ends of their ranges."""
        unit = self.unit
        number = self.any_id(unit.curves)
        kind = self.pick(0, 1)
        self.curve(number, kind, self.pick(0, 10000), self.pick(10, 40 if kind else 300), self.pick(-30, 30))
        self.section(self.any_id(unit.sections), self.pick(10, 300))
        self.odometer(v=self.pick(0, 10000), moved=self.pick(0, 1200), measured=self.pick(-32768, 32767),
                      press=self.pick(0, LOSS | TEXT))
        self.odometer(v=self.pick(0, 1, 10000), moved=self.pick(0, 1200), measured=self.pick(-32768, 32767))
        self.end_curve(number)
        self.thin_out([n for n, (_, ground) in unit.sections.items() if ground is None],
                      self.end_section)

    # -- the areas of the track, in HS and DA

    def an_event(self, event):
        speed = self.pick(10, 70, 130, 300, self.spread(10, 300), min(300, self.unit.train["speed"] + 1)) if event == GMD else 0
        return self.area_event(event, speed)

    def some_events(self):
        """Events of all kinds, most of them taken in the area that stands."""
        unit = self.unit
        for _ in range(self.between(1, 3)):
            event = self.deal("event", TAKEN_FROM)
            if unit.area not in TAKEN_FROM[event] and self.chance(0.7):
                self.an_event(self.pick(*(e for e in TAKEN_FROM if unit.area in TAKEN_FROM[e])))
            self.an_event(event)
            if self.chance(0.5):
                self.odometer(moved=self.pick(None, 0, 1200))

    def areas(self):
        """Events, and speeds at what they leave of VMAX."""
        self.some_events()
        limit = self.unit.vmax
        self.odometer(v=self.pick(below(limit + 10), at(limit + 10), below(limit + 5), upto(limit)))
        self.some_events()
        self.odometer()

    def gmd_over_sections(self):
        """Sections, one of them ending, that an entering GMD deletes, or one inside does not."""
        unit = self.unit
        self.odometer(v=self.between(0, 270))
        for _ in range(self.between(1, 3)):
            self.section(self.any_id(unit.sections), self.spread(10, 300))
        standing = [n for n, (_, ground) in unit.sections.items() if ground is None]
        if self.chance(0.6):
            self.end_section(self.pick(*standing))
        if unit.area != NON_EQUIPPED and self.chance(0.8):
            self.area_event(TO_NON_EQUIPPED)
        held = list(unit.sections)
        self.an_event(GMD)
        self.odometer(moved=self.pick(0, 100))
        if self.chance(0.5):
            self.end_section(self.pick(*held))

    def group_without_overlap(self):
        """Up to 50 m from a group without overlap, or to what ends that."""
        unit = self.unit
        if unit.area != FULLY_EQUIPPED:
            self.area_event(TO_FULLY_EQUIPPED)
        end = self.deal("group", ("50 m",) * 6 + ("event", "event", "CS", "start"))
        v = self.pick(None, 0, at(140), below(140), at(130))
        self.area_event(NO_OVERLAP)
        last = self.pick(4999, 4999, 5000, 5001, self.between(4990, 6000))
        while end == "50 m" and unit.pending is not None:
            rest = last - unit.pending if unit.pending < last else 1
            self.odometer(v=v, moved=min(rest, self.pick(1200, 1199, 900)))
            if self.chance(0.15):
                self.an_event(self.pick(NO_OVERLAP, NO_OVERLAP, SIGNAL, GMD, TO_FULLY_EQUIPPED))
        self.odometer(moved=1200)
        if end == "event":
            self.an_event(self.pick(HT_DELETED, TO_NON_EQUIPPED, TO_HT))
        elif end == "CS":
            self.straight_round()
        elif end == "start":
            self.start()
            self.reach_da()
        for _ in range(self.pick(0, 4, 5)):
            self.odometer(moved=1200)

    # -- ET records, in HS and DA

    def a_board(self, **said):
        """A board of any category, near or far; `said` has what is not left to chance. Gives the id."""
        unit = self.unit
        number = said.get("number", self.any_id(unit.records, 8))
        self.record(number, said.get("category", self.deal("category", CATEGORIES)),
                    said.get("metres", self.pick(0, 99, 100, self.spread(0, 10000), self.between(50, 600))),
                    said.get("speed", self.pick(10, 40, self.spread(10, 300))), said.get("gradient", self.pick(0, 0, -5, self.spread(-30, 30))))
        return number

    def a_signal(self):
        return self.signal(*self.deal("signal", [(kind, route) for kind in (MAIN, DISTANT) for route in (0, 1)]))

    def pass_controlling(self, category, own=True):
        kind, route = controls(category)
        return self.signal(kind, route if own else 1 - route)

    def clear_records(self):
        for number in list(self.unit.records):
            if self.chance(0.8):
                self.end_record(number)

    def boards(self):
        """Boards and signals of all kinds, with ground between them, repeaters and ends."""
        unit = self.unit
        if unit.state == DA:
            self.odometer(v=self.between(0, 300))
        for _ in range(self.between(3, 10)):
            what = self.deal("boards", ("board", "board", "board", "signal", "signal", "signal", "held", "held", "ground", "end"))
            if what == "signal":
                self.a_signal()
            elif what == "ground":
                for _ in range(self.between(1, 9)):
                    self.odometer(moved=self.pick(1200, 1199, 1))
            elif what == "end" and unit.records:
                self.end_record(self.pick(*unit.records))
            elif what == "held" and unit.records:
                self.a_board(number=self.pick(*unit.records))
            else:
                self.a_board()
            if self.chance(0.3):
                self.odometer()
        self.clear_records()

    def to_100_m(self):
        """A board up to 100 m to the centimetre, with or without its signal; it brakes where it is locked, or does not."""
        unit = self.unit
        _, floor, gradient, v = self.a_curve()
        v = min(v, upto(unit.vmax))
        model = {"kind": 0, "speed": floor, "gradient": gradient}
        distance = unit.boundary(model, self.pick("Bf", "B", "P", "C", "D", "E", "F"), v)
        metres = self.pick(0, 50, min(10000, max(0, distance // 100) + 100), min(10000, max(0, distance // 100) + 101))
        category = self.deal("category", CATEGORIES)
        self.odometer(v=v)
        number = self.a_board(category=category, metres=metres, speed=floor, gradient=gradient)
        last = self.pick(9999, 9999, 10000, 10001, self.between(9000, 10600))
        while number in unit.records and unit.records[number]["is"] == "undecided" and unit.records[number]["ground"] < last:
            self.odometer(v=v, moved=min(last - unit.records[number]["ground"], self.pick(1200, 1200, 1199)))
            if self.chance(0.08):
                self.signal(1 - controls(category)[0], self.pick(0, 1))
        if self.chance(0.5):
            self.pass_controlling(category, self.chance(0.6))
        self.odometer(v=v, moved=1)
        self.a_signal()
        self.odometer(v=v, moved=self.pick(0, 1, 1200))
        if self.chance(0.5):
            self.a_board(number=number)
        self.after_record(number, floor)

    def after_record(self, number, floor):
        unit = self.unit
        if self.chance(0.5):
            self.wait()
        for v in (at(floor + 10), below(floor + 10), upto(floor) + 1, upto(floor)):
            if self.chance(0.5):
                self.odometer(v=v, moved=self.pick(0, 1))
        if unit.causes and self.chance(0.7):
            self.press(LOSS)
        if self.chance(0.85) and number in unit.records:
            self.end_record(number)
        if unit.causes:
            self.press(LOSS)

    def record_boundaries(self):
        """An active record put just before each boundary in turn by a repeater, and a report one cm on."""
        unit = self.unit
        _, floor, gradient, v = self.a_curve()
        floor = max(10, floor)
        number = self.any_id(unit.records, 8)
        self.halka = self.pick(0, 0, 1)
        self.odometer(v=min(v, upto(floor)))
        model = {"kind": 0, "speed": floor, "gradient": gradient}
        for name in ("Bf", "B", "P", "C", "D", "E", "F"):
            distance = unit.boundary(model, name, v)
            metres = distance // 100 + 1
            if distance < 0 or metres > 10000:
                continue
            category = self.deal("category", CATEGORIES)
            self.a_board(number=number, category=category, metres=metres, speed=floor, gradient=gradient)
            if self.chance(0.9):
                self.pass_controlling(category)
            self.odometer(v=v, moved=100 * metres - distance - 1)
            self.odometer(moved=1)
            if self.chance(0.2):
                self.curve(self.any_id(unit.curves), 0, metres, floor, gradient)
                self.odometer(moved=0)
        self.after_record(number, floor)
        self.halka = 0

    def crowd_of_both(self):
        """Curves and records at once, alike but for their ids, or nearly."""
        unit = self.unit
        _, floor, gradient, v = self.a_curve()
        floor = max(10, floor)
        model = {"kind": 0, "speed": floor, "gradient": gradient}
        metres = min(10000, max(0, unit.boundary(model, self.pick("Bf", "B", "C", "D"), v) // 100 + 1))
        category = self.deal("category", CATEGORIES)
        ids = [self.pick(0, 1, 2, 253, 254, self.between(0, 254)) for _ in range(3)]
        for number in ids[:self.between(1, 3)]:
            self.a_board(number=number, category=category, metres=metres, speed=floor, gradient=gradient)
        self.pass_controlling(category, self.chance(0.8))
        numbers = [self.pick(*ids, self.between(0, 254)) for _ in range(self.between(1, 2))]
        for number in numbers:
            self.curve(number, 0, max(0, min(10000, metres + self.pick(0, 0, 0, 5, -5))), floor, gradient)
        for _ in range(3):
            self.odometer(v=v, moved=self.pick(0, 100, 400))
        for number in numbers:
            if number in unit.curves and self.chance(0.8):
                self.end_curve(number)
        self.odometer()
        self.clear_records()

    def fill_records(self):
        """All eight places of records, one too many, and a place used again."""
        unit = self.unit
        if unit.state == DA:
            self.odometer(v=self.between(0, 270))
        while len(unit.records) < 8:
            self.a_board(number=self.pick(*(n for n in range(255) if n not in unit.records)))
            if self.chance(0.1):
                self.odometer(moved=1200)
        free = [n for n in range(255) if n not in unit.records]
        self.a_board(number=self.pick(*free))
        self.a_board(number=self.pick(*unit.records))
        self.a_signal()
        self.a_board(number=self.pick(*free))
        self.odometer()
        if unit.records:
            gone = self.pick(*unit.records)
            self.end_record(gone)
            self.end_record(gone)
        self.a_board(number=self.pick(*free))
        self.a_signal()
        self.odometer()
        self.clear_records()

    def around(self):
        """DA to CS, HS and back to DA."""
        unit = self.unit
        way = self.deal("around", ("reports", "reports", "at once", "at once", "rolling", "checking"))
        if way == "reports":
            self.state(CS)
            self.odometer(v=self.pick(0, 0, at(unit.vmax + 10)), press=self.pick(0, LOSS))
            self.state(HS)
            self.handover()
            self.state(DA)
            self.odometer()
        elif way == "at once":
            self.halka = self.pick(0, 1)
            self.odometer(v=self.pick(500, 1200, 2000), half=self.pick(None, None, -101),
                          press=self.pick(0, 0, LOSS))
            self.straight_round()
            self.curve(self.any_id(unit.curves), self.pick(0, 1), self.between(20, 300), 40)
            self.send(BALISE_ERROR)
            self.odometer(press=LOSS)
            self.odometer()
            self.halka = 0
        elif way == "rolling":
            self.odometer(v=0, moved=0)
            self.neutral = 1
            self.odometer(v=40, moved=self.pick(100, 500))
            self.straight_round()
            self.odometer(v=40, moved=501)
            self.odometer(v=40, moved=501)
            self.neutral = 0
        else:
            self.free()
            if self.chance(0.5):
                self.send(BALISE_ERROR)
                limit = unit.train["t_b"]
            else:
                self.stop_passed(0)
                limit = unit.train["t_ebchk"]
            for _ in range(min(12, limit - 1)):
                self.odometer(v=5, moved=0, drop=0)
            self.straight_round()
            for _ in range(3):
                self.odometer(v=5, moved=0, drop=0)

    def straight_round(self):
        for to in (CS, HS, DA):
            self.state(to)

    # -- things that happen in HS

    def handover(self):
        unit = self.unit
        for _ in range(self.between(1, 4)):
            number = self.any_id(unit.curves)
            self.curve(number, 0, self.between(5, 400), self.spread(10, 300), self.pick(0, 5, -8))
        for _ in range(self.between(0, 2)):
            self.section(self.any_id(unit.sections), self.spread(30, 300))
        self.odometer(v=self.pick(0, 500, 2000), moved=self.pick(0, 100, 1200), press=self.pick(0, LOSS))
        if self.chance(0.5):
            self.send(PROCEED)
        if unit.sections and self.chance(0.5):
            self.end_section(self.pick(*unit.sections))
            self.odometer(moved=self.pick(900, 1000, 1200))
        if self.chance(0.4):
            self.end_curve(self.pick(*unit.curves))
        if self.chance(0.1):
            self.fill_curves()
        if not unit.by_01 and self.chance(0.4):
            self.some_events()
        if not unit.by_01 and self.chance(0.4):
            self.pick(self.boards, self.fill_records)()
        if self.chance(0.25):
            self.state(CS)
            self.odometer()
            self.state(HS)

    # -- whole trips

    def reach_da(self):
        """A path from DE to DA, the reference pressure found on the way."""
        if self.chance(0.3):
            self.state(DA)
        path = self.deal("path", ("straight", "straight", "HS", "settle in CS", "settle in HS"))
        if path == "straight":
            self.settle()
            self.arrive()
            return
        if path == "HS":
            self.settle()
        self.state(CS)
        if path == "settle in CS":
            self.settle()
        self.odometer()
        self.state(HS)
        self.handover()
        if path == "settle in HS":
            self.settle()
        self.arrive()

    def arrive(self):
        """Into DA, at times rolling from a halt made before."""
        rolling = self.chance(0.3)
        if rolling:
            self.odometer(v=0, moved=0)
        self.state(DA)
        if rolling:
            self.neutral = 1
            self.odometer(v=40, moved=501)
            self.odometer(v=40, moved=501)
            self.neutral = 0

    def trip(self):
        self.start()
        if self.chance(0.3):
            self.disturb()
        if not self.unit.by_01:
            self.brake_tests()
        self.reach_da()
        acts = [self.overspeed, self.overspeed, self.boundaries, self.boundaries, self.boundaries,
                self.approach, self.approach, self.halka_while_braking, self.only_service_on_a_curve,
                self.in_d, self.in_d, self.both_checks, self.crowd, self.fill_curves, self.fill_sections,
                self.sections, self.sections,
                self.aimed_stop, self.landslide, self.unexpected_stop, self.unexpected_stop,
                self.stops_in_a_row, self.stops_in_a_row,
                self.balise_error, self.roll, self.roll, self.failing_service, self.failing_service,
                self.failing_service,
                self.pile, self.pile, self.sensor, self.extremes, self.around, self.around,
                self.grazing, self.grazing, self.over_550, self.over_550, self.quiet]
        if not self.unit.by_01:
            acts += [self.areas, self.areas, self.areas, self.gmd_over_sections, self.gmd_over_sections,
                     self.group_without_overlap, self.group_without_overlap, self.group_without_overlap,
                     self.boards, self.boards, self.boards, self.to_100_m, self.to_100_m, self.to_100_m, self.record_boundaries,
                     self.record_boundaries, self.crowd_of_both, self.crowd_of_both, self.fill_records]
        names = [act.__name__ for act in acts]
        for _ in range(self.between(4, 14)):
            getattr(self, self.deal("act", names))()
            if self.chance(0.75):
                self.free()
        if self.deal("end", (True, False)):
            self.state(FA)

    def descent(self):
        """A long trip: the reference let down to 60 kPa or less, then pressures limited to 0."""
        unit = self.unit
        train = self.train_data()
        train.update(flags=self.deal("descent flags", (0, 2)), p_full=self.pick(150, self.between(150, 270)),
                     t_b=self.between(2, 8), speed=200)
        self.emit(START, 1, self.packed(train))
        self.fresh_driver()
        self.rest = 402.0
        while unit.phase != "set":
            self.odometer(drop=0)
        self.state(DA)
        end = self.pick(59.5, 60, 60.5, train["sufficient"] - 0.5, 0)
        disturbing, self.disturbing = self.disturbing, 0.001
        while unit.pressure > end:
            self.odometer(v=0, moved=0, drop=25)
        self.disturbing = disturbing
        lowest = (1909, 1910) if train["flags"] else (-100, -1)
        self.in_d()
        for half in lowest:
            self.odometer(half=half)
        for _ in range(3):
            self.send(BALISE_ERROR)
            for _ in range(train["t_b"]):
                self.odometer(half=self.pick(*lowest))
            self.odometer(v=0, moved=0)
            self.odometer(press=LOSS)

    def afterwards(self):
        """What only refusals and repeats answer: in FA, or after the last number."""
        unit = self.unit
        choices = [lambda: self.emit(unit.last[0], unit.number, unit.last[5:]),
                   lambda: self.emit(ODOMETER, unit.number + 1,
                                     struct.pack(">HHhhB", 0, 0, 0, 1000, LOSS)),
                   lambda: self.emit(PROCEED, unit.number + 1),
                   lambda: self.emit(STATE, unit.number, bytes([FA])),
                   lambda: self.emit(STATE, unit.number + 2, bytes([CS])),
                   lambda: self.emit(START, unit.number, self.bad_start()),
                   lambda: self.emit(STATE, unit.number + 1, bytes([9]))]
        if not unit.by_01:
            choices.append(lambda: self.emit(TEST_BRAKES, unit.number + 1))
            choices.append(lambda: self.emit(AREA_EVENT, unit.number + 1, struct.pack(">BH", SIGNAL, 0)))
            choices.append(lambda: self.emit(RECORD, unit.number + 1, struct.pack(">BBHHb", 1, 1, 500, 40, 0)))
            choices.append(lambda: self.emit(SIGNAL_PASSED, unit.number + 1, b"\0\0"))
            choices.append(lambda: self.emit(RECORD_END, unit.number + 1, b"\1"))
        for _ in range(self.between(1, 4)):
            self.pick(*choices)()

    def write(self):
        try:
            self.before_any_start()
            while True:
                try:
                    long = self.left > 20000 and self.deal("long", [True] + [False] * 200)
                    self.descent() if long else self.trip()
                except Over:
                    self.afterwards()
        except Finished:
            pass
        return b"".join(self.out)


def main(arguments):
    seed, count = int(arguments[0]), int(arguments[1])
    words = arguments[2:]
    tail = b"\x7f\x01" if "unknown" in words else b"\x10\x00\x00" if "short" in words else b""
    sys.stdout.buffer.write(Trips(seed, count, "by-01" in words).write() + tail)


if __name__ == "__main__":
    main(sys.argv[1:])

"""The commands, answers and report of documents 01 and 02 in words: the one table that the tools share.

A new command, operand, flag, answer or report field is a new row here. `tests/tools` compares the rows with the code,
with docs/COMMANDS.md and with the recorded runs.
"""

from fractions import Fraction
from typing import Any, NamedTuple

LAST_NUMBER = 0xFFFFFFFF
HEAD = 5  # a code byte and a number of four


# ---------------------------------------------------------------- units


class Unit(NamedTuple):
    """How the whole numbers of an operand are written in a trip and shown. `suffixes` gives for each unit how many of
    the operand's own steps it is, `bare` the one that stands where none is written (None: one has to be written, but
    for 0), `shown` the one that is shown, with so many decimals at least. `down` says that what lies between two steps
    is taken as the lower one."""

    name: str
    suffixes: dict
    bare: Any
    shown: str
    decimals: int = 0
    down: bool = False

    def text(self, steps):
        value = Fraction(steps) / self.suffixes[self.shown]
        return f"{decimal(value, self.decimals)} {self.shown}".rstrip()


def decimal(value, least=0):
    """A fraction whose denominator divides 1,000, with as many decimals as it needs."""
    thousandths = int(value * 1000)
    sign = "-" if thousandths < 0 else ""
    whole, rest = divmod(abs(thousandths), 1000)
    digits = f"{rest:03}".rstrip("0").ljust(least, "0")
    return f"{sign}{whole}.{digits}" if digits else f"{sign}{whole}"


PLAIN = Unit("", {"": 1}, "", "")
LIMIT = Unit("km/h", {"km/h": 1}, "km/h", "km/h")
SPEED = Unit("cm/s", {"km/h": Fraction(250, 9), "m/s": 100, "cm/s": 1}, None, "km/h", down=True)
METRES = Unit("m", {"m": 1, "km": 1000}, "m", "m")
GROUND = Unit("cm", {"cm": 1, "m": 100}, "cm", "m", decimals=2)
TENTHS = Unit("tenths of a second", {"": 1, "s": 10}, "", "s", decimals=1)
DECELERATION = Unit("mm/s²", {"mm/s2": 1, "mm/s²": 1, "m/s2": 1000, "m/s²": 1000}, "mm/s2", "m/s²", decimals=2)
PRESSURE = Unit("kPa", {"kPa": 1}, "kPa", "kPa")
HALF_KPA = Unit("half kPa", {"kPa": 2}, "kPa", "kPa")
GRADIENT = Unit("‰", {"": 1, "‰": 1}, "", "‰")


# ---------------------------------------------------------------- operands


class Operand(NamedTuple):
    """An operand. `ranges` has the first and last value of each range; a name in place of a last value is an operand
    that it goes up to. `words` are words for values, `bits` a word for each bit from 0. `default` is what stands where a
    trip doesn't say it (None: it has to be said), or names one of tools/text.py's RULES. An operand that `stands_when`
    another before it has one of some values shares its place, and may share its name, with those of the other values.
    `read` shows it in tools/read, which leaves it out at `quiet`."""

    name: str
    told: str
    bytes: int
    ranges: tuple
    unit: Unit = PLAIN
    default: Any = None
    signed: bool = False
    words: dict = {}
    bits: tuple = ()
    bare: bool = False  # stands without its name: `curve 1`, `state DA`
    stands_when: Any = None
    read: str = ""
    quiet: Any = None

    def limits(self):
        """The least and the most that its bytes can carry."""
        size = 1 << 8 * self.bytes
        return (-size // 2, size // 2 - 1) if self.signed else (0, size - 1)

    def stands(self, values):
        """Whether it stands in a command with these values."""
        return self.stands_when is None or values.get(self.stands_when[0]) in self.stands_when[1]

    def allows(self, value, values):
        return any(low <= value <= values.get(high, 0) if isinstance(high, str) else low <= value <= high
                   for low, high in self.ranges)

    def range_text(self):
        if self.ranges == (self.limits(),):
            return "any"
        parts = []
        for low, high in self.ranges:
            parts.append(f"{low} up to {high}" if isinstance(high, str) else
                         figure(low) if low == high else f"{figure(low)} to {figure(high)}")
        return " or ".join(parts)

    def text(self, value):
        """The value in words."""
        for word, meant in self.words.items():
            if meant == value:
                return word
        if self.bits:
            names = [name.upper() for bit, name in enumerate(self.bits) if value >> bit & 1]
            rest = value >> len(self.bits) << len(self.bits)
            return ", ".join(names + ([f"bits {rest:#04x}"] if rest else []))
        return self.unit.text(value)


def figure(number):
    return f"{number:,}".replace("-", "−")


STATES = {"DE": 0, "CS": 1, "HS": 2, "DA": 3, "FA": 4}
KINDS = {"target": 0, "stop": 1}
STOPS = {"aimed-at": 0, "unexpected": 1, "landslide": 2}
EVENTS = {"signal": 0, "GMD": 1, "HT-deleted": 2, "no-overlap": 3, "non-equipped": 4, "HT": 5, "fully-equipped": 6}
CATEGORIES = {"RF": 0, "RH": 1, "GF": 2, "GH": 3}
SIGNALS = {"main": 0, "distant": 1}
ROUTES = {"R": 0, "G": 1}
IDENT = Operand("id", "id", 1, ((0, 254),), bare=True, read="{}")

FLAGS = Operand("flags", "flags", 1, ((0, 7),), default=0, bits=("soft-braking", "cylinder", "no-etcs-test"), read="{}", quiet=0)
BUTTONS = Operand("buttons", "buttons", 1, ((0, 15),), default=0, bits=("loss", "text", "halka", "neutral"), read="{}",
                  quiet=0)


class Command(NamedTuple):
    """A command: its code, its name in 01, the word for it in a trip, and its operands in their order."""

    code: int
    name: str
    word: str
    operands: tuple

    def standing(self, values):
        """The operands that stand in a command with these values."""
        return [operand for operand in self.operands if operand.stands(values)]

    def length(self, values=None):
        values = {operand.name: 0 for operand in self.operands} if values is None else values
        return HEAD + sum(operand.bytes for operand in self.standing(values))

    def encode(self, number, values):
        raw = bytes([self.code]) + number.to_bytes(4, "big")
        for operand in self.standing(values):
            raw += values[operand.name].to_bytes(operand.bytes, "big", signed=operand.signed)
        return raw

    def decode(self, raw):
        """The operands of a whole command, by name."""
        values, at = {}, HEAD
        for operand in self.operands:
            if operand.stands(values):
                values[operand.name] = int.from_bytes(raw[at:at + operand.bytes], "big", signed=operand.signed)
                at += operand.bytes
        return values

    def out_of_range(self, values):
        return [operand for operand in self.standing(values) if not operand.allows(values[operand.name], values)]


COMMANDS = (
    Command(0x01, "start", "start", (
        FLAGS,
        Operand("speed", "train speed", 2, ((10, 300),), LIMIT, 160, read="speed {}"),
        Operand("length", "length", 2, ((10, 1000),), METRES, 400, read="length {}"),
        Operand("full", "full deceleration", 2, ((400, 2000),), DECELERATION, 700, read="full {}"),
        Operand("soft", "soft deceleration", 2, ((400, "full"),), DECELERATION, 500, read="soft {}"),
        Operand("T_B", "T_B", 1, ((1, 100),), TENTHS, 30, read="T_B {}"),
        Operand("gC", "gap gC", 1, ((0, 200),), TENTHS, 20, read="gC {}"),
        Operand("gP", "gap gP", 1, ((0, 200),), TENTHS, 20, read="gP {}"),
        Operand("gBf", "gap gBf", 1, ((0, 200),), TENTHS, 30, read="gBf {}"),
        Operand("F", "F margin", 1, ((1, 30),), LIMIT, 10, read="F {}"),
        Operand("emergency", "overspeed emergency margin", 1, ((11, 30),), LIMIT, 15, read="emergency {}"),
        Operand("sufficient", "sufficient application", 1, ((30, 150),), PRESSURE, 50, read="sufficient {}"),
        Operand("P_FULL", "P_FULL", 2, ((150, 600),), PRESSURE, 380, read="P_FULL {}"),
        Operand("T_EBCHK", "T_EBCHK", 1, ((1, 100),), TENTHS, 13, read="T_EBCHK {}"),
    )),
    Command(0x02, "state", "state", (
        Operand("to", "state", 1, ((0, 4),), words=STATES, bare=True, read="{}"),
    )),
    Command(0x10, "odometer", "report", (
        Operand("speed", "speed", 2, ((0, 10000),), SPEED, 0, read="{}"),
        Operand("moved", "moved", 2, ((0, 1200),), GROUND, "a tenth of a second at the speed", read="moved {}"),
        Operand("deceleration", "measured deceleration", 2, ((-32768, 32767),), DECELERATION, 0, signed=True,
                read="deceleration {}", quiet=0),
        Operand("pressure", "P_EXT", 2, ((-32768, 32767),), HALF_KPA, 1000, signed=True, read="{}"),
        BUTTONS,
    )),
    Command(0x20, "curve", "curve", (
        IDENT,
        Operand("kind", "kind", 1, ((0, 1),), default=0, words=KINDS),
        Operand("at", "distance", 2, ((0, 10000),), METRES, read="at {}"),
        Operand("target", "target speed", 2, ((10, 300),), LIMIT, stands_when=("kind", (0,)), read="target {}"),
        Operand("release", "release speed", 2, ((10, 10), (40, 40)), LIMIT, stands_when=("kind", (1,)),
                read="Expect Stop, release {}"),
        Operand("speed", "speed of no kind", 2, (), LIMIT, 0, stands_when=("kind", range(2, 256)), read="speed {}"),
        Operand("gradient", "gradient", 1, ((-30, 30),), GRADIENT, 0, signed=True, read="gradient {}", quiet=0),
    )),
    Command(0x21, "curve end", "curve end", (IDENT,)),
    Command(0x22, "section", "section", (
        IDENT,
        Operand("speed", "speed", 2, ((10, 300),), LIMIT, read="speed {}"),
    )),
    Command(0x23, "section end", "section end", (IDENT,)),
    Command(0x30, "stop passed", "stop", (
        Operand("which", "which", 1, ((0, 2),), words=STOPS, bare=True, read="{}"),
    )),
    Command(0x31, "proceed signal", "proceed", ()),
    Command(0x32, "balise error", "balise error", ()),
    Command(0x40, "brake test", "brake test", ()),
    Command(0x50, "area event", "area", (
        Operand("event", "event", 1, ((0, 6),), words=EVENTS, bare=True, read="{}"),
        Operand("speed", "speed of a GMD", 2, ((10, 300),), LIMIT, stands_when=("event", (1,)), read="speed {}"),
        Operand("speed", "speed of another event", 2, ((0, 0),), LIMIT, 0, stands_when=("event", (0, *range(2, 256))),
                read="speed {}", quiet=0),
    )),
    Command(0x51, "ET record", "record", (
        IDENT,
        Operand("category", "category", 1, ((0, 3),), words=CATEGORIES, bare=True, read="{}"),
        Operand("at", "target distance", 2, ((0, 10000),), METRES, read="at {}"),
        Operand("target", "speed", 2, ((10, 300),), LIMIT, read="target {}"),
        Operand("gradient", "gradient", 1, ((-30, 30),), GRADIENT, 0, signed=True, read="gradient {}", quiet=0),
    )),
    Command(0x52, "signal passed", "signal", (
        Operand("kind", "kind of the signal", 1, ((0, 1),), words=SIGNALS, bare=True, read="{}"),
        Operand("route", "its route", 1, ((0, 1),), words=ROUTES, bare=True, read="route {}"),
    )),
    Command(0x53, "ET record end", "record end", (IDENT,)),
)

BY_CODE = {command.code: command for command in COMMANDS}


# ---------------------------------------------------------------- answers

ACCEPTED, AGAIN, NO_CODE, WRONG_LENGTH, WRONG_NUMBER, OUT_OF_RANGE = 0, 100, 3, 4, 7, 9

ANSWERS = {
    0: "accepted",
    100: "again",
    1: "the report area does not have the report's length",
    2: "the command has no bytes",
    3: "the first byte is no code",
    4: "the length is not the code's",
    5: "there has been no start",
    6: "the number is 0",
    7: "the number is not one more than the last accepted, and it is no repeat",
    8: "the unit has failed (FA): only a start is taken",
    9: "an operand is out of range",
    10: "the state does not allow it",
    11: "there is no reference pressure yet",
    12: "the id is not held, or its section is already ending",
    13: "all 16 places are held",
    14: "a brake test is taken in DE only",
    15: "a brake test runs already",
    16: "the event is not taken in this area",
    17: "all 8 places of ET records are held",
    18: "the ET record that is held gives way to no repeater",
}


# ---------------------------------------------------------------- the report


class Field(NamedTuple):
    """A field of the report: its name, its bytes, a word for each of its values or of its bits, and the value that says
    that there is nothing to tell."""

    name: str
    bytes: int
    words: dict = {}
    bits: tuple = ()
    empty: Any = None

    def text(self, value):
        return self.words.get(value, str(value))

    def set_bits(self, value):
        """The names of the bits that are set, each with its number."""
        return [(bit, name) for bit, name in enumerate(self.bits) if value >> bit & 1]


CAUSES = (
    "overspeed",
    "emergency overspeed",
    "curve",
    "curve with HALKA",
    "curve in F",
    "aimed-at stop",
    "unexpected stop",
    "speed after unexpected stop",
    "landslide board",
    "balise error",
    "rolling in neutral",
    "service brake fault",
)

ET_SHOWN = "ET record shown"
AREAS = {7: "non-equipped", 4: "partially equipped", 9: "HT", 8: "fully equipped"}


def counted(*words):
    """Words for the values from 0 on."""
    return dict(enumerate(words))


REPORT = (
    Field("state", 1, words=counted(*STATES)),
    Field("order", 1, words=counted("no order", "SOFT", "FULL", "EMERGENCY"), empty=0),
    Field("causes", 2, bits=CAUSES, empty=0),
    Field("permitted speed", 2, empty=0),
    Field("VMAX", 2, empty=0),
    Field("shown id", 1, empty=255),
    Field("interval", 1, words=counted("none", "A", "Ab", "Bf", "B", "C", "D", "E", "F"), empty=0),
    Field("bar", 1, words=counted("no bar", "light grey bar", "yellow bar"), empty=0),
    Field("mode", 1, words=counted("normal", "pre-indication", "indication", "warning", "intervention"), empty=0),
    Field("messages", 1, bits=("DRIFTBROMSFEL", "NÖDBROMSFEL", "TRYCKGIVARFEL", "brake test runs", "last brake test passed",
                               "last brake test failed", ET_SHOWN), empty=0),
    Field("release offered", 1, bits=("LOSS", "text"), empty=0),
    Field("next change", 4, empty=0xFFFFFFFF),
    Field("area", 1, words=AREAS, empty=8),
)

REPORT_LENGTH = sum(field.bytes for field in REPORT)
FIELDS = {field.name: field for field in REPORT}


def report_of(raw):
    """The fields of a report by name."""
    values, at = {}, 0
    for field in REPORT:
        values[field.name] = int.from_bytes(raw[at:at + field.bytes], "big")
        at += field.bytes
    return values

"""A trip over the ground: what `tools/draw` draws, taken from the commands and the unit's answers."""

from typing import Any, NamedTuple

from commands import ANSWERS, BUTTONS, FIELDS
from words import command_text, order_text, portion_text

KMH = 0.036  # of a centimetre a second


class Point(NamedTuple):
    """What stands after an accepted command, at so many centimetres of ground. Outside DA there are no limits."""

    ground: int
    speed: float
    permitted: Any
    vmax: Any
    order: int


class Target(NamedTuple):
    """The target of a curve or an ET record that was held: a speed in km/h, or 0 and a release speed."""

    name: str
    ground: int
    speed: int
    release: Any


class Event(NamedTuple):
    """Something to mark: its kind is command, press, order, again or refusal."""

    ground: int
    kind: str
    text: str


class Journey:
    def __init__(self, moments):
        self.points, self.targets, self.events = [], [], []
        self.ground = self.counted = self.again = self.again_ground = self.refused = 0
        self.speed, self.order = 0.0, 0
        self.buttons = None  # at the last accepted report since the start
        self.run = []  # moments alike, of which one mark is made
        for moment in moments:
            self.take(moment)
        self.end_run()

    def take(self, moment):
        if moment.is_accepted:
            self.end_run()
            self.accept(moment)
            return
        if self.run and (self.run[0].answer, self.run[0].is_again and self.run[0].portion.raw) != (
                moment.answer, moment.is_again and moment.portion.raw):
            self.end_run()
        self.run.append(moment)

    # ---- accepted

    def accept(self, moment):
        portion, report = moment.portion, moment.report
        if portion.command.name == "odometer":
            self.measure(portion.values)
        else:
            self.mark("command", command_text(portion))
        if portion.command.name == "start":
            self.buttons = None
        if portion.command.name in ("curve", "ET record"):
            self.aim(portion.command.name, portion.values)
        if report["order"] != self.order:
            self.mark("order", order_text(report))
            self.order = report["order"]
        in_da = FIELDS["state"].text(report["state"]) == "DA"
        self.points.append(Point(self.ground, self.speed, report["permitted speed"] if in_da else None,
                                 report["VMAX"] if in_da else None, self.order))

    def measure(self, values):
        self.counted += 1
        self.ground += values["moved"]
        self.speed = values["speed"] * KMH
        for bit, name in enumerate(BUTTONS.bits):
            first = 0 if name in LEFT else 1  # before the first report a press counts as standing already
            then = first if self.buttons is None else self.buttons >> bit & 1
            now = values["buttons"] >> bit & 1
            if now > then:
                self.mark("press", PRESSED[name])
            if now < then and name in LEFT:
                self.mark("press", LEFT[name])
        self.buttons = values["buttons"]

    def aim(self, kind, values):
        ground = self.ground + 100 * values["at"]
        target = Target(f"{kind} {values['id']}", ground, values.get("target", 0), values.get("release"))
        if target not in self.targets:
            self.targets.append(target)

    # ---- sent again, refused

    def end_run(self):
        if not self.run:
            return
        first, count = self.run[0], len(self.run)
        if first.is_again:
            ground = first.portion.values.get("moved", 0)
            self.again += count
            self.again_ground += count * ground
            often = "once" if count == 1 else "twice" if count == 2 else f"{count} times"
            told = f"; {count * ground / 100:,.2f} m that move nothing" if ground else ""
            self.mark("again", f"{command_text(first.portion)}: sent again {often}{told}")
        else:
            self.refused += count
            more = f" and {count - 1} more" if count > 1 else ""
            self.mark("refusal", f"{portion_text(first.portion)}{more}: refused {first.answer}, {ANSWERS[first.answer]}")
        self.run = []

    def mark(self, kind, text):
        self.events.append(Event(self.ground, kind, text))

    def summary(self):
        text = f"{self.counted:,} accepted reports, {self.ground / 100:,.2f} m of ground."
        if self.again:
            text += f" Sent again: {self.again:,} commands ({self.again_ground / 100:,.2f} m), which move nothing."
        if self.refused:
            text += f" Refused: {self.refused:,}."
        return text


PRESSED = {"loss": "LOSS pressed", "text": "text button pressed", "halka": "HALKA on", "neutral": "controller in neutral"}
LEFT = {"halka": "HALKA off", "neutral": "controller out of neutral"}

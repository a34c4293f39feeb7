"""Lays out a journey as an SVG picture: the legend, the marks, the speeds over the ground, and the list of marks."""

import math
from typing import NamedTuple
from xml.sax.saxutils import escape

WIDTH, LEFT, RIGHT = 1120, 56, 24
PLOT_WIDTH, PLOT_HEIGHT = WIDTH - LEFT - RIGHT, 340
FONT, SMALL = 13, 12
LETTER = 0.6  # of the size of the font: the width of a letter, as a rule
LISTED = 60  # so many marks are listed

STYLE = """
text { font-family: Helvetica, Arial, sans-serif; font-size: 13px; fill: #111; }
.title { font-size: 18px; font-weight: bold; }
.small { font-size: 12px; }
.tag { font-size: 12px; font-weight: bold; }
.onplot { font-size: 12px; paint-order: stroke; stroke: #fff; stroke-width: 3px; }
.paper { fill: #fff; }
.frame { fill: none; stroke: #111; stroke-width: 1; }
.grid { stroke: #ccc; stroke-width: 0.6; }
.leader { fill: none; stroke: #777; stroke-width: 0.7; }
.drop { stroke: #777; stroke-width: 0.6; stroke-dasharray: 1 3; }
.speed { fill: none; stroke: #111; stroke-width: 2.4; }
.permitted { fill: none; stroke: #b03a00; stroke-width: 1.8; stroke-dasharray: 7 3; }
.vmax { fill: none; stroke: #9dbbe3; stroke-width: 6; }
.soft { fill: #fdf3bd; }
.full { fill: #fbc98a; }
.emergency { fill: #ef8f86; }
.target { fill: #2f7d32; stroke: #111; stroke-width: 0.8; }
.stop { fill: #c62828; stroke: #111; stroke-width: 0.8; }
.release { stroke: #c62828; stroke-width: 2.4; }
.command { fill: #fff; stroke: #111; stroke-width: 1.4; }
.press { fill: #1b4f9c; stroke: #111; stroke-width: 0.6; }
.order { fill: #111; stroke: #111; stroke-width: 0.6; }
.again { fill: none; stroke: #6a1b9a; stroke-width: 1.8; }
.refusal { fill: none; stroke: #b00020; stroke-width: 2.4; }
"""

ORDERS = (None, "soft", "full", "emergency")
LINES = {"speed": "speed", "permitted": "permitted speed", "vmax": "VMAX"}
BANDS = {"soft": "soft brake ordered", "full": "full brake ordered", "emergency": "emergency brake with full ordered"}
MARKS = {
    "target": ("target speed of a curve", "M-6,-5 L6,-5 L0,6 Z"),
    "stop": ("Expect Stop, with a bar at its release speed", "M-3,-6 L3,-6 L6,-3 L6,3 L3,6 L-3,6 L-6,3 L-6,-3 Z"),
    "command": ("command", "M0,-5 L5,0 L0,5 L-5,0 Z"),
    "press": ("button or controller", "M0,-5 L5,5 L-5,5 Z"),
    "order": ("brake order changes", "M-4,-4 L4,-4 L4,4 L-4,4 Z"),
    "again": ("sent again: moves nothing", "M-5,0 a5,5 0 1 0 10,0 a5,5 0 1 0 -10,0 M-2,0 a2,2 0 1 0 4,0 a2,2 0 1 0 -4,0"),
    "refusal": ("refused: changes nothing", "M-4,-4 L4,4 M-4,4 L4,-4"),
}


class Box(NamedTuple):
    left: float
    top: float
    right: float
    bottom: float

    def meets(self, other):
        return (self.left < other.right and other.left < self.right
                and self.top < other.bottom and other.top < self.bottom)


def width_of(text, size=FONT):
    return LETTER * size * len(text)


def ticks_to(most, about):
    """Ticks from 0 to at most `most`, about so many, at 1, 2 or 5 times a power of ten."""
    rough = max(most, 1) / about
    power = 10 ** math.floor(math.log10(rough))
    step = next(power * times for times in (1, 2, 5, 10) if power * times >= rough)
    step = max(1, round(step))
    return range(0, math.floor(most) + 1, step)


def wrapped(text, width, size):
    """The text in lines that are no wider."""
    lines = [""]
    for word in text.split(" "):
        longer = f"{lines[-1]} {word}".strip()
        if lines[-1] and width_of(longer, size) > width:
            lines.append(word)
        else:
            lines[-1] = longer
    return lines


class Picture:
    def __init__(self, journey, title):
        self.journey = journey
        self.title = title or "A trip"
        self.parts = []
        self.boxes = []  # what texts on the plot keep clear of
        self.scale()

    # ---- pieces of SVG

    def put(self, part):
        self.parts.append(part)

    def text(self, x, y, content, kind="", anchor="start"):
        kind = f' class="{kind}"' if kind else ""
        anchor = f' text-anchor="{anchor}"' if anchor != "start" else ""
        self.put(f'<text x="{x:.1f}" y="{y:.1f}"{kind}{anchor}>{escape(content)}</text>')

    def mark(self, kind, x, y):
        self.put(f'<path class="{kind}" transform="translate({x:.1f} {y:.1f})" d="{MARKS[kind][1]}"/>')

    def line(self, kind, points):
        """A line through points, broken where one is None. What a level or upright piece passes through is left out."""
        path = []
        for point in points:
            place = point and (round(point[0], 1), round(point[1], 1))
            if len(path) > 1 and place and path[-1] and path[-2] and any(
                    place[i] == path[-1][i] == path[-2][i] for i in (0, 1)):
                path[-1] = place
            elif not path or place != path[-1]:
                path.append(place)
        drawn, pen = [], "M"
        for place in path:
            if place:
                drawn.append(f"{pen}{place[0]},{place[1]}")
            pen = "L" if place else "M"
        if drawn:
            self.put(f'<path class="{kind}" d="{" ".join(drawn)}"/>')

    # ---- the scale

    def scale(self):
        journey = self.journey
        farthest = journey.ground * 1.5 + 10000  # a target farther on is an arrow at the edge
        grounds = [journey.ground, 1000] + [t.ground for t in journey.targets if t.ground <= farthest]
        self.metres = max(grounds) / 100 * 1.03
        speeds = [10] + [p.speed for p in journey.points] + [p.vmax or 0 for p in journey.points]
        self.speeds = max(speeds) * 1.1

    def x(self, ground):
        return LEFT + PLOT_WIDTH * min(ground / 100 / self.metres, 1)

    def y(self, speed):
        return self.top + PLOT_HEIGHT * (1 - min(speed / self.speeds, 1))

    # ---- from above: title, legend, marks, plot, list

    def svg(self):
        self.text(LEFT, 28, self.title, "title")
        y = 50
        for line in wrapped(self.journey.summary(), PLOT_WIDTH, FONT):
            self.text(LEFT, y, line)
            y += 18
        y = self.legend(y + 6)
        tags = self.tags_from(y + 14)
        self.plot()
        self.tags(tags)
        bottom = self.listing(self.top + PLOT_HEIGHT + 72)
        head = (f'<svg xmlns="http://www.w3.org/2000/svg" width="{WIDTH}" height="{bottom:.0f}" '
                f'viewBox="0 0 {WIDTH} {bottom:.0f}" role="img">')
        paper = f'<rect class="paper" width="{WIDTH}" height="{bottom:.0f}"/>'
        return "\n".join([head, f"<title>{escape(self.title)}</title>", f"<style>{STYLE}</style>", paper, *self.parts,
                          "</svg>", ""])

    def used(self):
        """What the picture has, in the legend's order, each with its words."""
        journey = self.journey
        limits = {"speed"} | ({"permitted", "vmax"} if any(p.vmax is not None for p in journey.points) else set())
        bands = {ORDERS[p.order] for p in journey.points}
        marks = {event.kind for event in journey.events}
        marks |= {"target" if target.release is None else "stop" for target in journey.targets}
        return ([(kind, words) for kind, words in LINES.items() if kind in limits]
                + [(kind, words) for kind, words in BANDS.items() if kind in bands]
                + [(kind, words) for kind, (words, _) in MARKS.items() if kind in marks])

    def legend(self, y):
        x = LEFT
        self.put('<g id="legend">')
        for kind, words in self.used():
            wide = 36 + width_of(words) + 22
            if x > LEFT and x + wide > WIDTH - RIGHT:
                x, y = LEFT, y + 22
            self.sample(kind, x, y)
            self.text(x + 36, y + 4, words)
            x += wide
        self.put("</g>")
        return y + 12

    def sample(self, kind, x, y):
        if kind in LINES:
            self.line(kind, [(x, y), (x + 30, y)])
        elif kind in BANDS:
            self.put(f'<rect class="{kind}" x="{x}" y="{y - 8}" width="30" height="16"/>')
        else:
            self.mark(kind, x + 15, y)
            if kind == "stop":
                self.line("release", [(x + 24, y), (x + 32, y)])

    # ---- the numbered marks over the plot

    def tags_from(self, y):
        """Places for the marks in rows from y on, none over another; the plot begins below them."""
        listed = self.journey.events[:LISTED]
        wide = [22 + width_of(str(i), SMALL) for i in range(1, len(listed) + 1)]
        rows = max(1, math.ceil(sum(wide) / PLOT_WIDTH))
        tags = [None] * len(listed)
        for row in range(rows):
            mine = list(range(row, len(listed), rows))
            left = LEFT
            places = []
            for i in mine:
                left = max(left, self.x(listed[i].ground) - wide[i] / 2)
                places.append(left)
                left += wide[i]
            right = WIDTH - RIGHT + 8
            for i, n in reversed(list(enumerate(mine))):
                places[i] = min(places[i], right - wide[n])
                right = places[i]
                tags[n] = (places[i], y + 20 * row)
        self.top = y + 20 * rows + 16
        return tags

    def tags(self, tags):
        lowest = self.top - 26
        for i, (x, y) in enumerate(tags):
            event = self.journey.events[i]
            at = self.x(event.ground)
            self.line("leader", [(x + 6, y + 8), (x + 6, lowest), (at, self.top)])
        for i, (x, y) in enumerate(tags):
            wide = 18 + width_of(str(i + 1), SMALL)
            self.put(f'<rect class="paper" x="{x:.1f}" y="{y - 8:.1f}" width="{wide:.1f}" height="16"/>')
            self.mark(self.journey.events[i].kind, x + 6, y)
            self.text(x + 14, y + 4, str(i + 1), "tag")

    # ---- the plot

    def plot(self):
        bottom = self.top + PLOT_HEIGHT
        self.bands()
        for speed in ticks_to(self.speeds, 6):
            self.line("grid", [(LEFT, self.y(speed)), (WIDTH - RIGHT, self.y(speed))])
            self.text(LEFT - 8, self.y(speed) + 4, str(speed), "small", "end")
        for metre in ticks_to(self.metres, 8):
            x = self.x(100 * metre)
            self.line("grid", [(x, self.top), (x, bottom)])
            self.text(x, bottom + 18, f"{metre:,}", "small", "middle")
        self.text(LEFT - 8, self.top - 12, "km/h", "small", "end")
        self.text(LEFT + PLOT_WIDTH / 2, bottom + 38, "ground in m", "small", "middle")
        for ground in sorted({event.ground for event in self.journey.events[:LISTED]}):
            self.line("drop", [(self.x(ground), self.top), (self.x(ground), bottom)])
        for kind in ("vmax", "permitted", "speed"):
            self.line(kind, self.curve(kind))
        self.put(f'<rect class="frame" x="{LEFT}" y="{self.top:.1f}" width="{PLOT_WIDTH}" height="{PLOT_HEIGHT}"/>')
        self.targets()

    def curve(self, kind):
        """The places of a speed over the ground, None where there is none."""
        values = ((p.ground, getattr(p, kind)) for p in self.journey.points)
        return [None if speed is None else (self.x(ground), self.y(speed)) for ground, speed in values]

    def bands(self):
        """Each order from where it is given to where it changes; one given at standstill is a narrow band."""
        points = self.journey.points
        start = 0
        for i in range(1, len(points) + 1):
            if i < len(points) and points[i].order == points[start].order:
                continue
            kind = ORDERS[points[start].order]
            if kind:
                left = self.x(points[start].ground)
                right = max(self.x(points[min(i, len(points) - 1)].ground), left + 2)
                self.put(f'<rect class="{kind}" x="{left:.1f}" y="{self.top:.1f}" width="{right - left:.1f}" '
                         f'height="{PLOT_HEIGHT}"/>')
            start = i

    def targets(self):
        for target in self.journey.targets:
            x, y = self.x(target.ground), self.y(target.speed)
            if target.release is None:
                self.mark("target", x, y)
                words = f"{target.name}: {target.speed} km/h"
            else:
                self.line("release", [(x - 5, self.y(target.release)), (x + 5, self.y(target.release))])
                self.mark("stop", x, y)
                words = f"{target.name}: stop"
            if target.ground > 100 * self.metres:
                words += f" at {target.ground / 100:,.0f} m →"
            self.boxes.append(Box(x - 7, y - 7, x + 7, y + 7))
            self.label(x, y, words)

    def label(self, x, y, words):
        """Beside the mark and within the frame, where no other text is, and over as little of the lines as can be."""
        wide = width_of(words, SMALL)
        places = [(left, y + down) for down in (-12, 20, -28, 36, -44, -60, -76, -92)
                  for left in (x + 9, x - 9 - wide, x - wide / 2)]
        free = []
        for left, at in places:
            box = Box(left, at - SMALL, left + wide, at + 4)
            inside = LEFT < box.left and box.right < WIDTH - RIGHT
            inside = inside and self.top < box.top and box.bottom < self.top + PLOT_HEIGHT
            if inside and not any(box.meets(other) for other in self.boxes):
                free.append((self.crossed(box), len(free), box))
        if free:
            _, _, box = min(free)
            self.boxes.append(box)
            self.text(box.left, box.bottom - 4, words, "onplot")

    def crossed(self, box):
        """How many pieces of the lines go through a box."""
        count = 0
        for kind in LINES:
            points = self.curve(kind)
            for one, other in zip(points, points[1:]):
                if one and other:
                    piece = Box(min(one[0], other[0]) - 1, min(one[1], other[1]) - 1,
                                max(one[0], other[0]) + 1, max(one[1], other[1]) + 1)
                    count += box.meets(piece)
        return count

    # ---- the list of marks

    def listing(self, y):
        events = self.journey.events
        for i, event in enumerate(events[:LISTED], 1):
            self.mark(event.kind, LEFT + 6, y - 4)
            self.text(LEFT + 42, y, str(i), "tag", "end")
            self.text(LEFT + 122, y, f"{event.ground / 100:,.2f} m", "small", "end")
            for line in wrapped(event.text, PLOT_WIDTH - 140, SMALL):
                self.text(LEFT + 140, y, line, "small")
                y += 18
        if len(events) > LISTED:
            self.text(LEFT + 140, y, f"and {len(events) - LISTED:,} more, which are not marked", "small")
            y += 18
        return y + 6


def svg_of(journey, title):
    return Picture(journey, title).svg()

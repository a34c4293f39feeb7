#!/usr/bin/env python3
"""The curves of document 01, and F-1 of 02, once more, written from 01 and in exact fractions, to compare the proved ones with.

    curve.py vectors          writes recorded curves to standard output
    curve.py < records        writes the lines that crates/curve_run has to print for them

A record has 25 bytes, numbers high byte first: what is done (0 the curve is judged alone, 1 it is put into a place, 2 all
places are moved, judged and noted, 3 it is put into a place that then counts as holding none); the place, below 16; the
train's full and soft deceleration (2 each), HALKA, T_B, gC, gP, gBf and F margin; v (2); the curve's kind (0 speed target,
else Expect Stop), distance (4), target or release speed (2), gradient (signed) and past in B; the ground moved before the
judging (2).
"""
import random
import struct
import sys
from collections import namedtuple
from fractions import Fraction

LAYOUT = '>BBHHBBBBBBHBIHbBH'
BOUNDARIES = ('Bf', 'B', 'C', 'D', 'E', 'F')
NUMBERS = {'A': 1, 'Ab': 2, 'Bf': 3, 'B': 4, 'C': 5, 'D': 6, 'E': 7, 'F': 8}

Train = namedtuple('Train', 'full soft halka t_b g_c g_p g_bf margin')
Curve = namedtuple('Curve', 'kind d speed gradient past')


def lead(train, boundary):
    permitted = train.t_b + train.g_c + train.g_p
    return {'E': 0, 'D': train.t_b, 'C': train.t_b + train.g_c, 'permitted': permitted, 'B': permitted + 30,
            'Bf': permitted + 30 + train.g_bf}[boundary]


def deceleration(train, curve):
    """b; a gradient that takes more than there is leaves 0, which 01's ranges never do."""
    b = train.soft if train.halka else train.full
    return max(b + (9 if curve.gradient > 0 else 10) * curve.gradient, 0)


def reached(train, curve, v, boundary):
    """Whether a boundary is reached at v cm/s, which may be a fraction."""
    if not 9 * v > 250 * curve.speed:
        return False
    u = 9 * v
    w = 250 * curve.speed if curve.kind == 0 else 0
    if boundary == 'F':
        u = u - 250 * train.margin
        if not u > w:
            return False
        ground = 10 * curve.d
    else:
        ground = 10 * curve.d - v * lead(train, boundary)
    return 50 * (u * u - w * w) >= 81 * deceleration(train, curve) * ground


def interval(train, curve, v):
    last = 'A'
    for boundary in BOUNDARIES:
        if reached(train, curve, v, boundary):
            last = boundary
    return last


def permitted(train, curve):
    k = 300
    while reached(train, curve, Fraction(250 * k, 9), 'permitted'):
        k -= 1
    return k


def brakes(train, curve, v):
    if interval(train, curve, v) not in ('D', 'E', 'F'):
        return False
    return 9 * v >= 250 * (curve.speed + 10) if curve.kind == 0 else 9 * v > 250 * curve.speed


def to_change(train, curve, v):
    """02, F-1: the most whole cm that can be covered with no change of the interval, by halving."""
    now = interval(train, curve, v)
    n = largest(lambda n: interval(train, curve._replace(d=curve.d - n), v) == now, curve.d)
    return 0xFFFFFFFF if n == curve.d else n


def moved_by(curve, moved):
    return curve._replace(d=max(curve.d - moved, 0))


def noted(train, curve, v):
    return curve._replace(past=curve.past or interval(train, curve, v) not in ('A', 'Bf'))


def described(curve):
    return f'kind {curve.kind} d {curve.d} speed {curve.speed}'


def judged(train, curve, v):
    """A curve's figures in words, its past noted."""
    now = interval(train, curve, v)
    shown = 'Ab' if curve.past and now in ('A', 'Bf') else now
    words = f'{described(curve)}: {now} shown {NUMBERS[shown]} permitted {permitted(train, curve)}'
    return words + ' brakes' * brakes(train, curve, v) + ' past' * curve.past


def all_judged(train, places, v, place):
    held = [curve for curve in places if curve is not None]
    least = min([permitted(train, curve) for curve in held], default=300)
    braking = [interval(train, curve, v) for curve in held if brakes(train, curve, v)]
    here = places[place] if place < 16 else None
    return (f"all v {v}: permitted {least} D {int(len(braking) > 0)} E {int('E' in braking or 'F' in braking)} "
            f"F {int('F' in braking)} place {place} {'none' if here is None else judged(train, here, v)}")


def lines(data):
    places = [None] * 16
    for at in range(0, len(data) - 24, 25):
        what, place, *figures = struct.unpack(LAYOUT, data[at:at + 25])
        train, v, moved = Train(*figures[:8]), figures[8], figures[14]
        kind, d, speed, gradient, past = figures[9:14]
        curve = Curve(min(kind, 1), d, speed, gradient, past != 0)
        if what == 2:
            places = [held and noted(train, moved_by(held, moved), v) for held in places]
            yield all_judged(train, places, v, place)
        elif what in (1, 3):
            if place < 16:
                places[place] = curve if what == 1 else None
            yield f"place {place} {described(curve)}{' freed' * (what == 3)}"
        else:
            curve = moved_by(curve, moved)
            over = ' over' * reached(train, curve, v, 'permitted')
            yield (f'v {v} b {deceleration(train, curve)} {judged(train, noted(train, curve, v), v)}{over} left '
            f'{to_change(train, curve, v)}')


def record(train, curve, v, moved=0, what=0, place=0):
    return struct.pack(LAYOUT, what, place, *train, v, *curve, moved)


def largest(holds, top):
    """The largest number up to top at which holds, which is true up to there; None where there is none."""
    if not holds(0):
        return None
    low, high = 0, top + 1
    while low + 1 < high:
        middle = (low + high) // 2
        low, high = (middle, high) if holds(middle) else (low, middle)
    return low


def edges_of_d(train, curve, v, boundary):
    """The largest d at which the boundary is reached at v, and one more."""
    d = largest(lambda d: reached(train, curve._replace(d=d), v, boundary), 2**32 - 2)
    return [] if d is None else [d, d + 1]


def edges_of_v(train, curve, boundary):
    """The smallest v at which the boundary is reached, and one less."""
    v = largest(lambda v: not reached(train, curve, v, boundary), 65534)
    return [] if v is None else [v, v + 1]


MARKED = Train(700, 500, 0, 30, 20, 20, 30, 10)
MARKED_40 = Curve(0, 0, 40, 0, 0)
WIDEST = Train(65535, 65535, 0, 255, 255, 255, 255, 255)
NARROWEST = Train(0, 0, 0, 0, 0, 0, 0, 0)


def figures():
    """01's marked figures on curves."""
    to_40, stop = Curve(0, 0, 40, 0, 0), Curve(1, 0, 40, 0, 0)
    out = [record(MARKED, to_40._replace(d=d), 2500) for d in (35824, 35825, 43324, 43325)]
    return out + [record(MARKED, stop, v) for v in (1111, 1112)]


def spread(rng):
    """Trains, curves and speeds of 01's ranges, its ends first."""
    low, high = Train(400, 400, 0, 1, 0, 0, 0, 1), Train(2000, 2000, 0, 100, 200, 200, 200, 30)
    cases = [(MARKED, Curve(0, 60000, 40, 0, 0), 2500), (MARKED, Curve(1, 60000, 40, 0, 0), 2500),
             (low, Curve(0, 0, 10, -30, 0), 10000), (low, Curve(1, 1000000, 10, -30, 0), 300),
             (high, Curve(0, 1000000, 290, 30, 0), 9000), (high, Curve(1, 0, 40, 30, 0), 10000),
             (high, Curve(0, 0, 60, -1, 0), 2600), (low, Curve(1, 1, 10, 1, 0), 1200),
             (high._replace(margin=27), Curve(1, 0, 10, 0, 0), 9000), (high, Curve(0, 200, 10, 0, 0), 400),
             (low._replace(full=2000, halka=1), Curve(0, 90000, 80, 0, 0), 2500),
             (high._replace(soft=401, halka=1), Curve(1, 150000, 40, -30, 0), 1112),
             (MARKED, Curve(0, 300000, 300, 2, 0), 9500)]
    while len(cases) < 25:
        full = rng.randrange(400, 2001)
        train = Train(full, rng.randrange(400, full + 1), rng.randrange(2), rng.randrange(1, 101), rng.randrange(201),
                      rng.randrange(201), rng.randrange(201), rng.randrange(1, 31))
        kind = len(cases) % 2
        speed = rng.choice((10, 40)) if kind else rng.randrange(10, 251)
        curve = Curve(kind, rng.randrange(1000001), speed, rng.choice((-30, -17, -2, -1, 0, 0, 1, 3, 22, 30)), 0)
        cases.append((train, curve, rng.randrange(250 * (speed + 32) // 9, 10001)))
    return cases


def boundary_edges(rng, cases):
    """The last d and the first v of each boundary, with and without a past and ground moved."""
    out = []
    for train, curve, v in cases:
        for boundary in BOUNDARIES + ('permitted',):
            past, moved = rng.randrange(2), rng.choice((0, 0, 1, 1200))
            for d in edges_of_d(train, curve, v, boundary):
                out.append(record(train, curve._replace(d=d + moved, past=past), v, moved))
            for edge in edges_of_v(train, curve, boundary):
                out.append(record(train, curve._replace(past=1 - past), edge))
    return out


def permitted_edges(rng, cases):
    """The last d at which k and the first at which k + 1 is permitted: at the floor, between, and at 300."""
    out = []
    for train, curve, _ in cases:
        for k in sorted({curve.speed, rng.randrange(min(curve.speed, 299), 300), 299}):
            for d in edges_of_d(train, curve, Fraction(250 * (k + 1), 9), 'permitted'):
                out.append(record(train, curve._replace(d=d), rng.randrange(10001)))
    return out


def floor_edges():
    """v at the floor and a cm/s above it, so near that Bf at least is reached there; then v a cm/s below ten above the floor,
    and at it."""
    out = []
    trains = MARKED, MARKED._replace(t_b=100, g_c=200, g_p=200, g_bf=200, margin=1)
    for train in trains:
        for kind, speed in ((0, 10), (0, 90), (0, 113), (0, 270), (0, 300), (1, 10), (1, 40), (1, 90)):
            floor = 250 * speed // 9
            out += [record(train, Curve(kind, d, speed, 0, 0), v) for d in (0, 900) for v in (floor, floor + 1)]
    for kind in (0, 1):
        for speed in (10, 40, 80, 170, 290):
            fast = -(-250 * (speed + 10) // 9)
            curve = Curve(kind, 0, speed, 0, 0)
            for boundary in ('C', 'D', 'E', 'F'):
                for v in (fast - 1, fast):
                    for d in edges_of_d(trains[1], curve, v, boundary)[:1]:
                        out.append(record(trains[1], curve._replace(d=d), v))
    return out


def ends(rng):
    """Far outside 01's ranges: no deceleration left, and the ends of each width."""
    out = []
    for full, gradient in ((300, -30), (299, -30), (301, -30), (1280, -128), (1281, -128), (0, 0), (0, 1), (0, 127),
                           (65535, 127)):
        for kind in (0, 1):
            out += [record(MARKED._replace(full=full), Curve(kind, d, 40, gradient, 0), v)
                    for d, v in ((0, 1112), (50000, 1111), (50000, 1500))]
    out += [record(train, Curve(kind, d, speed, gradient, 0), v) for train in (WIDEST, NARROWEST) for kind in (0, 255)
            for d in (0, 2**32 - 1) for speed in (0, 65535) for gradient in (-128, 127) for v in (0, 65535)]
    for _ in range(80):
        one = lambda *choices: rng.choice(choices)
        train = Train(one(0, 1, 700, 65535), one(0, 500, 65535), one(0, 1, 255), one(0, 30, 255), one(0, 255), one(0, 255),
                      one(0, 255), one(0, 1, 10, 255))
        curve = Curve(one(0, 1, 2, 255), one(0, 1, 5000, 90000, 1000000, 2**31, 2**32 - 1),
                      one(0, 1, 40, 299, 300, 301, 2359, 65535), one(-128, -30, 0, 30, 127), one(0, 0, 1, 255))
        v, moved = one(0, 1, 28, 1112, 8333, 8334, 10000, 65534, 65535), one(0, 0, 1, 65535)
        out.append(record(train, curve, v, moved))
    return out


def moves():
    """Ground moved up to d and beyond it."""
    return [record(MARKED, Curve(kind, d, 40, 0, 0), 1500, moved)
            for kind in (0, 1) for d in (0, 1, 100, 65535, 65536) for moved in (0, 1, 99, 100, 101, 65535)]


def places(rng):
    """The sixteen places."""
    put = lambda place, *curve: record(MARKED, Curve(*curve), 0, 0, 1, place)
    free = lambda place: record(MARKED, Curve(0, 0, 10, 0, 0), 0, 0, 3, place)
    every = lambda place, v, moved=0, train=MARKED: record(train, Curve(0, 0, 0, 0, 0), v, moved, 2, place)
    # none, and none put
    out = [every(0, 0), every(15, 65535, 65535), every(16, 2500)]
    out += [put(16, 0, 0, 40, 0, 0), put(255, 1, 0, 40, 0, 0), every(15, 2500)]
    # one, in E below target+10 and in F at it; one beside it in D; that one alone
    out += [put(0, 0, 0, 40, 0, 0), every(0, 1112), every(0, 1388), every(0, 1389)]
    out += [put(15, 0, 43324, 40, 0, 0), every(15, 2500), free(0), every(0, 2500), every(15, 2500)]
    # put anew in its place: in E; in D, moved to E and F, in A with its past; and with none
    out += [put(15, 0, 35824, 40, 0, 0), every(15, 2500)]
    out += [put(15, 0, 35825, 40, 0, 0), every(15, 2500), every(15, 2500, 1), every(15, 2500, 65535), every(15, 1000)]
    out += [put(15, 0, 90000, 40, 0, 0), every(15, 1000)]
    # one in F that does not brake beside one in D that does, an Expect Stop with a past, then none again
    out += [put(1, 0, 0, 85, 0, 0), put(2, 0, 43324, 40, 0, 0), every(1, 2500, 0, MARKED._replace(margin=1)), every(2, 2500)]
    out += [put(1, 1, 43000, 40, 0, 1), free(2), every(1, 2500), every(1, 1000), every(2, 2500)]
    out += [free(1), free(15), every(1, 2500)]
    # sixteen that tie, then each place in its turn the only one that brakes
    out += [put(place, 0, 60000, 40, 0, 0) for place in range(16)]
    out += [every(3, 2500), every(4, 2500)]
    for place in range(16):
        out += [put(place, 0, (43000, 35000, 20000)[place % 3], 40, 0, 0), every(place, 2500), put(place, 0, 60000, 40, 0, 0)]
    # sixteen mixed ones, approached by a train that slows down, with HALKA on and off
    for soft in (700, 450):
        for place in range(16):
            kind = rng.randrange(2)
            speed = 40 if kind else 10 * rng.randrange(1, 12)
            out.append(put(place, kind, rng.randrange(50000, 120000), speed, rng.randrange(-30, 31), 0))
        for turn in range(24):
            v = 3000 - 120 * turn if turn % 5 else 3600 - 120 * turn
            out.append(every(turn % 16, v, rng.choice((0, 1200, 3000, 5000)), MARKED._replace(soft=soft, halka=turn // 4 % 2)))
            if turn % 6 == 4:
                out.append(free(rng.randrange(16)))
    return out


def vectors():
    rng = random.Random(1)
    cases = spread(rng)
    out = figures() + boundary_edges(rng, cases) + permitted_edges(rng, cases) + floor_edges() + ends(rng) + moves()
    return b''.join(out + places(rng))


if __name__ == '__main__':
    if sys.argv[1:] == ['vectors']:
        sys.stdout.buffer.write(vectors())
    else:
        for line in lines(sys.stdin.buffer.read()):
            print(line)

#!/usr/bin/env python3
"""The brake feedback of document 01 once more, written from 01 and in exact fractions, to compare the proved one with.

    pressure.py vectors          writes recorded readings to standard output
    pressure.py < readings       writes the lines that crates/pressure_run has to print for them

A record has 8 bytes: what the report finds (0 a fresh feedback, 1 the one that the last record left, 2 a reference whose
tenth report this is), the feed (0 pipe, 1 cylinder), P_FULL in kPa, P_EXT in half kPa, signed, and the reference of a 2 in
half kPa; numbers of two bytes, high byte first.
"""
import random
import struct
import sys
from fractions import Fraction


def f32(x):
    """The f32 nearest to a fraction, a tie to the even one; the figures here are far from its largest and smallest."""
    if x == 0:
        return Fraction(0)
    unit = Fraction(1)
    while abs(x) / unit >= 2**24:
        unit *= 2
    while abs(x) / unit < 2**23:
        unit /= 2
    return round(x / unit) * unit


def limited(p):
    return min(max(p, Fraction(0)), Fraction(550))


def pressure(feed, full, external, reference):
    """P_INT, and whether it is TRYCKGIVARFEL."""
    fault = external < -50 or external > 955
    if external < -50:
        return reference, fault
    if feed == 0:
        return limited(external), fault
    counted = external if 0 <= external <= 955 else Fraction(0)
    return limited(f32(500 - f32(f32(150 * counted) / full))), fault


class Feedback:
    def __init__(self):
        self.phase, self.saved, self.reference, self.count = 'waiting', None, None, 0

    def wait(self, p):
        if 400 <= p <= 550:
            self.phase, self.saved, self.count = 'settling', p, 0
        else:
            self.phase, self.saved = 'waiting', None

    def report(self, feed, full, external):
        p, fault = pressure(feed, full, external, self.reference or Fraction(0))
        if self.phase == 'waiting':
            self.wait(p)
        elif self.phase == 'settling':
            if abs(f32(p - self.saved)) > 20:
                self.wait(p)
            else:
                self.count += 1
                if self.count == 30:
                    self.phase, self.reference, self.count = 'set', self.saved, 0
        else:
            self.count += 1
            if self.count == 10:
                self.count = 0
                if self.reference < p:
                    self.reference = f32(self.reference + Fraction(3, 2))
                elif p < self.reference <= f32(p + 30):
                    self.reference = f32(self.reference - Fraction(1, 2))
        return p, fault


def kpa(x):
    """Five decimals, cut: enough to tell any two figures here apart, which are multiples of 1/65,536."""
    n = int(abs(x) * 65536)
    return f"{'-' if x < 0 else ''}{n // 65536}.{n % 65536 * 100000 // 65536:05}"


def lines(data):
    feedback = Feedback()
    for at in range(0, len(data) - 7, 8):
        found, feed, full, external, given = struct.unpack('>BBHhH', data[at:at + 8])
        if found == 0:
            feedback = Feedback()
        elif found == 2:
            feedback = Feedback()
            feedback.phase, feedback.reference, feedback.count = 'set', Fraction(given, 2), 9
        p, fault = feedback.report(feed, full, Fraction(external, 2))
        reference = feedback.reference or Fraction(0)
        yield (f"{'cylinder' if feed else 'pipe'} {full} {kpa(Fraction(external, 2))}: P_INT {kpa(p)} P_REF {kpa(reference)} "
               f"drop {kpa(f32(reference - p))} {feedback.phase}{' TRYCKGIVARFEL' if fault else ''}")


def vectors():
    rng = random.Random(544)
    record = lambda found, feed, full, external, given=0: struct.pack('>BBHhH', found, feed, full, external, given)
    out = []
    # 01's figures: 380 kPa gives 350; 956 gives 500 and the message; at a P_INT of 450, P_REF 480, 480.5 and 449.5
    out += [record(0, 1, 380, 760), record(0, 1, 380, 1912)]
    out += [record(2, 0, 380, 900, given) for given in (960, 961, 899)]
    # the edges of a reading, with and without a reference
    for feed in (0, 1):
        for given in (None, 1000):
            for external in (-32768, -102, -101, -100, -99, -1, 0, 1, 799, 800, 1099, 1100, 1101, 1909, 1910, 1911, 1912, 32767):
                out.append(record(0, feed, 300, external) if given is None else record(2, feed, 300, external, given))
    # 20 from a P0 of 400 goes on settling, and 20.5 waits; 550 is 20.5 from 529.5 and is saved anew, and 20 from 530, where it
    # is the 30th further report
    out += [record(0, 0, 300, 800), record(1, 0, 300, 760), record(1, 0, 300, 759)]
    out += [record(0, 0, 300, 1059)] + [record(1, 0, 300, 1059)] * 29 + [record(1, 0, 300, 1100)] * 31
    out += [record(0, 0, 300, 1060)] + [record(1, 0, 300, 1060)] * 29 + [record(1, 0, 300, 1100)] * 2
    # P_FULL from 150 to 600
    out += [record(0, 1, full, rng.randrange(0, 1911)) for full in range(150, 601, 3)]
    # runs: settling that holds, that is thrown back at 20 and a half kPa, and that a fault throws back; then changes
    for feed, full in ((0, 300), (1, 300), (1, 377)):
        rest = 1000 if feed == 0 else 0
        for wobble in (0, 3, 40, 41, 60):
            found = 0
            for _ in range(90):
                out.append(record(found, feed, full, max(-100, rest + rng.randrange(-wobble, wobble + 1))))
                found = 1
            for level in (-60, 30, -300, 0, 90, -101):
                for _ in range(25):
                    out.append(record(1, feed, full, rest + (level if feed == 0 else abs(level))))
            out += [record(1, feed, full, rng.choice((-101, -200, 1911, 2500, rest))) for _ in range(40)]
    return b''.join(out)


def main():
    if len(sys.argv) > 1 and sys.argv[1] == 'vectors':
        sys.stdout.buffer.write(vectors())
    else:
        for line in lines(sys.stdin.buffer.read()):
            print(line)


if __name__ == '__main__':
    main()

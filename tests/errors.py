#!/usr/bin/env python3
"""Writes a command stream that goes through F-2 of document 02: balise errors at 80 km/h and a cm/s above, and presses of LOSS at the
19th, at the 20th and at later reports."""

import struct
import sys

LOSS = 1
LOW, HIGH, FAST = 2222, 2223, 2700
number = 0


def put(code, operands=b""):
    global number
    number += 1
    write(code, number, operands)


def write(code, numbered, operands):
    sys.stdout.buffer.write(struct.pack(">BI", code, numbered) + operands)


def reading(speed, buttons=0, moved=0):
    return struct.pack(">HHhhB", speed, moved, 0, 1000, buttons)


def odometer(speed, buttons=0, moved=0):
    put(0x10, reading(speed, buttons, moved))


def odometers(count, speed):
    for _ in range(count):
        odometer(speed)


def pressing(count, speed):
    """Reports of which every second presses LOSS afresh, the last among them."""
    for i in range(count):
        odometer(speed, LOSS if (count - i) % 2 else 0)


def state(wanted):
    put(0x02, bytes([wanted]))


def error():
    put(0x32)


def start(t_b=100, t_ebchk=100):
    """A start with this T_B and T_EBCHK, and a reference pressure."""
    put(0x01, struct.pack(">BHHHHBBBBBBBHB", 0, 100, 400, 700, 500, t_b, 20, 20, 30, 10, 15, 50, 380, t_ebchk))
    odometers(31, 0)


def in_da(t_b=100, t_ebchk=100):
    start(t_b, t_ebchk)
    state(3)


def limits():
    """At 80 km/h and a cm/s above; the 19th, the 20th and a later report."""
    # at 80 km/h: pressed all the way to the 19th, at rest too; not at the 20th, which offers; dropped at the 21st
    odometer(LOW)
    error()
    pressing(10, 0)
    pressing(9, FAST)
    odometer(FAST)
    odometer(FAST, LOSS)
    # at rest: not at the 19th; dropped at the 20th itself, above 80 km/h
    odometer(0)
    error()
    odometers(19, LOW)
    odometer(HIGH, LOSS)
    # dropped at the 20th, at rest; LOSS held from the 19th on drops nothing
    odometer(LOW)
    error()
    odometers(18, 0)
    odometer(0, LOSS)
    odometer(0, LOSS)
    odometer(0)
    odometer(0, LOSS)
    # a cm/s above: the old rule, from the first report on
    odometer(HIGH)
    error()
    odometer(HIGH, LOSS)
    odometer(LOW)
    odometer(LOW, LOSS)
    # and above 80 km/h no number of reports is enough
    odometer(FAST)
    error()
    pressing(31, FAST)
    odometer(LOW)
    odometer(0, LOSS)


def further_errors():
    """A second error of the other kind, and of the same, while bit 9 stands."""
    # low, then high: the first report up to 80 km/h drops it
    odometer(LOW)
    error()
    odometers(5, FAST)
    error()
    odometer(LOW, LOSS)
    # high, then low: the offer is taken back, and the count begins
    odometer(FAST)
    error()
    odometers(12, LOW)
    error()
    pressing(19, 0)
    odometer(0)
    odometer(FAST, LOSS)
    # low, then low at the 19th: counted afresh
    odometer(LOW)
    error()
    odometers(19, LOW)
    error()
    pressing(19, LOW)
    odometer(LOW)
    odometer(LOW, LOSS)
    # an offer at the 20th taken back by a low error, and by a high one
    odometer(0)
    error()
    odometers(20, LOW)
    error()
    odometer(LOW, LOSS)
    odometers(19, FAST)
    error()
    odometer(HIGH, LOSS)
    odometer(LOW)
    odometer(LOW, LOSS)


def not_counted():
    """Repeats, refused reports and other commands in between."""
    odometer(LOW)
    error()
    for _ in range(19):
        odometer(LOW)
        write(0x10, number, reading(LOW))
        write(0x10, number + 1, reading(10001))
        write(0x10, number + 2, reading(LOW))
        put(0x31)
    write(0x32, number, b"")
    write(0x32, number + 2, b"")
    odometer(FAST, LOSS)


def other_causes():
    """Bit 0 goes while bit 9 is held; bit 11 waits for it."""
    odometer(LOW)
    error()
    odometer(3100)
    odometer(LOW)
    odometer(LOW, LOSS)
    odometers(17, LOW)
    odometer(LOW, LOSS)
    in_da(t_b=5)
    odometer(LOW)
    error()
    odometers(5, LOW)
    pressing(14, 0)
    odometer(0)
    odometer(FAST, LOSS)
    # both at the 20th
    odometer(0)
    error()
    odometers(19, 0)
    odometer(FAST, LOSS)
    # a second error begins no check: bit 11 at the 5th report since the first, and gone with bit 9 at the 20th since the second
    odometer(LOW)
    error()
    odometers(3, LOW)
    error()
    odometers(19, LOW)
    odometer(LOW, LOSS)
    # FA at a fresh LOSS that would drop bit 9
    in_da(t_b=100, t_ebchk=2)
    odometer(0)
    error()
    odometers(18, 0)
    put(0x30, b"\x00")
    odometer(0)
    odometer(FAST, LOSS)


def dropped_by_state():
    """CS and a start drop the hold with the cause; reports in CS and HS come between."""
    in_da()
    odometer(LOW)
    error()
    odometers(12, LOW)
    state(1)
    odometers(5, LOW)
    state(2)
    odometers(5, LOW)
    state(3)
    odometer(FAST)
    error()
    odometer(LOW, LOSS)
    odometer(LOW)
    error()
    odometers(15, LOW)
    in_da()
    error()
    pressing(19, 0)
    odometer(0)
    odometer(FAST, LOSS)
    # LOSS held from before DA drops nothing
    start()
    odometer(FAST, LOSS)
    state(3)
    error()
    odometer(LOW, LOSS)
    odometer(LOW)
    odometer(LOW, LOSS)


def main():
    in_da()
    limits()
    further_errors()
    not_counted()
    other_causes()
    dropped_by_state()


if __name__ == "__main__":
    main()

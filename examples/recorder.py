#!/usr/bin/env python3
"""A small recorder, written from docs/JOURNAL.md alone: a journal of ten clean ticks of an arm with two axes.

examples/recorder.py | target/bin/fuse
"""
import struct
import sys

DIM, ROWS, PERIOD = 2, 4, 0.05


def record(kind, form, *fields):
    """The kind byte and the body; "<" is little-endian without padding."""
    sys.stdout.buffer.write(struct.pack("<B" + form, kind, *fields))


def row(t):
    return [0.01 * t, -0.01 * t]


bytes_12 = (1, 0, 1, 0, DIM, DIM, 3, 5, 3, 2, 2, 2)  # Enforce, EePosition, Project, Auto, ..
numbers = (ROWS, ROWS, 60, 30, 10, 30, 200, 127, 0, 31)
floats = (PERIOD, 1 / PERIOD, 1.0, 0.01, 0.5, 3.0, *[-1.0] * 8, *[1.0] * 8)
record(1, "12B6H3IQ22d", *bytes_12, *numbers, *floats)
record(8, "d", 0.05)  # a width for the program proximity; it may be left out
record(2, "")
for t in range(10):
    if t % ROWS == 0:
        record(4, "IIHHH", t // ROWS, t, ROWS, DIM, ROWS)
        for value in [x for later in range(t, t + ROWS) for x in row(later)]:
            record(5, "Bd", 0, value)
    for value in row(t):
        record(5, "Bd", 1, value)
    action = row(t) + [0.0] * (8 - DIM)
    record(6, "IIBddII28d", 0, 0, 1, 0.5, float("-inf"), 0, 0, *[0.0] * 12, *action, *action)
    record(7, "IHBBB", t, t % ROWS, 0, 0, 0)

#!/usr/bin/env python3
"""Slot times from the sentences of document 01, "Slot times", in exact fractions. It knows no closed form for the slot of a time: it searches.

  python3 tools/times.py          what the program vectors_ticks must print: crates/vectors_ticks/stdout is this output
"""
from fractions import Fraction
from math import floor

LAST = 2 ** 40
EDGES = (0, 1, LAST, LAST + 1, 2 ** 64 - 1)


def begins(P, Q, n):
    """Slot n begins at floor(n·P/Q) microseconds."""
    return floor(n * Fraction(P, Q))


def minute(P, Q, n):
    """Its minute is that divided by 60,000,000, rounded down."""
    return floor(Fraction(begins(P, Q, n), 60_000_000))


def slot(P, Q, t):
    """The greatest n that begins at or before t. Starts never fall, so halving finds it, once a slot is known that begins later."""
    low, high = 0, 1
    while begins(P, Q, high) <= t:
        low, high = high, 2 * high
    while low + 1 < high:
        middle = (low + high) // 2
        low, high = (middle, high) if begins(P, Q, middle) <= t else (low, middle)
    return low


def says(call, P, Q, x):
    """A tick out of its range gives 16, before 15: a slot, a time or an answer lies beyond 2^40. A minute is refused where its start is."""
    if not (1 <= P <= 1_000_000 and 1 <= Q <= 1_000_000):
        return "refused 16"
    if x > LAST or (slot if call == "slot" else begins)(P, Q, x) > LAST:
        return "refused 15"
    return {"start": begins, "minute": minute, "slot": slot}[call](P, Q, x)


def show(calls, P, Q, *numbers):
    for x in numbers:
        for call in calls.split():
            print(f"{call} {P}/{Q} of {x}: {says(call, P, Q, x)}")


# the times that document 01 stars, with their neighbours
show("start", 1000, 3, 2, 3)
show("slot", 1000, 3, 999, 1000)

# several slots that begin in the same microsecond
show("start", 1, 3, 2, 3)
show("slot", 1, 3, 0, 1)
show("start", 2, 3, 2)
show("slot", 2, 3, 1, 2)

# the last start in minute 0 and the first in minute 1
show("start minute", 1, 1, 59_999_999, 60_000_000)
show("start minute", 1, 3, 179_999_999, 180_000_000)
show("start minute", 1000, 3, 179_999, 180_000)

# answers just within 2^40 and just beyond
show("start minute", 2, 1, 2 ** 39, 2 ** 39 + 1)
show("start minute", 1_000_000, 999_999, 1_099_510_528_265, 1_099_510_528_266)
show("slot", 1, 2, 2 ** 39 - 1, 2 ** 39)
show("slot", 999_999, 1_000_000, 1_099_510_528_264, 1_099_510_528_265)

# the ends of a tick's range, slots longer and shorter than a microsecond
for tick in (1, 1), (1_000_000, 1_000_000), (1_000_000, 1), (1, 1_000_000), (1000, 3), (3, 1000):
    show("start minute slot", *tick, *EDGES)

# P or Q out of its range, the second time with a slot that is beyond too
for tick in (0, 1), (1, 0), (0, 0), (1_000_001, 1), (1, 1_000_001), (2 ** 32 - 1, 2 ** 32 - 1):
    show("start minute slot", *tick, 1, LAST + 1)

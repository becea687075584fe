"""The gains of a mix: points between which a gain goes in a straight line (docs/NULL_TEST.md).

A ramp of a crossfade is such a line. Its middle may lie between two bits, so there are points at the bits around both
of its ends: 0 before it, the gains at its first and at its last bit, and 1 after it. A curve that keeps the sum of
powers has many points."""
from bisect import bisect_right

import numpy as np

from cuts.crossfades import shares

FULL = 1 << 24  # a gain of 1
ROUNDED = 1e-6  # of a gain's last digit: what floating point may lose
LINES = 1024  # straight lines that a curve has at most: it is less than 2^-21 off then

Points = list[tuple[int, int]]  # places and gains


def changing(span: tuple[int, int], middle: float, ramp: float, power: bool) -> tuple[Points, Points]:
    """The gains of what goes and of what comes along a ramp about a middle, if they change only between two places."""
    low, high = span
    first = max(int(np.floor(middle - ramp / 2 - 0.5)) + 1, low)
    last = min(int(np.ceil(middle + ramp / 2 - 0.5)) - 1, high - 1)
    if first > last:
        step = min(first, high)
        return [(step - 1, FULL), (step, 0)], [(step - 1, 0), (step, FULL)]
    count = min(last - first, LINES if power else 1) + 1
    places = np.unique(np.rint(np.linspace(first, last, count)).astype(np.int64))
    going, coming = (np.rint(it * FULL).astype(np.int64) for it in shares(places + 0.5 - middle, ramp, power))
    falling, rising = (list(zip(places.tolist(), it.tolist())) for it in (going, coming))
    return [(first - 1, FULL), *falling, (last + 1, 0)], [(first - 1, 0), *rising, (last + 1, FULL)]


def moved(points: Points, more: int) -> Points:
    return [(place + more, gain) for place, gain in points]


def is_step(points: Points) -> bool:
    """Whether a gain changes from one place to the next."""
    return len(points) == 2 and points[1][0] == points[0][0] + 1


def one_after_other(rising: Points, falling: Points) -> Points:
    """A gain that rises, and falls later."""
    return rising + [it for it in falling if not rising or it[0] > rising[-1][0]]


def gain_at(points: Points, place: int) -> int:
    """The gain at a place, as docs/NULL_TEST.md defines it."""
    number = bisect_right(points, place, key=lambda it: it[0])
    if number in (0, len(points)):
        return points[max(number - 1, 0)][1]
    (one, low), (other, high) = points[number - 1 : number + 1]
    return low + (high - low) * (place - one) // (other - one)


def gain_row(points: Points, first: int, stop: int) -> np.ndarray:
    """The gain of a clip from one of its places to another; 1 is full."""
    if not points:
        return np.ones(stop - first)
    places, values = zip(*points)
    found = np.interp(np.arange(first, stop), places, values)
    found += ROUNDED
    np.floor(found, out=found)
    found /= FULL
    return found


def counted_from(points: Points, first: int, stop: int) -> Points:
    """The same gain from a place on, from which places are counted, to before another one; no points if it is 1."""
    if not points:
        return []
    inside = moved([it for it in points if it[0] > first], -first)
    found = [(0, gain_at(points, first)), *inside] if points[0][0] <= first else inside
    values = {gain for place, gain in found if place < stop - first}
    values |= {gain_at(found, it) for it in (0, stop - first - 1)}
    return [] if values == {FULL} else found

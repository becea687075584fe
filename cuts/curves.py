"""The curves of fades: how a level rises from 0 to 1, and the points of a mix that say it (docs/NULL_TEST.md).

A fade in of some bits has a gain of 0 at its first bit, and the whole gain at the first bit after it. A fade out is the
same backwards: the whole gain at its first bit, and 0 at the first bit after the clip. So the levels of a crossfade by
two straight lines or two S-curves add up to 1, and the powers of one by equal powers do."""
import math
from collections.abc import Callable
from dataclasses import dataclass
from functools import lru_cache

import numpy as np

from cuts.gains import FULL, LINES, Points

STEEP = 1000.0  # how much louder an exponential fade is at its end than at its start: 60 dB


def exponential(part: np.ndarray) -> np.ndarray:
    """A level that rises evenly in decibels, less its first value."""
    return (STEEP**part - 1) / (STEEP - 1)


# How a level rises, by the part of the time that has passed.
RISING: dict[str, Callable[[np.ndarray], np.ndarray]] = {
    "linear": lambda part: part,
    "power": lambda part: np.sin(part * np.pi / 2),
    "s": lambda part: (1 - np.cos(part * np.pi)) / 2,
    "exponential": exponential,
}
# How much a curve bends there: the root of its second derivative, as far as its shape goes.
BENT: dict[str, Callable[[np.ndarray], np.ndarray]] = {
    "power": lambda part: np.sqrt(np.sin(part * np.pi / 2)),
    "s": lambda part: np.sqrt(np.abs(np.cos(part * np.pi))),
    "exponential": lambda part: np.sqrt(STEEP**part),
}
FINE = 1 << 16  # steps in which the bends of a curve are summed
SHORT = 1 << 16  # bits: a fade that is no longer has twice as many lines, as these begin and end with bits


@dataclass(frozen=True)
class Fade:
    """How many bits a fade takes, and by which curve."""

    bits: int
    curve: str


@lru_cache
def places_of(fade: Fade) -> np.ndarray:
    """The places of the points of a fade, from 0 to its last: straight lines that are equally far off the curve."""
    if fade.curve not in BENT:
        return np.array([0, fade.bits])
    most = LINES if fade.bits > SHORT else 2 * LINES - 2
    if fade.bits <= most:
        return np.arange(fade.bits + 1)
    parts = np.linspace(0, 1, FINE + 1)
    bends = np.append(0, np.cumsum(BENT[fade.curve]((parts[1:] + parts[:-1]) / 2)))
    lines = np.interp(np.linspace(0, bends[-1], most + 1), bends, parts)
    return np.unique(np.rint(lines * fade.bits).astype(np.int64))


def points_of(length: int, gain: int, rise: Fade | None, fall: Fade | None) -> Points:
    """The gain of a clip that fades in at its start and out at its end; no points if it is 1 all over."""
    if rise is None and fall is None:
        return [] if gain == FULL else [(0, gain)]
    found = dict[int, int]()
    for fade, is_fall in ((rise, False), (fall, True)):
        if fade:
            places = places_of(fade)
            values = np.rint(RISING[fade.curve](places / fade.bits) * gain).astype(np.int64)
            places, values = (length - places[::-1], values[::-1]) if is_fall else (places, values)
            found |= dict(zip(places.tolist(), values.tolist()))
    return list(found.items())


def gain_of(level: float) -> int:
    """The gain of a level in dB."""
    return round(FULL * 10 ** (level / 20))


def level_of(gain: int) -> str:
    """The shortest level in dB that has this gain, which is above 0."""
    level = 20 * math.log10(gain / FULL)
    found = (f"{level:+.{digits}f}" for digits in range(12))
    return next(it for it in found if gain_of(float(it)) == gain)


def gains_at(points: Points, places: np.ndarray) -> np.ndarray:
    """The gain at some places of a clip, as docs/NULL_TEST.md defines it."""
    if not points:
        return np.full(len(places), FULL)
    starts, values = np.array(points, np.int64).T
    last = np.clip(np.searchsorted(starts, places, "right") - 1, 0, len(points) - 1)
    following = np.minimum(last + 1, len(points) - 1)
    steps = np.maximum(starts[following] - starts[last], 1)
    rises = (values[following] - values[last]) * np.clip(places - starts[last], 0, None)
    return values[last] + rises // steps

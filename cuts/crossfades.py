"""How the sound goes over from one take to the other, and where its middle has to lie so that bits can follow it.

Bits can't change whether their sum is odd or even. The sound of a crossfade can: if its middle moves, the sum of the
sound changes by the difference of both takes for each bit that it moves."""
from collections.abc import Callable
from dataclasses import dataclass, replace
from typing import TypeVar

import numpy as np

from cuts import hearing
from cuts.errors import sounds
from cuts.hearing import BANDS, decibels, hearing_of, lowpass
from cuts.takes import Signals

Numbers = TypeVar("Numbers", float, np.ndarray)

SPLIT = BANDS[0]  # Hz: what this low-pass passes may change faster than what is above
STEPS = 3  # by which a middle between two bits is found
SETTLED = 1e-3  # of a sum: what is left of it isn't heard


@dataclass(frozen=True)
class Crossfade:
    """The sound goes over within `ramp` bits, whose middle lies at a place for each channel: just there if the ramp is
    0. What of it is above `SPLIT` goes over within `slow` bits about the same middle, unless that is 0. With `power`
    the sum of both takes' powers stays, else that of their levels."""

    ramp: float
    power: bool
    middles: list[float]
    slow: float = 0.0

    def mixed(self, sounds: "Sounds", first: int = 0) -> np.ndarray:
        """The sound from a place on, of those of both takes there: a row for each channel."""
        away = np.arange(first, first + sounds.before.shape[-1]) + 0.5 - np.array(self.middles, float)[:, None]
        return np.sum([mix(away, ramp, self.power, *both) for ramp, *both in sounds.layers(self)], axis=0)


def shares(away: np.ndarray, ramp: float, power: bool) -> tuple[np.ndarray, np.ndarray]:
    """The parts of both takes at a distance in bits from the middle of a ramp."""
    rising = np.clip(away / ramp + 0.5, 0, 1) if ramp else (away > 0) * 1.0
    if power:
        return np.cos(rising * np.pi / 2), np.sin(rising * np.pi / 2)
    return 1 - rising, rising


def risen(row: np.ndarray, ramp: float, middles: np.ndarray) -> np.ndarray:
    """The sum of a row times a ramp that rises from 0 to 1, for each middle of the ramp."""
    places = np.arange(len(row)) + 0.5
    sums, moments = (np.append(np.cumsum(it[::-1])[::-1], 0.0) for it in (row, places * row))

    def risen_from(starts: np.ndarray) -> np.ndarray:
        """The sum of the row times how far each place is after a start, from there on."""
        first = np.clip(np.floor(starts + 0.5), 0, len(row)).astype(int)
        return moments[first] - starts * sums[first]

    if not ramp:
        return sums[np.clip(np.floor(middles + 0.5), 0, len(row)).astype(int)]
    return (risen_from(middles - ramp / 2) - risen_from(middles + ramp / 2)) / ramp


def mix(away: np.ndarray, ramp: float, power: bool, before: np.ndarray, after: np.ndarray) -> np.ndarray:
    low, high = shares(away, ramp, power)
    return low * before + high * after


def above(rate: int, sound: Callable[[int, int], np.ndarray], first: int, stop: int) -> np.ndarray:
    """What of a sound is above `SPLIT`, from one place to another, a row for each channel."""
    taps = lowpass(rate, *SPLIT)
    reach = len(taps) // 2
    wide = sound(first - reach, stop + reach)
    return wide[:, reach : wide.shape[1] - reach] - hearing.convolved(wide, taps)


def wrapped(numbers: Numbers) -> Numbers:
    """Numbers less the nearest even ones."""
    return numbers - 2 * np.rint(numbers / 2)


@dataclass(frozen=True)
class Sounds:
    """The sounds of both takes in one channel or in all of them, from the first bit that may be part of a crossfade to
    the last; and what of them is above `SPLIT`, if that goes over by itself."""

    before: np.ndarray
    after: np.ndarray
    above: tuple[np.ndarray, np.ndarray] | None = None

    def channel(self, number: int) -> "Sounds":
        """Those of one channel."""
        return self.of_each(lambda rows: rows[number])

    def part(self, first: int, stop: int) -> "Sounds":
        """Those from one place to another."""
        return self.of_each(lambda rows: rows[..., first:stop])

    def of_each(self, change: Callable[[np.ndarray], np.ndarray]) -> "Sounds":
        above = self.above and (change(self.above[0]), change(self.above[1]))
        return Sounds(change(self.before), change(self.after), above)

    def layers(self, crossfade: Crossfade) -> list[tuple[float, np.ndarray, np.ndarray]]:
        """What goes over by itself: within how many bits, and from what to what."""
        if not crossfade.slow or not self.above:
            return [(crossfade.ramp, self.before, self.after)]
        low, high = self.above
        return [(crossfade.ramp, self.before - low, self.after - high), (crossfade.slow, low, high)]

    def sums(self, crossfade: Crossfade, middle: float, most: int) -> np.ndarray:
        """The sum of the crossfade of one channel for each middle, up to `most` bits before and after one."""
        found = np.zeros(2 * most + 1)
        for ramp, before, after in self.layers(crossfade):
            if crossfade.power:
                low, high = shares(np.arange(-most, len(before) + most) + 0.5 - middle, ramp, True)
                # Moved by `t` bits, a place `k` has the share of the place `k - t`: the last sum is the first moved.
                found += sum(hearing.convolved(*it)[::-1] for it in ((low, before[::-1]), (high, after[::-1])))
            else:
                found += before.sum() + risen(after - before, ramp, middle + np.arange(-most, most + 1))
        return found

    def sum(self, crossfade: Crossfade, middle: float) -> float:
        """The sum of one crossfade of one channel."""
        away = np.arange(len(self.before)) + 0.5 - middle
        return float(sum(mix(away, ramp, crossfade.power, *both).sum() for ramp, *both in self.layers(crossfade)))


def even_middle(sounds: Sounds, crossfade: Crossfade, middle: float, most: int, wanted: float) -> tuple[float, float]:
    """The nearest middle, at most `most` bits away, at which the sum of the crossfade is `wanted` or differs from it by
    an even number; and what is missing there. If there is none, the middle at which least is missing."""
    missing = wrapped(wanted - sounds.sums(crossfade, middle, most))
    if abs(missing[most]) < SETTLED:
        return middle, float(missing[most])
    rises = np.diff(missing)
    crossings = np.nonzero((missing[:-1] * missing[1:] <= 0) & (np.abs(rises) < 1) & (rises != 0))[0]
    if not len(crossings):
        least = int(np.abs(missing).argmin())
        return middle + least - most, float(missing[least])
    moved = crossings - most - missing[crossings] / rises[crossings]
    best = int(np.abs(moved).argmin())
    slope, found = rises[crossings[best]], middle + float(moved[best])
    for _ in range(STEPS):
        found -= float(np.clip(wrapped(wanted - sounds.sum(crossfade, found)) / slope, -1, 1))
    return found, float(wrapped(wanted - sounds.sum(crossfade, found)))


# Whether all of the sound may change at once in a butt, or only what is heard of it.
#
# What a take holds about the limit of its sound can't be told from the noise of its modulator (`hearing`). Whatever of
# it is taken for the wrong one is heard as a click where it changes at once. So what of both takes is about there is
# changed as fast at several places near the cut: what is heard of that is about what the butt will click.

RAMP = 10e-6  # seconds in which the sound of a butt changes
NEAR = 1_000  # Hz to each side of a limit, about which nothing is told apart
ABOVE = 5_000  # Hz above a limit, where takes may hold sound
LOUDER = 4.0  # dB: what clicks more than what is there
PLACES = 16  # around the cut
APART = 50e-6  # seconds between two of them
QUIET = -115.0  # dB to full scale: what is heard of it at most, on the average


def around(take: Signals, first: int, stop: int, ends: tuple[int, int]) -> np.ndarray:
    """What of a take is between two frequencies (Hz), both counted from the limits of its sound: a row for each
    channel."""
    low, high = (sounds(take, first, stop, [(one + more, two + more) for one, two in take.bands]) for more in ends)
    return high - low


def heard(
    takes: tuple[Signals, Signals], places: tuple[int, int], crossfade: Crossfade, ends: tuple[int, int]
) -> float:
    """How loud the loudest channel is heard (dB), if what is between two frequencies about the limits changes around a
    place of each take as a crossfade says, whose middle is moved there."""
    hearing, rate = hearing_of(takes[0].rate), takes[0].rate
    size, apart, peaks = hearing.size, round(APART * rate), []
    reach = (size + PLACES * apart) // 2
    before, after = (around(take, it - reach, it + reach, ends) for take, it in zip(takes, places))
    both = Sounds(before, after)
    moved = replace(crossfade, middles=[size / 2] * takes[0].count)
    for first in range(0, PLACES * apart, apart):
        error = moved.mixed(both.part(first, first + size))
        peaks.append([np.abs(hearing.click(it)).max() for it in error])
    return decibels(float(np.sqrt(np.mean(np.square(peaks), axis=0)).max()))


def is_whole(takes: tuple[Signals, Signals], places: tuple[int, int], power: bool) -> bool:
    """Whether nothing is heard if all of the sound changes at once, from a place of one take to one of the other."""
    at_once = Crossfade(RAMP * takes[0].rate, power, [])
    return heard(takes, places, at_once, (-NEAR, NEAR)) <= QUIET


def doubt(takes: tuple[Signals, Signals], places: tuple[int, int], power: bool, slow: float) -> float:
    """How loud a butt may be (dB) that changes what is above the audio band within that many bits: what is above the
    limits may be sound, which goes on in the takes."""
    return heard(takes, places, Crossfade(slow, power, []), (0, ABOVE)) + LOUDER

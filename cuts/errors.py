"""What a take owes at a place: what is still heard of its errors when it ends there.

A take's error is what it is more than its sound, and its sound is guessed to be what a low-pass passes. As a whole the
error lies above the audio band and is not heard, but it is where it ends in its midst: `t` bits from its end p there
is, `taps` being the low-pass of `hearing`,

    owed(p, t) = sum over q < p of taps(p + t - q) error(q)

So a plain cut from place a of one take to place b of another clicks by owed_a(t) - owed_b(t). Here it is described by
the spectrum of the errors before p, as seen from there. As nearly all comes of the last hundred bits it is smooth, a
polynomial of the frequency, and eight numbers a channel describe it."""
import copy
from collections.abc import Callable

import numpy as np

from cuts import hearing
from cuts.hearing import DOWN, Band, Hearing, lowpass
from cuts.takes import Signals

LINES = 17
HIGHEST = 22_400  # Hz: the last line
NUMBERS = 8
AROUND = 1024  # bits at 2,822,400 Hz to each side of a place, in which a click is computed
STEP = 16  # such bits between the times at which it is


def sounds(take: Signals, first: int, stop: int, bands: list[Band] | None = None, down: int = DOWN) -> np.ndarray:
    """What of a take passes low-passes, a row for each channel: those of its own bands, or others."""
    # Every place is wanted, and the library gives one of eight at most, in whole numbers.
    taps = [lowpass(take.rate, *it, down) for it in bands or take.bands]
    reach = max(map(len, taps)) // 2
    rows, found = take.signs(first - reach, stop + reach), []
    for row, one in zip(rows, taps):
        more = reach - len(one) // 2
        found.append(hearing.convolved(row[more : len(row) - more], one))
    return np.stack(found)


def known(take: Signals) -> int:
    """How many bits to each side determine what the sound of a take is."""
    return max(len(lowpass(take.rate, *it)) for it in take.bands) // 2


class Errors:
    """The signs of a take at the places from `first` on, and its errors (`values`): a row for each channel."""

    def __init__(self, take: Signals, first: int, stop: int, bands: list[Band] | None = None) -> None:
        self.first, self.stop = first, stop
        self.signs = take.signs(first, stop)
        self.values = self.signs - sounds(take, first, stop, bands)

    def channel(self, number: int) -> "Errors":
        """Those of one channel."""
        found = copy.copy(self)
        found.signs, found.values = self.signs[number : number + 1], self.values[number : number + 1]
        return found

    def part(self, first: int, stop: int) -> np.ndarray:
        return self.values[:, first - self.first : stop - self.first]

    def sound(self, channel: int, first: int, stop: int) -> np.ndarray:
        """What a channel is guessed to sound like."""
        part = slice(first - self.first, stop - self.first)
        return self.signs[channel, part] - self.values[channel, part]


class Owing:
    """How spectra at the lines, as seen from a place, become numbers; the less their squares add up to, the less is
    heard. `click` computes from numbers what is heard around the place, and `moments` the errors' sum and their first
    moment."""

    def __init__(self, hearing: Hearing) -> None:
        self.rate = hearing.rate
        self.turns = 2 * np.pi * np.linspace(0, HIGHEST, LINES) / hearing.rate
        middle = np.arange(-hearing.half, hearing.half + 1)
        loud = (np.cos(np.outer(self.turns, middle)) @ hearing.taps) * self.turns[1] / np.pi
        loud[0] /= 2
        powers = (self.turns / self.turns[-1])[:, None] ** np.arange(NUMBERS) * np.sqrt(loud)[:, None]
        (even, of_even), (odd, of_odd) = np.linalg.qr(powers[:, ::2]), np.linalg.qr(powers[:, 1::2])
        none = np.zeros((LINES, NUMBERS // 2))
        self.ways = np.block([[even, none], [none, odd]]) * np.tile(np.sqrt(loud), 2)[:, None]
        first = np.linalg.inv(of_even)[0], -np.linalg.inv(of_odd)[0] / self.turns[-1]
        self.moments = np.stack([np.append(first[0], none[0]), np.append(none[0], first[1])], axis=1)
        time = np.arange(-AROUND, AROUND + 1, STEP) * hearing.rate / 2_822_400
        waves = np.exp(1j * np.outer(self.turns, time)) * loud[:, None]
        self.click = np.linalg.pinv(self.ways) @ np.concatenate([waves.real, -waves.imag])

    def numbers(self, seen: np.ndarray) -> np.ndarray:
        """The numbers of spectra, a row for each column."""
        return np.concatenate([seen.real, seen.imag]).T @ self.ways

    def before(self, errors: Errors, first: int, number: int) -> np.ndarray:
        """What a take owes that ends at the places from `first` on: numbers, for each channel a row for each place."""
        first -= errors.first
        known = hearing.let_in(errors.values[:, : first + number - 1], self.rate)
        return np.stack([self.numbers(hearing.ahead(it, self.turns, first)) for it in known])

    def after(self, errors: Errors, first: int, number: int) -> np.ndarray:
        """What would have to be owed where a take begins at the places from `first` on."""
        known = hearing.let_in(errors.values[:, first - errors.first :][:, ::-1], self.rate)[:, ::-1]
        return np.stack([-self.numbers(hearing.from_place_on(it, self.turns, number)) for it in known])

    def bits(self, length: int) -> np.ndarray:
        """The numbers of each of that many errors of 1, as seen from the middle one."""
        return self.numbers(np.exp(-1j * np.outer(self.turns, np.arange(length) - length // 2)))


# Pairs of places at which two takes owe nearly the same, in the channel in which they differ most.
#
# What is owed is given as numbers: for each channel a row for each place.

BLOCK = 256  # places of the first take at a time

# Of rows of both takes how far apart they are: a table for each channel.
Distance = Callable[[np.ndarray, np.ndarray], np.ndarray]


def apart(before: np.ndarray, after: np.ndarray) -> np.ndarray:
    """The squared distance of what is owed."""
    squares = (before**2).sum(axis=2)[:, :, None] + (after**2).sum(axis=2)[:, None, :]
    return squares - 2 * before @ after.transpose(0, 2, 1)


def apart_in_parity(weights: np.ndarray) -> Distance:
    """The same of rows of whole and broken numbers, each with its weight, when even numbers don't count."""

    def distance(before: np.ndarray, after: np.ndarray) -> np.ndarray:
        found = np.zeros((len(before), before.shape[1], after.shape[1]))
        for column, weight in enumerate(weights):
            left = before[:, :, None, column] - after[:, None, :, column]
            left -= 2 * np.rint(left / 2)
            found += weight * left**2
        return found

    return distance


def nearest(
    before: np.ndarray, after: np.ndarray, wished: int, most: int, kept: int, distance: Distance = apart
) -> np.ndarray:
    """Pairs (i, j) of places, with j - i - wished within `most`, at which the distance is least, in the channel in
    which it is largest: so many, the nearest first, and of equal ones the first."""
    distances, pairs = [np.empty(0)], [np.empty((0, 2), np.int64)]
    places, others = before.shape[1], after.shape[1]
    for first in range(0, places, BLOCK):
        stop = min(first + BLOCK, places)
        low, high = max(first + wished - most, 0), min(stop + wished + most, others)
        if low >= high:
            continue
        table = distance(before[:, first:stop], after[:, low:high]).max(axis=0)
        moved = np.arange(low, high) - np.arange(first, stop)[:, None] - wished
        table[np.abs(moved) > most] = np.inf
        order = table.ravel()
        best = np.argpartition(order, kept)[:kept] if order.size > kept else np.arange(order.size)
        best = best[np.isfinite(order[best])]
        distances.append(order[best])
        pairs.append(np.stack(np.divmod(best, high - low), axis=1) + (first, low))
    found = np.concatenate(pairs)
    sorting = np.lexsort((found[:, 1], found[:, 0], np.concatenate(distances)))
    return found[sorting[:kept]]


def peaks(owed: np.ndarray, click: np.ndarray) -> np.ndarray:
    """The loudest peak in any channel of what is owed, of each row of the numbers."""
    # Row by row, of which the library multiplies all at once.
    heard = np.ascontiguousarray(owed).reshape(-1, owed.shape[-1]) @ click
    return np.maximum(heard.max(axis=1), -heard.min(axis=1)).reshape(owed.shape[:-1]).max(axis=0)

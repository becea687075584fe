"""The sound of a mix text (docs/NULL_TEST.md), computed piece by piece in floating point; full scale is 1."""
from functools import lru_cache

import numpy as np
from scipy import fft

from cuts import gains, hearing
from cuts.mixes import without_zeros
from cuts.takes import Signals
from tools.null_testing.mixes import Clip, Mix

SLOW = (2_000, 20_000)  # Hz: a low-pass that passes what a decoder's ripple leaves of the sound in slow errors
DOWN = 240  # dB: how little it passes of the rest
MOST = 1 << 17  # places of a row: longer ones are convolved as those of this length, in less memory

Way = tuple[int, int]  # a take, and how far its bits are from their places in the mix


def way_of(clip: Clip) -> Way:
    return clip.take, clip.offset


def signs_of(take: Signals, channel: int, first: int, stop: int) -> np.ndarray:
    """The signal of one channel of a take, which is 0 outside of it."""
    found = np.zeros(stop - first)
    low, high = max(first, 0), min(stop, take.bits)
    if low < high:
        part = found[low - first : high - first]
        part[:] = take.stored(low, high)[channel]
        part *= 2
        part -= 1
    return found


def gain_of(points: gains.Points, first: int, stop: int) -> np.ndarray | float:
    """The gain at places that are counted from a clip's first one; one number if it doesn't change there."""
    inside = [gain for place, gain in points if first <= place < stop]
    ends = [gains.gain_at(points, it) for it in (first, stop - 1)] if points else [gains.FULL]
    if len({*inside, *ends}) == 1:
        return ends[0] / gains.FULL
    return gains.gain_row(points, first, stop)


class Filter:
    """Some taps by which rows are convolved, at the places for which all taps are inside of a row."""

    def __init__(self, taps: np.ndarray) -> None:
        self.taps, self.reach = taps, len(taps) // 2
        self.spectrum = lru_cache(maxsize=8)(lambda size: fft.rfft(taps, size))

    def of(self, row: np.ndarray) -> np.ndarray:
        if len(self.taps) == 1:
            return row * self.taps[0]
        count = len(row) - len(self.taps) + 1
        size = block_for(min(len(row), MOST), len(self.taps))
        step = size - len(self.taps) + 1
        pieces = -(-count // step)
        padded = np.pad(row, (0, pieces * step + len(self.taps) - 1 - len(row)))
        rows = np.lib.stride_tricks.sliding_window_view(padded, size)[::step]
        made = fft.irfft(fft.rfft(rows, axis=1) * self.spectrum(size), size, axis=1)
        return made[:, len(self.taps) - 1 :].reshape(-1)[:count]


@lru_cache(maxsize=64)
def block_for(length: int, count: int) -> int:
    """The size of the spectra by which rows of some length are convolved fastest."""
    return hearing.block_for(length, count)


class Sounding:
    """A mix with its takes."""

    def __init__(self, mix: Mix, takes: list[Signals]) -> None:
        self.mix, self.takes, self.length = mix, takes, mix.length
        self.rate, self.count = takes[0].rate, takes[0].count
        self.decoders = [Filter(without_zeros(np.array(it, np.int64)) / mix.unit) for it in mix.decoders]
        self.totals = [float(it.taps.sum()) for it in self.decoders]
        self.slow = Filter(hearing.kaiser_lowpass(sum(SLOW) / self.rate, (SLOW[1] - SLOW[0]) / (self.rate / 2), DOWN))

    def total(self, clip: Clip) -> float:
        """By how much the decoder of a clip makes a sound louder."""
        return self.totals[clip.decoder]

    def is_raw(self, clip: Clip) -> bool:
        """Whether the sound of a clip is its take's bits as they are."""
        return len(self.decoders[clip.decoder].taps) == 1

    def decoded(self, clip: Clip, channel: int, first: int, stop: int) -> np.ndarray:
        """The decoded sound of a clip's take at places of the mix, as if the clip had no ends."""
        by, start = self.decoders[clip.decoder], clip.offset
        return by.of(signs_of(self.takes[clip.take], channel, first + start - by.reach, stop + start + by.reach))

    def sound(self, channel: int, first: int, stop: int) -> np.ndarray:
        """The sound of the mix at its places from one to another."""
        found = np.zeros(stop - first)
        for clip in self.mix.clips:
            low, high = max(first, clip.at), min(stop, clip.stop)
            if low < high:
                gain = gain_of(clip.points(channel), low - clip.at, high - clip.at)
                if np.any(gain):
                    found[low - first : high - first] += gain * self.decoded(clip, channel, low, high)
        return found

    def heard_at(self, channel: int, place: int) -> list[tuple[Clip, float]]:
        """The clips that are heard at a place, with their gains."""
        inside = [it for it in self.mix.clips if it.at <= place < it.stop]
        rows = [(it, it.points(channel)) for it in inside]
        found = [(it, gains.gain_at(points, place - it.at) / gains.FULL if points else 1.0) for it, points in rows]
        return [it for it in found if it[1]]

    def errors(self, way: Way, channel: int, place: int, first: int, stop: int) -> np.ndarray:
        """What the bits of a take are more than their sound, which is that of a place and goes on as if its clips had no
        ends. What a decoder's ripple leaves of the sound is taken off: it goes on in what is new."""
        reach, (take, offset) = self.slow.reach, way
        low, high = first - reach, stop + reach
        found = signs_of(self.takes[take], channel, low + offset, high + offset)
        for clip, gain in self.heard_at(channel, place):
            found -= gain * self.decoded(clip, channel, low, high)
        return found[reach:-reach] - self.slow.of(found)

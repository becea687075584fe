"""How loud a mix is before anything is made of it: peak and RMS of each clip in each channel, and of all together.

The sound is decoded by the mix's own taps, at every few bits, in blocks: so an hour takes no more memory than a minute.
All levels are relative to full scale, which stored ones alone have."""
from collections.abc import Iterator
from dataclasses import dataclass, field

import numpy as np
from numpy.lib.stride_tricks import sliding_window_view
from scipy import fft

from cuts import curves, mixes
from cuts.gains import FULL, Points
from cuts.hearing import USUAL, decibels
from cuts.takes import Signals
from tools.null_testing.mixes import Clip, Mix

EVERY = 352_800  # places a second at least at which the sound is decoded: peaks between them are 0.2 dB louder at most
BLOCK = 1 << 19  # places of the mix at a time
SIZE = 1 << 12  # of the spectra by which it is decoded, at least
QUIET = -4.4  # dB to full scale: the usual modulator is stable up to this
SAFE = -1.9  # dB to full scale: no modulator is stable for louder sounds
# At DSD64, up to which peak new bits hold a sound (dB to full scale), and how loud what is left may be then.
HELD = ((-3.7, -110.0), (-3.1, -103.0), (-2.5, -97.0), (SAFE, -87.0))
DSD64 = 3_072_000  # Hz, at most
APART = 1.0  # seconds: places that are nearer to each other are one stretch


def most_held(rate: int, limit: float) -> float:
    """The greatest peak that new bits can have (dB), if no more than a limit may be left of them."""
    if rate > DSD64:
        return SAFE
    return max([QUIET, *(peak for peak, left in HELD if left <= limit)])


class Decoding:
    """A decoder that gives its sound at every few bits."""

    def __init__(self, taps: list[int], unit: int, step: int) -> None:
        self.step, self.reach = step, len(taps) // 2
        rows = -(-len(taps) // step)
        self.size, self.over = 1 << max((4 * rows).bit_length(), SIZE.bit_length() - 1), rows - 1
        self.hop = self.size - self.over
        row = np.zeros(rows * step)
        row[: len(taps)] = np.array(taps[::-1]) / unit
        # Of each bit of a step the taps that it meets, turned around: so a convolution adds up what they are to it.
        phases = row.reshape(rows, step)[::-1].T.astype(np.float32)
        self.spectra = fft.rfft(phases, self.size)[:, None]

    def decoded(self, take: Signals, first: int, count: int, channels: list[int]) -> dict[int, np.ndarray]:
        """The sound of some channels at that many places from one on."""
        blocks = -(-count // self.hop)
        zeros = np.zeros((take.count, (blocks * self.hop + self.over) * self.step), np.float32)
        signs = take.put_signs(zeros, first - self.reach)
        return {it: self.sound(signs[it])[:count] for it in channels}

    def sound(self, signs: np.ndarray) -> np.ndarray:
        """The sound of a channel, of the signs of some whole blocks."""
        phases = np.ascontiguousarray(signs.reshape(-1, self.step).T)
        pieces = sliding_window_view(phases, self.size, axis=1)[:, :: self.hop]
        spectra = fft.rfft(pieces)
        spectra *= self.spectra
        return fft.irfft(spectra.sum(axis=0), self.size)[:, self.over :].ravel()


@dataclass
class Meter:
    """The greatest level so far and its place, and the sum of the squares of all levels."""

    peak: float = 0.0
    place: int = 0
    power: float = 0.0
    count: int = 0

    def take(self, row: np.ndarray, place: int, step: int) -> None:
        """Takes levels at places from one on."""
        if len(row) == 0:
            return
        best = int(np.abs(row).argmax())
        if abs(row[best]) > self.peak:
            self.peak, self.place = float(abs(row[best])), place + best * step
        self.power += float(np.dot(row, row.astype(np.float64)))
        self.count += len(row)

    @property
    def level(self) -> float:
        """The peak, in dB."""
        return decibels(self.peak)

    @property
    def mean(self) -> float:
        """The RMS, in dB."""
        return decibels(float(np.sqrt(self.power / max(self.count, 1))))


@dataclass
class Stretch:
    """Places of new bits that are too loud, in a channel: from one to another, and the greatest level."""

    channel: int
    first: int
    last: int
    peak: float


@dataclass
class Levels:
    """What is found of a mix: of each clip and of the whole a meter for each channel, and what is louder than `most` (dB),
    and so too loud."""

    clips: list[list[Meter]]
    whole: list[Meter]
    most: float
    loud: list[Stretch] = field(default_factory=list)
    new: list[Meter] = field(default_factory=list)


class Metering:
    """A mix and its takes."""

    def __init__(self, mix: Mix, takes: list[Signals]) -> None:
        self.mix, self.takes, self.rate, self.count = mix, takes, takes[0].rate, takes[0].count
        self.step = max(self.rate // EVERY, 1)
        self.decodings = [self.decoding(it) for it in mix.decoders]
        self.ways = [(it.take, it.offset) for it in mix.clips]
        self.most = most_held(self.rate, decibels(mix.limit / mix.full))

    def decoding(self, taps: list[int]) -> Decoding:
        """That of a decoder. One of a single tap gives bits as they are, and these sound as a usual one decodes them."""
        if len(taps) > 1:
            return Decoding(taps, self.mix.unit, self.step)
        usual = np.rint(mixes.passing(self.rate, USUAL) * taps[0]).astype(np.int64)
        return Decoding(usual.tolist(), self.mix.unit, self.step)

    def blocks(self) -> Iterator[tuple[int, int]]:
        """The first place of each block, and how many it has at which the sound is decoded."""
        size = BLOCK // self.step * self.step
        for first in range(0, self.mix.length, size):
            yield first, -(-min(size, self.mix.length - first) // self.step)

    def part(self, clip: Clip, first: int, count: int) -> slice:
        """Which places of a block a clip has."""
        low, high = -(-(clip.at - first) // self.step), -(-(clip.stop - first) // self.step)
        return slice(min(max(low, 0), count), min(max(high, 0), count))

    def gain(self, points: Points, first: int, count: int) -> np.ndarray:
        """The gain at that many places of a clip: one number if it is the same all over."""
        last = first + (count - 1) * self.step
        is_one = not any(first < place < last for place, _ in points)
        ends = curves.gains_at(points, np.array([first, last]))
        if is_one and ends[0] == ends[1]:
            return ends[:1]
        return curves.gains_at(points, np.arange(first, last + 1, self.step))

    def gains(self, clip: Clip, first: int, count: int) -> list[np.ndarray]:
        """The gain in each channel at that many places of the mix."""
        rows = [self.gain(clip.points(it), first - clip.at, count) for it in range(self.count if clip.gains else 1)]
        return rows if clip.gains else rows * self.count

    def levels(self) -> Levels:
        """The levels of all."""
        found = Levels([[Meter() for _ in range(self.count)] for _ in self.mix.clips], [], self.most)
        found.whole, found.new = ([Meter() for _ in range(self.count)] for _ in range(2))
        for first, count in self.blocks():
            self.take_block(found, first, count)
        return found

    def take_block(self, found: Levels, first: int, count: int) -> None:
        """Meters a block of the mix."""
        mixed = np.zeros((self.count, count), np.float32)
        # Which clips are heard at each place: none, those of one way at full gain, or others.
        ways, is_new = np.full((self.count, count), -1), np.zeros((self.count, count), bool)
        for number, clip in enumerate(self.mix.clips):
            part = self.part(clip, first, count)
            if part.start >= part.stop:
                continue
            place, size = first + part.start * self.step, part.stop - part.start
            rows = {it: gain for it, gain in enumerate(self.gains(clip, place, size)) if gain.any()}
            sounds = self.decodings[clip.decoder].decoded(self.takes[clip.take], place + clip.offset, size, list(rows))
            way = self.ways.index(self.ways[number])
            for channel, gains in rows.items():
                row = sounds[channel] * (gains / FULL).astype(np.float32)
                found.clips[number][channel].take(row, place, self.step)
                mixed[channel, part] += row
                before = ways[channel, part]
                is_new[channel, part] |= (gains != 0) & ((gains != FULL) | (before >= 0) & (before != way))
                ways[channel, part] = np.where(gains != 0, way, before)
        for channel, row in enumerate(mixed):
            found.whole[channel].take(row, first, self.step)
            self.take_loud(found, channel, first, np.where(is_new[channel], np.abs(row), 0))

    def take_loud(self, found: Levels, channel: int, first: int, row: np.ndarray) -> None:
        """Takes the places of a block with new bits that are too loud, and how loud these are at most."""
        found.new[channel].take(row, first, self.step)
        places = first + np.flatnonzero(row > 10 ** (self.most / 20)) * self.step
        if len(places):
            # A block is shorter than what makes one stretch of two.
            here = Stretch(channel, int(places[0]), int(places[-1]), float(row.max()))
            last = next((it for it in reversed(found.loud) if it.channel == channel), None)
            if last and here.first - last.last < APART * self.rate:
                last.last, last.peak = here.last, max(last.peak, here.peak)
            else:
                found.loud.append(here)

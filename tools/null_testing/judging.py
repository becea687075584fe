"""Judges a master by a mix: where it is judged, its residual there, and the first reason against it.

All sums fit 64 bits. A gain is at most 2^26 in absolute value, and a decoded sound 2^28. So the mix is below 2^60 with
64 clips, and an error below 2^38. Residuals are summed only of errors below 2^31 and of taps whose absolute values add
up to less than 2^31, so they are below 2^62."""
import itertools
from collections.abc import Iterator
from dataclasses import dataclass

import numpy as np
import numpy.typing as npt

from tools.null_testing.mixes import GAIN, Clip, Mix, Points
from tools.null_testing.recordings import Recording
from tools.null_testing.sums import Numbers, numbers, sums

BLOCK = 1 << 17  # places that are handled at a time
LOUD = 1 << 31  # an error that is too loud
HALF, SHIFT = 1 << 22, 23  # by which errors are rounded

Flags = npt.NDArray[np.bool_]


class Rejected(Exception):
    """The first reason against a master."""


@dataclass(frozen=True)
class Stretch:
    """Judged places near each other: the channel, the first and the last of them, the greatest residual, and the first
    place that has it."""

    channel: int
    first: int
    last: int
    residual: int
    place: int


def gains(points: Points, first: int, stop: int) -> Numbers:
    """The gains at places that are counted from a clip's first one."""
    if not points:
        return np.full(stop - first, GAIN, np.int64)
    if stop <= points[0][0] or first >= points[-1][0]:
        return np.full(stop - first, points[0 if stop <= points[0][0] else -1][1], np.int64)
    places, values = (np.array(it, np.int64) for it in zip(*points))
    at = np.arange(first, stop)
    found = np.where(at < places[0], values[0], values[-1])
    # Where a place is between two points. The difference of two gains is at most 2^27, and that of two places less than
    # 2^36 where it counts, so the product is below 2^63.
    number = np.searchsorted(places, at, "right") - 1
    is_between = (number >= 0) & (number < len(places) - 1)
    at, number = at[is_between], number[is_between]
    rise, run = np.diff(values)[number], np.diff(places)[number]
    found[is_between] = values[number] + rise * (at - places[number]) // run
    return found


class Channel:
    """A channel of a master, beside the same of the mix."""

    def __init__(self, mix: Mix, takes: list[Recording], master: Recording, channel: int) -> None:
        self.mix, self.takes, self.master, self.channel = mix, takes, master, channel
        self.count = master.count
        self.reach = len(mix.audible) // 2
        self.decoders, self.audible = [numbers(it) for it in mix.decoders], numbers(mix.audible)
        # Takes with the offset of their bits are numbered.
        self.ways = sorted({(it.take, it.offset) for it in mix.clips})

    def clips(self, first: int, stop: int) -> Iterator[tuple[Clip, slice, Numbers]]:
        """The clips between two places that have a gain there: where each lies, counted from the first place, and its
        gains."""
        for clip in self.mix.clips:
            low, high = max(first, clip.at), min(stop, clip.stop)
            if low < high:
                gain = gains(clip.points(self.channel), low - clip.at, high - clip.at)
                if gain.any():
                    yield clip, slice(low - first, high - first), gain

    # Where a master is judged.

    def own(self, first: int, stop: int) -> Numbers:
        """By which way each place is a take's own bit, -1 where it isn't one."""
        found, is_wrong, ways = np.full(stop - first, -1), np.zeros(stop - first, np.bool_), set[int]()
        for clip, part, gain in self.clips(first, stop):
            way, before, is_heard = self.ways.index((clip.take, clip.offset)), found[part], gain != 0
            is_wrong[part] |= is_heard & ((gain != GAIN) | ((before != -1) & (before != way)))
            found[part] = np.where(is_heard, way, before)
            ways.add(way)
        found[is_wrong] = -1
        signs = self.master.signs(self.channel, first, stop)
        for way in ways:
            take, offset = self.ways[way]
            is_other = signs != self.takes[take].signs(self.channel, first + offset, stop + offset)
            found[(found == way) & is_other] = -1
        return found

    def runs(self) -> tuple[Numbers, Numbers, Numbers]:
        """The longest runs of places with one way: their first places, those after their last ones, and their ways."""
        firsts, ways, last = [np.zeros(0, np.int64)], [np.zeros(0, np.int64)], None
        for first in range(0, self.count, BLOCK):
            own = self.own(first, min(first + BLOCK, self.count))
            changes = np.flatnonzero(own[1:] != own[:-1]) + 1
            if own[0] != last:
                changes = np.concatenate([[0], changes])
            firsts.append(changes + first)
            ways.append(own[changes])
            last = own[-1]
        starts = np.concatenate(firsts)
        return starts, np.append(starts[1:], self.count)[: len(starts)], np.concatenate(ways)

    def judged(self) -> list[tuple[int, int]]:
        """The judged places, as the first and the last of each row of them that are `every` apart."""
        first, stop, way = self.runs()
        # What `audible` reaches from a place ends with the master.
        low = np.where(first == 0, 0, first + self.reach)
        high = np.where(stop == self.count, self.count, stop - self.reach)
        is_own = (way != -1) & (low < high)
        found, place, every = [], 0, self.mix.every
        for start, end in itertools.chain(zip(low[is_own].tolist(), high[is_own].tolist()), [(self.count, self.count)]):
            lowest, highest = -(-place // every) * every, (start - 1) // every * every
            if lowest <= highest:
                found.append((lowest, highest))
            place = end
        return found

    def stretches(self) -> Iterator[list[tuple[int, int]]]:
        """The judged places of each stretch."""
        near, every, found = len(self.mix.audible), self.mix.every, list[tuple[int, int]]()
        for first, last in self.judged():
            if found and first - found[-1][1] - 1 >= near:
                yield found
                found = []
            if every > near:
                yield from ([(place, place)] for place in range(first, last, every))
                first = last
            found.append((first, last))
        if found:
            yield found

    # How far the master is from the mix.

    def decoded(self, clip: Clip, first: int, stop: int) -> Numbers:
        """The sound of a clip's take, by the places of the take."""
        taps = self.decoders[clip.decoder]
        reach = len(taps) // 2
        return sums(taps, self.takes[clip.take].signs(self.channel, first - reach, stop + reach))

    def errors(self, first: int, stop: int) -> Numbers:
        """The errors between two places, 0 outside of the master."""
        low, high = max(first, 0), min(stop, self.count)
        mixed = np.zeros(high - low, np.int64)
        for clip, part, gain in self.clips(low, high):
            start = low + clip.offset
            mixed[part] += gain * self.decoded(clip, start + part.start, start + part.stop)
        wanted = self.master.signs(self.channel, low, high) * (self.mix.unit * GAIN)
        found = (wanted - mixed + HALF) >> SHIFT
        too_loud = np.flatnonzero(np.abs(found) >= LOUD)
        if len(too_loud):
            raise Rejected(f"TooLoud {self.channel} {low + int(too_loud[0])}")
        return np.pad(found, (low - first, stop - high))

    def residuals(self, first: int, last: int) -> Iterator[tuple[Numbers, Numbers]]:
        """The places from one to another that are `every` apart, with their residuals in absolute value."""
        every = self.mix.every
        width = BLOCK // every * every
        for start in range(first, last + 1, width):
            places = np.arange(start, min(last + 1, start + width), every)
            errors = self.errors(start - self.reach, int(places[-1]) + self.reach + 1)
            yield places, np.abs(sums(self.audible, errors, every))

    def stretch(self, judged: list[tuple[int, int]]) -> Stretch:
        """The greatest residual of a stretch."""
        greatest, found = -1, judged[0][0]
        firsts, lasts = (np.array(it) for it in zip(*judged))
        for places, residuals in self.residuals(judged[0][0], judged[-1][1]):
            is_judged = places <= lasts[np.searchsorted(firsts, places, "right") - 1]
            places, residuals = places[is_judged], residuals[is_judged]
            if len(places) and residuals.max() > greatest:
                greatest, found = int(residuals.max()), int(places[residuals.argmax()])
        return Stretch(self.channel, judged[0][0], judged[-1][1], greatest, found)


def judge(mix: Mix, takes: list[Recording], master: Recording) -> list[Stretch]:
    """The stretches of all channels. A place that is too loud rejects the master."""
    channels = (Channel(mix, takes, master, it) for it in range(master.channels))
    return [channel.stretch(it) for channel in channels for it in channel.stretches()]


def demand_alike(mix: Mix, takes: list[Recording], master: Recording) -> None:
    """Rejects a master that can't be compared with the mix."""
    for holds, reason in (
        ((master.rate, master.channels) == (takes[0].rate, takes[0].channels), "MasterShape"),
        (master.count == mix.length, "MasterLength"),
    ):
        if not holds:
            raise Rejected(reason)


def demand_quiet(mix: Mix, stretches: list[Stretch]) -> None:
    """Rejects a master whose residual is above the limit."""
    for it in stretches:
        if it.residual > mix.limit:
            raise Rejected(f"Residual {it.channel} {it.place}")

"""New bits of a mix, channel by channel, joined to the bits that are kept before and after them.

A modulator goes on from what is before, through all of the new places. Near their end there are several, and others
that lead up to what is after, and where two of these meet best they are joined (`joints`). At the ends of the master
there is nothing to be joined to: a modulator that begins or ends in peace leaves nothing that is heard.

The sum of all bits is odd or even, whatever they are, and so they may miss what the sound needs by up to 1. What is
missing is added to the sound as a bump: a level that comes, stays and goes slowly. Whatever makes up for it has this sum,
and so at least the peak of the bump; it gets quieter only over more places. So new bits are added before and after
where there are too few of them."""
from collections.abc import Iterator
from dataclasses import dataclass
from functools import cached_property
from pathlib import Path

import numpy as np

from cuts.continuing import Modulated
from cuts.crossfades import wrapped
from cuts.hearing import hearing_of, let_in
from cuts.joints import Meetings, Search, bumps, kinds_for, moments, past_of, settled
from cuts.sounding import Filter, Sounding, signs_of
from cuts.stretches import Gap, Kept, pattern
from modulator import modulators

BLOCK = 1 << 19  # places that are modulated at a time; a multiple of 8
SECTION = 1 << 20  # places at the end over which a bump goes at most
TAIL = 6e-3  # seconds at the end in which there are several modulators
SHORTEST = 0.5e-3  # seconds: in less, what leads up to an end doesn't come apart from what goes on
SLOPE = 5e-3  # seconds in which a bump comes and goes
FEW, MANY = Search(2, 2000, 1024), Search(4, 2000, 1024)  # where both directions meet: a first try, and the others
ENOUGH = 2e-6  # of full scale: what is heard where both directions meet
SPREAD = 0x9E3779B97F4A7C15  # by which seeds are spread


class TooLoud(Exception):
    """No modulator is stable for the sound between two places of a channel."""

    def __init__(self, channel: int, first: int, stop: int) -> None:
        super().__init__(f"channel {channel}, {first} to {stop}")
        self.channel, self.first, self.stop = channel, first, stop


def seeded(*numbers: int) -> int:
    """A seed of some numbers."""
    found = modulators.SEED
    for it in numbers:
        found = ((found ^ (it + 1)) * SPREAD) % (1 << 64)
        found ^= found >> 29
    return found or 1


def slope_of(rate: int) -> int:
    """The places in which a bump comes, and those in which it goes."""
    return int(SLOPE * rate)


def level_bump(rate: int, length: int) -> np.ndarray:
    """A bump with the sum 1 that comes and goes slowly, and stays at its level in between."""
    slope = min(slope_of(rate), length // 4)
    rising = (1 - np.cos(np.pi * (np.arange(slope) + 0.5) / max(slope, 1))) / 2
    bump = np.concatenate([rising, np.ones(length - 2 * slope), rising[::-1]])
    return bump / bump.sum()


@dataclass
class Heard:
    """What is left of the errors of a channel, as the null test finds it: the greatest of all places that are judged,
    and where that is. Errors follow each other from place `first` on."""

    by: Filter
    every: int
    first: int
    greatest: float = 0.0
    place: int = 0

    def __post_init__(self) -> None:
        self.waiting = np.zeros(0)

    def add(self, errors: np.ndarray) -> None:
        """Takes the next errors."""
        row = np.concatenate([self.waiting, errors])
        if len(row) >= max(len(self.by.taps), BLOCK // 2):
            row = self.judged(row)
        self.waiting = row

    def judged(self, row: np.ndarray) -> np.ndarray:
        """Judges what can be judged; returns the errors that the next places hear too."""
        left = np.abs(self.by.of(row))
        start = self.first + self.by.reach
        part = left[-start % self.every :: self.every]
        if part.size and part.max() > self.greatest:
            self.greatest = float(part.max())
            self.place = start + -start % self.every + int(part.argmax()) * self.every
        self.first += len(left)
        return row[len(left) :]

    def end(self) -> None:
        """Judges what is left."""
        if len(self.waiting) >= len(self.by.taps):
            self.waiting = self.judged(self.waiting)


class Front:
    """Modulators that go on one after the other in a channel, the quietest that is stable for each block. `errors` are
    the last ones."""

    def __init__(self, program: Path, rate: int, errors: np.ndarray, seed: int) -> None:
        self.program, self.rate, self.seed, self.number = program, rate, seed, 0
        self.errors, self.reach = errors, len(errors)
        self.kind: modulators.Modulator | None = None
        self.state = np.zeros(0)

    def past(self, kind: modulators.Modulator) -> np.ndarray:
        """With what a modulator goes on."""
        if kind == self.kind:
            return self.state
        return past_of(kind, self.rate, self.known())

    def known(self) -> np.ndarray:
        """The errors before the next place, let in from afar."""
        return let_in(self.errors, self.rate)

    def go_on(self, sound: np.ndarray) -> np.ndarray | None:
        """The signs of the next places, a multiple of 8; None if no modulator is stable for them."""
        self.number += 1
        for kind in kinds_for(self.rate):
            seed = seeded(self.seed, self.number)
            try:
                data, state = modulators.modulated_on(self.program, kind, self.rate, sound, seed, self.past(kind))
            except modulators.Unstable:
                continue
            self.kind, self.state = kind, state
            signs = np.unpackbits(np.frombuffer(data, np.uint8)) * 2.0 - 1.0
            self.errors = np.concatenate([self.errors, signs - sound])[-self.reach :]
            return signs
        return None


@dataclass(frozen=True)
class Made:
    """What was made of new places of a channel: the bump, and the greatest residual with its place, full scale being
    1."""

    bump: float
    residual: float
    place: int


class Rendering:
    """The new bits of a mix. The modulator's program is made in a folder once it is needed."""

    def __init__(self, sounding: Sounding, folder: Path) -> None:
        self.sounding, self.folder, self.rate = sounding, folder, sounding.rate
        self.reach = hearing_of(self.rate).size // 2
        audible = np.array(sounding.mix.audible, np.float64)
        self.audible = Filter(audible / audible.sum())
        self.made: Made | None = None

    @cached_property
    def program(self) -> Path:
        return modulators.compiled(self.folder)

    # What is kept before and after.

    def kept_signs(self, kept: Kept, channel: int, first: int, stop: int) -> np.ndarray:
        """The signs that are kept at places from one to another."""
        if kept.way is None:
            return pattern(first, stop, kept.first)
        take, offset = kept.way
        return signs_of(self.sounding.takes[take], channel, first + offset, stop + offset)

    def kept_errors(self, kept: Kept | None, channel: int, place: int, first: int, stop: int) -> np.ndarray:
        """The errors of what is kept, near a place of it; none outside of the master, where they end slowly."""
        if kept is None:
            return np.zeros(stop - first)
        if kept.way is None:
            return pattern(first, stop, kept.first)
        low, high = max(first, 0), min(stop, self.sounding.length)
        found = self.sounding.errors(kept.way, channel, place, low, high)
        found = let_in(found, self.rate, high - low) if first < low else found
        found = let_in(found[::-1], self.rate, high - low)[::-1] if high < stop else found
        return np.pad(found, (low - first, stop - high))

    def before(self, gap: Gap, channel: int) -> np.ndarray:
        """The errors before new places."""
        return self.kept_errors(gap.before, channel, gap.first - 1, gap.first - self.reach, gap.first)

    def after(self, gap: Gap, channel: int) -> np.ndarray:
        """The errors after new places, let in from afar."""
        found = self.kept_errors(gap.after, channel, gap.stop, gap.stop, gap.stop + self.reach)
        return let_in(found[::-1], self.rate)[::-1]

    def missing(self, gap: Gap, channel: int) -> float:
        """What bits in new places will miss of the sum that they are to have."""
        sound = self.sounding.sound(channel, gap.first, gap.stop)
        known = let_in(self.before(gap, channel), self.rate).sum() + self.after(gap, channel).sum()
        return float(wrapped(known + gap.length - sound.sum()))

    # The bits.

    def signs(self, gap: Gap, channel: int) -> Iterator[np.ndarray]:
        """The signs of new places, block by block. Afterwards `made` says what was made."""
        heard = self.heard_before(gap, channel)
        front = Front(self.program, self.rate, self.before(gap, channel), seeded(channel, gap.first))
        last = gap.stop - min(gap.length, SECTION)
        last = gap.first + (last - gap.first) // 8 * 8
        for first in range(gap.first, last, BLOCK):
            sound = self.sounding.sound(channel, first, min(first + BLOCK, last))
            yield self.next(front, heard, channel, first, sound, sound)
        sound = self.sounding.sound(channel, last, gap.stop)
        after, bump = self.after(gap, channel), level_bump(self.rate, len(sound))
        missing = float(wrapped(front.known().sum() + after.sum() + len(sound) - sound.sum()))
        wished = sound + missing * bump
        tail = min(int(TAIL * self.rate) | 1, len(sound))
        tail += (len(sound) - tail) % 8
        for first in range(0, len(sound) - tail, BLOCK):
            part = slice(first, min(first + BLOCK, len(sound) - tail))
            yield self.next(front, heard, channel, last + first, sound[part], wished[part])
        found = self.tail(front, wished[len(sound) - tail :], after, channel, gap.stop)
        heard.add(found - sound[len(sound) - tail :])
        yield found
        self.end(heard, gap, channel)
        self.made = Made(float(abs(missing) * bump.max()), heard.greatest, heard.place)

    def next(
        self, front: Front, heard: Heard, channel: int, first: int, sound: np.ndarray, wished: np.ndarray
    ) -> np.ndarray:
        """The signs of the next places, for a sound that may have a bump in it."""
        found = front.go_on(wished)
        if found is None:
            raise TooLoud(channel, first, first + len(sound))
        heard.add(found - sound)
        return found

    def tail(self, front: Front, sound: np.ndarray, after: np.ndarray, channel: int, stop: int) -> np.ndarray:
        """The signs of the last places."""
        if len(sound) < SHORTEST * self.rate:
            padded = np.pad(sound, (0, -len(sound) % 8), mode="edge")
            alone = front.go_on(padded)
            if alone is None:
                raise TooLoud(channel, stop - len(sound), stop)
            return alone[: len(sound)]
        before, half = front.known(), len(sound) // 2
        known = moments(before, -half - len(before)) + moments(after, len(sound) - half)
        known += moments(np.ones(len(sound)), -half)
        # A modulator's own rounding is heard nowhere, but adds up to a small sum over some hundred thousand places.
        sound = sound + wrapped(known - moments(sound, -half))[0] * bumps(len(sound))[0]
        moment = float(wrapped(known - moments(sound, -half))[1])
        seed = seeded(channel, stop) % (1 << 62)

        pasts = dict[modulators.Modulator, tuple[np.ndarray, np.ndarray]]()

        def meetings(row: np.ndarray, number: int, search: Search) -> Meetings:
            for kind in kinds_for(self.rate):
                by = Modulated(self.program, kind, self.rate)
                if kind not in pasts:
                    pasts[kind] = front.past(kind), past_of(kind, self.rate, after[::-1])
                try:
                    return Meetings(by, pasts[kind], (before, row, after), number, search)
                except modulators.Unstable:
                    continue
            raise TooLoud(channel, stop - len(sound), stop)

        # Few show what is left of the moment.
        moment += meetings(sound + moment * bumps(len(sound))[1], seed + 1, FEW).moment()
        return settled(lambda row, number: meetings(row, number, MANY).joint(), sound, moment, seed, ENOUGH)

    # What is left.

    def heard_before(self, gap: Gap, channel: int) -> Heard:
        """What hears the errors of new places, and those before them that their residual needs."""
        reach = 2 * self.audible.reach
        found = Heard(self.audible, self.sounding.mix.every, gap.first - reach)
        found.add(self.around(gap.before, channel, gap.first - reach, gap.first))
        return found

    def end(self, heard: Heard, gap: Gap, channel: int) -> None:
        """Hears the errors after new places."""
        heard.add(self.around(gap.after, channel, gap.stop, gap.stop + 2 * self.audible.reach))
        heard.end()

    def around(self, kept: Kept | None, channel: int, first: int, stop: int) -> np.ndarray:
        """The errors that the null test has where bits are kept; 0 outside of the master."""
        found = np.zeros(stop - first)
        low, high = max(first, 0), min(stop, self.sounding.length)
        if kept is not None and low < high:
            sound = self.sounding.sound(channel, low, high)
            found[low - first : high - first] = self.kept_signs(kept, channel, low, high) - sound
        return found

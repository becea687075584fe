"""New bits of a sound that join what is before and what is after without a click.

From what is before a modulator goes on, and another leads up to what is after (`continuing`). Somewhere both meet:
several of each are tried, and all places near the middle, and where a few newly chosen bits join them best the one is
cut to the other."""
from collections.abc import Callable
from dataclasses import dataclass
from functools import lru_cache

import numpy as np

from cuts import continuing
from cuts.continuing import LINK, WEIGHT, Field, Modulated, ends_of
from modulator import modulators

TRIED = 8  # modulators of each direction, twice as many where there are few places
PLACES = 8_000  # around the middle at which both may meet
TRIES = 3  # of a channel, until next to no moment is left and no more is heard than a modulator's noise
SETTLED = 0.005  # of a first moment
NOISE = 1.5e-6  # the peak of such noise
APART = 33  # between the seeds of tries


def moments(errors: np.ndarray, first: int) -> np.ndarray:
    """Sum and first moment of each row, the first place being at `first`."""
    return np.stack([errors.sum(axis=-1), errors @ (first + np.arange(errors.shape[-1]))])


def bumps(length: int) -> tuple[np.ndarray, np.ndarray]:
    """A bump with the sum 1, and its slope with the first moment 1, both about the middle."""
    place = np.arange(length) - length // 2
    bump = 1 + np.cos(2 * np.pi * place / (length + 1))
    slope = np.sin(2 * np.pi * place / (length + 1))
    return bump / bump.sum(), slope / (slope @ place)


@dataclass(frozen=True)
class Joint:
    """The signs of one channel; how much is heard of where its halves meet, and what is left of the first moment
    there."""

    signs: np.ndarray
    heard: float
    moment: float


@lru_cache(maxsize=4)
def waves_to_end(rate: int, count: int) -> np.ndarray:
    """The lines at that many places, as seen from after the last one."""
    return np.exp(1j * np.outer(continuing.turns(rate), count - np.arange(count)))


@lru_cache(maxsize=16)
def ways_of(kind: modulators.Modulator, rate: int) -> tuple[np.ndarray, np.ndarray]:
    """What a modulator answers to the second half of its past, and the equations that choose the first half."""
    answer, order = continuing.answers(kind, rate), kind.order
    ways = np.concatenate([answer[:, :order].real, answer[:, :order].imag, WEIGHT * np.eye(order)])
    return answer[:, order:], ways


def past_of(kind: modulators.Modulator, rate: int, errors: np.ndarray) -> np.ndarray:
    """The numbers with which a modulator goes on after these errors, which were let in: those of `continuing`, found
    faster."""
    answer, ways = ways_of(kind, rate)
    shaped = errors[: -kind.order - 1 : -1]
    wanted = -(waves_to_end(rate, len(errors)) @ errors + answer @ shaped)
    chosen = np.linalg.lstsq(ways, np.concatenate([wanted.real, wanted.imag, np.zeros(kind.order)]), rcond=None)[0]
    return np.concatenate([chosen, shaped])


@dataclass(frozen=True)
class Search:
    """How many modulators of each direction there are, at how many places around the middle both may meet, and how many
    meetings are looked at closely."""

    tried: int = TRIED
    places: int = PLACES
    kept: int = continuing.KEPT


@dataclass(frozen=True)
class Brief(Field):
    """Places at which both may meet, of whose meetings `kept` are looked at closely."""

    kept: int = continuing.KEPT

    def suited(self, fronts: np.ndarray, rears: np.ndarray) -> tuple[np.ndarray, float]:
        ends, found = ends_of(self.rate), []
        for number, front in enumerate(fronts):
            squares, moments = ends.left(front + rears)
            best = least(squares, self.kept)
            places = np.unravel_index(best, squares.shape)
            found.append(np.stack([squares.flat[best], moments.flat[best], np.full(len(best), number), *places]))
        every = np.concatenate(found, axis=1)
        kept = every[:, least(every[0], self.kept)]
        return kept[2:].T.astype(int), float(np.median(kept[1]))


def least(numbers: np.ndarray, count: int) -> np.ndarray:
    """Where that many of the least numbers are."""
    every = np.arange(numbers.size)
    return every if numbers.size <= count else np.sort(np.argpartition(numbers, count, axis=None)[:count])


class Meetings:
    """Some modulators that go on from the errors before and some that lead up to the errors after. `pasts` are those of
    the modulator at both ends."""

    def __init__(
        self,
        by: Modulated,
        pasts: tuple[np.ndarray, np.ndarray],
        known: tuple,
        seed: int,
        search: Search = Search(),
    ) -> None:
        before, sound, after = known
        length = len(sound)
        self.first = max(length // 2 - search.places // 2, length // 8)
        self.field = Brief(by.rate, self.first, length - self.first, search.kept)
        parts = sound[: self.field.stop], sound[self.first :][::-1]
        times = search.tried if self.field.stop - self.first > search.places // 2 else 2 * search.tried
        self.fronts, rears = (
            by.continued(*it, seed + 1 + number, times) for number, it in enumerate(zip(pasts, parts))
        )
        self.rears = rears[:, ::-1]
        fronts = self.field.fronts(before, self.fronts - parts[0])
        self.ends = fronts, self.field.rears(self.rears - sound[self.first :], after)

    def moment(self) -> float:
        """How far the first moment of most of them is from even numbers."""
        return self.field.suited(*self.ends)[1]

    def joint(self) -> Joint:
        """Where two of them meet best."""
        found = self.field.quietest((self.fronts, self.ends[0]), (self.rears, self.ends[1]))
        ahead, following = self.fronts[found.front, : found.place], self.rears[found.rear, found.place - self.first :]
        signs = np.concatenate([ahead[: -(LINK // 2)], found.link, following[LINK // 2 :]])
        return Joint(signs, found.heard, found.moment)


# Greatest gains of noise transfers for louder sounds, by the order of the usual modulator. At DSD64 1.4 holds sines up to
# 0.6 of full scale, 1.35 to 0.65, 1.3 to 0.7, 1.27 to 0.75 and 1.22 to 0.8, with a noise of -118, -112, -104, -99 and
# -89 dB.
GAINS = {7: (1.35, 1.3, 1.27, 1.22), 5: (1.4, 1.3, 1.25)}


def kinds_for(rate: int) -> list[modulators.Modulator]:
    """Modulators to be tried, the quietest first, and such that stay stable for louder sounds."""
    usual = modulators.modulator_for(rate)
    louder = [(usual.order, it) for it in GAINS[usual.order]] + [(4, 1.3)]
    return [usual, *(modulators.Modulator(order, gain, usual.dither) for order, gain in louder)]


def settled(
    join: Callable[[np.ndarray, int], Joint], sound: np.ndarray, moment: float, seed: int, enough: float = NOISE
) -> np.ndarray:
    """The signs of a channel, whose sound has a slope that takes up the first moment. What a modulator leaves at very
    low frequencies has a moment too, which is seen where both halves meet, and taken up in the next try. `join` makes
    bits of a sound by a seed; those of which no more than `enough` is heard will do."""
    slope, found = bumps(len(sound))[1], []
    for number in range(TRIES):
        joint = join(sound + moment * slope, seed + number * APART)
        found.append((joint.heard, number, joint.signs))
        if abs(joint.moment) < SETTLED and joint.heard < enough:
            break
        moment += joint.moment
    return min(found, key=lambda it: it[:2])[2]

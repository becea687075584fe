"""A modulator that goes on where a take ends, or that leads up to where one begins.

A modulator knows its past by the last errors of its quantizer and the same after the noise transfer. The second are
known of any take: its bits less its sound. The first are chosen so that what the take owes at its end and what the
modulator adds because of its past are silent together, as spectra at some lines of the audio band. Whoever made the
take by whatever modulator, the bits go on as if it had never stopped. What leads up to a take is the same,
backwards."""
from dataclasses import dataclass
from functools import lru_cache
from pathlib import Path

import numpy as np
from scipy import fft
from scipy.spatial import cKDTree

from cuts import hearing
from cuts.errors import AROUND, STEP
from cuts.hearing import hearing_of
from modulator import modulators

LINES = 16
HIGHEST = 21_000  # Hz: the last line
WEIGHT = 1e-4  # of the chosen errors against what would be heard: none of them grows large


def turns(rate: int) -> np.ndarray:
    """The lines, as angles a bit."""
    return 2 * np.pi * np.linspace(0, HIGHEST, LINES) / rate


def answers(modulator: modulators.Modulator, rate: int) -> np.ndarray:
    """The spectrum of what a modulator adds for each number of its past alone: the quantizer's errors, then the same
    after the noise transfer, the newest first. It is computed by polynomials, as a recursion would lose it in
    rounding."""
    zeros, poles = modulators.noise_transfer(modulator, rate)
    order, turn = modulator.order, np.exp(-1j * turns(rate))
    columns = []
    for numbers in (zeros, -poles):
        for age in range(order):
            columns.append(sum(numbers[it] * turn ** (it - 1 - age) for it in range(age + 1, order + 1)))
    return np.array(columns).T / sum(poles[it] * turn**it for it in range(order + 1))[:, None]


def past_of(modulator: modulators.Modulator, rate: int, errors: np.ndarray) -> np.ndarray:
    """The numbers with which a modulator goes on after these errors, which were let in."""
    answer, order = answers(modulator, rate), modulator.order
    shaped = errors[: -order - 1 : -1]
    wanted = -(hearing.ahead(errors, turns(rate), len(errors))[:, 0] + answer[:, order:] @ shaped)
    ways = np.concatenate([answer[:, :order].real, answer[:, :order].imag, WEIGHT * np.eye(order)])
    chosen = np.linalg.lstsq(ways, np.concatenate([wanted.real, wanted.imag, np.zeros(order)]), rcond=None)[0]
    return np.concatenate([chosen, shaped])


@dataclass(frozen=True)
class Modulated:
    """A modulator of a rate, and its program."""

    program: Path
    modulator: modulators.Modulator
    rate: int

    def past_of(self, errors: np.ndarray) -> np.ndarray:
        return past_of(self.modulator, self.rate, errors)

    def continued(self, past: np.ndarray, sound: np.ndarray, seed: int, times: int) -> np.ndarray:
        """Signs of a sound that go on after a past: that many rows, by this seed and each second one after it."""
        padded = np.pad(sound, (0, -len(sound) % 8), mode="edge")
        bits = modulators.modulated(self.program, self.modulator, self.rate, padded, seed, past, (times, 2))
        rows = np.frombuffer(bits, np.uint8).reshape(times, -1)
        return np.unpackbits(rows, axis=1)[:, : len(sound)] * 2.0 - 1.0


# Where bits that go on from one take meet bits that lead up to another, so that nearly nothing is heard of it.
#
# What is heard of errors that end or begin at a place is given by some numbers (`Ends`). A link, a few bits about the
# place that are chosen again, changes the first of them as finely as is needed, and the next ones by even multiples of
# a step: of these what is off the nearest even number stays, whatever the bits. The others it hardly changes. So first
# the meetings are found where least is left that no link changes, and then for each of them the link that leaves least.
#
# Only errors that are heard around the place count. The rest of a fade has noise of its own, elsewhere.

FAR = 100  # bits at 2,822,400 Hz to each side, whose errors the numbers describe
NEAR = 40  # such bits within which these count most
NUMBERS = 12
FREE = 3  # numbers that a link changes finely
EVEN = 3  # numbers that it changes by even multiples: with them go the sum of the errors, and their moments
LINK = 16  # bits of a link
KEPT = 2048  # meetings for which a link is looked for


class Ends:
    """Numbers that say what is heard of errors that end or begin at a place: the sum of their squares is as loud as
    the click. `click` computes from numbers what is heard at some times around the place, and `reach` is how far errors
    count."""

    def __init__(self, rate: int) -> None:
        hearing, scale = hearing_of(rate), rate / 2_822_400
        times = np.rint(np.arange(-AROUND, AROUND + 1, STEP) * scale).astype(int)
        self.reach = hearing.half + int(times[-1])
        far = int(FAR * scale)
        taps = np.pad(hearing.taps, self.reach + int(times[-1]) + far)
        self.heard = lambda places: taps[len(taps) // 2 + times[:, None] - places]
        near = np.arange(-far, far)
        waves = self.heard(near)
        basis = np.linalg.svd(waves * np.exp(-((near / (NEAR * scale)) ** 2) / 2))[0][:, :NUMBERS]
        steps, bits = list[np.ndarray](), waves[:, far - LINK // 2 : far + LINK // 2]
        for _ in range(FREE + EVEN):
            steps.insert(0, bits[:, bits.shape[1] // 2])
            bits = np.diff(bits, axis=1)
        turn, sizes = np.linalg.qr(basis.T @ np.transpose(steps), mode="complete")
        self.click = (basis @ turn).T
        self.steps = sizes[FREE : FREE + EVEN, FREE : FREE + EVEN]
        self.bits = (self.click @ waves[:, far - LINK // 2 : far + LINK // 2]).T
        numbers = link(np.arange(1 << LINK)) @ self.bits
        self.links = cKDTree(numbers, balanced_tree=False, compact_nodes=False)

    @lru_cache(maxsize=8)
    def spectra(self, places: tuple[int, int], size: int) -> np.ndarray:
        """Those of the numbers of errors of 1 at places from one to another, for so many places."""
        return fft.rfft(self.click @ self.heard(np.arange(*places, 1 if places[0] < places[1] else -1)), size, axis=1)

    def numbers_of(self, errors: np.ndarray, places: tuple[int, int]) -> np.ndarray:
        """The numbers of rows of errors, of which those count that lie at some places: a column for each place that has
        all of these."""
        size = fft.next_fast_len(errors.shape[1], real=True)
        found = fft.irfft(fft.rfft(errors, size, axis=1)[:, None] * self.spectra(places, size), size, axis=2)
        return found[:, :, self.reach - 1 : errors.shape[1]]

    def before(self, errors: np.ndarray) -> np.ndarray:
        """What is heard of rows of errors that end: for each row the numbers, a column for each place that has `reach`
        errors before it."""
        return self.numbers_of(errors, (-1, -1 - self.reach))

    def after(self, errors: np.ndarray) -> np.ndarray:
        """The same of errors that begin, for each place that has `reach` errors from it on."""
        return self.numbers_of(errors[:, ::-1], (0, self.reach))[:, :, ::-1]

    def left(self, numbers: np.ndarray) -> tuple[np.ndarray, np.ndarray]:
        """How loud that is, squared, of numbers what no link changes: in rows with a column for each place. And how far
        the first moment is from even numbers."""
        rest = [numbers[:, FREE + it] for it in range(EVEN)]
        fixed = numbers[:, FREE + EVEN :]
        squares = np.einsum("inp,inp->ip", fixed, fixed)
        for step in reversed(range(EVEN)):
            even = 2 * np.rint(rest[step] / (2 * self.steps[step, step]))
            for it in range(step + 1):
                rest[it] = rest[it] - even * self.steps[it, step]
            squares += rest[step] ** 2
        return squares, rest[EVEN - 2] / self.steps[EVEN - 2, EVEN - 2]


@lru_cache
def ends_of(rate: int) -> Ends:
    return Ends(rate)


def link(number: np.ndarray) -> np.ndarray:
    """The signs of a link, one of each whole number."""
    return (number[..., None] >> np.arange(LINK) & 1) * 2.0 - 1


@dataclass(frozen=True)
class Meeting:
    """Which front and which rear meet, at which place, and the link about it; how loud the peak is that is heard of it;
    and how far the first moment of nearly all meetings is from even numbers."""

    front: int
    rear: int
    place: int
    link: np.ndarray
    heard: float
    moment: float


@dataclass(frozen=True)
class Field:
    """The places at which both may meet in a fade: from `first` on and before `stop`."""

    rate: int
    first: int
    stop: int

    def fronts(self, before: np.ndarray, errors: np.ndarray) -> np.ndarray:
        """The numbers of the errors before the fade and of some fronts, at each place: of all before it."""
        ends = ends_of(self.rate)
        low = self.first - ends.reach
        known = np.broadcast_to(before[len(before) + min(low, 0) :], (len(errors), max(-low, 0)))
        return ends.before(np.concatenate([known, errors[:, max(low, 0) : self.stop - 1]], axis=1))

    def rears(self, errors: np.ndarray, after: np.ndarray) -> np.ndarray:
        """The same of some rears, which begin at the first place, and the errors after the fade: of all from it on."""
        ends = ends_of(self.rate)
        high = self.stop - self.first + ends.reach - 1
        more = max(high - errors.shape[1], 0)
        known = np.broadcast_to(after[:more], (len(errors), more))
        return ends.after(np.concatenate([errors[:, :high], known], axis=1))

    def suited(self, fronts: np.ndarray, rears: np.ndarray) -> tuple[np.ndarray, float]:
        """Meetings at which least is left that no link changes, rows of a front, a rear and how far the place is from
        the first; and how far their first moments are from even numbers."""
        ends, found = ends_of(self.rate), []
        for number, front in enumerate(fronts):
            squares, moments = ends.left(front + rears)
            best = least(squares)
            places = np.unravel_index(best, squares.shape)
            found.append(np.stack([squares.flat[best], moments.flat[best], np.full(len(best), number), *places]))
        every = np.concatenate(found, axis=1)
        kept = every[:, least(every[0])]
        return kept[2:].T.astype(int), float(np.median(kept[1]))

    def quietest(self, fronts: tuple[np.ndarray, np.ndarray], rears: tuple[np.ndarray, np.ndarray]) -> Meeting:
        """The quietest meeting of fronts and rears: the signs of each, and their numbers."""
        ends, half = ends_of(self.rate), np.arange(LINK // 2)
        meetings, moment = self.suited(fronts[1], rears[1])
        i, j, away = meetings.T
        ahead = fronts[0][i[:, None], self.first + away[:, None] + half - LINK // 2]
        following = rears[0][j[:, None], away[:, None] + half]
        wanted = np.concatenate([ahead, following], axis=1) @ ends.bits - fronts[1][i, :, away] - rears[1][j, :, away]
        links = ends.links.query(wanted)[1]
        peaks = np.abs((ends.links.data[links] - wanted) @ ends.click).max(axis=1)
        best = int(peaks.argmin())
        place = self.first + int(away[best])
        return Meeting(int(i[best]), int(j[best]), place, link(links[best]), float(peaks[best]), moment)


def least(numbers: np.ndarray) -> np.ndarray:
    """Where the least numbers are, as many as meetings are kept."""
    every = np.arange(numbers.size)
    return every if numbers.size <= KEPT else np.sort(np.argpartition(numbers, KEPT, axis=None)[:KEPT])

"""A link: a few bits of either take between the two that meet, by which what is owed cancels.

A cut from place a of one take to place b of another leaves what the one owes less what the other does. Other bits in
the place of the last ones before a and the first ones from b on change it; the sound stays that of the takes, and goes
over from the one to the other in the middle of the link. But these bits are -1 and +1 as those are that they stand for:
the sum of what is left changes by even numbers, and so does its first moment. What either is off the nearest even
number stays, whatever the bits. So first the pairs of places are found where that is least, and then for each of them
the link that leaves least."""
import copy
from dataclasses import dataclass, replace

import numpy as np
from scipy.spatial import cKDTree

from cuts import bridges
from cuts.errors import NUMBERS, Errors, Owing, apart_in_parity, nearest, peaks
from cuts.hearing import Hearing, wider
from cuts.measuring import delay
from cuts.takes import Signals

PAIRS = 256  # pairs of places for which links are looked for
LENGTHS = range(4, 17)  # bits of a link
MARGIN = LENGTHS[-1] // 2  # between a pair and the window's ends: so cues stay in the window
FROM = 4096  # places around the middle of each window from which a link's bits may come
NEAR = 4  # links of each length that are kept for a pair
KEPT = 8  # of these, whose peaks are computed: those that are nearest to what is left
NARROW = 62  # bits that are one number


@dataclass(frozen=True)
class Link:
    """So many bits of the take before (0) or of the one after (1), from a place on."""

    take: int
    first: int
    length: int

    @property
    def ahead(self) -> int:
        """How many of its bits come before the place of the cut."""
        return self.length // 2


@dataclass(frozen=True)
class Pieces:
    """All different pieces of a length that both takes have around the windows: for each a row of the signs of each
    channel, one after the other, and where it comes from."""

    signs: np.ndarray
    links: np.ndarray


def pieces(takes: list[Errors], spans: list[tuple[int, int]], length: int) -> Pieces:
    """The pieces of both takes that lie between the places of a span, each where it comes first."""
    rows, links = [], []
    for number, (errors, (low, high)) in enumerate(zip(takes, spans)):
        held = errors.signs[:, low - errors.first : high - errors.first]
        if held.shape[1] < length:
            continue
        views = np.lib.stride_tricks.sliding_window_view(held, length, axis=1)
        rows.append(views.transpose(1, 0, 2).reshape(views.shape[1], -1))
        links.append(np.stack([np.full(len(rows[-1]), number), low + np.arange(len(rows[-1]))], axis=1))
    if not rows:
        return Pieces(np.empty((0, 0)), np.empty((0, 2), np.int64))
    signs = np.concatenate(rows)
    first = different(signs)
    return Pieces(signs[first], np.concatenate(links)[first])


def different(signs: np.ndarray) -> np.ndarray:
    """Where each row of signs comes first, in the order of the rows as numbers."""
    bits, count = signs > 0, signs.shape[1]
    if count > NARROW:
        return np.unique(np.packbits(bits, axis=1), axis=0, return_index=True)[1]
    return np.unique(bits @ (1 << np.arange(count)[::-1]), return_index=True)[1]


def spans_of(takes: list[Errors], bits: list[int], middles: list[int]) -> list[tuple[int, int]]:
    """Where the bits of links may come from: around the middle of each window, inside of the takes."""
    found = []
    for errors, count, middle in zip(takes, bits, middles):
        low = max(middle - FROM // 2, errors.first, 0)
        high = min(middle + FROM // 2, errors.first + errors.signs.shape[1], count)
        found.append((low, max(low, high)))
    return found


def replaced(takes: list[Errors], places: np.ndarray, length: int) -> np.ndarray:
    """The signs that a link of a length stands for at each pair of places, as those of pieces."""
    before, after = takes
    ahead = np.arange(-(length // 2), 0)
    following = np.arange(length - length // 2)
    front = before.signs[:, places[:, :1] + ahead - before.first]
    rear = after.signs[:, places[:, 1:] + following - after.first]
    return np.concatenate([front, rear], axis=2).transpose(1, 0, 2).reshape(len(places), -1)


def parity_weights(owing: Owing) -> np.ndarray:
    """How much is heard of the sum and of the first moment."""
    return (np.linalg.pinv(owing.moments) ** 2).sum(axis=1)


def parity_pairs(owing: Owing, before: np.ndarray, after: np.ndarray, wished: int, most: int) -> np.ndarray:
    """The pairs of places at which the sum and the first moment of what is owed are nearest to even numbers."""
    distance = apart_in_parity(parity_weights(owing))
    return nearest(before @ owing.moments, after @ owing.moments, wished, most, PAIRS, distance)


@dataclass(frozen=True)
class Found:
    """Links at pairs of places: how loud each is estimated to be, and rows of the pair's number, the link's take, its
    first bit and its length."""

    peaks: np.ndarray
    rows: np.ndarray

    def first(self, kept: int) -> "Found":
        """That many, the quietest first, and of equal ones the first."""
        order = np.lexsort((*self.rows.T[::-1], self.peaks))[:kept]
        return Found(self.peaks[order], self.rows[order])


@dataclass(frozen=True)
class Held:
    """Where the pieces of a length come from, and a tree of the numbers that they add."""

    links: np.ndarray
    tree: cKDTree


def held(owing: Owing, takes: list[Errors], spans: list[tuple[int, int]], shortest: int) -> dict[int, Held]:
    """The pieces of at least that many bits that lie in these spans of the takes, by their lengths."""
    found, count = {}, len(takes[0].signs)
    for length in range(max(shortest, LENGTHS[0]), LENGTHS[-1] + 1):
        some = pieces(takes, spans, length)
        if len(some.signs):
            adding = (some.signs.reshape(-1, count, length) @ owing.bits(length)).reshape(-1, count * NUMBERS)
            found[length] = Held(some.links.astype(np.int64), cKDTree(adding, balanced_tree=False))
    return found


def of_length(owing: Owing, some: Held, stays: np.ndarray, left: np.ndarray, length: int) -> tuple:
    """The links of a length that leave least at each pair of places, of the signs that they stand for and of what is
    left there (numbers, for each pair a row for each channel): how far off each is, the pair's number, and the number
    of its piece, in columns for each pair; and what each leaves."""
    count = left.shape[1]
    wanted = (stays.reshape(-1, count, length) @ owing.bits(length) - left).reshape(-1, count * NUMBERS)
    away, near = some.tree.query(wanted, k=range(1, min(NEAR, some.tree.n) + 1))
    rest = (some.tree.data[near] - wanted[:, None]).reshape(len(left), -1, count, NUMBERS)
    links = some.links[near]
    rows = np.concatenate([links, np.full((*near.shape, 1), length)], axis=2)
    return away, rows, rest


def best(owing: Owing, takes: list[Errors], known: dict[int, Held], places: np.ndarray, left: np.ndarray) -> Found:
    """The links that leave least at each pair of places, of what is left there: numbers, for each channel a row for
    each pair."""
    if not known or not len(places):
        return Found(np.empty(0), np.empty((0, 4), np.int64))
    parts = [
        of_length(owing, some, replaced(takes, places, length), left.transpose(1, 0, 2), length)
        for length, some in known.items()
    ]
    away, rows, rest = (np.concatenate(it, axis=1) for it in zip(*parts))
    first = np.argsort(away, axis=1, kind="stable")[:, :KEPT]
    pair = np.arange(len(places))[:, None]
    rows, rest = rows[pair, first].reshape(-1, 3), rest[pair, first].reshape(-1, *rest.shape[2:])
    pair = np.repeat(pair.ravel(), first.shape[1])
    return Found(peaks(rest.transpose(1, 0, 2), owing.click), np.column_stack([pair, rows]))


# A cut between two takes: what it clicks, and where in a window it clicks least.

NEAR_PAIRS = 4096  # pairs that owe most nearly the same
TRIED = 64  # of these, the quietest ones, whose click is computed exactly; and that many links
GAIN = 1.0  # dB that a link gains at least, or there is none


@dataclass(frozen=True)
class Place:
    """A cut from bit `stop` - 1 of one take to bit `start` of the other, perhaps with a link between, and what the
    loudest channel clicks: the peak in dB. With a link, `other` is the loudest peak by another estimate of
    the takes' sounds, and the sound changes `moved` bits after the middle of the link, by `step`."""

    stop: int
    start: int
    loudest: float
    link: Link | None = None
    other: float = -np.inf
    moved: float = 0.0
    step: float = 0.0

    @property
    def known_link(self) -> Link:
        """The link of a place that has one."""
        assert self.link
        return self.link

    @property
    def between(self) -> int:
        """Bits of the link."""
        return self.link.length if self.link else 0


@dataclass(frozen=True)
class Window:
    """Where a cut may be: at so many places from the lowest on in each take, and how many bits what follows may come
    earlier or later than wished."""

    stop: int
    stops: int
    start: int
    starts: int
    wished: int  # of places counted from the lowest: the second take's less the first's
    most: int


class Cut:
    """Two takes around the places of a window."""

    def __init__(self, hearing: Hearing, owing: Owing, takes: tuple[Signals, Signals], window: Window) -> None:
        self.hearing, self.owing, self.window = hearing, owing, window
        before, after = takes
        reach = hearing.size // 2
        self.before = Errors(before, window.stop - reach, window.stop + window.stops + reach)
        self.after = Errors(after, window.start - reach, window.start + window.starts + reach)
        self.other = copy.copy(self)  # the same by another estimate of the takes' sounds
        self.other.before, self.other.after = (
            Errors(take, it.first, it.stop, [wider(band) for band in take.bands])
            for take, it in zip(takes, (self.before, self.after))
        )
        self.bits = [before.bits, after.bits]
        self.held: dict[int, dict[int, Held]] = {}
        self.owed = (
            owing.before(self.before, window.stop, window.stops),
            owing.after(self.after, window.start, window.starts),
        )

    def channel(self, number: int) -> "Cut":
        """The same of one channel."""
        found, found.other = copy.copy(self), copy.copy(self.other)
        found.held = {}
        for one, whole in ((found, self), (found.other, self.other)):
            one.before, one.after = whole.before.channel(number), whole.after.channel(number)
        found.owed = self.owed[0][number : number + 1], self.owed[1][number : number + 1]
        return found

    @property
    def count(self) -> int:
        """Channels."""
        return len(self.before.values)

    def place(self, stop: int, start: int) -> Place:
        """The exact click of a cut."""
        half = self.hearing.size // 2
        rows = zip(self.before.part(stop - half, stop), self.after.part(start, start + half))
        return Place(stop, start, max(self.hearing.peak(np.concatenate(it)) for it in rows))

    def sounds(self) -> list[np.ndarray]:
        """What the first channel sounds like at the places of both takes."""
        window = self.window
        spans = (self.before, window.stop, window.stops), (self.after, window.start, window.starts)
        return [errors.sound(0, first, first + number) for errors, first, number in spans]

    def left(self, found: np.ndarray) -> np.ndarray:
        """What is owed at pairs of places and not made up for: numbers, for each channel a row for each pair."""
        before, after = self.owed
        return before[:, found[:, 0]] - after[:, found[:, 1]]

    def near(self, count: int) -> list[tuple[int, int]]:
        """So many pairs of places at which both takes owe most nearly the same, the quietest first."""
        window = self.window
        found = nearest(*self.owed, window.wished, window.most, NEAR_PAIRS)
        loud = peaks(self.left(found), self.owing.click)
        found = found[np.lexsort((found[:, 1], found[:, 0], loud))[:count]]
        return [(window.stop + i, window.start + j) for i, j in found.tolist()]

    def best(self) -> Place:
        """The pair of places whose loudest channel clicks least."""
        return quietest([self.place(*it) for it in self.near(TRIED)])

    def best_linked(self, shortest: int) -> Place:
        """The same, or a cut with a link of at least this many bits where that clicks less."""
        plain, found = self.best(), self.linked(shortest)
        best = quietest(found) if found else plain
        return best if best.loudest < plain.loudest - GAIN else plain

    def linked(self, shortest: int) -> list[Place]:
        """The best cuts with a link of at least this many bits."""
        window = self.window
        found = parity_pairs(self.owing, *self.owed, window.wished, window.most)
        found = found[(found[:, 0] >= MARGIN) & (found[:, 1] < window.starts - MARGIN)]
        best = self.links_at(found, shortest).first(TRIED)
        places = found + (window.stop, window.start)
        rows = [(*places[pair].tolist(), Link(*link)) for pair, *link in best.rows.tolist()]
        return [self.judged(stop, start, link) for stop, start, link in rows]

    def apart(self, places: np.ndarray, most: int) -> np.ndarray:
        """How far the second take's sound is from the first's around pairs of places in the window: for each a row of
        that many bits before and after it."""
        around = np.arange(-most, most)
        before, after = self.before, self.after
        at = (places + (self.window.stop - before.first, self.window.start - after.first))[:, :, None] + around
        first, second = (it.signs[0] - it.values[0] for it in (before, after))
        return second[at[:, 1]] - first[at[:, 0]]

    def links_at(self, found: np.ndarray, shortest: int, more: np.ndarray | float = 0.0) -> Found:
        """The best links of at least this many bits at each of these pairs of places, where `more` is left."""
        window, takes = self.window, [self.before, self.after]
        if shortest not in self.held:
            middles = [window.stop + window.stops // 2, window.start + window.starts // 2]
            spans = spans_of(takes, self.bits, middles)
            self.held[shortest] = held(self.owing, takes, spans, shortest)
        left = self.left(found) + more
        return best(self.owing, takes, self.held[shortest], found + (window.stop, window.start), left)

    def judged(self, middle: int, start: int, link: Link, moved: float = 0.0) -> Place:
        """The exact click of a cut with a link in its place, and that by another estimate."""
        other = self.other.with_link(middle, start, link, moved).loudest
        return replace(self.with_link(middle, start, link, moved), other=other)

    def with_link(self, middle: int, start: int, link: Link, moved: float) -> Place:
        """The exact click of a cut with a link in its place, whose sound changes this many bits after its middle."""
        stop, start = middle - link.ahead, start + link.length - link.ahead
        takes, peaks = (self.before, self.after), []
        more = int(np.ceil(abs(moved)))
        inside = slice(self.hearing.size // 2 - more, self.hearing.size // 2 + more)
        places = np.array([[middle - self.window.stop, start - link.length + link.ahead - self.window.start]])
        for channel in range(len(self.before.values)):
            signs = row(takes[link.take], channel, link.first, link.first + link.length)
            front = self.before.sound(channel, stop, middle)
            rear = self.after.sound(channel, start - link.length + link.ahead, start)
            inner = signs - np.concatenate([front, rear])
            error = self.around(channel, (stop, start), inner, link.length)
            if more:
                error[inside] += (changed(np.array([moved]), more) * self.apart(places, more))[0]
            peaks.append(self.hearing.peak(error, link.ahead))
        return Place(stop, start, max(peaks), link, moved=moved)

    def bridged(self, places: list[tuple[int, int]], weights: list[int], length: int) -> list[Place]:
        """The same cuts with least bridges: at each pair the middle of the bridge is where it would be cut plain."""
        early = length // 2
        ends = [(stop - early, start + length - early) for stop, start in places]
        more = len(weights) - 1
        peaks = np.full(len(ends), -np.inf)
        for channel in range(len(self.before.values)):
            before = np.stack([row(self.before, channel, stop - more, stop + length) for stop, _ in ends])
            after = np.stack([row(self.after, channel, start - length - more, start + more) for _, start in ends])
            bits = bridges.least(weights, before, after, length)
            rows = [self.hearing.peak(self.error(channel, *it, weights), early) for it in zip(bits, ends)]
            peaks = np.maximum(peaks, rows)
        return [Place(*end, it) for end, it in zip(ends, peaks.tolist())]

    def error(self, channel: int, bits: np.ndarray, ends: tuple[int, int], weights: list[int]) -> np.ndarray:
        """The error of a cut with these bits between its ends, its middle in the middle of the bits."""
        (stop, start), length = ends, len(bits)
        early = delay(weights)
        reach = int(np.ceil(early))
        part = np.clip((np.arange(-reach, length) + 1 + early) / (length + 1), 0, 1)
        first, second = (stop - reach, stop + length), (start - length - reach, start)
        sound = (1 - part) * self.before.sound(channel, *first) + part * self.after.sound(channel, *second)
        signs = np.concatenate([self.before.signs[channel, stop - reach - self.before.first :][:reach], bits])
        return self.around(channel, (stop - reach, start), signs - sound, length)

    def around(self, channel: int, ends: tuple[int, int], inner: np.ndarray, length: int) -> np.ndarray:
        """Errors between two ends and those of the takes around them, the middle of the last ones of a length in the
        middle."""
        (stop, start), half = ends, self.hearing.size // 2 - length // 2
        front = self.before.part(stop - half + len(inner) - length, stop)[channel]
        rear = self.after.part(start, start + self.hearing.size - half - length)[channel]
        return np.concatenate([front, inner, rear])


def row(errors: Errors, channel: int, first: int, stop: int) -> np.ndarray:
    return errors.signs[channel, first - errors.first : stop - errors.first]


def changed(moved: np.ndarray, most: int) -> np.ndarray:
    """How much of the second take a sound has less that changes that many bits later than between two bits: a row of
    that many bits before and after that place."""
    at = np.arange(-most, most)
    return (at >= 0) - np.clip(at + 1 - moved[:, None], 0, 1)


def quietest(places: list[Place]) -> Place:
    """The place whose loudest channel clicks least by the worse of both estimates, of equal ones the first."""
    return min(places, key=lambda it: (round(max(it.loudest, it.other), 6), it.stop, it.start))

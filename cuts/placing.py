"""Moves the cuts of a project to where its takes meet, or makes transitions of them."""
from dataclasses import dataclass, replace

import numpy as np

from cuts import bridges, joining, masters, titles
from cuts.crossfades import wrapped
from cuts.errors import Owing, known
from cuts.hearing import decibels, hearing_of
from cuts.joining import Cut, Link, Place, changed
from cuts.projects import Project
from cuts.seams import Seam
from dsdarc_scripts.outputs import Refused
from dsdarc_scripts.project_texts import MOST_CUES


# A cut whose channels change from take to take each at a place of its own, with a link of its own.
#
# What follows has to come early or late by the same number of bits in all channels. But the places need not be the
# same, so the two even numbers (`joining`) have to fit in one channel at a time. Where both takes differ, the sum
# always fits: the sound changes some bits earlier or later than in the middle of the link, and each bit adds that
# difference. For each shift of the second take, and in each channel, the places are found that fit best, and the links
# that leave least there. For the shifts whose loudest channel is quietest, many more places are tried. The shift is
# taken whose loudest channel clicks least; of those that are nearly as quiet, the one with the least step of the sound.

FITTING = 2  # places of each channel for each shift, for which links are looked for; more where there are few shifts
FEW = 16  # shifts whose loudest channel is quietest
MANY = 512  # places of each channel for which links are looked for, for all of these together
ROUGH = 4  # times as many (half of that, if there are many), of which they are the best when it is computed exactly
# where the sound changes
JUDGED = 16  # shifts whose clicks are computed exactly; more where there are few channels
CLICKS = 64  # that are, of all channels
MOVED = 5e-6  # seconds by which the sound may change before or after the middle of a link
ALIKE = 2.0  # dB: of transitions that click at most so much louder than the quietest, the one with the least step
GAIN = 1.0  # dB that shifts between channels gain at least, or there are none
NEARER = 1e-9  # of a sum: of places that are as good, the one that is nearer to the middle


@dataclass(frozen=True)
class Transition:
    """The place at which each channel changes, with its link, and how much farther all of them are in the second take,
    but for the bits that each channel comes early."""

    places: list[Place]
    offset: int
    early: list[int]

    @property
    def loudest(self) -> float:
        """The loudest peak by the worse of both estimates."""
        return max(max(it.loudest, it.other) for it in self.places)

    @property
    def step(self) -> float:
        """The greatest step of the sound in any channel."""
        return max(it.step for it in self.places)

    def ends(self, margin: int) -> tuple[int, int]:
        """The first bit of the first take that it replaces, and the place after the last: `margin` bits from the links'
        middles."""
        middles = [it.stop + it.known_link.ahead for it in self.places]
        return min(middles) - margin, max(middles) + margin


@dataclass(frozen=True)
class Best:
    """The best link of a channel for each shift: how loud it is, as far as the numbers say, and a row of both places
    in the window, the link's take, its first bit and its length; and how far from its middle the sound changes."""

    peaks: np.ndarray
    rows: np.ndarray
    moved: np.ndarray

    def row(self, shift: int) -> tuple[list[int], float]:
        return self.rows[shift].tolist(), float(self.moved[shift])

    def or_better(self, other: "Best") -> "Best":
        """The better one of both for each shift."""
        is_better = other.peaks < self.peaks
        rows = np.where(is_better[:, None], other.rows, self.rows)
        moved = np.where(is_better, other.moved, self.moved)
        return Best(np.where(is_better, other.peaks, self.peaks), rows, moved)


def shifts_of(cut: Cut) -> range:
    return range(cut.window.wished - cut.window.most, cut.window.wished + cut.window.most + 1)


def farthest(cut: Cut) -> int:
    """How many bits from the middle of a link the sound may change."""
    return int(MOVED * cut.hearing.rate)


def margin_of(rate: int) -> int:
    """How many bits from the middle of a link a transition begins or ends, so that the sound changes inside too."""
    return max(joining.MARGIN, int(MOVED * rate) + 1)


def fitting(cut: Cut, numbers: list[int], kept: int) -> np.ndarray:
    """The pairs of places of one channel that fit best, so many for each of these shifts, with the number of that. The
    sum of what is left is made up for as far as the sound may change earlier or later."""
    before, after = (np.ascontiguousarray((owed[0] @ cut.owing.moments).T) for owed in cut.owed)
    sounds, most = cut.sounds(), farthest(cut)
    weights, found = joining.parity_weights(cut.owing), []
    shifts = shifts_of(cut)
    for number in numbers:
        shift = shifts[number]
        low, high = max(0, -shift), min(cut.window.stops, cut.window.starts - shift)
        if low >= high:
            continue
        sums, moments = wrapped(before[:, low:high] - after[:, low + shift : high + shift])
        apart = sounds[1][low + shift : high + shift] - sounds[0][low:high]
        moved = np.divide(-sums, apart, out=np.zeros(high - low), where=apart != 0)
        moved = np.minimum(np.maximum(moved, -most), most)
        left = sums + moved * apart, wrapped(moments + moved**2 / 2 * apart)
        distance = weights[0] * left[0] ** 2 + weights[1] * left[1] ** 2
        best = np.argpartition(distance, kept)[:kept] if high - low > kept else np.arange(high - low)
        first = low + np.sort(best)
        found.append(np.stack([first, first + shift, np.full(len(first), number)], axis=1))
    return np.concatenate(found) if found else np.empty((0, 3), np.int64)


def even(cut: Cut, places: np.ndarray) -> tuple[np.ndarray, np.ndarray]:
    """For pairs of places in one channel how many bits later the sound changes, so that the sum of what is left there
    is nearest to an even number; and the numbers that this adds to what is left."""
    most = farthest(cut)
    apart = cut.apart(places, most)
    sums = np.cumsum(np.pad(apart, ((0, 0), (1, 0))), axis=1)
    sums += wrapped(cut.left(places)[0] @ cut.owing.moments[:, 0])[:, None] - sums[:, most : most + 1]
    low, high = sums[:, :-1], sums[:, 1:]
    with np.errstate(divide="ignore", invalid="ignore"):
        crossed = np.where(low * high <= 0, np.arange(-most, most) + low / (low - high), np.nan)
    away = np.where(np.isfinite(crossed), np.abs(crossed), np.inf)
    best, every = away.argmin(axis=1), np.arange(len(places))
    is_even = np.isfinite(away[every, best])
    nearest = np.abs(sums) + NEARER * np.abs(np.arange(-most, most + 1))
    moved = np.where(is_even, crossed[every, best], nearest.argmin(axis=1) - most)
    return moved, (changed(moved, most) * apart) @ cut.owing.bits(2 * most)


def fitting_best(cut: Cut, found: np.ndarray, more: np.ndarray, kept: int) -> np.ndarray:
    """Of pairs of places, with these numbers added to what is left there, the numbers of those that fit best, so many
    for each shift."""
    left = wrapped((cut.left(found[:, :2])[0] + more) @ cut.owing.moments)
    order = np.lexsort((left**2 @ joining.parity_weights(cut.owing), found[:, 2]))
    shift = found[order, 2]
    return order[np.arange(len(order)) - np.searchsorted(shift, shift) < kept]


def best_of(cut: Cut, numbers: list[int], kept: int) -> Best:
    """The best link of one channel for each of these shifts, with links at so many places for each."""
    found = fitting(cut, numbers, ROUGH * max(kept // 2, FITTING))
    number = len(shifts_of(cut))
    made = Best(np.full(number, np.inf), np.zeros((number, 5), np.int64), np.zeros(number))
    moved, more = even(cut, found[:, :2])
    chosen = fitting_best(cut, found, more, kept)
    found, moved, more = found[chosen], moved[chosen], more[chosen]
    at = cut.links_at(found[:, :2], 0, more)
    shift = found[at.rows[:, 0], 2]
    order = np.lexsort((*at.rows.T[::-1], at.peaks, shift))
    _, first = np.unique(shift[order], return_index=True)
    chosen = order[first]
    made.peaks[shift[chosen]] = at.peaks[chosen]
    made.rows[shift[chosen]] = np.column_stack([found[at.rows[chosen, 0], :2], at.rows[chosen, 1:]])
    made.moved[shift[chosen]] = moved[at.rows[chosen, 0]]
    return made


def best(cut: Cut, between: int = 0) -> Transition | None:
    """The transition whose loudest channel clicks least; nothing where there is no room for one. A channel may come up
    to `between` bits earlier than the others, if that gains enough."""
    channels, shifts = [cut.channel(it) for it in range(cut.count)], [*range(len(shifts_of(cut)))]
    found = [best_of(it, shifts, max(FITTING, joining.PAIRS // len(shifts))) for it in channels]
    few = promising(found, between)
    found = [one.or_better(best_of(it, few, MANY // len(few))) for one, it in zip(found, channels)]
    usual = quietest(channels, found, 0)
    apart = quietest(channels, found, between) if usual and between else None
    return apart if usual and apart and apart.loudest < usual.loudest - GAIN else usual


def promising(found: list[Best], between: int) -> list[int]:
    """The shifts whose loudest channel is quietest, and those up to some bits more."""
    first = np.argsort(np.max([it.peaks for it in found], axis=0), kind="stable")[:FEW]
    every = np.unique(first[:, None] + np.arange(between + 1))
    return every[every < len(found[0].peaks)].tolist()


def quietest(channels: list[Cut], found: list[Best], between: int) -> Transition | None:
    """The quietest transition of the best links in each channel, each for one shift of all or some bits more."""
    number = len(found[0].peaks) - between
    peaks = np.stack([[it.peaks[more : more + number] for more in range(between + 1)] for it in found])
    loudest, early = np.max(peaks.min(axis=1), axis=0), peaks.argmin(axis=1)
    window, tried = channels[0].window, list[Transition]()
    shift = window.start - window.stop + shifts_of(channels[0])[0]
    worth = np.inf  # what is louder can't be chosen
    for it in np.argsort(loudest, kind="stable")[: max(JUDGED, CLICKS // len(channels))].tolist():
        if np.isfinite(loudest[it]) and decibels(loudest[it]) <= worth:
            rows = [one.row(it + more) for one, more in zip(found, early[:, it].tolist())]
            places = [linked(one, *row) for one, row in zip(channels, rows)]
            first = int(early[:, it].min())
            tried.append(Transition(places, shift + it + first, (early[:, it] - first).tolist()))
            worth = min(worth, tried[-1].loudest + ALIKE)
    least = min((it.loudest for it in tried), default=0.0)
    alike = [it for it in tried if it.loudest <= least + ALIKE]
    return min(alike, key=lambda it: (round(it.step, 9), it.ends(0))) if alike else None


def linked(cut: Cut, row: list[int], moved: float) -> Place:
    """The exact click of a channel, and the step of its sound."""
    found = cut.judged(cut.window.stop + row[0], cut.window.start + row[1], Link(*row[2:]), moved)
    return replace(found, step=float(np.abs(cut.apart(np.array([row[:2]]), 1)).max()))


BRIDGED = 256  # cuts with a bridge that are tried, if it is short


@dataclass(frozen=True)
class PlaceAsked:
    """What is asked for: the name of the take of seams, how far a cut may move in each take and how early or late what
    follows may come, in seconds; whether there may be links, whether all channels change together, whether bridges
    that fade are left out, and how many bits early a channel may come against the others."""

    take: str = ""
    within: float = 0.5e-3
    shift: float = 50e-6
    linking: bool = True
    together: bool = False
    plain: bool = False
    between: int = 0

    def shifted_name(self, number: int) -> str:
        """The name of a take with shifted channels, by its number."""
        return f"{self.take.removesuffix('.dff').removesuffix('.seams')}.shifted-{number}.dff"


def makes_transition(project: Project, number: int, asked: PlaceAsked) -> bool:
    """Whether a cut is to be a transition: a bridge that stays has one place."""
    has_bridge = project.spots()[number].role in (("line",) if asked.plain else ("bridge", "line"))
    return asked.linking and not asked.together and not has_bridge


@dataclass(frozen=True)
class Room:
    """Between which places a cut may be in both takes, and which are wished."""

    stop: int
    start: int
    stops: tuple[int, int]
    starts: tuple[int, int]

    def window(self, most: int) -> joining.Window | None:
        """The window of the places, if there are any pairs whose shift is at most so large."""
        (low, high), (first, last) = self.stops, self.starts
        wished = (self.start - first) - (self.stop - low)
        nearest = min(max(wished, low - high), last - first)
        if low > high or first > last or abs(nearest - wished) > most:
            return None
        return joining.Window(low, high - low + 1, first, last - first + 1, wished, most)

    def inside(self, stops: tuple[int, int], starts: tuple[int, int]) -> "Room":
        """The part that lies between these places of both takes."""
        parts = [(max(one[0], it[0]), min(one[1], it[1])) for one, it in ((self.stops, stops), (self.starts, starts))]
        return Room(self.stop, self.start, *parts)


def room_of(project: Project, cut: int, within: int, margin: int) -> Room:
    """Where the cut after a cue may be, so that both cues stay long enough without `margin` bits to each side of the
    cut, and a bridge has its room. The places of a cut with a bridge are those at which it would be cut plain, in the
    middle of the bridge."""
    cue, following = project.cues[cut], project.cues[cut + 1]
    length = project.bridge(cut)
    early = length // 2
    late = length - early
    room = length + project.shortest if length else 0
    stop, start = cue["stop"] + early, following["start"] - late
    low = max(stop - within, cue["start"] + project.least(cut) + early + margin)
    high = min(stop + within, project.span(cut)[1] - late - margin)
    first = max(start - within, room - late, project.span(cut + 1)[0] + margin)
    last = min(start + within, following["stop"] - project.least(cut + 1) - late - margin)
    return Room(stop, start, (low, high), (first, last))


def window_of(project: Project, cut: int, asked: PlaceAsked, margin: int = 0) -> joining.Window | None:
    """The window of a cut. It keeps away from the ends of takes, where their sound isn't known, if that leaves any
    pairs of places."""
    within, most = round(asked.within * project.rate), round(asked.shift * project.rate)
    room = room_of(project, cut, within, margin)
    (first, last), (start, end) = project.span(cut), project.span(cut + 1)
    before, after = known(project.take(cut)), known(project.take(cut + 1))
    safe = room.inside((first, last - before), (start + after, end))
    safest = safe.inside((first + before, last), (start, end - after))
    return safest.window(most) or safe.window(most) or room.window(most)


def meeting(project: Project, cut: int, window: joining.Window | None) -> joining.Cut:
    if window is None:
        raise Refused("its cues are too short for it to move")
    hearing = hearing_of(project.rate)
    return joining.Cut(hearing, Owing(hearing), (project.take(cut), project.take(cut + 1)), window)


def place_together(project: Project, cut: int, asked: PlaceAsked) -> None:
    """Moves a cut to the best pair of places, perhaps with a link."""
    found, length = meeting(project, cut, window_of(project, cut, asked)), project.bridge(cut)
    if length:
        stop, start, early = project.cues[cut]["stop"], project.cues[cut + 1]["start"], length // 2
        near = found.near(bridges.trials(project.weights, length, BRIDGED))
        places = [(stop + early, start - length + early), *near]
        best = joining.quietest(found.bridged(places, project.weights, length))
    else:
        is_linking = asked.linking and len(project.rows) < MOST_CUES
        best = found.best_linked(project.shortest) if is_linking else found.best()
    project.move(cut, best.stop, best.start)
    if best.link:
        take = project.cues[cut + best.link.take]["take"]
        project.insert(cut, take, best.link.first, best.link.first + best.link.length)


def may_shift(project: Project, cut: int, asked: PlaceAsked) -> bool:
    """Whether the channels of what follows a cut may be shifted: no later cut is made for how it goes on."""
    is_usual = project.cues[cut + 1]["take"] not in (
        project.slot,
        *(it for it, one in enumerate(project.shifts) if one),
    )
    return bool(asked.between) and project.count > 1 and is_usual and project.is_last_made(cut + 1)


def place_apart(project: Project, cut: int, asked: PlaceAsked) -> bool:
    """Makes a transition of a cut, and returns whether there was room for it."""
    margin = margin_of(project.rate)
    window = window_of(project, cut, asked, margin)
    between = asked.between if may_shift(project, cut, asked) else 0
    found = best(meeting(project, cut, window), between) if window else None
    if window is None or found is None:
        return False
    stop, start, offset = project.cues[cut]["stop"], project.cues[cut + 1]["start"], found.offset
    first, last = found.ends(margin)
    low, high = with_title(project, cut, (min(first, stop), max(last, start - offset)), offset)
    seams = project.seams_as(asked.take)
    places = [it.stop + it.known_link.ahead - low for it in found.places]
    middles = [place + it.moved for place, it in zip(places, found.places)]
    rows = [link_row(it, *its) for it, *its in zip(found.places, places, found.early)]
    wished = stop - low, high + offset - start
    seam = Seam(seams.take.bits, high - low, "transition", *wished, 1, False, middles, rows)
    signs = np.stack([signs_of(project, cut, (low, high), it, channel) for channel, it in enumerate(found.places)])
    project.move(cut, low, high + offset)
    if any(found.early):
        reach = high - low + window.starts + joining.FROM + hearing_of(project.rate).size
        project.shift(cut + 1, found.early, asked.shifted_name, reach)
    project.insert_seam(cut, seam, signs)
    return True


def with_title(project: Project, cut: int, ends: tuple[int, int], offset: int) -> tuple[int, int]:
    """The ends of a transition in the first take, with room for a title of what follows at the wished place."""
    cue, following = project.cues[cut], project.cues[cut + 1]
    room = cue["start"] + project.least(cut), following["stop"] - project.least(cut + 1) - offset
    return titles.widened(ends, cue["stop"], room, project.shortest) if "title" in following else ends


def link_row(place: joining.Place, middle: int, early: int) -> list[int]:
    """A link as a seam has it, in a channel that comes that many bits early in the take after."""
    link = place.known_link
    return [link.take, link.first - (early if link.take else 0), link.length, middle]


def signs_of(project: Project, cut: int, ends: tuple[int, int], place: joining.Place, channel: int) -> np.ndarray:
    """The bits of a channel of a transition between two places of the first take."""
    takes = project.take(cut), project.take(cut + 1)
    offset, link = place.start - place.stop - place.between, place.known_link
    before = takes[0].signs(ends[0], place.stop)
    between = takes[link.take].signs(link.first, link.first + link.length)
    after = takes[1].signs(place.start, ends[1] + offset)
    return np.concatenate([it[channel] for it in (before, between, after)])


def place(project: Project, number: int, asked: PlaceAsked) -> None:
    """Moves a cut, whose link or seam is left out before. If it clicked louder then it is refused."""
    is_apart = makes_transition(project, number, asked)
    with masters.remade(project, number) as cut:
        if asked.plain:
            project.leave_out_bridge(cut)
        if not (is_apart and place_apart(project, cut, asked)):
            place_together(project, cut, asked)

"""Ramps of a mix that move by a little, so that bits can follow the sound.

The sum of some bits is odd or even, whatever they are, and what the sound needs of it is missing by up to 1. If a ramp
comes some bits earlier or later, the sum of the sound changes: by the difference of what goes and what comes for each
bit that a crossfade moves, and by the sound itself for a fade. So with a ramp at the right place nothing is missing.
That is another mix than was asked for, if only by some microseconds.

A clip that begins or ends at once has a ramp of one bit there (`with_edges`)."""
import itertools
from collections.abc import Iterator
from dataclasses import dataclass, replace

import numpy as np
import tomlkit
from scipy import fft

from cuts import gains
from cuts.albums import quoted
from cuts.crossfades import wrapped
from cuts.curves import gains_at
from cuts.gains import FULL, Points
from cuts.hearing import decibels
from cuts.mixes import array_of, gains_of
from cuts.rendering import Rendering, level_bump
from cuts.sounding import Sounding, way_of
from cuts.stretches import Gap
from cuts.times import clock
from dsdarc_scripts.explained import shown_name
from tools.null_testing.mixes import MOST_POINTS, Clip, Mix

LONGEST = 0.5  # seconds of a stretch: in longer ones a bump is too quiet to be heard at all
QUIETEST = 1.25e-6  # of full scale: a quieter bump stays
LESS = 0.7  # of what is missing: a ramp moves if at most that is left of it
KINDS = {(False, False): "crossfade", (False, True): "fade", (True, False): "cut", (True, True): "change"}
SPARE = 8  # points that a clip may have more once its ramps were moved
BENT = 64  # of a gain of 2^24: a point that is no further off a straight line may be left out


def begun(points: Points) -> Points:
    """The points of a clip that begins one bit earlier, with a gain of 0."""
    gain = gains.gain_at(points, 0)
    return [(0, 0), (1, gain), *(it for it in gains.moved(points, 1) if it[0] > 1)]


def ended(points: Points, length: int) -> Points:
    """The points of a clip whose gain is 0 where it has ended."""
    gain = gains.gain_at(points, length - 1)
    return [*(it for it in points if it[0] < length - 1), (length - 1, gain), (length, 0)]


def edged(sounding: Sounding, clip: Clip) -> Clip:
    """The same clip, if it begins or ends at once with points that say so: ramps of one bit. At the ends of its take and
    of the mix there are none."""
    rows = [clip.points(it) or [(0, FULL)] for it in range(sounding.count)]
    if clip.stop < sounding.length and clip.start + clip.length < sounding.takes[clip.take].bits:
        if any(gains.gain_at(it, clip.length - 1) for it in rows):
            rows = [ended(it, clip.length) for it in rows]
            clip = replace(clip, gain=[], gains=rows)
    if clip.at > 0 and clip.start > 0 and any(gains.gain_at(it, 0) for it in rows):
        rows = [begun(it) for it in rows]
        clip = replace(clip, start=clip.start - 1, at=clip.at - 1, length=clip.length + 1, gain=[], gains=rows)
    return clip


def with_edges(sounding: Sounding) -> Sounding:
    """The same sound, whose clips have points at their ends."""
    clips = [edged(sounding, it) for it in sounding.mix.clips]
    return Sounding(replace(sounding.mix, clips=clips), sounding.takes)


@dataclass(frozen=True)
class Run:
    """Points of a clip in one channel, by their numbers from `first` to `last`, between which its gain changes."""

    clip: int
    first: int
    last: int


@dataclass(frozen=True)
class Ramp:
    """Places of the mix over which the gains of clips in one channel change together, from `first` on and before
    `stop`."""

    channel: int
    first: int
    stop: int
    runs: tuple[Run, ...]


@dataclass(frozen=True)
class Move:
    """A ramp, by how many bits it comes later, and the bump (of full scale) that there is without."""

    ramp: Ramp
    bits: float
    bump: float


def runs_of(points: Points) -> Iterator[tuple[int, int]]:
    """The numbers of the first and the last point of each run over which a gain changes."""
    first = None
    for number, (one, other) in enumerate(itertools.pairwise([*points, points[-1]] if points else [])):
        if one[1] == other[1]:
            if first is not None:
                yield first, number
            first = None
        elif first is None:
            first = number


def ramps_of(mix: Mix, channel: int, low: int, high: int) -> list[Ramp]:
    """The ramps of a channel between two places: runs of clips that overlap are one."""
    rows = []
    for number, clip in enumerate(mix.clips):
        points = clip.points(channel)
        for first, last in runs_of(points) if clip.at < high and low < clip.stop else ():
            rows.append((clip.at + points[first][0], clip.at + points[last][0], Run(number, first, last)))
    found = list[Ramp]()
    for start, stop, run in sorted(rows, key=lambda it: it[:2]):
        if found and start < found[-1].stop:
            one = found.pop()
            found.append(Ramp(channel, one.first, max(one.stop, stop), (*one.runs, run)))
        else:
            found.append(Ramp(channel, start, stop, (run,)))
    return [it for it in found if low <= it.first and it.stop <= high and can_move(mix, it)]


def can_move(mix: Mix, ramp: Ramp) -> bool:
    """Whether a ramp lies in its clips, which have room for some more points, or some that aren't needed."""
    for run in ramp.runs:
        clip = mix.clips[run.clip]
        points = clip.points(ramp.channel)
        is_full = len(points) + SPARE > MOST_POINTS
        if points[run.last][0] > clip.length or is_full and np.sort(bends_of(points))[SPARE] > BENT:
            return False
    return True


def bends_of(points: Points) -> np.ndarray:
    """How far each point but the first and the last is off a straight line between its neighbours."""
    places, values = np.array(points, np.float64).T
    part = (places[1:-1] - places[:-2]) / (places[2:] - places[:-2])
    return np.abs(values[1:-1] - values[:-2] - part * (values[2:] - values[:-2]))


def thinned(points: Points) -> Points:
    """No more points than a clip may have: those are left out that are needed least."""
    points = list(points)
    while len(points) > MOST_POINTS:
        del points[int(bends_of(points).argmin()) + 1]
    return points


def rooms_of(sounding: Sounding, clip: Clip) -> tuple[int, int]:
    """How many bits earlier a clip may begin, and how many later it may end, without any other sound: as far as its
    gains are 0 there."""
    rows = [clip.points(it) for it in range(sounding.count)]
    begins = all(it and not gains.gain_at(it, 0) for it in rows)
    ends = all(it and not it[-1][1] and it[-1][0] <= clip.length for it in rows)
    after = min(sounding.takes[clip.take].bits - clip.start - clip.length, sounding.length - clip.stop)
    return min(clip.start, clip.at) * begins, after * ends


def rises_of(points: Points, run: Run) -> np.ndarray:
    """By how much the gain of a run is more than at the place before, from after its first place to its last one."""
    places = np.arange(points[run.first][0], points[run.last][0] + 1)
    return np.diff(gains_at(points, places)) / FULL


def allowed(sounding: Sounding, ramp: Ramp, most: int) -> tuple[int, int]:
    """How many bits earlier and later a ramp may come, so many at most: no further than half of the way to the points
    around it, and in the clips, which may begin earlier and end later where they aren't heard."""
    if any(sounding.is_raw(sounding.mix.clips[it.clip]) for it in ramp.runs):
        return 0, 0
    early = late = most
    for run in ramp.runs:
        clip = sounding.mix.clips[run.clip]
        points, (before, after) = clip.points(ramp.channel), rooms_of(sounding, clip)
        start, stop = points[run.first][0], points[run.last][0]
        flat = (start - points[run.first - 1][0]) // 2 - 2 if run.first else most
        early = min(early, start + before, flat)
        flat = (points[run.last + 1][0] - stop) // 2 - 2 if run.last + 1 < len(points) else most
        late = min(late, clip.length - stop + after - 1, flat)
    return max(early, 0), max(late, 0)


def sums_of(sounding: Sounding, ramp: Ramp, early: int, late: int) -> np.ndarray:
    """By how much the sum of the sound is more for each number of bits by which a ramp comes later, from `-early` to
    `late`."""
    found = np.zeros(early + late)
    for run in ramp.runs if early + late else ():
        clip = sounding.mix.clips[run.clip]
        points = clip.points(ramp.channel)
        rises, place = rises_of(points, run), clip.at + points[run.first][0] + 1
        sound = sounding.decoded(clip, ramp.channel, place - early, place + len(rises) + late - 1)
        found -= correlated(sound, rises)
    sums = np.concatenate([[0.0], np.cumsum(found)])
    return sums - sums[early]


def correlated(row: np.ndarray, part: np.ndarray) -> np.ndarray:
    """The sums of a row times a part that begins at each of its places, as far as all of that is inside."""
    size = fft.next_fast_len(len(row), True)
    made = fft.irfft(fft.rfft(row, size) * fft.rfft(part, size).conj(), size)
    return made[: len(row) - len(part) + 1]


def nearest(sums: np.ndarray, early: int, missing: float) -> tuple[float, float]:
    """What is missing of a sum at the nearest place at which nothing is but an even number, and the place in bits from
    where a ramp is: between two bits the sum changes in a straight line. If there is none, where least is missing."""
    left = wrapped(missing - sums)
    rises = np.diff(left)
    crossings = np.nonzero((left[:-1] * left[1:] <= 0) & (np.abs(rises) < 1) & (rises != 0))[0]
    if not len(crossings):
        least = int(np.abs(left).argmin())
        return abs(float(left[least])), float(least - early)
    moved = crossings - early - left[crossings] / rises[crossings]
    return 0.0, float(moved[np.abs(moved).argmin()])


def moves_of(rendering: Rendering, sounding: Sounding, channel: int, gaps: list[Gap], most: int) -> list[Move]:
    """The ramps of a channel that move by at most so many bits: in each stretch whose bump would be loud the one that
    has to move least for nothing to be missing, or that makes the bump quietest. The sounding has edges."""
    rate, found = rendering.rate, list[Move]()
    for gap in gaps:
        if gap.length > LONGEST * rate:
            continue
        missing = rendering.missing(gap, channel)
        bump = abs(missing) * float(level_bump(rate, gap.length).max())
        if bump <= QUIETEST:
            continue
        near = list[tuple[float, Move]]()
        for ramp in ramps_of(sounding.mix, channel, gap.first, gap.stop):
            early, late = allowed(sounding, ramp, most)
            left, bits = nearest(sums_of(sounding, ramp, early, late), early, missing)
            near += [(left, Move(ramp, bits, bump))] if left < LESS * abs(missing) else []
        found += [min(near, key=lambda it: (it[0], abs(it[1].bits)))[1]] if near else []
    return found


def line(move: Move, mix: Mix, rate: int) -> str:
    """How far a ramp moved, and why."""
    ramp, away = move.ramp, f"{abs(move.bits) / rate * 1e6:.3f} us {'later' if move.bits >= 0 else 'earlier'}"
    is_one = len({way_of(mix.clips[it.clip]) for it in ramp.runs}) == 1
    kind = KINDS[ramp.stop - ramp.first == 1, is_one]
    where = f"from {clock(ramp.first, rate)} to {clock(ramp.stop, rate)} (bits {ramp.first} to {ramp.stop})"
    return f"channel {ramp.channel}: the {kind} {where} comes {away}; without that the bump is {decibels(move.bump):.1f} dB"


# The mix whose ramps were moved.


def moved_points(points: Points, run: Run, bits: float) -> Points:
    """The points of a clip, of which those of a run come some bits later. Both ends of the run keep their form; the
    points between them come to the nearest place."""
    whole = int(np.floor(bits))
    part = bits - whole
    inside = [place for place, _ in points[run.first : run.last + 1]]
    places = [inside[0] + whole, inside[0] + whole + 1, inside[-1] + whole, inside[-1] + whole + 1]
    places = sorted({*places, *(it + whole + round(part) for it in inside[1:-1])})
    wide = np.array([*places, *(it - 1 for it in places)]) - whole
    now, before = gains_at(points, wide).reshape(2, -1)
    values = np.rint((1 - part) * now + part * before).astype(np.int64)
    return [*points[: run.first], *zip(places, values.tolist()), *points[run.last + 1 :]]


def moved_clip(clip: Clip, count: int, moves: list[tuple[int, Run, float]]) -> Clip:
    """A clip of which runs of some channels come some bits later. If one begins before the clip's first place then, or
    ends after its last one, the clip is longer."""
    rows, early, late = [clip.points(it) for it in range(count)], 0, 0
    # Those of later points come first: the numbers of the others stay.
    for channel, run, bits in sorted(moves, key=lambda it: -it[1].first):
        ends = rows[channel][run.first][0], rows[channel][run.last][0]
        early = max(early, -(ends[0] + int(np.floor(bits))))
        late = max(late, ends[1] + int(np.ceil(bits)) - clip.length)
        rows[channel] = moved_points(rows[channel], run, bits)
    rows = [thinned(gains.moved(it, early)) for it in rows]
    length = clip.length + early + late
    return replace(clip, start=clip.start - early, at=clip.at - early, length=length, gain=[], gains=rows)


def moved_mix(mix: Mix, edges: Mix, count: int, moves: list[Move]) -> Mix:
    """The mix whose ramps were moved; they are those of the same mix with edges."""
    clips = list(mix.clips)
    for number, clip in enumerate(edges.clips):
        own = [(it.ramp.channel, run, it.bits) for it in moves for run in it.ramp.runs if run.clip == number]
        clips[number] = moved_clip(clip, count, own) if own else clips[number]
    return replace(mix, clips=clips)


# Its text.


def tables_of(mix: Mix, before: Mix, rate: int, titles: list[tuple[int, str]]) -> Iterator[str]:
    """The tables of clips, with the titles that those of the mix before have by their places."""
    left = dict(titles)
    for clip, old in zip(mix.clips, before.clips):
        where = f"{shown_name(mix.takes[clip.take])} from {clock(clip.at, rate)} to {clock(clip.stop, rate)}"
        title = left.pop(old.at, None)
        note = "" if title is None else f"# title = {quoted(title)}\n"
        numbers = {
            "take": clip.take,
            "decoder": clip.decoder,
            "start": clip.start,
            "at": clip.at,
            "length": clip.length,
        }
        text = "".join(f"{key} = {it}\n" for key, it in numbers.items())
        rows = [clip.gain] if clip.gains is None else clip.gains
        yield f"\n# {where}\n[[mix.clip]]\n{note}{text}{gains_of(rows)}"


def text_of(mix: Mix, sounding: Sounding, titles: list[tuple[int, str]], name: str) -> str:
    """The text of a mix whose ramps were moved, which was made of that of a sounding, whose text has a name."""
    head = (
        f"# Made by cuts/render of {shown_name(name)}: the same mix, with ramps that come a little earlier or later\n"
    )
    numbers = {"unit": mix.unit, "limit": mix.limit, "every": mix.every}
    text = f"{head}\n[mix]\n{tomlkit.dumps({'takes': mix.takes})}"
    text += "".join(f"{key} = {it}\n" for key, it in numbers.items()) + f"audible = {array_of(np.array(mix.audible))}\n"
    text += "".join(tables_of(mix, sounding.mix, sounding.rate, titles))
    return text + "".join(f"\n[[mix.decoder]]\ntaps = {array_of(np.array(it))}\n" for it in mix.decoders)

"""The clips of a project's mix: each take where it is heard, with its gains.

Each cue is a clip, which begins and ends where its sound does at the cuts around it. It is several clips where its
channels need several decoders or come early. Where a butt changes what is above the audio band more slowly, it is two
clips whose decoders add up to that of the whole.

Nothing is outside of a master, and near its ends the null test would take that for an error. So if a cut is near an
end, the mix has the take's bits themselves there, by a decoder of one tap, and their sound comes in slowly."""
from dataclasses import dataclass

import numpy as np

from cuts import gains, hearing, measuring
from cuts.gains import FULL, Points
from cuts.hearing import Band
from cuts.projects import Project, Spot

LINES = 256  # straight lines by which a sound comes in

WHOLE, LOW, REST, BITS = "whole", "low", "rest", "bits"  # what of a take a decoder gives

Decoder = tuple[str, Band]  # that, of the sound that a low-pass passes
NO_BAND = (0, 0)  # of bits as they are
SILENT: Points = [(0, 0)]  # of channels that a clip isn't heard in


@dataclass(frozen=True)
class Clip:
    """A part of a take from bit `start` on, by a decoder, and its places in the mix. `points` has for each channel
    those of its gain, counted from the first place; none if the gain is 1."""

    take: int
    decoder: Decoder
    start: int
    at: int
    length: int
    points: list[Points]

    @property
    def stop(self) -> int:
        return self.at + self.length


@dataclass(frozen=True)
class Turn:
    """How the sound changes at a cut, or at an end of the master: for each channel the gains of what goes and of what
    comes, by places of the master. There are several where parts of the sound change by themselves."""

    changes: list[dict[str, tuple[Points, Points]]]

    @property
    def is_split(self) -> bool:
        return any(WHOLE not in it for it in self.changes)

    def gains(self, channel: int, part: str) -> tuple[Points, Points]:
        """Those of a part of the sound."""
        found = self.changes[channel]
        return found[part] if part in found else found[WHOLE]

    @property
    def ends(self) -> tuple[int, int]:
        """The first place at which anything changes, and that after the last."""
        rows = [points for one in self.changes for both in one.values() for points in both]
        return min(it[0][0] for it in rows) + 1, max(it[-1][0] for it in rows)


def turn_of(project: Project, spot: Spot) -> Turn:
    """How the sound changes at a cut, as `measuring` has it. A bridge that goes in a line counts as one that fades."""
    span, layers, middles, power = (0, spot.length), {WHOLE: 0.0}, [float(spot.length // 2)] * project.count, False
    if spot.role == "seam":
        crossfade = project.seam(spot.before + 1).crossfade
        middles, power, ramp = crossfade.middles, crossfade.power, crossfade.ramp
        layers = {LOW: ramp, REST: crossfade.slow} if crossfade.slow else {WHOLE: ramp}
    elif spot.role in ("bridge", "line"):
        late = measuring.delay(project.weights)
        early = min(max(int(np.ceil(late)), 0), measuring.length_of(project.cues[spot.before]) - 1)
        span, layers, middles = (
            (-early, spot.length),
            {WHOLE: spot.length + 1.0},
            [spot.length / 2 - late] * project.count,
        )

    def change(middle: float, ramp: float) -> tuple[Points, Points]:
        going, coming = gains.changing(span, middle, ramp, power)
        return gains.moved(going, spot.place), gains.moved(coming, spot.place)

    return Turn([{part: change(middle, ramp) for part, ramp in layers.items()} for middle in middles])


def span_of(project: Project, spot: Spot) -> tuple[int, int]:
    """From where to where a cut has bits of its own, or its sound changes."""
    first, stop = turn_of(project, spot).ends
    return min(spot.place, first), max(spot.place + spot.length, stop)


def risen(rate: int, length: int) -> Points:
    """A gain that rises so slowly, from 0 to 1 within that many places, that nothing is heard of it."""
    places = np.unique(np.rint(np.linspace(0, length, LINES + 1)).astype(np.int64))
    values = hearing.let_in(np.ones(length + 1), rate, length)[places]
    return [(int(place), round(value * FULL)) for place, value in zip(places, values)]


def others(points: Points) -> Points:
    """The gain of what is heard else."""
    return [(place, FULL - gain) for place, gain in points]


def end_turns(project: Project, spots: list[Spot], reach: int) -> tuple[Turn | None, Turn | None]:
    """How a sound comes in after the master's start, and how it goes before the end, where that is within reach of a
    place that a cut is heard at."""
    if not spots:
        return None, None
    count, length = project.count, project.length()
    slowly = hearing.rise_of(project.rate)
    room = span_of(project, spots[0])[0] - 1
    start = risen(project.rate, min(room, slowly)) if 0 < room < 2 * reach else []
    room = length - span_of(project, spots[-1])[1] - 1
    end = risen(project.rate, min(room, slowly)) if 0 < room < 2 * reach else []
    end = [(length - 1 - place, gain) for place, gain in reversed(end)]
    return (
        Turn([{WHOLE: (others(start), start)}] * count) if start else None,
        Turn([{WHOLE: (end, others(end))}] * count) if end else None,
    )


@dataclass(frozen=True)
class Voice:
    """Channels of a cue that are heard alike: the take that they are of, the bit of it that is at the mix's first place,
    and the band of their sound."""

    take: int
    offset: int
    band: Band
    channels: tuple[int, ...]


def voices_of(project: Project, number: int, place: int) -> list[Voice]:
    """The voices of a cue that begins at a place. Those of a take whose channels are shifted are of its source, as far
    as that has the bits."""
    cue, take, early = project.cues[number], project.origin(number), project.early(number)
    if cue["stop"] + max(early) > project.takes[take].bits:
        take, early = cue["take"], [0] * project.count
    found: dict[tuple[int, Band], list[int]] = {}
    for channel, key in enumerate(zip(early, project.takes[take].bands)):
        found.setdefault(key, []).append(channel)
    start = cue["start"] - place
    return [Voice(take, start + more, band, tuple(channels)) for (more, band), channels in found.items()]


def is_one_step(rows: list[Points]) -> bool:
    return all(gains.is_step(it) and it == rows[0] for it in rows)


def clip_of(project: Project, voice: Voice, part: str, before: Turn | None, after: Turn | None) -> Clip | None:
    """The clip of a part of a voice between two turns, or to the ends of the master, as far as the take has the bits;
    nothing if there are none."""
    rising = [before.gains(it, part)[1] if before else [] for it in voice.channels]
    falling = [after.gains(it, part)[0] if after else [] for it in voice.channels]
    first, stop = 0, project.length()
    if before:
        first = rising[0][1][0] if is_one_step(rising) else min(it[0][0] for it in rising)
    if after:
        stop = max(it[-1][0] for it in falling)
    first, stop = max(first, 0, -voice.offset), min(stop, project.takes[voice.take].bits - voice.offset)
    if first >= stop:
        return None
    points = [SILENT] * project.count
    for channel, *both in zip(voice.channels, rising, falling):
        points[channel] = gains.counted_from(gains.one_after_other(*both), first, stop)
    decoder = (part, voice.band if part != BITS else NO_BAND)
    return Clip(voice.take, decoder, first + voice.offset, first, stop - first, points)


def clips_of(project: Project, reach: int) -> list[Clip]:
    """The clips of a project's mix, if places hear what is that far from them."""
    spots, roles, found, place = project.spots(), project.roles(), list[Clip | None](), 0
    turns = [turn_of(project, it) for it in spots]
    befores = {it.after: turn for it, turn in zip(spots, turns)}
    afters = {it.before: turn for it, turn in zip(spots, turns)}
    start, end = end_turns(project, spots, reach)
    last = len(roles) - 1
    for number, role in enumerate(roles):
        before, after = befores.get(number, start), afters.get(number, end)
        is_split = any(it and it.is_split for it in (before, after))
        for voice in voices_of(project, number, place) if role == "cue" else ():
            if number == 0 and start:
                found.append(clip_of(project, voice, BITS, None, start))
            found += [clip_of(project, voice, it, before, after) for it in ((LOW, REST) if is_split else (WHOLE,))]
            if number == last and end:
                found.append(clip_of(project, voice, BITS, end, None))
        place += measuring.length_of(project.cues[number]) + project.bridge(number)
    return [it for it in found if it]

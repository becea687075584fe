"""What a mix says of each channel, from place to place: where one clip is heard alone at full gain, and why it isn't.

Where it is, the master has the bits of the clip's take. In a long pause it has a silent pattern. All else is new."""
import itertools
from collections.abc import Iterator
from dataclasses import dataclass

import numpy as np

from cuts.curves import gains_at
from cuts.gains import FULL, Points
from cuts.sounding import Sounding, Way, way_of
from tools.null_testing.mixes import Clip

ALIKE = 1e-6  # of full scale: gains that add up to 1
NEARLY = 1e-2  # of full scale: by how much the decoders of clips at full gain may be louder or softer
SILENCE = "silence"
LITTLE = 64  # places: what is said of fewer, such as of the first one of a fade from silence, isn't told


@dataclass(frozen=True)
class Part:
    """Places of a channel from `first` on and before `stop`. `way` is that of the take whose own bits have this sound,
    else None, and `why` says what it is instead. The bits themselves are part of a sound that is raw."""

    first: int
    stop: int
    way: Way | None
    why: str
    is_raw: bool = False


def pieces(points: Points, length: int) -> Iterator[tuple[int, int, int | None]]:
    """The places of a clip from one to another, with the gain there, None if it changes; those of no gain are left
    out."""
    if not points:
        yield 0, length, FULL
        return
    rows: list[tuple[int, int, int | None]] = [(0, points[0][0], points[0][1])]
    for (first, one), (stop, other) in itertools.pairwise(points):
        if one == other or stop == first + 1:
            rows.append((first, stop, one))
        elif one in (0, FULL):  # at the first of its points a line has the gain of that point
            rows += [(first, first + 1, one), (first + 1, stop, None)]
        else:
            rows.append((first, stop, None))
    rows.append((points[-1][0], length, points[-1][1]))
    for first, stop, gain in rows:
        if first < min(stop, length) and gain != 0:
            yield first, min(stop, length), gain


def joined_pieces(points: Points, length: int) -> list[tuple[int, int, int | None]]:
    """The same, those that are alike and follow each other as one: all lines of a curve are."""
    found: list[tuple[int, int, int | None]] = []
    for first, stop, gain in pieces(points, length):
        if found and found[-1][1] == first and found[-1][2] == gain:
            found[-1] = found[-1][0], stop, gain
        else:
            found.append((first, stop, gain))
    return found


def whole_spans(sounding: Sounding, channel: int, clips: list[Clip], first: int, stop: int) -> list[tuple[int, int]]:
    """Where the gains of clips add up to 1, from place to place: they are straight lines between their points."""
    own = [it.points(channel) for it in clips]
    inside = {place + it.at for it, points in zip(clips, own) for place, _ in points if first <= place + it.at < stop}
    places = np.array(sorted({first, stop - 1, *inside}))
    total = sum(gains_at(it, places - clip.at) / FULL * sounding.total(clip) for it, clip in zip(own, clips))
    is_one = np.abs(total - 1) < ALIKE
    if is_one.all():
        return [(first, stop)]
    runs = np.flatnonzero(np.diff(np.pad(is_one, 1).astype(np.int8))).reshape(-1, 2)
    return [(int(places[low]), int(places[high - 1]) + 1) for low, high in runs if high - low > 1]


def parts_between(sounding: Sounding, channel: int, first: int, stop: int, heard: dict[int, int | None]) -> list[Part]:
    """What is heard between two places at which something begins to change, or ends to."""
    clips, changes = [sounding.mix.clips[it] for it in heard], None in heard.values()
    ways = {way_of(it) for it in clips}
    if not clips:
        return [Part(first, stop, None, SILENCE)]
    if len(ways) > 1:
        return [Part(first, stop, None, "crossfade" if changes else "overlap")]
    way, is_raw = ways.pop(), any(map(sounding.is_raw, clips))
    if set(heard.values()) == {FULL} and abs(sum(map(sounding.total, clips)) - 1) < NEARLY:
        return [Part(first, stop, way, "", is_raw)]
    is_one = len(clips) == 1 and changes
    found, place = list[Part](), first
    for low, high in [] if is_one else whole_spans(sounding, channel, clips, first, stop):
        found += [Part(place, low, None, "fade" if changes else "level")] if place < low else []
        found.append(Part(low, high, way, "", is_raw))
        place = high
    return found + ([Part(place, stop, None, "fade" if changes else "level")] if place < stop else [])


def parts_of(sounding: Sounding, channel: int) -> list[Part]:
    """The parts of a channel of the mix, in their order."""
    changes: list[tuple[int, int, int, int | None]] = []
    for number, clip in enumerate(sounding.mix.clips):
        for first, stop, gain in joined_pieces(clip.points(channel), clip.length):
            changes += [(clip.at + first, 1, number, gain), (clip.at + stop, 0, number, gain)]
    changes.sort(key=lambda it: it[:3])
    found, heard, place = list[Part](), dict[int, int | None](), 0
    for at, is_begun, number, gain in [*changes, (sounding.length, 0, -1, None)]:
        if at > place:
            found += parts_between(sounding, channel, place, at, heard)
            place = at
        if is_begun:
            heard[number] = gain
        else:
            heard.pop(number, None)
    return found


# What of that the master has as it is: `Kept`. Between two of these all is new.


@dataclass(frozen=True)
class Kept:
    """Places of a channel with bits that are known: those of a take, or if there is no way of a silent pattern. No new
    bits can have the sound from the first of some `raw` places to the last."""

    first: int
    stop: int
    way: Way | None
    raw: tuple[int, int] | None = None

    @property
    def length(self) -> int:
        return self.stop - self.first


def takes_own(parts: list[Part]) -> list[Kept]:
    """Where a take's own bits have the sound."""
    found: list[Kept] = []
    for it in parts:
        if it.way is None:
            continue
        raw = (it.first, it.stop) if it.is_raw else None
        if found and found[-1].stop == it.first and found[-1].way == it.way:
            last = found.pop()
            raw = (last.raw[0], raw[1] if raw else last.raw[1]) if last.raw else raw
            found.append(Kept(last.first, it.stop, it.way, raw))
        else:
            found.append(Kept(it.first, it.stop, it.way, raw))
    return found


def silences(parts: list[Part], margin: int, least: int) -> list[Kept]:
    """Where there is silence for long, less a margin on both sides, whose bits are new; whole bytes of the pattern."""
    found = []
    for it in parts:
        first, stop = it.first + margin, it.stop - margin
        stop -= (stop - first) % 8
        if it.why == SILENCE and stop - first >= least:
            found.append(Kept(first, stop, None))
    return found


def shrunk(kept: list[Kept], margin: int, least: int, length: int) -> list[Kept]:
    """The same without a margin where new bits are before or after; none that is too short then, unless it is all."""
    found = []
    for it in kept:
        more = margin if it.way is not None else 0
        first = it.first + (more if it.first > 0 else 0)
        stop = it.stop - (more if it.stop < length else 0)
        if it.raw:
            first, stop = min(first, it.raw[0]), max(stop, it.raw[1])
        if it.raw or stop - first >= min(least, length):
            found.append(Kept(first, stop, it.way, it.raw))
    return found


@dataclass(frozen=True)
class Gap:
    """New places of a channel between what is kept, or the ends of the master."""

    first: int
    stop: int
    before: Kept | None
    after: Kept | None

    @property
    def length(self) -> int:
        return self.stop - self.first


def gaps_of(kept: list[Kept], length: int) -> list[Gap]:
    """The new places."""
    found = []
    for before, after in itertools.pairwise([None, *kept, None]):
        first, stop = before.stop if before else 0, after.first if after else length
        if first < stop:
            found.append(Gap(first, stop, before, after))
    return found


def reasons(parts: list[Part], first: int, stop: int) -> list[str]:
    """Why places are new: what is said of those that aren't a take's own, and whether a take follows another at once."""
    new = [it for it in parts if it.way is None and it.first < stop and first < it.stop]
    found = dict.fromkeys(it.why for it in new if it.stop - it.first >= LITTLE)
    for one, other in itertools.pairwise(it for it in parts if it.way or it.stop - it.first >= LITTLE):
        if one.way and other.way and one.way != other.way and first < other.first < stop:
            found["cut"] = None
    return list(found or dict.fromkeys(it.why for it in new))


def pattern(first: int, stop: int, start: int) -> np.ndarray:
    """The signs of the silent pattern that begins at a place, at places from one to another."""
    bits = np.unpackbits(np.array([0x69], np.uint8)) * 2.0 - 1.0
    return np.resize(np.roll(bits, -((first - start) % 8)), stop - first)

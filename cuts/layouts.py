"""What a list asks for: its lines with their takes and places, and the clips of the mix that they make.

Where the channels of a take have sound up to different frequencies, a line is several clips, each of some channels. It
is also several clips where a title begins inside of it. What a mix can't say, its text has as comments inside the table
of a clip: the title of its first place, and the lines of the list, so that it becomes the same list again."""
import itertools
import struct
from dataclasses import dataclass, replace
from functools import lru_cache

import numpy as np

from cuts import albums, errors, gains, hearing, lists, mixes
from cuts.clips import SILENT, WHOLE, Clip
from cuts.curves import Fade, gain_of, gains_at, points_of
from cuts.gains import FULL, Points
from cuts.hearing import decibels
from cuts.lists import Fading, Line, Spot, lasting_text
from cuts.mixes import MOST_CLIPS
from cuts.takes import Take, Unread, opened, unlike
from cuts.times import clock, lasting
from dsdarc_scripts.explained import shown_name
from dsdarc_scripts.outputs import Refused
from dsdarc_scripts.project_texts import MOST_BITS, MOST_TAKES
from tools.null_testing.mixes import MOST_OVERLAPPING

MOST_GAIN = gain_of(lists.LOUDEST)


class Takes:
    """The takes of a mix by their numbers, which have one rate and one number of channels."""

    def __init__(self) -> None:
        self.takes = list[Take]()
        self.marks = dict[int, list[tuple[int, str, int]]]()

    def number(self, name: str) -> int:
        """The number of a take, which is opened if it is a new one."""
        names = [it.name for it in self.takes]
        if name in names:
            return names.index(name)
        if len(names) == MOST_TAKES:
            raise Refused(f"take {shown_name(name)} is one more than the {MOST_TAKES} that a mix may have")
        self.add(name)
        return len(names)

    def add(self, name: str) -> None:
        take = opened(name, f"take {shown_name(name)}")
        differing = unlike(take, self.takes[0]) if self.takes else None
        if differing:
            first = shown_name(self.takes[0].name)
            raise Refused(f"take {shown_name(name)} has {differing[0]}, and {first} has {differing[1]}")
        self.takes.append(take)

    @property
    def rate(self) -> int:
        return self.takes[0].rate

    @property
    def count(self) -> int:
        return self.takes[0].count

    def marks_of(self, number: int) -> list[tuple[int, str, int]]:
        """Place, text and type of each mark of a take."""
        if number not in self.marks:
            take = self.takes[number]
            try:
                self.marks[number] = albums.marks_of(recording_of(take))
            except (Unread, struct.error):
                raise Refused(f"take {shown_name(take.name)}: its marks can't be read") from None
        return self.marks[number]

    def tracks(self, number: int) -> list[tuple[int, str | None]]:
        """Where the tracks of a take begin, and their titles, as `join` has them: by its marks, or by its name."""
        starts = albums.starts_in(self.marks_of(number), self.takes[number].bits)
        if starts:
            return [(0, None), *starts]
        numbered, title = albums.named(self.takes[number].name)
        return [(0, None if numbered == 0 else title)]


def recording_of(take: Take) -> albums.Recording:
    form = "dsdiff" if take.sound.width is None else "dsf"
    return albums.Recording(take.name, form, take.rate, take.count, take.bits)


Title = tuple[int, str]  # a place of a clip, and the title that begins there


@dataclass(frozen=True)
class Part:
    """A line with its places: `length` bits of a take from `start` on, from a place in the mix on. `gains` has that of
    each channel."""

    line: Line
    take: int
    start: int
    at: int
    length: int
    fades: dict[str, Fade]
    gains: list[int]
    titles: list[Title]

    @property
    def stop(self) -> int:
        return self.at + self.length

    def points(self, channel: int) -> Points:
        """The gain of a channel."""
        if self.gains[channel] == 0:
            return SILENT
        return points_of(self.length, self.gains[channel], self.fades.get("in"), self.fades.get("out"))


def bit_of(takes: Takes, number: int, spot: Spot, what: str) -> int:
    """The bit of a take that a line names."""
    take, name = takes.takes[number], shown_name(takes.takes[number].name)
    if spot.is_end:
        return take.bits
    if spot.mark is None:
        bit = spot.time.at(take.rate)
    else:
        marks = takes.marks_of(number)
        if spot.mark >= len(marks):
            has = f"the last one is #{len(marks) - 1}" if marks else "it has no marks"
            raise Refused(f"{what}: {name} has no mark #{spot.mark}: {has}; dsdarc info prints them, from #0 on")
        bit = max(marks[spot.mark][0], 0)
    if bit > take.bits:
        end = f"{clock(take.bits, take.rate)} (@{take.bits})"
        raise Refused(f"{what}: {clock(bit, take.rate)} is after the end of {name}, which ends at {end}")
    return bit


def place_of(takes: Takes, line: Line, before: Part | None) -> int:
    """Where in the mix a line's clip begins."""
    time, end = line.place.at(takes.rate), before.stop if before else 0
    at = {"": time, "+": end + time, "-": end - time}[line.sign]
    if at < 0:
        what = "the end of the line before" if before else "the start of the mix, as no line is before"
        raise Refused(f"its clip would begin before the mix: -{lasting_text(time, takes.rate)} is counted from {what}")
    return at


def fade_of(takes: Takes, fading: Fading) -> Fade | None:
    bits = fading.time.at(takes.rate)
    return Fade(bits, fading.curve) if bits else None


def fades_of(takes: Takes, line: Line, length: int) -> dict[str, Fade]:
    """The fades at both ends of a clip, of which the first may be that of a crossfade."""
    if "in" in line.fades and "crossfade" in line.fades:
        raise Refused("it has both a crossfade and in: a crossfade is the fade-in")
    ends = {"crossfade": "in"}
    found = {ends.get(kind, kind): fade_of(takes, it) for kind, it in line.fades.items()}
    fades = {kind: it for kind, it in found.items() if it}
    demand_room(takes, fades, length)
    return fades


def demand_room(takes: Takes, fades: dict[str, Fade], length: int) -> None:
    """The fades of a clip take no longer than the clip."""
    bits = sum(it.bits for it in fades.values())
    if bits > length:
        both = "its fades take" if len(fades) > 1 else "its fade takes"
        room = lasting(length, takes.rate)
        raise Refused(f"{both} {lasting_text(bits, takes.rate)}, and the clip is {room} long")


def crossed(takes: Takes, line: Line, at: int, before: Part | None) -> Part:
    """The part before a crossfade, which fades out in it."""
    fade, rate = fade_of(takes, line.fades["crossfade"]), takes.rate
    if before is None:
        raise Refused("no line is before, so there is nothing to crossfade with")
    overlap = before.stop - at
    if fade is None:
        raise Refused("a crossfade that takes no time is a cut: leave it out")
    if overlap != fade.bits:
        time = lasting_text(fade.bits, rate)
        over = f"overlap by {lasting_text(overlap, rate)}" if overlap > 0 else "don't overlap"
        raise Refused(
            f"a crossfade of {time} needs an overlap of {time} with the line before, the place -{time}; they {over}"
        )
    if "out" in before.fades:
        raise Refused(
            f"line {before.line.number}, which is before, has a fade-out already: a crossfade is its fade-out"
        )
    fades = before.fades | {"out": fade}
    try:
        demand_room(takes, fades, before.length)
    except Refused as error:
        raise Refused(f"in line {before.line.number}, which is before, {error}") from None
    return replace(before, fades=fades)


def gains_of(takes: Takes, line: Line) -> list[int]:
    """The gain of each channel."""
    for channel in line.levels:
        if channel is not None and channel >= takes.count:
            has = "1 channel, number 0" if takes.count == 1 else f"{takes.count} channels, from 0 to {takes.count - 1}"
            raise Refused(f"there is no channel {channel}: the takes have {has}")
    found = []
    for channel in range(takes.count):
        levels = [line.levels.get(None, 0.0), line.levels.get(channel, 0.0)]
        found.append(0 if None in levels else gain_of(sum(it for it in levels if it)))
        if found[-1] > MOST_GAIN:
            level = sum(it for it in levels if it)
            raise Refused(f"channel {channel} would have a level of {level:+g} dB: at most +{lists.LOUDEST:g} dB")
    return found


def part_of(takes: Takes, line: Line, before: Part | None) -> Part:
    """A line with its places."""
    number = takes.number(line.take)
    start, stop = (bit_of(takes, number, it, what) for it, what in ((line.first, "from"), (line.stop, "to")))
    if start >= stop:
        raise Refused(f"its clip has no bits: from is bit {start}, and to is bit {stop}")
    at, length = place_of(takes, line, before), stop - start
    if at + length > MOST_BITS:
        raise Refused("its clip would end after bit 2^36, the last that a mix may have")
    return Part(line, number, start, at, length, fades_of(takes, line, length), gains_of(takes, line), [])


def titled(takes: Takes, parts: list[Part]) -> list[Part]:
    """The parts with their titles. Each that comes over from a take does so once, with the first clip that plays it, and
    not where another one begins."""
    found, used = [], set[tuple[int, int]]()
    begun = {it.at for it in parts if it.line.title is not None}
    for part in parts:
        titles = [] if part.line.title is None else [(0, part.line.title)]
        if part.line.title is None and not part.line.is_untitled:
            tracks = takes.tracks(part.take)
            stops = [*(it for it, _ in tracks[1:]), takes.takes[part.take].bits]
            played = dict[int, str]()
            for it, ((first, title), stop) in enumerate(zip(tracks, stops)):
                is_played = first < part.start + part.length and stop > part.start and (part.take, it) not in used
                if is_played and title is not None:
                    used.add((part.take, it))
                    played[max(first - part.start, 0)] = title
            titles = sorted(it for it in played.items() if part.at + it[0] not in begun)
            begun |= {part.at + it for it, _ in titles}
        found.append(replace(part, titles=titles))
    return found


def demand_titles(parts: list[Part]) -> None:
    """The last part begins with no other title than those that begin there."""
    here = parts[-1]
    for it in parts[:-1] if here.line.title is not None else ():
        if it.at == here.at and it.line.title not in (None, here.line.title):
            raise Refused(f"line {it.line.number} begins at the same place with another title: leave one of them out")


def parts_of(name: str, found: list[Line], takes: Takes) -> list[Part]:
    """The lines of a list with their places. A fault names the list and the line."""
    parts = list[Part]()
    for line in found:
        try:
            before = parts[-1] if parts else None
            part = part_of(takes, line, before)
            if "crossfade" in line.fades:
                parts[-1:] = [crossed(takes, line, part.at, before)]
            parts.append(part)
            demand_titles(parts)
        except Refused as error:
            raise lists.numbered(name, line.number, error) from None
    return titled(takes, parts)


def most_at_once(clips: list[Clip]) -> int:
    """How many clips there are at the place with most of them."""
    # Where clips end at a place, this counts before those that begin there.
    changes = sorted([(it.at, 1) for it in clips] + [(it.stop, -1) for it in clips])
    return max(itertools.accumulate(change for _, change in changes))


def demand_clips(name: str, parts: list[Part], rows: list[list[Clip]]) -> None:
    """A mix has room for the clips of its parts, and for those that overlap."""
    sofar, is_crowded = list[Clip](), most_at_once([it for row in rows for it in row]) > MOST_OVERLAPPING
    for part, row in zip(parts, rows):
        sofar += row
        if len(sofar) > MOST_CLIPS:
            why = f"with it the mix has {len(sofar)} clips, and there is room for {MOST_CLIPS}"
            raise lists.numbered(name, part.line.number, why)
        if is_crowded and most_at_once(sofar) > MOST_OVERLAPPING:
            why = f"its clip is one more than the {MOST_OVERLAPPING} that may overlap"
            raise lists.numbered(name, part.line.number, why)


# The clips of parts.


def counted(points: Points, first: int, stop: int) -> Points:
    """A gain from a place on, from which places are counted, up to another one: no more points than it needs, and none
    if it is 1."""
    inside = gains.moved([it for it in points if it[0] > first], -first)
    is_before = bool(points) and points[0][0] <= first
    found = [(0, gains.gain_at(points, first)), *inside] if is_before else inside
    found = found[: sum(place < stop - first for place, _ in found) + 1]
    return [] if all(gain == FULL for _, gain in found) else found


Titled = tuple[Clip, str | None]  # a clip, and the title that begins with it


def clips_of(takes: Takes, part: Part) -> list[Titled]:
    """The clips of a part, each with the title that begins with it."""
    groups = dict[tuple[int, int], list[int]]()
    for channel, band in enumerate(takes.takes[part.take].bands):
        groups.setdefault(band, []).append(channel)
    points = [part.points(it) for it in range(takes.count)]
    titles = dict(part.titles)
    firsts = sorted({0, *titles})
    found = []
    for first, stop in zip(firsts, [*firsts[1:], part.length]):
        for band, channels in groups.items():
            rows = [counted(it, first, stop) if here in channels else SILENT for here, it in enumerate(points)]
            clip = Clip(part.take, (WHOLE, band), part.start + first, part.at + first, stop - first, rows)
            found.append((clip, titles.pop(first, None)))
    return found


# What a clip costs that begins or ends with its take.
#
# A take's sound near an end lacks what the bits would add to it that the take hasn't. What that is nobody knows; it is
# about what is missed where some bits near the end are left out instead.

CLEAN = -100.0  # dB to full scale: what clicks less isn't worth a line
TRIED = 8  # places near an end of a take, each some bits from the next
APART = 64


@lru_cache
def missed(take: Take, is_end: bool) -> list[np.ndarray]:
    """What the sound misses from an end of a take on, going away from it: of each channel a row for each place that is
    tried."""
    found = []
    for channel, band in enumerate(take.bands):
        taps, rows = mixes.passing(take.rate, band), []
        reach = len(taps) // 2
        for number in range(TRIED):
            cut = APART * (number + 2 * reach // APART + 1)
            first = take.bits - cut if is_end else cut - 2 * reach
            signs = take.signs(first, first + 2 * reach)[channel]
            rows.append(np.pad(signs[::-1] if is_end else signs, (0, 2 * reach)))
        found.append(hearing.convolved(np.stack(rows), taps)[:, reach:])
    return found


def click_of(takes: Takes, part: Part, is_end: bool) -> float:
    """How loudly a part clicks (dB) at an end of its take."""
    take, peaks = takes.takes[part.take], [0.0]
    heard = mixes.passing(take.rate, (hearing.PASSED, hearing.STOPPED))
    away = take.bits - part.start - part.length if is_end else part.start
    for channel, rows in enumerate(missed(take, is_end)):
        places = np.arange(min(max(rows.shape[1] - away, 0), part.length))
        if len(places):
            gain = gains_at(part.points(channel), part.length - 1 - places if is_end else places) / FULL
            clicks = np.pad(rows[:, away : away + len(places)] * gain, ((0, 0), (len(heard),) * 2))
            peaks.append(float(np.abs(hearing.convolved(clicks, heard)).max()))
    return decibels(max(peaks))


def edges_of(takes: Takes, part: Part) -> list[str]:
    """A line for each end of a part that clicks because its take ends there."""
    take, found = takes.takes[part.take], []
    reach = errors.known(take)
    ends = (("begin", "start", "before", "later", "in"), ("end", "end", "after", "earlier", "out"))
    for does, where, side, moved, kind in ends:
        level = click_of(takes, part, does == "end")
        if level > CLEAN:
            why = f"line {part.line.number} {does}s at the {where} of {shown_name(take.name)}, {side} which its sound is 0"
            cure = f"let it {does} {lasting(reach, take.rate)} {moved}, or fade it by an S-curve ({kind} 5ms s)"
            found.append(f"{why}: the mix clicks there, at about {level:.0f} dB; {cure}")
    return found

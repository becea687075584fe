"""How loudly a master clicks at its cuts: what is heard of it less what it should be, from the master's bits alone.

What it should be is its takes' sounds, put together as the project says: switched where a cut is plain, in the middle
of its link where it has one, faded in a straight line over a bridge, and as its crossfade says in a seam. What the
takes' sounds are is said by a reference: all that passes a low-pass, or true signals that are known from elsewhere."""
from collections.abc import Callable
from dataclasses import dataclass

import numpy as np

from cuts.crossfades import Sounds, above
from cuts.errors import sounds
from cuts.hearing import Band, Hearing, let_in
from cuts.projects import Project, Spot
from cuts.takes import Shifted, Signals


@dataclass(frozen=True)
class Reference:
    """What the takes' sounds are: `sound` gives that of a take, counted from 0, from one place to another, a row for
    each channel. Where a take ends something may be heard of what is left of it, unless it `is_silent`."""

    sound: Callable[[int, int, int], np.ndarray]
    is_silent: bool = False

    def __call__(self, take: int, first: int, stop: int) -> np.ndarray:
        return self.sound(take, first, stop)


PIECE = 1 << 22  # bits of a cue that are compared at a time


def length_of(cue: dict) -> int:
    return cue["stop"] - cue["start"]


def decoded(project: Project, band: Band | None = None) -> Reference:
    """The takes' sounds are what passes low-passes: those of their own bands, or one."""
    bands = [band] * project.count if band else None
    return Reference(lambda take, first, stop: sounds(project.takes[take], first, stop, bands), band is None)


def known(project: Project, rows: list[np.ndarray]) -> Reference:
    """The true signals of the takes that aren't made by these scripts, 0 outside of them."""
    trues = dict(zip(originals(project), rows))
    none = np.zeros((project.count, 0))

    def part(take: int, first: int, stop: int) -> np.ndarray:
        shift = project.shifts[take]
        if shift:
            source = project.names.index(shift.take)
            return shift.rows(lambda low, high: part(source, low, high), first, stop)
        row = trues.get(take, none)
        low, high = min(max(first, 0), row.shape[1]), max(min(stop, row.shape[1]), 0)
        return np.pad(row[:, low : max(low, high)], ((0, 0), (low - first, stop - max(low, high))))

    return Reference(part)


def originals(project: Project) -> list[int]:
    """The takes that aren't of seams, nor made of another one."""
    return [it for it, records in enumerate(project.records) if not records and not project.shifts[it]]


def delay(weights: list[int]) -> float:
    """How many bits early a fade is that these weights hear."""
    total = sum(weights)
    return sum(number * it for number, it in enumerate(weights)) / total if total else 0.0


def around(project: Project, reference: Reference, spot: Spot, first: int, stop: int) -> tuple[np.ndarray, np.ndarray]:
    """The sounds of both takes at a cut, from one place of the master to another."""
    cue, following = project.cues[spot.before], project.cues[spot.after]
    offset = cue["stop"] - spot.place
    before = reference(cue["take"], first + offset, stop + offset)
    offset = following["start"] - spot.place - spot.length
    return before, reference(following["take"], first + offset, stop + offset)


def bridged(project: Project, reference: Reference, spot: Spot, first: int, stop: int) -> np.ndarray:
    """What a bridge and what is around it should be, from one place of the master to another."""
    at = np.arange(first, stop) - spot.place
    part = np.clip((at + 1 + delay(project.weights)) / (spot.length + 1), 0, 1)
    before, after = around(project, reference, spot, first, stop)
    if spot.role != "line":
        return (1 - part) * before + part * after
    low, high = (it / (sum(project.weights) or 1) for it in project.cues[spot.before]["line"])
    line = low + (high - low) * np.clip((at + 1) / (spot.length + 1), 0, 1)
    return np.where(at < 0, before, np.where(at < spot.length, line, after))


def seamed(project: Project, reference: Reference, spot: Spot, first: int, stop: int) -> np.ndarray:
    """What a seam should be, from one place of the master to another."""
    crossfade = project.seam(spot.before + 1).crossfade
    both, high = around(project, reference, spot, first, stop), None
    if crossfade.slow:
        high = around(project, above_split(project.rate, reference), spot, first, stop)
    return crossfade.mixed(Sounds(*both, high), first - spot.place)


def above_split(rate: int, reference: Reference) -> Reference:
    """What of the takes' sounds goes over more slowly in some butts."""
    return Reference(lambda take, first, stop: above(rate, lambda low, high: reference(take, low, high), first, stop))


def linked(project: Project, roles: list[str], number: int) -> tuple[int, int]:
    """How many bits of the links before and after it sound like a cue."""
    early = length_of(project.cues[number - 1]) if number and roles[number - 1] == "link" else 0
    late = length_of(project.cues[number + 1]) if roles[number + 1 : number + 2] == ["link"] else 0
    return early - early // 2, late // 2


def ideal(project: Project, reference: Reference, first: int, stop: int) -> np.ndarray:
    """What the master should be from one place to another; outside of it the takes of the first and of the last cue go
    on."""
    found = np.zeros((project.count, stop - first))
    place, roles, last = 0, project.roles(), len(project.cues) - 1
    for number, cue in enumerate(project.cues):
        length = length_of(cue)
        early, late = linked(project, roles, number)
        low = max(place - early, first) if number else first
        high = min(place + length + late, stop) if number < last else stop
        if low < high and roles[number] == "cue":
            offset = cue["start"] - place
            found[:, low - first : high - first] = reference(cue["take"], low + offset, high + offset)
        place += length + project.bridge(number)
    for spot in project.spots():
        early = max(int(np.ceil(delay(project.weights))), 0) if spot.role == "bridge" else 0
        low, high = max(spot.place - early, first), min(spot.place + spot.length, stop)
        if low < high and spot.role in ("bridge", "line", "seam"):
            made = seamed if spot.role == "seam" else bridged
            found[:, low - first : high - first] = made(project, reference, spot, low, high)
    return found


def held(project: Project, master: Signals, first: int, stop: int) -> np.ndarray:
    """The signals of a master from one place to another; outside of it the takes of the first and of the last cue go
    on. So no end of the file is heard as a click of a cut near it."""
    found, length = master.signs(first, stop), project.length()
    if first < 0:
        start = project.cues[0]["start"]
        found[:, : min(-first, stop - first)] = project.take(0).signs(start + first, start + min(stop, 0))
    if stop > length:
        low, offset = max(first, length), project.cues[-1]["stop"] - length
        found[:, low - first :] = project.take(len(project.cues) - 1).signs(low + offset, stop + offset)
    return found


def errors(hearing: Hearing, project: Project, master: Signals, spot: Spot, reference: Reference) -> np.ndarray:
    """The master less what it should be, around the middle of a cut, a row for each channel."""
    size = hearing.size_for(spot.length // 2)
    first = spot.place + spot.length // 2 - size // 2
    found = held(project, master, first, first + size) - ideal(project, reference, first, first + size)
    if not reference.is_silent:
        without_ends(project, found, first)
    return found


def without_ends(project: Project, rows: np.ndarray, first: int) -> None:
    """Lets errors in slowly, from a place of the master on, where the first take begins or the last one ends near a
    cut: from there to the nearest cut. So no end of a take is heard."""
    spots, stop = project.spots(), first + rows.shape[1]
    low = -project.cues[0]["start"]
    high = project.length() + project.take(len(project.cues) - 1).bits - project.cues[-1]["stop"]
    for part, missing, room in (
        (rows, low - first, spots[0].place - low),
        (rows[:, ::-1], stop - high, high - spots[-1].place - spots[-1].length),
    ):
        if missing > 0:
            part[:, :missing] = 0
            part[:, missing:] = let_in(part[:, missing:], project.rate, room)


def levels(
    hearing: Hearing, project: Project, master: Signals, spot: Spot, reference: Reference
) -> list[tuple[float, float]]:
    """The click of a cut in each channel, from before its start to after its end: peak and A-weighted energy in dB."""
    rows = errors(hearing, project, master, spot, reference)
    return [hearing.levels(it, spot.length // 2) for it in rows]


def is_owned(project: Project, spot: Spot, channel: int) -> bool:
    """Whether a channel of a transition has bits of the take before, its link, and bits of the take after."""
    seam = project.seam(spot.before + 1)
    takes = project.take(spot.before), project.take(spot.after)
    stop, start = project.cues[spot.before]["stop"], project.cues[spot.after]["start"]
    side, first, length, place = seam.links[channel]
    low, high = place - length // 2, place + length - length // 2
    if low < 0 or high > seam.length:
        return False
    parts = [takes[0].signs(stop, stop + low), takes[side].signs(first, first + length)]
    parts.append(takes[1].signs(start - seam.length + high, start))
    held = project.take(spot.before + 1).signs(seam.first, seam.first + seam.length)
    return np.array_equal(np.concatenate([it[channel] for it in parts]), held[channel])


def are_owned(project: Project, spot: Spot) -> bool:
    """Whether all channels of a transition hold takes' bits; whatever else a cut is, nothing is wrong with it."""
    is_transition = spot.role == "seam" and project.seam(spot.before + 1).is_owned
    return not is_transition or all(is_owned(project, spot, it) for it in range(project.count))


def is_shifted(project: Project, cue: int) -> bool:
    """Whether a cue whose channels are shifted has the bits of its take's source."""
    take, one = project.take(cue), project.cues[cue]
    shift = project.shifts[one["take"]]
    wanted = Shifted(take.name, project.takes[project.origin(cue)], shift)
    for first in range(one["start"], one["stop"], PIECE):
        stop = min(first + PIECE, one["stop"])
        if not np.array_equal(wanted.stored(first, stop), take.stored(first, stop)):
            return False
    return True


def wrong_cue(project: Project, master: Signals) -> int | None:
    """The first cue whose bits the master doesn't hold at their place."""
    place = 0
    for number, cue in enumerate(project.cues):
        start, length = cue["start"], length_of(cue)
        for at in range(0, length, PIECE):
            count = min(PIECE, length - at)
            if place + at + count > master.bits:
                return number
            held = master.stored(place + at, place + at + count)
            if not np.array_equal(held, project.take(number).stored(start + at, start + at + count)):
                return number
        place += length + project.bridge(number)
    return None

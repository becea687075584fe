"""The master of a project before it is cut: the bits that `edit` will put there, and what its cuts will click."""
import contextlib
import sys
from collections.abc import Iterable, Iterator

import numpy as np

from cuts import bridges, measuring
from cuts.crossfades import SPLIT
from cuts.errors import known
from cuts.hearing import Hearing, decibels, hearing_of
from cuts.projects import Project, Spot
from cuts.seams import is_spoilt, is_unread
from cuts.takes import Signals
from cuts.times import clock, lasting
from dsdarc_scripts.explained import shown_name
from dsdarc_scripts.outputs import Refused

NOTHING = -135.0  # dB: below there is nothing but what low-passes leave
ALIKE = 0.3  # dB that a cut may be louder than before


class Planned(Signals):
    """The master as the project is now, with the bits of bridges of these kinds, and 0 in place of those of others."""

    def __init__(self, project: Project, kinds: tuple[str, ...] = ("bridge",)) -> None:
        self.project, self.kinds = project, kinds
        self.rate, self.count, self.bits = project.rate, project.count, project.length()

    def signs(self, first: int, stop: int) -> np.ndarray:
        found, place = np.zeros((self.count, stop - first)), 0
        for number, cue in enumerate(self.project.cues):
            length = cue["stop"] - cue["start"]
            low, high = max(place, first), min(place + length, stop)
            if low < high:
                offset = cue["start"] - place
                found[:, low - first : high - first] = self.project.take(number).signs(low + offset, high + offset)
            place += length + self.project.bridge(number)
        for spot in self.project.spots():
            low, high = max(spot.place, first), min(spot.place + spot.length, stop)
            if spot.role in self.kinds and low < high:
                found[:, low - first : high - first] = self.bridge(spot)[:, low - spot.place : high - spot.place]
        return found

    def bridge(self, spot: Spot) -> np.ndarray:
        """The signs of a bridge."""
        project, more = self.project, self.project.shortest
        stop, start = project.cues[spot.before]["stop"], project.cues[spot.after]["start"]
        before = project.take(spot.before).signs(stop - more, stop + spot.length)
        after = project.take(spot.after).signs(start - spot.length - more, start + more)
        line = project.cues[spot.before]["line"] if spot.role == "line" else None
        return bridges.least(project.weights, before, after, spot.length, line)


def errors(hearing: Hearing, project: Project, spot: Spot) -> np.ndarray:
    """What the master will be more than it should be around a cut, without bridges that go in a line."""
    found = measuring.errors(hearing, project, Planned(project), spot, measuring.decoded(project))
    first = spot.place + spot.length // 2 - found.shape[1] // 2
    for other in project.spots():
        if other.role == "line":
            found[:, max(other.place - first, 0) : max(other.place + other.length - first, 0)] = 0
    return found


def loudest(project: Project, number: int, cuts: int) -> float:
    """The peak of a cut in its loudest channel (dB), as the project has it now. If it hasn't so many cuts any more, as
    a cue is so short that it is taken for a link, there is no such cut."""
    spots, hearing = project.spots(), hearing_of(project.rate)
    if len(spots) != cuts:
        return -np.inf
    return max(hearing.peak(it, spots[number].length // 2) for it in errors(hearing, project, spots[number]))


def is_louder(new: float, old: float) -> bool:
    """Whether a peak is louder than another one, as far as there is anything at all."""
    return new > max(old, NOTHING) + ALIKE


@contextlib.contextmanager
def remade(project: Project, number: int) -> Iterator[int]:
    """Leaves out the link or the seam that a cut has, so that a block can make it anew; yields the cue before it. If the
    block refuses, all is as before. So it is if the cut clicks louder then: one that had a link or a seam louder than
    what is left without it, as it was asked for at first."""
    with project.undone():
        cuts, spot = len(project.spots()), project.spots()[number]
        old = loudest(project, number, cuts)
        project.leave_out_between(spot)
        project.leave_out_shift(spot.before + 1)
        if spot.role in ("link", "seam"):
            old = loudest(project, number, cuts)
        yield spot.before
        new = loudest(project, number, cuts)
        if is_louder(new, old):
            raise Refused(f"it would click louder, at {new:.1f} dB, and clicks at {old:.1f} dB where it is asked for")


def steps(project: Project, spot: Spot) -> list[float]:
    """How far the sound of what follows is from that before, where it changes: in dB to full scale, in each channel."""
    seam, reference = project.seam(spot.before + 1) if spot.role == "seam" else None, measuring.decoded(project)
    middles, found = seam.middles if seam else [spot.length // 2] * project.count, []
    for channel, middle in enumerate(middles):
        place = spot.place + int(middle)
        before, after = measuring.around(project, reference, spot, place, place + 1)
        found.append(decibels(abs(float(after[channel, 0] - before[channel, 0]))))
    return found


class Seen:
    """A cut as the project has it now: what it will click in each channel, as cuts/measure finds it (peak and
    A-weighted energy in dB), and the steps of the sound."""

    def __init__(self, project: Project, number: int) -> None:
        spot, hearing = project.spots()[number], hearing_of(project.rate)
        self.spot, self.rate = spot, project.rate
        self.seam = project.seam(spot.before + 1) if spot.role == "seam" else None
        self.stop, self.start = project.cues[spot.before]["stop"], project.cues[spot.after]["start"]
        self.clicks = [hearing.levels(it, spot.length // 2) for it in errors(hearing, project, spot)]
        self.steps = steps(project, spot)
        self.early = project.early(spot.after)

    @property
    def is_faded(self) -> bool:
        """Whether its sound changes so slowly that there is no step."""
        is_fade = self.seam is not None and self.seam.kind == "fade"
        return is_fade or self.spot.role in ("bridge", "line")

    @property
    def length(self) -> int:
        return self.spot.length

    def channel(self, channel: int) -> str:
        """Where a channel of a seam changes, and whether it comes early from there on."""
        if self.seam is None:
            return ""
        place = f" at {(self.seam.middles[channel] - self.seam.before) / self.rate * 1e6:+.1f} us"
        early = f", {self.early[channel]} bit early" if self.early[channel] else ""
        return place + early + (f", link of {self.seam.links[channel][2]} bits," if self.seam.links else "")


def named(seen: Seen) -> str:
    """What a cut is."""
    if seen.seam:
        ramp = f" over {seen.seam.ramp / seen.rate * 1e6:.3g} us" if seen.seam.kind == "butt" else ""
        if seen.seam.slow:
            ramp += f" (above {SPLIT[0] // 1000} kHz over {seen.seam.slow / seen.rate * 1e6:.3g} us)"
        return f"{seen.seam.kind} of {seen.length} bits ({lasting(seen.length, seen.rate)}){ramp}"
    return {"plain": "cut plain", "link": f"link of {seen.length} bits"}.get(seen.spot.role, f"bridge of {seen.length}")


def line_of(number: int, old: Seen, new: Seen, more: list[str] | None = None) -> str:
    """The line of a cut that was changed; `more` is what else there is to say of each channel."""
    late = ((new.stop + new.length - old.stop - old.length) - (new.start - old.start)) / new.rate * 1e6
    places = f"stop {old.stop} to {new.stop}, start {old.start} to {new.start}, {late + 0.0:+.1f} us"
    parts = [f"cut {number}: {named(new)} at {clock(new.spot.place, new.rate)}, {places}"]
    for channel, (before, after) in enumerate(zip(old.clicks, new.clicks)):
        step = f"{old.steps[channel]:.1f} dB" + (" faded" if new.is_faded else f" to {new.steps[channel]:.1f}")
        peak = f"peak {before[0]:.1f} to {after[0]:.1f} dB, A {before[1]:.1f} to {after[1]:.1f}"
        parts.append(f"channel {channel}{new.channel(channel)} {peak}, step {step}" + (more[channel] if more else ""))
    return "; ".join(parts)


def report(project: Project, number: int, old: Seen, more: list[str] | None = None) -> None:
    """Prints the line of a cut that was changed, and warnings about it."""
    new = Seen(project, number)
    print(line_of(number, old, new, more), flush=True)
    warn(project, number)
    peaks = [max(peak for peak, _ in it.clicks) for it in (old, new)]
    if is_louder(peaks[1], peaks[0]):
        was = f"at {peaks[1]:.1f} dB, and was at {peaks[0]:.1f} dB"
        print(f"{script()}: cut {number}: it clicks louder than before: {was}", file=sys.stderr)


def script() -> str:
    """The script's name."""
    return sys.argv[0].rpartition("/")[2]


def ends(project: Project, spot: Spot) -> tuple[int, int]:
    """From where the sound of the second take counts in a cut, and up to where that of the first does."""
    if spot.role != "seam":
        return 0, spot.length
    seam = project.seam(spot.before + 1)
    half = max(seam.ramp, seam.slow) / 2
    return int(min(seam.middles) - half), int(max(seam.middles) + half)


def warn(project: Project, number: int) -> None:
    """Prints a warning if it can't be known how loudly a cut clicks: near the end of a take, whose sound is estimated
    from both sides, and near a line."""
    spots = project.spots()
    spot = spots[number]
    first, last = ends(project, spot)
    stop, start = project.cues[spot.before]["stop"], project.cues[spot.after]["start"]
    spans = project.span(spot.before), project.span(spot.after)
    name = f"{script()}: cut {number}"
    for take, bits, end in (
        (spot.before, stop - spans[0][0], "start"),
        (spot.before, spans[0][1] - stop - last, "end"),
        (spot.after, start - spans[1][0] - spot.length + first, "start"),
        (spot.after, spans[1][1] - start, "end"),
    ):
        if bits < known(project.take(take)):
            where = f"the {end} of take {project.cues[take]['take']}, where its sound isn't known"
            print(f"{name}: it lies {max(bits, 0)} bits from {where}: it may click louder", file=sys.stderr)
    reach = 2 * hearing_of(project.rate).half  # a cut is measured to half of it, and there the rest is heard
    for other in spots:
        is_near = other.place - reach < spot.place + spot.length and spot.place - reach < other.place + other.length
        if other.role == "line" and is_near:
            print(f"{name}: what the bits of a line near it add isn't counted", file=sys.stderr)


def settled(project: Project, numbers: Iterable[int]) -> Iterator[int]:
    """Passes on the numbers of cuts that are made in their order, each once no later one can add to what it clicks."""
    waiting: list[int] = []
    reach = hearing_of(project.rate).size
    for number in numbers:
        waiting.append(number)
        spots = project.spots()
        while spots[waiting[0]].place + spots[waiting[0]].length + reach < spots[number].place:
            yield waiting.pop(0)
    yield from waiting


# Whether a master and its takes hold the bits that they are to hold, beside those of cues (`measuring`).


def is_chosen(project: Project, master: Signals, spot: Spot) -> bool:
    """Whether a bridge has the bits that `edit` chooses."""
    held = master.signs(spot.place, spot.place + spot.length)
    return np.array_equal(held, Planned(project).bridge(spot))


def wrong_bridges(project: Project, master: Signals) -> list[str]:
    """A line for each bridge with other bits."""
    rows = enumerate(project.spots())
    wrong = [it for it, spot in rows if spot.role in ("bridge", "line") and not is_chosen(project, master, spot)]
    return [f"cut {it}: the bridge doesn't hold the bits that `edit` chooses" for it in wrong]


def wrong_seams(project: Project) -> list[str]:
    """A line for each seam whose bits aren't those that were written, and for each take whose seams can't be read."""
    rows = [(it, spot.before + 1) for it, spot in enumerate(project.spots()) if spot.role == "seam"]
    lines = []
    for number, cue in rows:
        seam = project.seam(cue)
        if is_spoilt(seam, project.take(cue)):
            lines.append(f"cut {number}: take {project.cues[cue]['take']} doesn't hold the bits of its {seam.kind}")
    for number, take in enumerate(project.takes):
        if is_unread(take):
            name = shown_name(project.names[number])
            lines.append(f"take {number}, {name}: what it says of its seams can't be read; they count as usual cues")
    return lines

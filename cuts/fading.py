"""A fade from take to take, newly modulated, that joins both without a click.

From the first take a modulator goes on, and another leads up to the second (`continuing`), each through the whole
fade. Somewhere inside both meet: several of each are tried, and all places near the middle, and where a few newly
chosen bits join them best the one is cut to the other. Each channel has a place of its own, as these bits belong to no
take.

Two numbers of all that is owed can't be changed by choosing bits: their sum is odd or even, and so is their first
moment. So the middle of the crossfade moves in each channel until the sum is right (`crossfades`), and what is left of
the moment is added to the sound as a wave that is too small to be heard. If no middle is found, as the takes are too
much alike, the fade is made longer (`fades`), the second take is moved by some bits, or what is left of the sum is
added to the sound as a bump as long as the fade.

A channel in which both takes have the same bits in the fade, as in digital silence, keeps these."""
from dataclasses import dataclass, replace
from pathlib import Path

import numpy as np

from cuts import crossfades, masters, times
from cuts.continuing import Modulated
from cuts.crossfades import Crossfade, Sounds, above, even_middle, wrapped
from cuts.crossfades import SETTLED as EVEN
from cuts.errors import sounds
from cuts.hearing import hearing_of, let_in
from cuts.joints import Joint, Meetings, bumps, kinds_for, moments, settled
from cuts.projects import Project
from cuts.seams import Seam
from cuts.takes import Signals
from dsdarc_scripts.outputs import Refused
from modulator import modulators

DOWN = 240  # dB: what a low-pass leaves of the sound in the errors adds to their moments

# How much of a fade the ramp takes, and how far its middle may move from the wished place: what is tried in turn.
RAMPS = ((0.8, 0.1), (0.4, 0.3), (0.2, 0.39))
MOVES = (0.1, 0.4)  # how far its middle may move
MOST = 0.2  # of a butt that a ramp may take


class NotStable(Exception):
    """No modulator is stable for this sound."""


@dataclass(frozen=True)
class Wish:
    """A cut in the middle of a fade: the places in both takes, an odd number of bits, and how many bits the second may
    be moved. With `power` the sum of both takes' powers stays, else that of their levels. A butt changes the sound at
    the cut, within `ramp` seconds; if that is None, within the usual time, and if need be it is split: it takes longer
    for what is above the audio band. `doubt` is how loud it may be then (dB), as
    nobody can know what the takes hold there."""

    stop: int
    start: int
    length: int
    most: int = 0
    power: bool = False
    is_butt: bool = False
    ramp: float | None = None
    is_split: bool = False
    doubt: float = -np.inf

    @property
    def early(self) -> int:
        """How many bits of it lie before the cut."""
        return self.length // 2

    @property
    def ends(self) -> tuple[int, int]:
        """Where the first take stops and the second starts, if it isn't moved."""
        return self.stop - self.early, self.start + self.length - self.early

    @property
    def slow(self) -> float:
        """In how many bits what is above the audio band changes, if that is by itself; else 0."""
        return MOST * self.length if self.is_split else 0.0

    def ramps(self, rate: int) -> list[tuple[float, int]]:
        """How long the ramps are that are tried, and how far the middle of each may move."""
        if self.is_butt:
            assert self.ramp
            return [(self.ramp * rate, int(self.length * it)) for it in MOVES]
        return [(self.length * ramp, int(self.length * it)) for ramp, it in RAMPS]


@dataclass(frozen=True)
class Fade:
    """Bits between bit `stop` - 1 of the first take and bit `start` of the second: their signs, a row for
    each channel. `bumps` is how large the bump is in each channel, of full scale: 0 where there is none. `doubt` is how
    loud it may be (dB), as nobody can know what the takes hold above the audio band."""

    stop: int
    start: int
    signs: np.ndarray
    crossfade: Crossfade
    bumps: list[float]
    doubt: float


def sound_of(take: Signals, first: int, stop: int) -> np.ndarray:
    return sounds(take, first, stop, down=DOWN)


def above_of(take: Signals, first: int, stop: int) -> np.ndarray:
    """What of that may go over more slowly in a butt."""
    return above(take.rate, lambda low, high: sound_of(take, low, high), first, stop)


class Surroundings:
    """Both takes around a fade: their errors outside of it, let in from afar, and their sounds inside."""

    def __init__(self, before: Signals, after: Signals, wish: Wish, reach: int) -> None:
        rate = before.rate
        self.wish, self.rate = wish, rate
        self.stop, self.start = wish.ends
        self.takes = (before, self.stop), (after, self.start)
        outside = before.signs(self.stop - reach, self.stop) - sound_of(before, self.stop - reach, self.stop)
        self.before = let_in(outside, rate)
        low, high = self.start - wish.most, self.start + wish.most
        self.after_errors = after.signs(low, high + reach) - sound_of(after, low, high + reach)
        self.reach = reach
        spans = (before, self.stop, self.stop + wish.length), (after, low - wish.length, high)
        self.whole = [sound_of(*it) for it in spans]
        self.above = [above_of(*it) for it in spans] if wish.slow else None

    def after(self, moved: int) -> np.ndarray:
        """The errors of the second take, moved this many bits: from its first bit on."""
        first = self.wish.most + moved
        part = self.after_errors[:, first : first + self.reach]
        return let_in(part[:, ::-1], self.rate)[:, ::-1]

    def sounds(self, moved: int) -> Sounds:
        """Those of both takes in the fade."""
        first = self.wish.most + moved
        part = slice(first, first + self.wish.length)
        above = (self.above[0], self.above[1][:, part]) if self.above else None
        return Sounds(self.whole[0], self.whole[1][:, part], above)

    def shared(self, moved: int) -> np.ndarray:
        """The signs that both takes have in the fade, a row for each channel: 0 in those in which they differ."""
        (before, stop), (after, start) = self.takes[0], self.takes[1]
        length, start = self.wish.length, start + moved
        rows = before.signs(stop, stop + length)
        is_same = np.all(rows == after.signs(start - length, start), axis=1)
        return rows * is_same[:, None]

    def owed(self, moved: int) -> np.ndarray:
        """Sum and first moment, about the middle, that the sound of the fade is to have or to differ from by even
        numbers: a column for each channel."""
        half = self.wish.length // 2
        known = moments(self.before, -half - self.reach) + moments(self.after(moved), half + 1)
        return known + moments(np.ones(self.wish.length), -half)[:, None]

    def crossfade(self, moved: int, ramp: float, most: int) -> tuple[Crossfade, list[float]]:
        """The crossfade whose middles move by at most `most` bits, and what its sums miss."""
        wanted, both = self.owed(moved)[0], self.sounds(moved)
        empty = Crossfade(ramp, self.wish.power, [], self.wish.slow)
        middle = self.wish.early
        is_shared = self.shared(moved).any(axis=1)
        found = [
            (middle, 0.0) if is_shared[it] else even_middle(both.channel(it), empty, middle, most, number)
            for it, number in enumerate(wanted)
        ]
        return replace(empty, middles=[it for it, _ in found]), [it for _, it in found]


@dataclass(frozen=True)
class Plan:
    """How a fade is made: how far the second take is moved, its crossfade, and what that misses of the sum in each
    channel."""

    around: Surroundings
    moved: int
    crossfade: Crossfade
    missing: list[float]

    @property
    def worst(self) -> float:
        return max(abs(it) for it in self.missing)

    @property
    def is_even(self) -> bool:
        """Whether nothing is missing."""
        return self.worst < EVEN

    @property
    def bump(self) -> float:
        """How large a bump makes up for what is missing, of full scale: in the channel in which it is largest."""
        return self.worst * float(bumps(self.around.wish.length)[0].max())


def ramped(takes: tuple[Signals, Signals], wish: Wish) -> Wish:
    """A wish that says within what time a butt changes the sound."""
    if not wish.is_butt or wish.ramp is not None:
        return wish
    places = wish.stop, wish.start
    if crossfades.is_whole(takes, places, wish.power):
        return replace(wish, ramp=crossfades.RAMP)
    doubt = crossfades.doubt(takes, places, wish.power, MOST * wish.length)
    return replace(wish, ramp=crossfades.RAMP, is_split=True, doubt=doubt)


def planned(before: Signals, after: Signals, wish: Wish) -> Plan:
    """The first plan that misses nothing, or the one that misses least; the second take moves only if it has to."""
    around = Surroundings(before, after, wish, hearing_of(before.rate).size // 2)
    found = []
    for moved in sorted(range(-wish.most, wish.most + 1), key=lambda it: (abs(it), it)):
        for ramp, most in wish.ramps(before.rate):
            found.append(Plan(around, moved, *around.crossfade(moved, ramp, most)))
            if found[-1].is_even:
                return found[-1]
    return min(found, key=lambda it: it.worst)


def made_by(program: Path, plan: Plan, seed: int) -> Fade:
    """The fade of a plan."""
    around, wish = plan.around, plan.around.wish
    later, bump, rows = around.after(plan.moved), bumps(wish.length)[0], []
    sound = plan.crossfade.mixed(around.sounds(plan.moved)) + np.array(plan.missing)[:, None] * bump
    moment = wrapped(around.owed(plan.moved) - moments(sound, -wish.early))[1]
    for channel, (row, shared) in enumerate(zip(sound, around.shared(plan.moved))):
        known = around.before[channel], row, later[channel]
        is_shared = shared.any()

        def join(sound: np.ndarray, number: int) -> Joint:
            return stable(program, around.rate, (known[0], sound, known[2]), number)

        made = None if is_shared else settled(join, row, float(moment[channel]), seed + 100 * channel)
        rows.append(shared if is_shared else made)
    sizes = [abs(it) * bump.max() if abs(it) >= EVEN else 0.0 for it in plan.missing]
    return Fade(around.stop, around.start + plan.moved, np.stack(rows), plan.crossfade, sizes, wish.doubt)


def stable(program: Path, rate: int, known: tuple, seed: int) -> Joint:
    """What is joined by the first modulator that is stable."""
    before, sound, after = known
    for modulator in kinds_for(rate):
        by = Modulated(program, modulator, rate)
        try:
            return Meetings(by, (by.past_of(before), by.past_of(after[::-1])), known, seed).joint()
        except modulators.Unstable:
            continue
    raise NotStable("no modulator is stable for the sound of this fade: it is too loud")


# Fades and butts of the cuts of a project.

SHORTEST = 0.5e-3  # seconds: in less, what leads up to a take doesn't come apart from what goes on
LONGER = (2, 4, 8, 16)  # times as long: what is tried if takes are too alike
LONGEST = 0.04  # seconds
LITTLE = 3e-6  # seconds that what follows may move before there is a bump


@dataclass(frozen=True)
class FadeAsked:
    """What is asked for: the name of the take of seams; how long the new bits are, how far what follows may move, and
    within what time a butt changes all of the sound, in seconds: at once what is heard of it if that is None."""

    take: str = ""
    time: float = 10e-3
    shift: float = 0.0
    power: bool = False
    is_butt: bool = False
    ramp: float | None = None


def odd(bits: float) -> int:
    """The odd number of bits that is nearest to one."""
    return round(bits) // 2 * 2 + 1


def wish_of(project: Project, cut: int, asked: FadeAsked) -> Wish:
    """The fade that is asked for at the plain cut after a cue."""
    stop, start = project.cues[cut]["stop"], project.cues[cut + 1]["start"]
    length, most = odd(asked.time * project.rate), round(asked.shift * project.rate)
    wish = Wish(stop, start, length, most, asked.power, asked.is_butt, asked.ramp)
    demand_room(project, cut, wish)
    return ramped((project.take(cut), project.take(cut + 1)), wish)


def demand_room(project: Project, cut: int, wish: Wish) -> None:
    """Refuses a fade for which there is no room in both cues and both takes, and says how long one may be."""
    cue, following = project.cues[cut], project.cues[cut + 1]
    # How many bits of the fade may lie before the cut. One more lies after it.
    rooms = (
        (wish.stop - cue["start"] - project.least(cut), short(project, cut)),
        (following["stop"] - project.least(cut + 1) - wish.start - wish.most - 1, short(project, cut + 1)),
        (project.span(cut)[1] - wish.stop - 1, f"take {cue['take']} ends too soon after the cut"),
        (wish.start - wish.most - project.span(cut + 1)[0], f"take {following['take']} starts too late before the cut"),
    )
    room, why = min(rooms, key=lambda it: it[0])
    if wish.early > room:
        most = 2 * room + 1
        is_long = most >= odd(SHORTEST * project.rate)
        longest_time = f"the longest --time is {times.longest(most, project.rate)}" if is_long else "no --time fits"
        raise Refused(f"{why} for a fade of {times.lasting(wish.length, project.rate)}: {longest_time}")


def short(project: Project, cue: int) -> str:
    """That a cue, by its number in the text that was read, is too short, and how long it is."""
    bits = project.cues[cue]["stop"] - project.cues[cue]["start"]
    return f"cue {project.origins[cue]} is too short, with {bits} bits ({times.lasting(bits, project.rate)}),"


def longest(project: Project, cut: int) -> int:
    """How many bits a fade may have that is longer than asked for. Half of a cue is left to the cut at its other end,
    if that isn't made yet."""
    roles, rooms = project.roles(), []
    for number, other in ((cut, cut - 1), (cut + 1, cut + 2)):
        room = project.cues[number]["stop"] - project.cues[number]["start"] - project.least(number)
        rooms.append(room // 2 if 0 <= other < len(roles) and roles[other] == "cue" else room)
    return min(2 * min(rooms) - 1, odd(LONGEST * project.rate))


def longer(project: Project, cut: int, wish: Wish, time: float) -> list[Wish]:
    """The fade that is wished and longer ones, then the same if what follows may move by a little, and at last the
    longest there is room for."""
    most, little = longest(project, cut), max(round(LITTLE * project.rate), wish.most)
    lengths = [it for it in (odd(time * more * project.rate) for more in LONGER) if it <= most]
    found = [wish, *(replace(wish, length=it) for it in lengths)]
    found += [replace(it, most=little) for it in found]
    if most > found[-1].length:
        found += [replace(wish, length=most), replace(wish, length=most, most=little)]
    return list(dict.fromkeys(found))


def plan_of(project: Project, cut: int, asked: FadeAsked) -> Plan:
    """The first plan of a fade without a bump, or the one with the smallest bump: of the fade that is asked for, or of
    others where that isn't enough."""
    takes, plans, wished = (project.take(cut), project.take(cut + 1)), [], wish_of(project, cut, asked)
    for wish in longer(project, cut, wished, asked.time):
        try:
            demand_room(project, cut, wish)
        except Refused:
            continue
        plans.append(planned(*takes, wish))
        if plans[-1].is_even:
            return plans[-1]
    return min(plans, key=lambda it: it.bump)


def fade(project: Project, program: Path, number: int, asked: FadeAsked) -> Fade:
    """Makes a seam of a cut, in the place of a bridge that fades, a link or a seam that it had. If it clicked louder then
    it is refused."""
    with masters.remade(project, number) as cut:
        project.leave_out_bridge(cut)
        stop, start = project.cues[cut]["stop"], project.cues[cut + 1]["start"]
        try:
            made = made_by(program, plan_of(project, cut, asked), 1000 * number + 1)
        except NotStable as error:
            raise Refused(str(error)) from None
        project.move(cut, made.stop, made.start)
        kind, crossfade = "butt" if asked.is_butt else "fade", made.crossfade
        first, length = project.seams_as(asked.take).take.bits, made.signs.shape[1]
        places = stop - made.stop, made.start - start
        seam = Seam(
            first, length, kind, *places, crossfade.ramp, crossfade.power, crossfade.middles, slow=crossfade.slow
        )
        project.insert_seam(cut, seam, made.signs)
    return made

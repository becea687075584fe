"""The project that is made of a mix: cues of its takes where their own bits have its sound, and between these cues of
one more take, whose bits are new.

Each channel is planned by itself. Where all channels keep bits of one take at one place there is a cue of it. Elsewhere
a channel that keeps a take's bits, while others don't, has a copy of them in the new take."""
import os
from bisect import bisect_right
from collections import Counter
from collections.abc import Iterator
from dataclasses import dataclass, replace
from typing import BinaryIO

import numpy as np
import tomlkit

from cuts.hearing import decibels, hearing_of
from cuts.rendering import Made, Rendering, slope_of
from cuts.sounding import Way
from cuts.stretches import Gap, Kept, Part, gaps_of, parts_of, reasons, shrunk, silences, takes_own
from cuts.times import clock
from dsdarc_scripts import dsdiffs
from dsdarc_scripts.outputs import Refused
from dsdarc_scripts.project_texts import MOST_CUES, MOST_TAKES

WEIGHTS = [1, 1]  # plain cuts need none, but a project has some
PAUSE = 0.25  # seconds of new bits at both ends of a silence, before there is the silent pattern
QUIET = 0.1  # seconds of such a pattern at least
USUAL = 10e-3  # seconds of new bits at least, if there is room
QUIETEST = 1.25e-6  # of full scale: new bits are as many as make a bump quieter than this, if there is room
LITTLE = 1e-7  # of full scale: a quieter bump isn't told
GOOD = -110.0  # dB: what is louder because of a bump is told
CUE = 1e-3  # seconds: shorter cues of takes are copied
PIECE = 1 << 20  # bits that are copied at a time


def spread(rendering: Rendering, channel: int, kept: list[Kept], least: int, room: int) -> list[Kept]:
    """The same, less what gives way so that bumps get quieter: so many bits on each side at most. At the start and at
    the end of the master, those of both sides are taken on the one."""
    rate, length, found = rendering.rate, rendering.sounding.length, list(kept)
    if room <= 0:
        return found
    gaps, numbers = gaps_of(kept, length), {it: number for number, it in enumerate(kept)}
    sides = Counter(it for gap in gaps for it in (gap.before, gap.after))
    for gap in gaps:
        wanted = round(USUAL * rate) - gap.length
        if gap.length < 1 / QUIETEST + slope_of(rate):
            bits = abs(rendering.missing(gap, channel)) / QUIETEST + slope_of(rate)
            wanted = max(wanted, int(bits) - gap.length)
        if wanted <= 0:
            continue
        most = room if gap.before and gap.after else 2 * room
        rooms = [room_of(it, sides[it], least, most) for it in (gap.before, gap.after)]
        early = min(rooms[0], max(wanted // 2, wanted - rooms[1]))
        late = min(rooms[1], wanted - early)
        if gap.before is not None and early > 0:
            one = found[numbers[gap.before]]
            found[numbers[gap.before]] = replace(one, stop=one.stop - early)
        if gap.after is not None and late > 0:
            one = found[numbers[gap.after]]
            found[numbers[gap.after]] = replace(one, first=one.first + late)
    return found


def room_of(kept: Kept | None, sides: int, least: int, most: int) -> int:
    """How many bits of what is kept may give way on one side, if there are new bits on so many sides of it."""
    if kept is None or kept.raw:
        return 0
    return max(min((kept.length - least) // sides, most), 0)


@dataclass(frozen=True)
class Channel:
    """A channel of the mix: its parts, what is kept, and what is new."""

    parts: list[Part]
    kept: list[Kept]
    gaps: list[Gap]


def planned(rendering: Rendering, number: int, room: int) -> Channel:
    """The plan of a channel."""
    rate, length = rendering.rate, rendering.sounding.length
    parts = parts_of(rendering.sounding, number)
    least = max(rendering.reach, len(rendering.audible.taps))
    still = silences(parts, round(PAUSE * rate), max(round(QUIET * rate), least))
    kept = sorted([*takes_own(parts), *still], key=lambda it: it.first)
    kept = shrunk(kept, 2 * hearing_of(rate).half, least, length)
    kept = spread(rendering, number, kept, least, room)
    return Channel(parts, kept, gaps_of(kept, length))


@dataclass(frozen=True)
class Cue:
    """Places of the master with bits of a take, or with new ones if there is no way. `start` is its first bit in the
    take."""

    first: int
    stop: int
    way: Way | None
    start: int

    @property
    def length(self) -> int:
        return self.stop - self.first


Span = tuple[int, int, Way]


def both(ones: list[Span], others: list[Span]) -> list[Span]:
    """Where two channels have bits of one take at one place."""
    found, number = [], 0
    for first, stop, way in ones:
        while number < len(others) and others[number][1] <= first:
            number += 1
        for low, high, other in others[number:]:
            if low >= stop:
                break
            if other == way:
                found.append((max(first, low), min(stop, high), way))
    return found


def cues_of(channels: list[Channel], rate: int, length: int, most: int) -> list[Cue]:
    """The cues of the project, `most` at most: for more the shortest ones of takes are copied."""
    spans: list[Span] | None = None
    for channel in channels:
        own = [(it.first, it.stop, it.way) for it in channel.kept if it.way is not None]
        spans = own if spans is None else both(spans, own)
    assert spans is not None
    spans = [it for it in spans if it[1] - it[0] >= min(CUE * rate, length)]
    while len(found := with_new(spans, length)) > most:
        spans.remove(min(spans, key=lambda it: it[1] - it[0]))
    return found


def with_new(spans: list[Span], length: int) -> list[Cue]:
    """The cues of takes, and new ones between them, which begin with a whole byte in the new take."""
    found, place, start = list[Cue](), 0, 0
    for first, stop, way in [*spans, (length, length, (0, 0))]:
        if place < first:
            found.append(Cue(place, first, None, start))
            start += -(-(first - place) // 8) * 8
        if first < stop:
            found.append(Cue(first, stop, way, first + way[1]))
        place = stop
    return found


class Writer:
    """Writes a channel of the new take: bits one after the other, from whole byte to whole byte."""

    def __init__(self, file: BinaryIO, head: int, number: int, count: int) -> None:
        self.file, self.head, self.number, self.count = file, head, number, count
        self.place, self.waiting = 0, np.zeros(0, np.uint8)

    def begin(self, start: int) -> None:
        """What follows begins at a bit of the take."""
        self.place, self.waiting = start // 8, np.zeros(0, np.uint8)

    def add(self, signs: np.ndarray) -> None:
        bits = np.concatenate([self.waiting, (signs > 0).astype(np.uint8)])
        whole = len(bits) // 8 * 8
        self.write(bits[:whole])
        self.waiting = bits[whole:]

    def end(self) -> None:
        """Fills the last byte with the last bit."""
        if len(self.waiting):
            self.write(np.pad(self.waiting, (0, -len(self.waiting) % 8), mode="edge"))
        self.waiting = self.waiting[:0]

    def write(self, bits: np.ndarray) -> None:
        """Puts whole bytes between those of the other channels."""
        data, at = np.packbits(bits), self.head + self.place * self.count
        self.file.seek(at)
        rows = np.frombuffer(bytearray(self.file.read(len(data) * self.count)), np.uint8).reshape(-1, self.count)
        rows[:, self.number] = data
        self.file.seek(at)
        self.file.write(rows.tobytes())
        self.place += len(data)


@dataclass(frozen=True)
class Report:
    """What was made in a channel of a cue: the loudest of its new places; nothing if it has none."""

    bump: float
    residual: float
    place: int


def bump_of(report: Report) -> str:
    """What is said of a bump, and if it is what makes the residual loud, how much that costs."""
    if report.bump <= LITTLE:
        return ""
    found, more = f", bump {decibels(report.bump):.1f} dB", decibels(report.residual) - GOOD
    is_short = more > 0 and report.bump > report.residual / 2
    return f"{found} (too short for {GOOD:g} dB, which costs {more:.1f} dB)" if is_short else found


class Render:
    """A mix as a project. So many of a take's own bits may give way to new ones on each side."""

    def __init__(self, rendering: Rendering, titles: list[tuple[int, str]], room: int) -> None:
        self.rendering, self.sounding, self.titles = rendering, rendering.sounding, titles
        self.rate, self.count, self.length = rendering.rate, self.sounding.count, self.sounding.length
        if len(titles) >= MOST_CUES:
            raise Refused(f"the mix has {len(titles)} titles: there is room for {MOST_CUES - 1}")
        self.channels = [planned(rendering, it, room) for it in range(self.count)]
        self.cues = cues_of(self.channels, self.rate, self.length, MOST_CUES - len(titles))
        self.new = [it for it in self.cues if it.way is None]

    # The new take.

    @property
    def bits(self) -> int:
        """How many bits the new take has in a channel: whole bytes."""
        return sum(-(-it.length // 8) * 8 for it in self.new)

    def write(self, file: BinaryIO) -> Iterator[tuple[Cue, list[Report | None]]]:
        """Writes the new take, cue by cue, and yields what was made of each."""
        size = self.bits // 8 * self.count
        head, tail = dsdiffs.around(self.rate, self.count, size)
        file.write(head)
        file.truncate(len(head) + size)
        writers = [Writer(file, len(head), it, self.count) for it in range(self.count)]
        for cue in self.new:
            reports = []
            for number, writer in enumerate(writers):
                writer.begin(cue.start)
                reports.append(self.write_channel(writer, number, cue))
                writer.end()
            yield cue, reports
        file.seek(len(head) + size)
        file.write(tail)

    def write_channel(self, writer: Writer, number: int, cue: Cue) -> Report | None:
        """Writes a channel of a cue."""
        channel, made = self.channels[number], list[Made]()
        rows: list[Kept | Gap] = [*channel.kept, *channel.gaps]
        for it in sorted(rows, key=lambda it: it.first):
            low, high = max(it.first, cue.first), min(it.stop, cue.stop)
            if low >= high:
                continue
            if isinstance(it, Gap):
                for signs in self.rendering.signs(it, number):
                    writer.add(signs)
                assert self.rendering.made
                made.append(self.rendering.made)
            else:
                for first in range(low, high, PIECE):
                    writer.add(self.rendering.kept_signs(it, number, first, min(first + PIECE, high)))
        if not made:
            return None
        loudest = max(made, key=lambda it: it.residual)
        return Report(max(it.bump for it in made), loudest.residual, loudest.place)

    # What is said of it.

    def line(self, cue: Cue, reports: list[Report | None]) -> str:
        """The line of new bits."""
        why = dict.fromkeys(why for it in self.channels for why in reasons(it.parts, cue.first, cue.stop))
        where = f"{clock(cue.first, self.rate)} to {clock(cue.stop, self.rate)} (bits {cue.first} to {cue.stop})"
        parts = [f"new bits from {where}: {', '.join(why) or 'joined'}"]
        for number, report in enumerate(reports):
            if report is None:
                parts.append(f"channel {number} the take's own bits")
                continue
            parts.append(f"channel {number} residual {decibels(report.residual):.1f} dB{bump_of(report)}")
        return "; ".join(parts)

    def share(self) -> float:
        """The part of the master's bits that are its takes' own."""
        own = sum(it.length for channel in self.channels for it in channel.kept if it.way is not None)
        return own / (self.count * self.length)

    # The project.

    def rows(self) -> list[tuple[Cue, str | None]]:
        """The cues, split where there is a title, and the title of each."""
        found: list[tuple[Cue, str | None]] = [(it, None) for it in self.cues]
        for place, title in self.titles:
            number = bisect_right([it.first for it, _ in found], place) - 1
            cue, known = found[number]
            if place == cue.first:
                found[number] = cue, title
                continue
            early = Cue(cue.first, place, cue.way, cue.start)
            late = Cue(place, cue.stop, cue.way, cue.start + place - cue.first)
            found[number : number + 1] = [(early, known), (late, title)]
        return found

    def takes(self, new: str) -> tuple[list[str], dict[int, int]]:
        """The names of the project's takes, the new one as the last, and the number that each take of the mix has. All
        takes of the mix are there if there is room."""
        names = self.sounding.mix.takes
        used = sorted({it.way[0] for it in self.cues if it.way is not None})
        if len(names) + bool(self.new) <= MOST_TAKES:
            used = list(range(len(names)))
        if len(used) + bool(self.new) > MOST_TAKES:
            raise Refused(f"the mix has {len(used)} takes, and 1 more is needed: a project has room for {MOST_TAKES}")
        return [names[it] for it in used] + [new] * bool(self.new), {it: number for number, it in enumerate(used)}

    def text(self, mix: str, new: str) -> str:
        """The project."""
        names, numbers = self.takes(new)
        head = f"# Made by cuts/render of {ascii(os.path.basename(mix))[1:-1]}: cues of its takes, and between them new bits.\n"
        text = head + tomlkit.dumps({"splice": {"weights": WEIGHTS, "takes": names}})
        for cue, title in self.rows():
            take = len(names) - 1 if cue.way is None else numbers[cue.way[0]]
            row: dict[str, int | str] = {"take": take, "start": cue.start, "stop": cue.start + cue.length}
            row |= {} if title is None else {"title": title}
            text += f"\n[[splice.cue]]\n{tomlkit.dumps(row)}"
        return text

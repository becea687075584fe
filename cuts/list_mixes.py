"""The text of a mix that is made of a list, and the list of a mix.

The text of a mix has as comments what only a list can say. Inside the table of a clip, `# title = ".."` is the title
that begins with it, and each `# line = ".."` is a line of the list. So the list comes back letter by letter, if the clips
are still those that it makes. Of other mixes a list is written anew, as far as lines can say their clips."""
from dataclasses import dataclass

import numpy as np

from cuts import curves, layouts, lists, mix_texts, mixes
from cuts.albums import MOST_TITLE, quoted, shortened
from cuts.clips import SILENT
from cuts.curves import Fade
from cuts.gains import FULL, Points
from cuts.hearing import PASSED
from cuts.layouts import Part, Takes, Titled
from cuts.lists import Words, lasting_text, time_text
from cuts.mix_texts import Notes
from cuts.mixes import Mix
from cuts.takes import Signals
from dsdarc_scripts.explained import shown_name
from dsdarc_scripts.outputs import Refused

LIMIT = -100.0  # dB: what new bits of a mix leave at most
USUAL = "linear"  # the curve of fades that name none


def noted(key: str, value: str) -> str:
    return f"# {key} = {quoted(value)}\n"


# From a list to a mix.


def level_words(gains: list[int]) -> list[str]:
    """The levels of channels, as a list says them."""
    if len(set(gains)) == 1 and gains[0]:
        return [f"{curves.level_of(gains[0])} dB"] if gains[0] != FULL else []
    levels = [f"{curves.level_of(it)} dB" if it else "off" for it in gains]
    return [f"channel {channel} {level}" for channel, level in enumerate(levels) if gains[channel] != FULL]


def said(part: Part, rate: int) -> str:
    """What a part is, in words for the comment of its clips."""
    start, stop = (time_text(it, rate) for it in (part.start, part.start + part.length))
    fades = [lists.fade_text(kind, it, rate) for kind, it in sorted(part.fades.items())]
    return "; ".join(["", f"{start} to {stop} of the take", *fades, *level_words(part.gains)])


def lines_by_part(text: str, parts: list[Part]) -> list[list[str]]:
    """The lines of a list, each with the part that it is or comes before; those after the last one come with it."""
    rows = text.split("\n")
    rows = rows[:-1] if rows[-1] == "" else rows
    ends = [*(it.line.number for it in parts[:-1]), len(rows)]
    return [rows[first:stop] for first, stop in zip([0, *ends], ends)]


@dataclass(frozen=True)
class Made:
    """The mix of a list."""

    takes: Takes
    parts: list[Part]
    rows: list[list[Titled]]
    text: str
    curve: str

    @classmethod
    def of(cls, name: str, text: str, curve: str) -> "Made":
        """That of a list with a name. A fault names the line."""
        takes = Takes()
        parts = layouts.parts_of(name, lists.lines_of(name, text, curve), takes)
        rows = [layouts.clips_of(takes, it) for it in parts]
        layouts.demand_clips(name, parts, [[it for it, _ in row] for row in rows])
        return cls(takes, parts, rows, text, curve)

    def mix(self) -> Mix:
        clips = [it for row in self.rows for it, _ in row]
        return Mix(self.takes.rate, clips, {number: it.name for number, it in enumerate(self.takes.takes)})

    def mix_text(self, limit: float, name: str, made: str) -> str:
        """The text of the mix, with a limit in dB, for a list and a mix with these names."""
        mix, tables = self.mix(), list[str]()
        for part, row, lines in zip(self.parts, self.rows, lines_by_part(self.text, self.parts)):
            words, notes = said(part, self.takes.rate), "".join(noted("line", it) for it in lines)
            for clip, title in row:
                notes += "" if title is None else noted("title", shortened(title, MOST_TITLE))
                tables.append(mixes.clip_text(mix, clip, words, notes))
                words = notes = ""
        what = f"The mix that {shown_name(name)} asks for: where each take is heard"
        head = mixes.head_of(what, limit, made) + ("" if self.curve == USUAL else f"\n{noted('curve', self.curve)}")
        return mixes.mix_text(mix, head, limit, tables)


# From a mix to a list.


def fitting(points: Points, length: int, gain: int, bits: int, kind: str, span: tuple[int, int]) -> Fade | None:
    """The fade in or out of that many bits that just these points have between two places; none if no curve has it."""
    low, high = span
    for curve in curves.RISING:
        fade = Fade(bits, curve)
        made = curves.points_of(length, gain, *((fade, None) if kind == "in" else (None, fade)))
        places = np.array(sorted({low, *(it for it, _ in [*made, *points] if low <= it <= high)}))
        if np.array_equal(curves.gains_at(made, places), curves.gains_at(points, places)):
            return fade
    return None


def fitted(points: Points, length: int) -> tuple[int, dict[str, Fade]] | None:
    """The gain and the fades of a channel, if a line can say them."""
    places = np.array(sorted({0, length, *(place for place, _ in points if place < length)}))
    values = curves.gains_at(points, places)
    gain, fades = int(values.max()), dict[str, Fade]()
    whole = places[values == gain]
    first, last = int(whole[0]), int(whole[-1])
    if values.min() < 0 or np.any(values[(places >= first) & (places <= last)] != gain):
        return None
    for kind, bits, span in (("in", first, (0, first)), ("out", length - last, (last, length))):
        if bits:
            fade = fitting(points, length, gain, bits, kind, span)
            if fade is None:
                return None
            fades[kind] = fade
    return gain, fades


def grouped(mix: mix_texts.Mix, count: int) -> list[list[int]]:
    """The numbers of the clips that a line makes: those that follow each other and are the same for other channels."""
    found, heard = list[list[int]](), set[int]()
    for number, clip in enumerate(mix.clips):
        here = {it for it in range(count) if any(gain for _, gain in clip.points(it) or WHOLE)}
        before = mix.clips[found[-1][0]] if found else None
        alike = before and all(getattr(before, it) == getattr(clip, it) for it in ("take", "start", "at", "length"))
        if alike and not here & heard and len(here) < count:
            found[-1].append(number)
            heard |= here
        else:
            found.append([number])
            heard = here
    return found


def response_of(taps: list[int], unit: int, rate: int) -> float:
    """How far a decoder is off 1 at most, up to where sound is heard."""
    turns = 2 * np.pi * np.linspace(0, PASSED, 41) / rate
    places = np.arange(len(taps)) - len(taps) // 2
    return float(np.abs(np.exp(-1j * np.outer(turns, places)) @ np.array(taps) / unit - 1).max())


WHOLE: Points = [(0, FULL)]  # of a clip whose gain is 1
FLAT = 0.01  # how far a decoder may be off 1


class Derived:
    """The list of a mix that no list made, or whose clips were changed."""

    def __init__(self, name: str, mix: mix_texts.Mix, takes: list[Signals], notes: list[Notes]) -> None:
        self.name, self.mix, self.takes, self.notes = name, mix, takes, notes
        self.rate, self.count = takes[0].rate, takes[0].count

    def refused(self, clip: int, why: str) -> Refused:
        return Refused(f"{self.name}: clip {clip}, counted from 0: {why}: no line of a list can say this")

    def demand_decoders(self) -> None:
        """Each clip is decoded as it is."""
        flat = [response_of(it, self.mix.unit, self.rate) <= FLAT for it in self.mix.decoders]
        for number, clip in enumerate(self.mix.clips):
            if not flat[clip.decoder]:
                why = f"its decoder, {clip.decoder}, changes the sound below {PASSED // 1000} kHz"
                raise self.refused(number, why)

    def channels(self, group: list[int]) -> tuple[list[int], dict[str, Fade]]:
        """The gain of each channel of some clips that are one line, and their fades."""
        first, rows = group[0], list[tuple[int, dict[str, Fade]]]()
        for channel in range(self.count):
            points = [self.mix.clips[it].points(channel) for it in group]
            heard = [it for it in points if any(gain for _, gain in it or WHOLE)]
            found = fitted(heard[0] if heard else SILENT, self.mix.clips[first].length)
            if found is None:
                why = f"the gain of channel {channel} is no level with a fade in and out by a curve that a list has"
                raise self.refused(first, why)
            rows.append(found)
        fades = [fades for gain, fades in rows if gain]
        if any(it != fades[0] for it in fades):
            raise self.refused(first, "its channels fade each in a way of its own")
        if max(gain for gain, _ in rows) > layouts.MOST_GAIN:
            raise self.refused(first, f"its level is above +{lists.LOUDEST:g} dB")
        return [gain for gain, _ in rows], fades[0] if fades else {}

    def rows(self, is_untitled: bool) -> list[Words]:
        """The columns of each line."""
        rate, groups, rows = self.rate, grouped(self.mix, self.count), list[Words]()
        known = [self.channels(it) for it in groups]
        for here, (group, (gains, fades)) in enumerate(zip(groups, known)):
            clip, before = self.mix.clips[group[0]], self.mix.clips[groups[here - 1][0]] if here else None
            words, fades = level_words(gains), dict(fades)
            coming = known[here + 1][1].get("in") if here + 1 < len(groups) else None
            following = self.mix.clips[groups[here + 1][0]] if coming else None
            if following and self.is_crossed(clip.stop - following.at, fades.get("out"), coming):
                del fades["out"]
            if before and self.is_crossed(before.stop - clip.at, known[here - 1][1].get("out"), fades.get("in")):
                words.append(lists.fade_text("crossfade", fades.pop("in"), rate))
            words += [lists.fade_text(kind, it, rate) for kind, it in sorted(fades.items())]
            title = self.notes[group[0]].title
            words += [f"title {quoted(title)}"] if title is not None else ["no title"] if is_untitled else []
            take = self.takes[clip.take]
            stop = clip.start + clip.length
            ends = time_text(clip.start, rate), "end" if stop == take.bits else time_text(stop, rate)
            place = place_text(clip.at, before.stop if before else None, rate)
            rows.append([place, lists.name_text(take.name), *ends, *([", ".join(words)] if words else [])])
        return rows

    @staticmethod
    def is_crossed(overlap: int, fall: Fade | None, rise: Fade | None) -> bool:
        """Whether two fades that meet are a crossfade."""
        return fall is not None and fall == rise and fall.bits == overlap

    def text(self) -> str:
        """The list. Titles that would come over from the takes, and aren't there, are left out."""
        self.demand_decoders()
        text = lists.columns(self.rows(False))
        parts = Made.of(self.name, text, USUAL).parts
        if any(it.titles and it.line.title is None for it in parts):
            text = lists.columns(self.rows(True))
        return text


def place_text(at: int, before: int | None, rate: int) -> str:
    if before is None:
        return time_text(at, rate)
    return f"{'-' if at < before else '+'}{lasting_text(abs(at - before), rate)}"


@dataclass(frozen=True)
class Listed:
    """The list of a mix: its text, the curve of fades that name none, the limit of the mix if it isn't the usual one,
    and whether the lines are new ones, not those that the mix was made of."""

    text: str
    curve: str
    limit: float | None
    is_new: bool


def is_made(made: Made, mix: mix_texts.Mix, notes: list[Notes]) -> bool:
    """Whether a mix is that of a list."""
    own, rows = made.mix(), [it for row in made.rows for it in row]
    if (own.names, len(rows), len(own.decoders)) != (mix.takes, len(mix.clips), len(mix.decoders)):
        return False
    for (clip, title), other, note in zip(rows, mix.clips, notes):
        numbers = own.takes.index(clip.take), own.decoders.index(clip.decoder), clip.start, clip.at, clip.length
        gains = [other.points(channel) or WHOLE for channel in range(made.takes.count)]
        same = numbers == (other.take, other.decoder, other.start, other.at, other.length)
        title = None if title is None else shortened(title, MOST_TITLE)
        if not same or [it or WHOLE for it in clip.points] != gains or title != note.title:
            return False
    return all(own.taps[it].tolist() == taps for it, taps in zip(own.decoders, mix.decoders))


def limit_of(mix: mix_texts.Mix) -> float | None:
    """The limit of a mix in dB, if it isn't the usual one."""
    if mix.limit == int(mix.full * 10 ** (LIMIT / 20)):
        return None
    level = 20 * np.log10(max(mix.limit, 1) / mix.full)
    rounded = (round(float(level), digits) for digits in range(7))
    return next((it for it in rounded if int(mix.full * 10 ** (it / 20)) == mix.limit), float(level))


def listed(name: str, text: str, mix: mix_texts.Mix, takes: list[Signals]) -> Listed:
    """The list of a mix, and of its text."""
    notes, said_curve = mix_texts.notes_in(text, len(mix.clips), name)
    curve = said_curve if said_curve in curves.RISING else USUAL
    rows = [line for it in notes for line in it.lines]
    if rows:
        try:
            text = "".join(f"{it}\n" for it in rows)
            if is_made(Made.of(name, text, curve), mix, notes):
                return Listed(text, curve, limit_of(mix), False)
        except Refused:
            pass  # the lines aren't those of this mix any more
    return Listed(Derived(name, mix, takes, notes).text(), USUAL, limit_of(mix), True)

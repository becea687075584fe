"""The text of a mix, what was asked for, for the null test (docs/NULL_TEST.md); and the mix of a project.

The mix of a project has the original takes, and none of the bits that these scripts made. Its sound is what `measuring`
compares masters with: the takes' sounds, switched, faded, or changed as the seam of a cut says (`clips`). All numbers
are whole: the low-passes of `hearing` are scaled so that they are as exact as the text allows."""
import textwrap
from collections.abc import Iterable
from functools import cached_property, lru_cache

import numpy as np
import tomlkit

from cuts import hearing
from cuts.clips import BITS, LOW, REST, SILENT, WHOLE, Clip, Decoder, clips_of
from cuts.crossfades import SPLIT
from cuts.gains import FULL, Points
from cuts.hearing import Band, lowpass
from cuts.projects import Project
from cuts.times import clock
from dsdarc_scripts.explained import shown_name

MOST_TAPS = 65_535
MOST_CLIPS = 1024
MOST_EVERY = 64
MOST_AUDIBLE = (1 << 31) - 1  # what the absolute values of taps add up to at most
MOST_DECODER = 1 << 28
DENSE = 2_822_400  # places a second that are judged at least
WIDER = 500  # Hz by which a low-pass is made wider until it hasn't too many taps
WIDTH = 116  # letters of a line of numbers


@lru_cache
def passing(rate: int, band: Band) -> np.ndarray:
    """The low-pass of a band, or the narrowest one that hasn't too many taps."""
    passed, stopped = band
    while len(taps := lowpass(rate, passed, stopped)) > MOST_TAPS:
        stopped += WIDER
    return taps


def centered(taps: np.ndarray, count: int) -> np.ndarray:
    """That many taps: with zeros around those that there are, or the middle ones of them."""
    more = (count - len(taps)) // 2
    return np.pad(taps, more) if more >= 0 else taps[-more:more]


def reach_at(rate: int) -> int:
    """How far from a place what is heard at it may be."""
    return len(passing(rate, (hearing.PASSED, hearing.STOPPED))) // 2


@lru_cache
def response(rate: int, decoder: Decoder) -> np.ndarray:
    """The taps of a decoder. Those of a whole sound add up to 1."""
    part, band = decoder
    if part == BITS:
        return np.ones(1)
    whole = passing(rate, band)
    if part == WHOLE:
        return whole
    both = np.convolve(passing(rate, SPLIT), whole)
    low = centered(both, min(len(both), MOST_TAPS))
    return low if part == LOW else centered(whole, len(low)) - low


def summing(taps: np.ndarray, total: int) -> np.ndarray:
    """Taps that add up to 1 as whole numbers that add up to another number. So do the first of them nearly: what rounding
    adds is high above the audio band, and the sounds of takes stay as loud as they are."""
    return np.diff(np.rint(np.cumsum(taps) * total), prepend=0).astype(np.int64)


def without_zeros(taps: np.ndarray) -> np.ndarray:
    """The same taps around the same middle, as many as are needed."""
    half = len(taps) // 2
    return centered(taps, 2 * int(np.abs(np.flatnonzero(taps) - half).max(initial=0)) + 1)


class Mix:
    """The clips of a mix, and what decodes and judges them. The clips number takes by the keys of `names`, which are the
    takes that the text names, in this order."""

    def __init__(self, rate: int, clips: list[Clip], names: dict[int, str], length: int = 0) -> None:
        self.rate, self.clips = rate, clips
        self.length = length or max(it.stop for it in clips)
        self.reach = reach_at(rate)
        self.every = min(max(rate // DENSE, 1), MOST_EVERY)
        self.decoders = list(dict.fromkeys(it.decoder for it in clips))
        self.takes, self.names = list(names), list(names.values())

    @cached_property
    def unit(self) -> int:
        """Full scale of decoded sounds."""
        rows = [response(self.rate, it) for it in self.decoders]
        return min(int((MOST_DECODER - 2 * len(it)) / np.abs(it).sum()) for it in rows)

    @cached_property
    def audible(self) -> np.ndarray:
        """The taps of the low-pass of what can be heard."""
        taps = passing(self.rate, (hearing.PASSED, hearing.STOPPED))
        return np.rint(taps * (MOST_AUDIBLE - 4 * len(taps)) / np.abs(taps).sum()).astype(np.int64)

    @cached_property
    def taps(self) -> dict[Decoder, np.ndarray]:
        """The taps of each decoder, without zeros at both ends."""
        return {it: without_zeros(self.taps_of(it)) for it in self.decoders}

    def taps_of(self, decoder: Decoder) -> np.ndarray:
        """The taps of a decoder. Those of both parts of a sound add up to those of the whole."""
        part, band = decoder
        if part != REST:
            return summing(response(self.rate, decoder), self.unit)
        low, whole = self.taps_of((LOW, band)), self.taps_of((WHOLE, band))
        return centered(whole, len(low)) - low

    @property
    def full(self) -> int:
        """Full scale of a residual."""
        return 2 * self.unit * int(self.audible.sum())

    def limit(self, level: float) -> int:
        """The greatest residual that isn't louder than a level (dB to full scale)."""
        return int(self.full * 10 ** (level / 20))


def mix_of(project: Project) -> Mix:
    """The mix of a project, which names none of the takes that were made."""
    clips = clips_of(project, reach_at(project.rate))
    made = {it for it, record in enumerate(project.records) if record or project.shifts[it]}
    heard = {it.take for it in clips}
    names = {it: name for it, name in enumerate(project.names) if it in heard or it not in made}
    return Mix(project.rate, clips, names, project.length())


# The text.

SAID = {WHOLE: "", LOW: f", up to {SPLIT[0] // 1000} kHz", REST: f", above {SPLIT[0] // 1000} kHz"}
SAID[BITS] = ", its bits as they are"


def wrapped(items: list[str]) -> str:
    """An array of numbers or pairs, in lines that aren't too long."""
    flat = ", ".join(items)
    if len(flat) <= WIDTH:
        return f"[{flat}]"
    rows, length = [[items[0]]], len(items[0])
    for number, it in enumerate(items[1:], 2):
        length += 2 + len(it)
        if length + (number < len(items)) > WIDTH:  # a comma comes after all but the last one
            rows.append([])
            length = len(it)
        rows[-1].append(it)
    return "[\n  " + ",\n  ".join(map(", ".join, rows)) + "\n]"


def array_of(values: np.ndarray) -> str:
    return wrapped([str(it) for it in values.tolist()])


def points_of(points: Points) -> str:
    return wrapped([f"[{place}, {gain}]" for place, gain in points or [(0, FULL)]])


def gains_of(rows: list[Points]) -> str:
    """The key of a clip's gains."""
    if all(it == rows[0] for it in rows):
        return f"gain = {points_of(rows[0])}\n" if rows[0] else ""
    return "gains = [\n" + "".join(f"{textwrap.indent(points_of(it), '  ')},\n" for it in rows) + "]\n"


def clip_text(mix: Mix, clip: Clip, words: str = "", notes: str = "") -> str:
    """The table of a clip, with more words in the comment before it, and with lines of comment inside."""
    number, heard = mix.takes.index(clip.take), [str(it) for it, points in enumerate(clip.points) if points != SILENT]
    what = f"{shown_name(mix.names[number])} from {clock(clip.at, mix.rate)} to {clock(clip.stop, mix.rate)}"
    alone = "" if len(heard) == len(clip.points) else f", channel {' and '.join(heard) or 'none'} alone"
    text = f"\n# {what}{SAID[clip.decoder[0]]}{alone}{words}\n[[mix.clip]]\n{notes}"
    places = {"take": number, "decoder": mix.decoders.index(clip.decoder)}
    places |= {"start": clip.start, "at": clip.at, "length": clip.length}
    return text + "".join(f"{key} = {it}\n" for key, it in places.items()) + gains_of(clip.points)


def decoder_text(mix: Mix, number: int, decoder: Decoder) -> str:
    part, (passed, stopped) = decoder
    what = f"passes {passed} Hz, stops {stopped} Hz{SAID[part]}" if part != BITS else "the bits as they are"
    return f"\n# Decoder {number}: {what}\n[[mix.decoder]]\ntaps = {array_of(mix.taps[decoder])}\n"


USE = """\
# master is from it, as heard, run this in the folder from which the takes are named:
#
#   dsdarc nulltest {name} MASTER
#
# It accepts a master if what is left is nowhere louder than `limit`, {limit:g} dB to full scale. The clips come after the
# taps of `audible`, and the decoders after the clips. Places are bits of the master; a gain of 1 is {full}.
"""


def head_of(what: str, limit: float, name: str) -> str:
    """The comment that says what a mix is, and how it is used."""
    return f"# {what} (docs/NULL_TEST.md). To find how far a\n" + USE.format(
        name=shown_name(name), limit=limit, full=FULL
    )


def mix_text(mix: Mix, head: str, limit: float, clips: Iterable[str]) -> str:
    """The text of a mix with a head, a limit (dB to full scale) and the tables of its clips."""
    takes = tomlkit.dumps({"takes": mix.names})
    return (
        f"{head}\n[mix]\n{takes}limit = {mix.limit(limit)}  # {limit:g} dB\n"
        f"unit = {mix.unit}\nevery = {mix.every}\naudible = {array_of(mix.audible)}\n"
        + "".join(clips)
        + "".join(decoder_text(mix, *it) for it in enumerate(mix.decoders))
    )


def text_of(mix: Mix, limit: float, project: str, name: str) -> str:
    """The text of the mix of a project. Its comment has the names of the project and of the text."""
    what = f"The mix that was asked for with {shown_name(project)}: where each take is heard"
    return mix_text(mix, head_of(what, limit, name), limit, [clip_text(mix, it) for it in mix.clips])

"""What the null test will find of a master before it is cut, and the limit that its mix gets.

The null test compares whole numbers place by place, which takes its time (`docs/NULL_TEST.md`). Here the same sums are
computed by Fourier transforms in floating point, with the same taps: they agree to a thousandth of a dB."""
import math

import numpy as np

from cuts import hearing
from cuts.clips import Clip, span_of
from cuts.gains import gain_row
from cuts.hearing import decibels
from cuts.masters import Planned
from cuts.mixes import Mix
from cuts.projects import Project, Spot


class Predicted:
    """The planned master of a project beside its mix."""

    def __init__(self, project: Project, mix: Mix) -> None:
        self.project, self.mix = project, mix
        self.master = Planned(project, ("bridge", "line"))
        self.audible = mix.audible / mix.audible.sum()
        self.decoders = {it: taps / mix.unit for it, taps in mix.taps.items()}
        self.ways = {it: number for number, it in enumerate(dict.fromkeys(map(way_of, mix.clips)))}

    def heard(self, first: int, stop: int) -> np.ndarray:
        """What is left at each place, full scale being 1, a row for each channel; nothing where it isn't judged."""
        reach, found = self.mix.reach, np.zeros((self.project.count, stop - first))
        low, high = first - reach, stop + reach
        errors, ways = self.compared(max(low, 0), min(high, self.mix.length))
        around = (0, 0), (max(low, 0) - low, high - min(high, self.mix.length))
        is_judged = self.judged(np.pad(ways, around, mode="edge"))
        for row, error, places in zip(found, np.pad(errors, around), is_judged):
            row[places] = hearing.convolved(error, self.audible)[places]
        return found

    def judged(self, ways: np.ndarray) -> np.ndarray:
        """The places that are judged: those that hear some that aren't of one way."""
        changes = np.pad(np.diff(ways, axis=1) != 0, ((0, 0), (1, 0))) | (ways < 0)
        sums = np.pad(np.cumsum(changes, axis=1), ((0, 0), (1, 0)))
        size = 2 * self.mix.reach
        # A change at the first place that is heard lies before it, unless that place is none's own.
        return (sums[:, size + 1 :] - sums[:, 1 : sums.shape[1] - size] > 0) | (ways[:, : ways.shape[1] - size] < 0)

    def compared(self, first: int, stop: int) -> tuple[np.ndarray, np.ndarray]:
        """How far the master is from the mix at places that it has, and of which way each is: -1 if it is none's."""
        signs = self.master.signs(first, stop)
        errors, ways = signs.copy(), np.full(signs.shape, -1)
        is_wrong = np.zeros(signs.shape, bool)
        for clip in self.mix.clips:
            low, high = max(first, clip.at), min(stop, clip.stop)
            if low >= high:
                continue
            part = slice(low - first, high - first)
            gains = np.stack([gain_row(it, low - clip.at, high - clip.at) for it in clip.points])
            taps = self.decoders[clip.decoder]
            reach, start = len(taps) // 2, low - clip.at + clip.start
            wide = self.project.takes[clip.take].signs(start - reach, start + high - low + reach)
            errors[:, part] -= gains * hearing.convolved(wide, taps)
            way, is_heard = self.ways[way_of(clip)], gains != 0
            is_other = (ways[:, part] >= 0) & (ways[:, part] != way)
            is_wrong[:, part] |= is_heard & (
                (gains != 1) | is_other | (wide[:, reach : reach + high - low] != signs[:, part])
            )
            ways[:, part] = np.where(is_heard, way, ways[:, part])
        return errors, np.where(is_wrong, -1, ways)


def way_of(clip: Clip) -> tuple[int, int]:
    """The take of a clip, and how far its bits are from their places."""
    return clip.take, clip.start - clip.at


BLOCK = 1 << 20  # places that are compared at a time


def levels(project: Project, mix: Mix) -> list[float]:
    """How loud the null test will find each cut in its loudest channel (dB): what is left within reach of it."""
    predicted, found = Predicted(project, mix), [0.0] * len(project.spots())
    spans = [within(project, it, mix.reach) for it in project.spots()]
    for first, stop in joined(spans):
        for low in range(first, stop, BLOCK):
            left = np.abs(predicted.heard(low, min(low + BLOCK, stop))).max(axis=0)
            for number, (one, other) in enumerate(spans):
                found[number] = max(found[number], left[max(one - low, 0) : max(other - low, 0)].max(initial=0.0))
    return [decibels(it) for it in found]


def within(project: Project, spot: Spot, reach: int) -> tuple[int, int]:
    """The places within reach of a cut."""
    low, high = span_of(project, spot)
    return max(low - reach, 0), min(high + reach, project.length())


def joined(spans: list[tuple[int, int]]) -> list[tuple[int, int]]:
    """Spans that follow each other, those that meet as one."""
    found: list[tuple[int, int]] = []
    for first, stop in spans:
        if found and first <= found[-1][1]:
            found[-1] = found[-1][0], max(found[-1][1], stop)
        else:
            found.append((first, stop))
    return found


# The limit of a mix: a margin above what README.md says that the loudest of each kind of cut clicks at. Of a cut that is
# louder, or of a kind that these scripts don't make quiet, only what the null test will find is known.

WORST = {"fade": -108.0, "butt": -108.0, "transition": -88.0, "link": -77.0}  # dB to full scale
MARGIN = 1.0  # dB
NOTHING = -120.0  # dB: what is quieter than this counts as this


def kind_of(project: Project, spot: Spot) -> str:
    return project.seam(spot.before + 1).kind if spot.role == "seam" else spot.role


def limit_of(project: Project, mix: Mix) -> tuple[float, str]:
    """The limit of a mix (dB to full scale), and a line if it is that of a cut which is louder than its kind."""
    found = []
    for number, (spot, level) in enumerate(zip(project.spots(), levels(project, mix))):
        worst = WORST.get(kind_of(project, spot), -np.inf)
        limit = worst if level <= worst else math.ceil(max(level, NOTHING))
        found.append((limit + MARGIN, level > worst, number, level))
    limit, is_louder, number, level = max(found)
    line = f"cut {number}: the null test will find {level:.1f} dB, so the limit of the mix is {limit:g} dB"
    return limit, line if is_louder else ""

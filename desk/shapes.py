"""How loud a clip is from its first place to its last: a line of levels with points, for all channels or for each, and a
fade at each end.

A mix text has a list of points for this, or one for each channel (docs/NULL_TEST.md). A level with fades by the curves of
`cuts/mix` is found again in such a list. Any other list is a line. A line with more than one point that also fades can't
be told from its points, so the text has it as a comment in the table of the clip:

    # shape = '{"line": [[0, 16777216], [2822400, 8388608]], "in": [56448, "s"], "out": null}'

Lines of single channels are `gains` there. A comment counts only if it gives just the points that are there."""
import json
from dataclasses import dataclass
from typing import Any

import numpy as np

from cuts import curves, list_mixes
from cuts.curves import Fade
from cuts.gains import FULL, Points
from dsdarc_scripts.outputs import Refused
from tools.null_testing.mixes import MOST_GAIN, MOST_PLACES, MOST_POINTS

Line = tuple[tuple[int, int], ...]
FLAT: Line = ((0, FULL),)  # a level of 1


def is_flat(line: Line) -> bool:
    """Whether a line is one level."""
    return len({gain for _, gain in line}) == 1


@dataclass(frozen=True)
class Shape:
    """A line of places and gains, counted from the clip's first place, for all channels or for each of them, and the
    fades at both ends."""

    lines: tuple[Line, ...] = (FLAT,)
    rise: Fade | None = None
    fall: Fade | None = None

    def line(self, channel: int) -> Line:
        return self.lines[channel if len(self.lines) > 1 else 0]

    def points(self, length: int, channel: int = 0) -> Points:
        """The points of a channel of a clip of some length."""
        line = self.line(channel)
        if is_flat(line):
            return curves.points_of(length, line[0][1], self.rise, self.fall)
        found = list(line)
        if self.rise or self.fall:
            found = self.both(line, length, 1)
            step = 1
            while len(found) > MOST_POINTS:
                step += 1
                found = self.both(line, length, step)
        return found

    def both(self, line: Line, length: int, step: int) -> Points:
        """The points of a line times the fades, with every so many of a curve's points."""
        places = {place for place, _ in line}
        factors: list[tuple[np.ndarray, np.ndarray]] = []
        if self.rise:
            row = thinned(curves.places_of(self.rise), step)
            factors.append((row, curves.RISING[self.rise.curve](row / self.rise.bits)))
        if self.fall:
            row = thinned(curves.places_of(self.fall), step)
            level = curves.RISING[self.fall.curve](row / self.fall.bits)
            factors.append(((length - row)[::-1], level[::-1]))
        for row, _ in factors:
            places |= set(row.tolist())
        all_places = np.array(sorted(it for it in places if it >= 0), np.int64)
        values = curves.gains_at(list(line), all_places).astype(np.float64)
        for row, level in factors:
            values *= np.interp(all_places, row, level)
        return list(zip(all_places.tolist(), np.rint(values).astype(np.int64).tolist()))

    def comment(self, length: int) -> str | None:
        """What a comment says of it, if its fades can't be told from its points."""
        rows = [self.points(length, channel) for channel in range(len(self.lines))]
        if not (self.rise or self.fall) or shape_of(rows, length, None) == self:
            return None
        return json.dumps(self.to_json())

    def to_json(self) -> dict[str, Any]:
        fades = {key: [it.bits, it.curve] if it else None for key, it in (("in", self.rise), ("out", self.fall))}
        rows = [[list(it) for it in line] for line in self.lines]
        lines: dict[str, Any] = {"line": rows[0]} if len(rows) == 1 else {"gains": rows}
        return lines | fades


def thinned(row: np.ndarray, step: int) -> np.ndarray:
    """Every so many places of a row, and its last one."""
    return np.unique(np.append(row[::step], row[-1]))


def shape_of(rows: list[Points], length: int, comment: str | None) -> Shape:
    """The shape of the points of a clip: one list for all channels, or one for each."""
    if comment is not None:
        try:
            found = from_json(json.loads(comment), length, len(rows))
            if all(found.points(length, channel) == row for channel, row in enumerate(rows)):
                return found
        except (ValueError, Refused):
            pass
    levels, fades = list[int](), dict[str, Fade]()
    for row in rows:
        gain, more = list_mixes.fitted(row, length) or (0, {})
        levels.append(gain)
        fades = fades or more  # a channel that is silent all along has none of its own
    shape = Shape(tuple(((0, it),) for it in levels), fades.get("in"), fades.get("out"))
    if all(same(shape.points(length, channel), row, length) for channel, row in enumerate(rows)):
        return shape
    return Shape(tuple(tuple(it) or FLAT for it in rows))


def same(one: Points, other: Points, length: int) -> bool:
    """Whether two lists give the same gain at every place of a clip."""
    places = np.array(sorted({0, length - 1, *(it for it, _ in [*one, *other] if 0 <= it < length)}))
    near = np.unique(np.clip(np.concatenate([places - 1, places, places + 1]), 0, length - 1))
    return np.array_equal(curves.gains_at(one, near), curves.gains_at(other, near))


def whole(value: object, least: int, most: int, what: str) -> int:
    """A whole number within limits."""
    if type(value) is not int or not least <= value <= most:
        raise Refused(f"{what} is a whole number from {least} to {most}")
    return value


def points_from(value: object, what: str) -> Line:
    """A list of places and gains."""
    if not isinstance(value, list) or not 1 <= len(value) <= MOST_POINTS:
        raise Refused(f"{what} has 1 to {MOST_POINTS} points")
    found, before = [], -1
    for it in value:
        if not isinstance(it, (list, tuple)) or len(it) != 2:
            raise Refused(f"{what}: a point is a place and a gain")
        place = whole(it[0], before + 1, MOST_PLACES, f"{what}: a place")
        found.append((place, whole(it[1], -MOST_GAIN, MOST_GAIN, f"{what}: a gain")))
        before = place
    return tuple(found)


def fade_from(value: object, length: int, what: str) -> Fade | None:
    """A fade, from its bits and the name of its curve."""
    if value is None:
        return None
    if not isinstance(value, list) or len(value) != 2 or value[1] not in curves.RISING:
        raise Refused(f"{what} has a number of bits and a curve: {', '.join(curves.RISING)}")
    bits = whole(value[0], 0, length, f"{what}: how many bits it takes")
    return Fade(bits, value[1]) if bits else None


def from_json(value: dict[str, Any], length: int, channels: int) -> Shape:
    """A shape as the page sends it: `line` has one line for all channels, and `gains` one for each."""
    rise = fade_from(value.get("in"), length, "the fade in")
    fall = fade_from(value.get("out"), length, "the fade out")
    if (rise.bits if rise else 0) + (fall.bits if fall else 0) > length:
        raise Refused("the fades of a clip take no longer than the clip")
    rows = value.get("gains")
    if rows is None:
        return Shape((points_from(value.get("line"), "the line of levels"),), rise, fall)
    if not isinstance(rows, list) or len(rows) != channels:
        raise Refused(f"gains has a list for each of {channels} channels")
    return Shape(tuple(points_from(it, "gains") for it in rows), rise, fall)

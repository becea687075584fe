"""The mix text: what it may hold, and its first fault (docs/NULL_TEST.md)."""
import itertools
import tomllib
from collections.abc import Callable, Iterable
from dataclasses import dataclass
from typing import Any

GAIN = 1 << 24  # a gain of 1
MOST_PLACES = 1 << 36
MOST_GAIN = 1 << 26
MOST_UNIT = 1 << 28
MOST_POINTS = 4096
MOST_TAPS = 65_535
MOST_OVERLAPPING = 64
MOST_NESTED = 80

Table = dict[str, Any]
Points = list[tuple[int, int]]


class MixFault(Exception):
    """A fault of the mix text: its name with a key or a number, and then where it is."""

    def __init__(self, name: str, where: str = "") -> None:
        super().__init__(f"Mix {name}" + (f": {where}" if where else ""))


@dataclass(frozen=True)
class Clip:
    """A part of a take and its place in the mix. Its gains are those of all channels, or a list for each channel; one
    without points is full gain."""

    take: int
    decoder: int
    start: int
    at: int
    length: int
    gain: Points
    gains: list[Points] | None

    @property
    def stop(self) -> int:
        """The place after its last one."""
        return self.at + self.length

    @property
    def offset(self) -> int:
        """How far a bit of the take is from its place in the mix."""
        return self.start - self.at

    def points(self, channel: int) -> Points:
        return self.gain if self.gains is None else self.gains[channel]


@dataclass(frozen=True)
class Mix:
    unit: int
    audible: list[int]
    limit: int
    every: int
    takes: list[str]
    decoders: list[list[int]]
    clips: list[Clip]

    @property
    def length(self) -> int:
        """How many places it has."""
        return max(it.stop for it in self.clips)

    @property
    def full(self) -> int:
        """Full scale of a residual."""
        return 2 * self.unit * sum(self.audible)


def is_number(value: object) -> bool:
    return type(value) is int


def is_list(value: object, is_item: Callable[[object], bool]) -> bool:
    """Whether a value is an array whose elements are all of a kind. An empty one is an array of each kind."""
    return isinstance(value, list) and all(map(is_item, value))


def are_numbers(value: object) -> bool:
    return is_list(value, is_number)


def are_points(value: object) -> bool:
    return is_list(value, are_numbers)


class Keys:
    """A table of the text, whose keys are read one by one: missing, of the wrong kind, or outside the limits."""

    def __init__(self, value: object, kind: str, where: str, known: Iterable[str]) -> None:
        if not isinstance(value, dict):
            raise MixFault(f"WrongKind {kind}", where)
        self.table, self.where = value, where
        if set(value) - set(known):
            names = ", ".join(sorted(map(repr, set(value) - set(known))))
            raise MixFault("UnknownKey", f"{names} in {where or kind}")

    def __contains__(self, key: str) -> bool:
        return key in self.table

    def limit(self, holds: bool, key: str) -> None:
        if not holds:
            raise MixFault(f"OutOfLimit {key}", self.where)

    def value(self, key: str, is_right: Callable[[object], bool]) -> Any:
        """The value at a key that must be there, of the right kind."""
        if key not in self.table:
            raise MixFault(f"MissingKey {key}", self.where)
        if not is_right(self.table[key]):
            raise MixFault(f"WrongKind {key}", self.where)
        return self.table[key]

    def number(self, key: str, least: int, most: int) -> int:
        found: int = self.value(key, is_number)
        self.limit(least <= found <= most, key)
        return found

    def taps(self, key: str, most: int) -> list[int]:
        found: list[int] = self.value(key, are_numbers)
        self.limit(len(found) % 2 == 1 and len(found) <= MOST_TAPS, key)
        self.limit(all(-(2**31) <= it < 2**31 for it in found) and sum(abs(it) for it in found) <= most, key)
        return found

    def array(self, key: str, is_item: Callable[[object], bool], most: int) -> list[Any]:
        found: list[Any] = self.value(key, lambda it: is_list(it, is_item))
        self.limit(1 <= len(found) <= most, key)
        return found

    def points(self, key: str, value: list[list[int]]) -> Points:
        """The points of one list of gains."""
        self.limit(1 <= len(value) <= MOST_POINTS and all(len(it) == 2 for it in value), key)
        found = [(place, gain) for place, gain in value]
        self.limit(all(0 <= place <= MOST_PLACES and abs(gain) <= MOST_GAIN for place, gain in found), key)
        self.limit(all(one[0] < other[0] for one, other in itertools.pairwise(found)), key)
        return found


def is_plain(value: object, depth: int = 0) -> bool:
    """Whether all numbers of a value fit 64 bits, and no value is nested too deep."""
    if is_number(value):
        assert isinstance(value, int)
        return -(2**63) <= value < 2**63
    if isinstance(value, (dict, list)):
        inner = value.values() if isinstance(value, dict) else value
        return depth <= MOST_NESTED and all(is_plain(it, depth + 1) for it in inner)
    return True


def parsed(data: bytes) -> Table:
    """The TOML document."""
    try:
        found = tomllib.loads(data.decode("utf-8-sig"))
    except RecursionError:
        raise MixFault("NotToml", "values are nested too deep") from None
    except ValueError as error:
        raise MixFault("NotToml", str(error)) from None
    if not is_plain(found):
        raise MixFault("NotToml", "a number doesn't fit 64 bits, or values are nested too deep")
    return found


CLIP_KEYS = ("take", "decoder", "start", "at", "length", "gain", "gains")
MIX_KEYS = ("unit", "audible", "limit", "every", "takes", "decoder", "clip")


def decoder_of(value: object, number: int) -> list[int]:
    return Keys(value, "decoder", f"decoder {number}", ["taps"]).taps("taps", 2**28)


def take_of(keys: Keys, number: int, takes: int) -> int:
    """The number of a clip's take."""
    found: int = keys.value("take", is_number)
    if not 0 <= found < takes:
        raise MixFault(f"NoTake {number}", f"it names take {found}, and there are {takes}")
    return found


def gains_of(keys: Keys) -> tuple[Points, list[Points] | None]:
    """The gains of all channels alike, or those of each channel."""
    gain = keys.points("gain", keys.value("gain", are_points)) if "gain" in keys else []
    if "gains" not in keys:
        return gain, None
    keys.limit("gain" not in keys, "gains")
    lists: list[list[list[int]]] = keys.value("gains", lambda it: is_list(it, are_points))
    keys.limit(len(lists) > 0, "gains")
    return [], [keys.points("gains", it) for it in lists]


def clip_of(value: object, number: int, takes: int, decoders: int) -> Clip:
    keys = Keys(value, "clip", f"clip {number}", CLIP_KEYS)
    take = take_of(keys, number, takes)
    decoder = keys.number("decoder", 0, decoders - 1) if "decoder" in keys else 0
    start, at = keys.number("start", 0, MOST_PLACES), keys.number("at", 0, MOST_PLACES)
    length = keys.number("length", 1, MOST_PLACES - at)
    return Clip(take, decoder, start, at, length, *gains_of(keys))


def most_overlapping(clips: list[Clip]) -> int:
    """How many clips there are at the place with most of them."""
    # Where clips end at a place, this counts before those that begin there.
    changes = sorted([(it.at, 1) for it in clips] + [(it.stop, -1) for it in clips])
    return max(itertools.accumulate(change for _, change in changes))


def read_mix(data: bytes) -> Mix:
    """The mix of a text, or its first fault."""
    document = Keys(parsed(data), "the document", "", ["mix"])
    keys = Keys(document.value("mix", lambda it: isinstance(it, dict)), "mix", "", MIX_KEYS)
    unit, audible = keys.number("unit", 1, MOST_UNIT), keys.taps("audible", 2**31 - 1)
    keys.limit(sum(audible) > 0, "audible")
    limit = keys.number("limit", 0, 2**63 - 1)
    every = keys.number("every", 1, 64) if "every" in keys else 1
    takes = keys.array("takes", lambda it: isinstance(it, str), 16)
    decoders = keys.array("decoder", lambda _: True, 16)
    tables = keys.array("clip", lambda _: True, 1024)
    taps = [decoder_of(it, number) for number, it in enumerate(decoders)]
    clips = [clip_of(it, number, len(takes), len(taps)) for number, it in enumerate(tables)]
    keys.limit(most_overlapping(clips) <= MOST_OVERLAPPING, "clip")
    return Mix(unit, audible, limit, every, takes, taps, clips)

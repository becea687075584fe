"""Which filter plays a file: a path, a ready filter's name, what is wished for, or taps."""
from __future__ import annotations

import builtins
import dataclasses
import enum
import operator
import os
import re
import sys
import warnings
from collections.abc import Iterable, Iterator
from typing import Any, NamedTuple, SupportsIndex

from dsdarc._library import HERE, Fault, Player, found, rates_of, refusal_of

INDEX = "index.txt"
BEST = "88200/24,96000/24"
WISH = re.compile(r"([1-9]\d{0,9})/([1-9]\d?)", re.ASCII)
LOUDER = 6  # decibels

Path = str | bytes | os.PathLike[str] | os.PathLike[bytes]


class FilterWarning(UserWarning):
    """A filter plays a file of another rate than those that it is for: it is heard at other frequencies."""


class Ready(enum.Enum):
    """What is played by if no filter is named: what DSDARC_FILTER says, or the ready filter for 88200/24 or 96000/24."""

    BEST = BEST


# The limits of a filter, in the order in which the library looks at them.
_LIMITS = {
    "taps": "the taps are 1 to 4096 whole numbers of 32 bits with an absolute sum of at most 2**30",
    "factor": "the factor is a multiple of 8 from 8 to 1024, and not {factor}",
    "delay": "the delay is at least 0 and less than the number of taps, and not {delay}",
    "shift": "the shift is from 0 to 30, and not {shift}",
    "width": "the width is 16 or 24, and not {width}",
}
_HARMLESS = {"factor": 8, "delay": 0, "shift": 0, "width": 16}


@dataclasses.dataclass(frozen=True, init=False, repr=False)
class Filter:
    """A filter of your own: its taps, the first for the newest bit, and what a project text says beside them. Sample `j`
    is the sum over `k` of `taps[k]` times the bit at `j * factor + delay - k`, which counts +1 or -1, divided by
    `2**shift`, rounded, and clipped to the width. The delay is half of what the taps span if it isn't given. ValueError
    is raised for what the library refuses, with the name of its fault."""

    taps: tuple[int, ...]
    factor: int
    shift: int
    width: int
    delay: int

    def __init__(
        self,
        taps: Iterable[SupportsIndex],
        factor: SupportsIndex,
        shift: SupportsIndex = 0,
        width: SupportsIndex = 24,
        delay: SupportsIndex | None = None,
    ) -> None:
        if not isinstance(taps, Iterable) or getattr(taps, "ndim", 1) == 0:
            raise ValueError(f"WrongKind: taps are whole numbers, and not {taps!r}")
        numbers = tuple(_whole("taps", it) for it in taps)
        middle = max(len(numbers) - 1, 0) // 2
        given = {"factor": factor, "shift": shift, "width": width, "delay": middle if delay is None else delay}
        for name, number in given.items():
            object.__setattr__(self, name, _whole(name, number))
        object.__setattr__(self, "taps", numbers)
        self._demand()

    @property
    def text(self) -> bytes:
        """The project text."""
        return _text(self.taps, dataclasses.asdict(self))

    def _demand(self) -> None:
        """Raises the fault for which the library refuses the filter, with the first number that it refuses alone."""
        fault, numbers = refusal_of(self.text), dataclasses.asdict(self)
        if fault is None:
            return
        for name, limit in _LIMITS.items():
            taps = self.taps if name in ("taps", "delay") else (1,)
            if refusal_of(_text(taps, _HARMLESS | {name: numbers[name]})) is not None:
                raise ValueError(f"{fault}: {limit.format(**numbers)}")
        raise ValueError(f"{fault}: {self!r}")

    def __repr__(self) -> str:
        rest = f"factor={self.factor}, shift={self.shift}, width={self.width}, delay={self.delay}"
        return f"<dsdarc.Filter of {len(self.taps)} taps, {rest}>"


def _whole(name: str, number: SupportsIndex) -> int:
    try:
        return operator.index(number)
    except TypeError:
        each = "taps are whole numbers" if name == "taps" else f"the {name} is a whole number"
        raise ValueError(f"WrongKind: {each}, and not {number!r}") from None


def _text(taps: tuple[int, ...], numbers: dict[str, Any]) -> bytes:
    """The project text of a filter."""
    lines = [f"taps = {list(taps)}", *(f"{name} = {numbers[name]}" for name in _HARMLESS)]
    return "\n".join(["[decimate]", *lines, ""]).encode()


def _folders() -> Iterator[str]:
    """Where ready filters may be."""
    if os.environ.get("DSDARC_FILTERS"):
        yield os.environ["DSDARC_FILTERS"]
    yield os.path.join(HERE, "filters")
    for up in range(2, 6):
        yield os.path.join(HERE, *[".."] * up, "share", "dsdarc", "filters")
    yield os.path.join(HERE, "..", "..", "filters")
    yield "/usr/share/dsdarc/filters"


def _index_in(folder: str) -> bytes:
    """The index of a folder of filters; empty if there is none."""
    try:
        with builtins.open(os.path.join(folder, INDEX), "rb") as file:
            return file.read()
    except OSError:
        return b""


def _ready(name: str) -> str | None:
    """The path of a ready filter, or None."""
    for folder in _folders():
        path = os.path.join(folder, f"{name}.toml")
        if os.path.isfile(path):
            return path
    return None


def _wishes(wish: str) -> list[tuple[int, int]]:
    """The rates and widths that are wished for, the best first."""
    parts = [WISH.fullmatch(it) for it in wish.split(",")]
    wishes = [(int(it[1]), int(it[2])) for it in parts if it]
    if len(wishes) < len(parts):
        raise ValueError(f"{wish!r} is no RATE/BITS, as 88200/24 is")
    return wishes


def _none_for(wish: str, rate: int) -> ValueError:
    return ValueError(f"no ready filter plays {rate} Hz to {wish.replace(',', ' or ')}")


def filter_for(wish: str, rate: int, louder: bool = False) -> str:
    """The path of the ready filter that plays this stored rate (hertz) to a wish as "88200/24", or to the first of
    several, with commas between them, for which there is one."""
    path = _found_for(wish, rate, LOUDER if louder else 0)
    if path is None:
        raise _none_for(wish, rate)
    return path


def _found_for(wish: str, rate: int, gain: int) -> str | None:
    """The path of the ready filter for a wish in the folders of filters; None if there is none."""
    there = [(folder, _index_in(folder)) for folder in _folders()]
    for out, width in _wishes(wish):
        for folder, index in there:
            name = found(index, rate, out, width, gain)
            if name is not None:
                return os.path.join(folder, name)
    return None


class Chosen(NamedTuple):
    """The filter that plays a file: its project text, what it is to the user, and its path, if it has one. Or, without a
    text, the rate and width for which the library itself has the filter."""

    what: str
    text: bytes = b""
    path: Path | None = None
    ready: tuple[int, int] | None = None

    def choose(self, player: Player, name: str) -> bool:
        """Has a player play the file of this name by the filter; whether there is such a filter."""
        if self.ready is not None:
            return player.filter_ready(*self.ready, 0, name)
        try:
            player.filter(self.text, self.what)
        except Fault as fault:
            if fault.name != "RateNotDivided":
                raise
            raise Fault(fault.name, name) from None
        return True


def choose(filter: Path | Filter | Ready, player: Player, rate: int, name: str) -> Chosen:
    """Has a player play the file of this name and rate, whose sound it knows, by a filter: by which."""
    if isinstance(filter, Ready):
        filter = os.environ.get("DSDARC_FILTER") or filter.value
    if isinstance(filter, Filter):
        each = [Chosen(repr(filter), filter.text)]
    elif isinstance(filter, str) and re.fullmatch(r"\d+/\d+(,\d+/\d+)*", filter, re.ASCII):
        each = _wished(filter, rate)
    else:
        each = [_chosen_at(_path_of(filter))]
    for it in each:
        if it.choose(player, name):
            return it
    raise _none_for(str(filter), rate)


def _wished(wish: str, rate: int) -> list[Chosen]:
    """The filters for a wish: the one that is found in a folder, or else those that the library itself may have."""
    path = _found_for(wish, rate, 0)
    return [Chosen(wish, ready=it) for it in _wishes(wish)] if path is None else [_chosen_at(path)]


def _chosen_at(path: Path) -> Chosen:
    with builtins.open(path, "rb") as text:
        return Chosen(f"the filter {os.fsdecode(path)}", text.read(), path)


def _path_of(filter: Path) -> Path:
    if not isinstance(filter, (str, bytes, os.PathLike)):
        raise TypeError(f"a filter is a path, a name or RATE/BITS, and not {type(filter).__name__}")
    if isinstance(filter, str) and os.sep not in filter and not os.path.exists(filter):
        path = _ready(filter.removesuffix(".toml"))
        if path is None:
            raise FileNotFoundError(f"there is no ready filter {filter!r}")
        return path
    return filter


def warn_of_rate(path: Path, rate: int, name: str) -> None:
    """Warns if an index beside a filter says that it is for other rates."""
    plain = os.fsdecode(path)
    for each in (plain, os.path.realpath(plain)):
        rates = rates_of(_index_in(os.path.dirname(each) or os.curdir), os.path.basename(each))
        if rates:
            break
    if rates and rate not in rates:
        made_for = " or ".join(map(str, rates))
        said = f"the filter {plain} is for files of {made_for} Hz, and {name or 'the file'} has {rate} Hz"
        warnings.warn(said, FilterWarning, stacklevel=level())


def level() -> int:
    """How many calls up the caller of this package is."""
    frame, count = sys._getframe(1), 1
    while frame.f_back is not None and os.path.dirname(frame.f_code.co_filename) == os.path.dirname(__file__):
        frame, count = frame.f_back, count + 1
    return count

"""Seams: bits between two cues in which the sound goes over from one take to the other.

All seams of a project lie in one take, the take of seams, and each is a cue of it. What a seam is, that take says in a
comment (the chunk COMT of DSDIFF), a TOML text: a project has no keys for it. `kinds` are

    fade        new bits, in which the sound is faded from the one take to the other
    butt        new bits, in whose midst the sound changes
    transition  in each channel bits of the first take, a link, and bits of the second

A comment that can't be read is none, and a cue that isn't just what a comment says is a usual one."""
import hashlib
import re
import tomllib
from collections.abc import Iterator
from dataclasses import asdict, dataclass, field, replace
from typing import Any

import numpy as np
import tomlkit

from cuts.crossfades import Crossfade
from cuts.takes import Held, Signals, Take

HEAD = b"# What the cues of this take are, for dsdarc's cuts/\n"
KINDS = ("fade", "butt", "transition")
LEFT_OUT = {"slow": 0, "sum": ""}  # what a row leaves out, by the value that means the same
SUM = re.compile(r"(?:[0-9a-f]{64})?")


@dataclass(frozen=True)
class Seam:
    """The bits of the take of seams from `first` on. The wished place of the cut is `before` bits after the end of the
    cue before, and `after` bits before the start of the cue after. `middles` are counted from the first bit. A
    transition has a link near the middle of each channel: of the take before or after (0 or 1), its first bit there,
    its length, and its own middle as a place in the seam. What is above 22 kHz changes within `slow` bits, unless that is
    0. `sum` is that of its bits (`sum_of`), or empty if it isn't known."""

    first: int
    length: int
    kind: str
    before: int
    after: int
    ramp: float
    power: bool
    middles: list[float]
    links: list[list[int]] = field(default_factory=list)
    slow: float = 0.0
    sum: str = ""

    @property
    def ends(self) -> tuple[int, int]:
        """Its first bit in the take of seams, and the place after its last."""
        return self.first, self.first + self.length

    @property
    def crossfade(self) -> Crossfade:
        return Crossfade(self.ramp, self.power, self.middles, self.slow)

    @property
    def is_owned(self) -> bool:
        """Whether its bits are those of the takes around it."""
        return self.kind == "transition"


def text_of(seams: list[Seam]) -> bytes:
    """The comment about seams."""
    return HEAD + tomlkit.dumps({"seam": [row_of(it) for it in seams]}).encode()


def row_of(seam: Seam) -> dict:
    """The row that says a seam."""
    return {key: it for key, it in asdict(seam).items() if key not in LEFT_OUT or it != LEFT_OUT[key]}


def sum_of(rows: np.ndarray) -> str:
    """The SHA-256 of bits: of each channel whole bytes, the earliest bit the most significant, zeros after the last."""
    return hashlib.sha256(np.packbits(rows.astype(np.uint8), axis=1).tobytes()).hexdigest()


def is_spoilt(seam: Seam, take: Signals) -> bool:
    """Whether a take hasn't the bits of its seam that were written."""
    return bool(seam.sum) and sum_of(take.stored(*seam.ends)) != seam.sum


def are_numbers(values: object, kinds: tuple[type, ...]) -> bool:
    return isinstance(values, list) and all(type(it) in kinds for it in values)


def is_seam(row: object, count: int) -> bool:
    """Whether a row of a comment is a seam of `count` channels."""
    if not isinstance(row, dict) or set(row) | set(LEFT_OUT) != set(Seam.__dataclass_fields__):
        return False
    wholes = [row[it] for it in ("first", "length", "before", "after")]
    links = row["links"]
    is_transition = row["kind"] == "transition"
    return (
        are_numbers(wholes, (int,))
        and all(0 <= it < 1 << 40 for it in wholes)
        and row["kind"] in KINDS
        and all(are_numbers([it], (int, float)) and 0 <= it < 1 << 40 for it in (row["ramp"], row.get("slow", 0)))
        and type(row["power"]) is bool
        and isinstance(row.get("sum", ""), str)
        and SUM.fullmatch(row.get("sum", "")) is not None
        and are_numbers(row["middles"], (int, float))
        and len(row["middles"]) == count
        and all(0 <= it <= row["length"] for it in row["middles"])
        and isinstance(links, list)
        and len(links) == (count if is_transition else 0)
        and all(is_link(it) for it in links)
    )


def is_link(values: Any) -> bool:
    return are_numbers(values, (int,)) and len(values) in (3, 4) and values[0] in (0, 1) and min(values) >= 0


def seam_of(row: dict) -> Seam:
    """The seam that a row says. A link without a middle of its own has that of its channel."""
    links = [[*it, *([int(middle)] if len(it) == 3 else [])] for it, middle in zip(row["links"], row["middles"])]
    named: dict[str, Any] = {**row, "links": links}
    return Seam(**named)


def rows_of(take: Signals) -> Iterator[Any]:
    """What a take says of each of its seams; nothing for a comment that can't be read."""
    for comment in take.comments() if isinstance(take, Take) else ():
        if comment.startswith(HEAD):
            try:
                rows = tomllib.loads(comment.decode()).get("seam", [])
            except (ValueError, RecursionError):
                rows = None
            yield from rows if isinstance(rows, list) else [None]


def seams_of(take: Signals) -> dict[tuple[int, int], Seam]:
    """The seams of a take by their ends; none of one that isn't a take of seams."""
    found = [seam_of(it) for it in rows_of(take) if is_seam(it, take.count)]
    return {it.ends: it for it in reversed(found)}


def is_unread(take: Signals) -> bool:
    """Whether a take says of its seams what can't be read."""
    return not all(is_seam(it, take.count) for it in rows_of(take))


class Seams:
    """The take of seams as it is made: the seams that a project has, and those that are added."""

    def __init__(self, name: str, old: Signals, seams: dict[tuple[int, int], Seam]) -> None:
        self.take = Held(name, old.rate, old.stored(0, old.bits).astype(np.uint8))
        self.seams = dict(seams)

    def state(self) -> tuple:
        """What it holds, to be restored."""
        return self.take.rows, dict(self.seams)

    def restore(self, state: tuple) -> None:
        """Lets it hold what it held."""
        self.take.rows = state[0]
        self.seams.clear()
        self.seams.update(state[1])

    def add(self, seam: Seam, signs: np.ndarray) -> None:
        """Adds a seam, whose first bit is the next one of the take."""
        rows = (signs > 0).astype(np.uint8)
        self.take.add(rows)
        self.seams[seam.ends] = replace(seam, sum=sum_of(rows))

    def stored(self, used: list[Seam]) -> bytes:
        """The file, which says what these seams are."""
        return self.take.dsdiff([text_of(used)])

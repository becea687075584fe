"""Takes as signals: a stored 1 is +1, a stored 0 is -1, and outside of a recording there is 0. Only what is asked for
is read, by dsdarc_scripts.channels."""
import itertools
import os
import stat
import struct
import tomllib
from collections.abc import Callable
from dataclasses import asdict, dataclass
from functools import cached_property
from pathlib import Path
from typing import BinaryIO

import numpy as np
import tomlkit

from cuts import hearing
from dsdarc_scripts import channels, dsdiffs
from dsdarc_scripts.explained import shown_name
from dsdarc_scripts.outputs import Refused


Unread = channels.Unread
MOST_COMMENTS = 1 << 24  # bytes of a chunk of comments that is read


def sound_of(file: BinaryIO) -> channels.Sound:
    """The sound of a file that dsdarc would read, as far as its headers say."""
    try:
        sound = channels.sound_of(file)
    except (struct.error, LookupError, ArithmeticError, ValueError, MemoryError, OSError):
        raise Unread("its heads say what can't be") from None
    if not 1 <= sound.count <= 6 or not 1_000_000 <= sound.rate <= 50_000_000:
        raise Unread("it has not 1 to 6 channels, or no rate from 1 to 50 MHz")
    is_part = sound.width is None and (sound.stop - sound.start) % sound.count
    if sound.width not in (None, 1, 8) or sound.bits > 2**36 or is_part:
        raise Unread("its heads say what can't be")
    if sound.stop > os.fstat(file.fileno()).st_size:
        raise Unread("its sound is cut")
    return sound


class Signals:
    """Bits of some channels: their rate, the number of channels (count) and of the bits of each."""

    name: str
    rate: int
    count: int
    bits: int

    @cached_property
    def bands(self) -> list[hearing.Band]:
        """Up to where its sound goes in each channel."""
        return hearing.bands_of(self)

    def stored(self, first: int, stop: int) -> np.ndarray:
        """The bits of all channels from `first` to `stop` - 1, which lie inside: 0 and 1, a row for each channel."""
        raise NotImplementedError

    def signs(self, first: int, stop: int) -> np.ndarray:
        """The signals of all channels from `first` to `stop` - 1, which may lie outside."""
        return self.put_signs(np.zeros((self.count, stop - first)), first)

    def put_signs(self, zeros: np.ndarray, first: int) -> np.ndarray:
        """The same from `first` on, in an array of zeros with a row for each channel."""
        low, high = max(first, 0), min(first + zeros.shape[1], self.bits)
        if low < high:
            part = zeros[:, low - first : high - first]
            part[:] = self.stored(low, high)
            part *= 2
            part -= 1
        return zeros


class Take(Signals):
    """A DSDIFF or DSF file that is open."""

    def __init__(self, path: str | Path) -> None:
        self.name = str(path)
        if not stat.S_ISREG(os.stat(path).st_mode):
            raise Unread("it is no file")
        self.file = open(path, "rb")
        self.sound = sound_of(self.file)
        self.rate, self.count, self.bits = self.sound.rate, self.sound.count, self.sound.bits

    def stored(self, first: int, stop: int) -> np.ndarray:
        start = first // 8 * 8
        try:
            spans = channels.span(self.file, self.sound, start, stop)
        except Unread as error:
            raise Unread(f"{shown_name(self.name)}: {error}") from None
        rows = [np.unpackbits(np.frombuffer(it, np.uint8))[first - start : stop - start] for it in spans]
        return np.stack(rows)

    def comments(self) -> list[bytes]:
        """The comments of a DSDIFF file that lie after its sound, as far as they are whole."""
        if self.sound.width is not None:
            return []
        self.file.seek(self.sound.stop + (self.sound.stop - self.sound.start) % 2)
        while len(head := self.file.read(12)) == 12:
            name, size = struct.unpack(">4sQ", head)
            if size > MOST_COMMENTS:
                return []
            if name == b"COMT":
                return dsdiffs.comment_texts(self.file.read(size))
            self.file.seek(size + size % 2, os.SEEK_CUR)
        return []


def opened(name: str, what: str) -> Take:
    """A take, which is found from the folder that the script runs in; a fault says what it is."""
    try:
        return Take(name)
    except (Unread, OSError, ValueError) as error:
        raise Refused(f"{what}: {getattr(error, 'strerror', None) or error}") from None


def unlike(one: Signals, other: Signals) -> tuple[str, str] | None:
    """What differs of two takes, their rates or numbers of channels: as each has it, or nothing."""
    rates = f"{one.rate} Hz", f"{other.rate} Hz"
    counts = ["1 channel" if it.count == 1 else f"{it.count} channels" for it in (one, other)]
    rows = [(mine, its) for mine, its in (rates, counts) if mine != its]
    return (" and ".join(it for it, _ in rows), " and ".join(it for _, it in rows)) if rows else None


class Held(Signals):
    """A take in memory, of rows of 0 and 1."""

    def __init__(self, name: str, rate: int, rows: np.ndarray) -> None:
        self.name, self.rate, self.rows = name, rate, rows
        self.bands = [hearing.USUAL] * len(rows)  # as of the file, which is known by what it says of seams

    @property
    def count(self) -> int:  # type: ignore[override]
        return len(self.rows)

    @property
    def bits(self) -> int:  # type: ignore[override]
        return self.rows.shape[1]

    def stored(self, first: int, stop: int) -> np.ndarray:
        return self.rows[:, first:stop]

    def add(self, rows: np.ndarray) -> None:
        """Appends bits, and repeats the last ones up to a whole byte."""
        spare = -(self.bits + rows.shape[1]) % 8
        self.rows = np.concatenate([self.rows, np.pad(rows, ((0, 0), (0, spare)), mode="edge")], axis=1)

    def dsdiff(self, comments: list[bytes]) -> bytes:
        """The file, whose bits are whole bytes."""
        return dsdiff_of(self.rate, [np.packbits(it).tobytes() for it in self.rows], dsdiffs.comments(comments))


def dsdiff_of(rate: int, sounds: list[bytes], more: bytes = b"") -> bytes:
    """The DSDIFF file of channels that are given as their bytes, the earliest bit the most significant."""
    laced = np.stack([np.frombuffer(it, np.uint8) for it in sounds], axis=1).tobytes()
    return dsdiffs.dsdiff(rate, len(sounds), laced, more=more)


# Takes whose channels are shifted against each other: what follows a cut that was placed with `--between`.
#
# Such a take has the bits of another, its source, and as many. In each region of it a channel's bits come some bits
# early. The cues of a take of this kind lie in regions of their own, far from their ends. What it is, it says in a
# comment (the chunk COMT of DSDIFF), a TOML text: a project has no keys for it. A comment that can't be read is none.

HEAD = b"# A take whose channels are shifted, for dsdarc's cuts/\n"
MOST = 1  # bits that a channel comes early
PIECE = 1 << 21  # bits of each channel that are written at a time

# Rows of the source from one place to another, which may lie outside of it.
Reading = Callable[[int, int], np.ndarray]


@dataclass(frozen=True)
class Region:
    """The bits from `first` to `stop` - 1, and how many bits early each channel comes there."""

    first: int
    stop: int
    early: list[int]


@dataclass(frozen=True)
class Shift:
    """The name of the source, and the regions in their order."""

    take: str
    regions: list[Region]

    def region(self, first: int, stop: int) -> Region:
        """The region in which some bits lie."""
        return next((it for it in self.regions if it.first <= first and stop <= it.stop), self.regions[0])

    def rows(self, read: Reading, first: int, stop: int) -> np.ndarray:
        """The rows of the take, of those of its source."""
        parts = []
        for number, it in enumerate(self.regions):
            low = first if number == 0 else max(first, it.first)
            high = stop if number == len(self.regions) - 1 else min(stop, it.stop)
            if low < high:
                wide = read(low, high + MOST)
                parts.append(np.stack([row[more : more + high - low] for row, more in zip(wide, it.early)]))
        return np.concatenate(parts, axis=1)

    @property
    def text(self) -> bytes:
        """The comment of the take."""
        return HEAD + tomlkit.dumps(asdict(self)).encode()


def regions_of(used: list[Region], bits: int, least: int) -> list[Region] | None:
    """Regions of a take that hold the used ones, and end in the middle between two that differ; none if such are nearer
    than `least` to each other, or meet."""
    joined: list[Region] = []
    for it in sorted(used, key=lambda it: it.first):
        last = joined[-1] if joined else it
        if joined and it.early == last.early:
            joined[-1] = Region(last.first, max(last.stop, it.stop), it.early)
        elif joined and it.first - last.stop < least:
            return None
        else:
            joined.append(it)
    middles = [(one.stop + other.first) // 2 for one, other in itertools.pairwise(joined)]
    return [Region(first, stop, it.early) for it, first, stop in zip(joined, [0, *middles], [*middles, bits])]


def is_region(row: object, count: int) -> bool:
    if not isinstance(row, dict) or set(row) != set(Region.__dataclass_fields__) or not isinstance(row["early"], list):
        return False
    wholes = [row["first"], row["stop"], *row["early"]]
    is_whole = all(type(it) is int and it >= 0 for it in wholes)
    return is_whole and len(row["early"]) == count and all(it <= MOST for it in row["early"])


def are_regions(rows: object, take: Signals) -> bool:
    """Whether rows of a comment are the regions of a take, one after the other."""
    if not isinstance(rows, list) or not rows or not all(is_region(it, take.count) for it in rows):
        return False
    ends = [0, *(it["stop"] for it in rows)]
    follow = all(row["first"] == end < row["stop"] for row, end in zip(rows, ends))
    return follow and ends[-1] == take.bits


def shift_of(take: Signals) -> Shift | None:
    """What a take says of its channels, if it is one whose channels are shifted."""
    for comment in take.comments() if isinstance(take, Take) else ():
        if comment.startswith(HEAD):
            try:
                stated = tomllib.loads(comment.decode())
            except (ValueError, RecursionError):
                continue
            if (
                set(stated) == {"take", "regions"}
                and type(stated["take"]) is str
                and are_regions(stated["regions"], take)
            ):
                return Shift(stated["take"], [Region(**it) for it in stated["regions"]])
    return None


class Shifted(Signals):
    """Such a take as it will be written."""

    def __init__(self, name: str, source: Signals, shift: Shift) -> None:
        self.name, self.source, self.shift = name, source, shift
        self.rate, self.count, self.bits = source.rate, source.count, whole_bits(source)
        self.bands = source.bands

    def stored(self, first: int, stop: int) -> np.ndarray:
        return self.shift.rows(self.read, first, stop)

    def read(self, first: int, stop: int) -> np.ndarray:
        """The bits of the source; its last ones are repeated after it."""
        end = min(stop, self.source.bits)
        rows = self.source.stored(min(first, end - 1), end)
        return np.pad(rows, ((0, 0), (0, stop - end)), mode="edge")[:, -(stop - first) :]

    def write(self, file: BinaryIO) -> None:
        """Writes the file, piece by piece."""
        more = dsdiffs.comments([self.shift.text])
        head, tail = dsdiffs.around(self.rate, self.count, self.bits // 8 * self.count, more)
        file.write(head)
        for first in range(0, self.bits, PIECE):
            rows = np.packbits(self.stored(first, min(first + PIECE, self.bits)).astype(np.uint8), axis=1)
            file.write(rows.T.tobytes())
        file.write(tail)


def whole_bits(source: Signals) -> int:
    """The bits of a take of this kind, which are whole bytes."""
    return -(-source.bits // 8) * 8

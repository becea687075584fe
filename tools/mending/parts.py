"""What is read of a broken file, and what a mended one is put together of: bytes, and ranges of the broken file."""
import dataclasses
import os
import re
import struct
from collections.abc import Iterable, Iterator
from typing import BinaryIO

from dsdarc_scripts.outputs import Refused
from workflows import frames

PIECE = 1 << 20
# No file has more chunks, or marks, than this.
MOST_CHUNKS = 100_000
# No recording is longer than this, in bits of a channel.
MOST_BITS = 2**36
ID3_HEAD = 10
FRAME = re.compile(rb"[A-Z0-9]{4}")
# No tag is held that is longer than this.
MOST_HELD = 1 << 25


class Broken(Refused):
    """The file can't be mended, and why."""


@dataclasses.dataclass(frozen=True)
class Range:
    """Bytes of the broken file."""

    at: int
    size: int


Part = bytes | Range


def places_in(data: bytes, name: bytes) -> Iterator[int]:
    """Where bytes have a name."""
    at = data.find(name)
    while at >= 0:
        yield at
        at = data.find(name, at + 1)


class View:
    """A file from one of its bytes on. After its end there are zeros for those who read them as sound."""

    def __init__(self, file: BinaryIO, base: int = 0) -> None:
        self.file, self.base, self.place = file, base, 0
        self.size = os.fstat(file.fileno()).st_size - base

    def seek(self, place: int) -> None:
        self.place = place

    def read(self, count: int) -> bytes:
        """That many bytes, with zeros where the file has none."""
        data = self.data(self.place, count)
        self.place += count
        return data.ljust(count, b"\0")

    def data(self, at: int, count: int) -> bytes:
        """The bytes at a place, as far as the file has them."""
        if at >= self.size:
            return b""
        self.file.seek(self.base + at)
        return self.file.read(max(min(count, self.size - at), 0))

    def pieces(self, part: Range) -> Iterator[bytes]:
        """The bytes of a range, piece by piece; the file has to have them still."""
        at, stop = part.at, part.at + part.size
        while at < stop:
            data = self.data(at, min(PIECE, stop - at))
            if not data:
                raise Refused("it became shorter meanwhile")
            yield data
            at += len(data)

    def find(self, names: Iterable[bytes], at: int) -> Iterator[int]:
        """The places from `at` on where the file has one of some names, of at most 4 bytes."""
        while at < self.size:
            data = self.data(at, PIECE + 3)
            yield from sorted(at + it for name in names for it in places_in(data, name) if it < PIECE)
            at += PIECE


@dataclasses.dataclass
class Mended:
    """What is kept of a file: its rate, its number of channels, how many bits of each, and how many the header states,
    where it states a number that may be meant. `parts` are those of the mended file. `sound` is where the sound is in
    the broken one, and `width` its bits per sample in blocks, or None in DSDIFF. `wrong` says what is wrong, `left` what
    is left out, and `noted` what else is worth a line."""

    rate: int = 0
    channels: int = 0
    bits: int = 0
    stated: int | None = None
    sound: int = 0
    width: int | None = None
    parts: list[Part] = dataclasses.field(default_factory=list)
    wrong: list[str] = dataclasses.field(default_factory=list)
    left: list[str] = dataclasses.field(default_factory=list)
    noted: list[str] = dataclasses.field(default_factory=list)


def size_of(parts: list[Part]) -> int:
    return sum(len(it) if isinstance(it, bytes) else it.size for it in parts)


def counted(count: int, what: str = "byte") -> str:
    return f"{count:,} {what}{'' if count == 1 else 's'}"


def zeros_before(view: View, start: int, stop: int) -> int:
    """How many of the last bytes before a place are zeros."""
    at = stop
    while at > start:
        data = view.data(max(at - PIECE, start), min(PIECE, at - start))
        kept = len(data.rstrip(b"\0"))
        at -= len(data) - kept
        if kept:
            break
    return stop - at


def note_zeros(mended: Mended, view: View, stop: int) -> None:
    """Says how many zeros a sound ends with, where the file's end is the sound's: no converter writes so many."""
    zeros = zeros_before(view, mended.sound, stop)
    if zeros >= 4096:
        mended.noted.append(f"the last {counted(zeros)} of the sound are zeros, perhaps room that was never written")


# Tags.


def tag_size(head: bytes) -> int | None:
    """How many bytes an ID3 tag says that it has, by its first ones; None where it is none."""
    if len(head) < ID3_HEAD or head[:3] != b"ID3" or not 2 <= head[3] <= 4 or max(head[6:10]) > 127:
        return None
    size = 0
    for byte in head[6:10]:
        size = size << 7 | byte
    return ID3_HEAD + size + (ID3_HEAD if head[3] == 4 and head[5] & 0x10 else 0)


def frame_size(field: bytes, version: int) -> int:
    if version == 3:
        return struct.unpack(">I", field)[0]
    size = 0
    for byte in field:
        size = size << 7 | byte & 127
    return size


def long_frames(view: View, at: int, stop: int) -> list[Part]:
    """The same of a tag that is too long to be held, if it is a plain one of ID3v2.3 or 2.4."""
    head = view.data(at, ID3_HEAD)
    if head[3] not in (3, 4) or head[5] & 0xC0:
        return []
    end = first = at + ID3_HEAD
    while end + 10 <= stop:
        frame = view.data(end, 10)
        size = frame_size(frame[4:8], head[3])
        if not FRAME.fullmatch(frame[:4]) or end + 10 + size > stop:
            break
        end += 10 + size
    size = end - first
    return [head[:5] + b"\0" + frames.spread(size), Range(first, size)] if 0 < size < 1 << 28 else []


def whole_frames(view: View, at: int, stop: int) -> list[Part]:
    """A tag of the frames that are whole, of one that is cut; none where no frame is."""
    if stop - at > MOST_HELD:
        return long_frames(view, at, stop)
    try:
        found = frames.whole(view.data(at, stop - at))
    except frames.Broken:
        return []
    return [found.data()] if found.frames else []


def tag_parts(view: View, at: int, stop: int, mended: Mended) -> list[Part]:
    """What is kept of a tag between two places: all of it, or its whole frames where it is cut."""
    size = tag_size(view.data(at, ID3_HEAD))
    if size is None or at + size <= stop:
        return [Range(at, stop - at)]
    kept = whole_frames(view, at, stop)
    mended.wrong.append("its tag is cut")
    mended.left.append("the part of the tag that is cut" if kept else f"the tag at byte {view.base + at:,}: it is cut")
    return kept

"""Damaged files, played as far as their sound is there: cut off, with sizes of 0 or wrong ones, without their last fill
or pad, with a tag in no place. What is played is a file in memory whose header says what is there, over the bytes of the
damaged one. `tools/mend` writes such a file; it finds some more that is wrong."""
from __future__ import annotations

import struct
from collections.abc import Iterator
from typing import NamedTuple

from dsdarc._feed import Stored
from dsdarc._filters import Filter, Path, Ready
from dsdarc._library import Fault
from dsdarc._sound import Sound
from dsdarc._source import File, Source

BLOCK = 4096  # bytes of a channel that follow each other in a DSF file
PIECE = 1 << 20
FARTHEST = 1 << 16  # bytes in which a header is
MOST_CHUNKS = 10_000
MOST_BITS = 1 << 36
CHUNK = struct.Struct(">4sQ")
# What follows the sound of a DSDIFF file.
NEXT = (b"ID3 ", b"DIIN", b"COMT", b"MANF")
# A chunk after the sound: before it is read, the damage is told.
AFTER = b"MEND" + bytes(8)


class Damaged(Fault):
    """The file is damaged: `frames` could be played, and `stated` is how many its header says, or None where it says
    none that there can be."""

    def __init__(self, what: str, frames: int, stated: int | None) -> None:
        super().__init__("Damaged", what)
        self.frames, self.stated = frames, stated

    def __reduce__(self) -> tuple[type[Damaged], tuple[str, int, int | None]]:  # type: ignore[override]
        return type(self), (self._what, self.frames, self.stated)


class Left(NamedTuple):
    """What is left of a sound: its header, and where its bytes begin and end; how many bits there are of each channel,
    and how many are stated, or None; the rate, and how many bytes of zeros fill up the last blocks of a DSF file."""

    front: bytes
    start: int
    stop: int
    bits: int
    stated: int | None
    rate: int
    fill: tuple[int, ...] = ()


def _chain(source: Source, at: int, stop: int) -> bool:
    """Whether chunks begin at a place and follow each other to the file's end."""
    for _ in range(MOST_CHUNKS):
        if stop - 1 <= at <= stop + 1:
            return True
        name, size = CHUNK.unpack(source.read(at, 12).ljust(12, b"\xff"))
        if not name.isascii() or not name.decode().isprintable() or size > stop - at:
            return False
        at += 12 + size + size % 2
    return False


def _places(source: Source, at: int, stop: int) -> Iterator[int]:
    """Where a file has the name of a chunk that may follow a sound."""
    while at < stop:
        data = source.read(at, PIECE + 3)
        found = (place for name in NEXT for place in _in(data, name) if place < PIECE)
        yield from (at + place for place in sorted(found))
        at += PIECE


def _in(data: bytes, name: bytes) -> Iterator[int]:
    place = data.find(name)
    while place >= 0:
        yield place
        place = data.find(name, place + 1)


def _chunks(data: bytes, at: int) -> Iterator[tuple[bytes, int, int]]:
    """Name, place and size of the chunks of a header, as far as it goes."""
    while at + 12 <= len(data):
        name, size = CHUNK.unpack_from(data, at)
        yield name, at + 12, size
        if name == b"DSD ":
            return
        at += 12 + size + size % 2


def _left_of_form(source: Source, base: int, size: int) -> Left | None:
    """What is left of a DSDIFF file."""
    head, property_, start, stated = source.read(base, FARTHEST), b"", 0, 0
    for name, at, length in _chunks(head, 16):
        if name == b"PROP" and head[at : at + 4] == b"SND ":
            property_ = head[at : at + length]
        if name == b"DSD ":
            start, stated = at, length
    fields = {name: property_[at : at + length] for name, at, length in _chunks(property_, 4)}
    rate = int.from_bytes(fields.get(b"FS  ", b"")[:4], "big")
    count = int.from_bytes(fields.get(b"CHNL", b"")[:2], "big")
    if fields.get(b"CMPR", b"")[:4] != b"DSD " or not 1 <= count <= 6 or not rate or not start:
        return None
    stop, end = base + start + stated, base + size
    if stated == 0 or stop > end or not _chain(source, stop + stated % 2, end):
        places = _places(source, base + start, end) if stated == 0 or stop > end else iter(())
        stop = next((it for it in places if _chain(source, it, end)), min(stop, end) if stated else end)
    length = (stop - base - start) // count * count
    meant = stated // count * 8 if 0 < stated // count * 8 <= MOST_BITS else None
    body = head[16:start]
    front = CHUNK.pack(b"FRM8", 4 + len(body) + length + length % 2 + len(AFTER)) + b"DSD " + body[:-8]
    return Left(
        front + struct.pack(">Q", length), base + start, base + start + length, length // count * 8, meant, rate
    )


def _left_of_blocks(source: Source, base: int, size: int) -> Left | None:
    """What is left of a DSF file."""
    head = source.read(base, FARTHEST)
    if len(head) < 92 or head[28:32] != b"fmt ":
        return None
    start = head.find(b"data", 28 + 52) + 12
    count, rate, _, bits, block = struct.unpack_from("<IIIQI", head, 52)
    if start < 12 or block != BLOCK or not 1 <= count <= 6:
        return None
    tag = int.from_bytes(head[20:28], "little")
    there = (tag if start <= tag <= size and source.read(base + tag, 3) == b"ID3" else size) - start
    groups, rest = divmod(there, count * BLOCK)
    most = 8 * (groups * BLOCK + max(rest - (count - 1) * BLOCK, 0))
    stated = bits if 0 < bits <= MOST_BITS else None
    bits = min(stated or most, most)
    groups, rest = divmod(bits, 8 * BLOCK)
    # The last group has a block for each channel, which is filled up with zeros.
    used = -(-rest // 8)
    length = (groups + (rest > 0)) * count * BLOCK
    stop = start + min(length, there)
    front = b"DSD " + struct.pack("<QQQ", 28, start + length, 0) + b"fmt " + struct.pack("<Q", start - 12 - 28)
    front += head[40:64] + struct.pack("<Q", bits) + head[72 : start - 8] + struct.pack("<Q", length + 12)
    return Left(front, base + start, base + stop, bits, stated, rate, (used, start + length - stop))


class Kept(Source):
    """A file whose header says what is there of its sound, over the bytes of a damaged one."""

    def __init__(self, source: Source, left: Left) -> None:
        self._source, self._left = source, left
        self.name, self.start = source.name, 0
        length = left.stop - left.start + sum(left.fill[1:])
        self._stop = len(left.front) + length
        self._after = b"" if left.fill else bytes(length % 2) + AFTER
        self.damage: Damaged | None = None  # which is told after the last frame

    @property
    def forked(self) -> bool:
        return self._source.forked

    @forked.setter
    def forked(self, is_forked: bool) -> None:
        self._source.forked = is_forked

    def again(self) -> Source:
        made = Kept(self._source.again(), self._left)
        made.damage = self.damage
        return made

    def size(self) -> int:
        return self._stop + max(len(self._after), 1)

    def read(self, place: int, size: int) -> bytes:
        """At most so many bytes from a place on; after the sound, the damage is raised."""
        front = self._left.front
        if place < len(front):
            return front[place : place + size]
        if place < self._stop:
            at = self._left.start + place - len(front)
            if at >= self._left.stop:
                return bytes(min(size, self._stop - place))
            data = self._source.read(at, min(size, self._left.stop - at))
            if not data:
                raise Fault("FileRefused", f"{self.name} isn't the file that was opened")
            return data
        if self.damage is not None:
            raise self.damage.with_traceback(None)
        return self._after[place - self._stop :][:size]

    def close(self) -> None:
        self._source.close()


def _stated(source: Source) -> int:
    """How many bits of each channel a file has, if the library reads it, without its sound; if it doesn't, -1."""
    try:
        stored = Stored(source, source.name)
        try:
            stored.judge()
            return stored.described.bits
        finally:
            stored.drop()
    except Fault:
        return -1


def _left_of(source: Source) -> Left | None:
    """What can be played of a file by what is there; None if nothing can."""
    finders = {b"FRM8": _left_of_form, b"DSD ": _left_of_blocks}
    find = finders.get(source.read(source.start, 4))
    left = None if find is None else find(source, source.start, source.size() - source.start)
    return left if left is not None and left.bits > 0 else None


def open_tolerant(file: File, filter: Path | Filter | Ready = Ready.BEST, speakers: bool = False) -> Sound:
    """A file that is played by a filter as far as its sound is there. After its last frame, `Damaged` is raised if the
    file is damaged: `damaged after frame N`. A file that is whole is played as by `open`."""
    source = Source(file, closes=True)
    try:
        bits = _stated(source)
        # A recorder that was switched off may have left a number of 0.
        left = _left_of(source) if bits < 1 else None
        if left is None:
            return Sound(source, filter, speakers=speakers)
        kept = Kept(source, left)
        sound = Sound(kept, filter, speakers=speakers)
    except BaseException:
        source.close()
        raise
    factor = sound.info.source_rate // sound.samplerate
    stated = None if left.stated is None else -(-left.stated // factor)
    of = "" if stated is None or stated <= sound.frames else f" of {stated:,}"
    what = f"{source.name}: damaged after frame {sound.frames:,}{of}"
    kept.damage = Damaged(what, sound.frames, stated)
    return sound

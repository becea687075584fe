"""What a file says of its sound, as the library reports it: loudspeakers, marks, the tag."""
from __future__ import annotations

import io
from typing import Any, NamedTuple

from dsdarc._feed import Stored
from dsdarc._library import MOST_BYTES, Description, StatedMark
from dsdarc._source import Source

# The loudspeakers of a mask's bits, and those of the IDs of DSDIFF files.
SPEAKERS = ("FL", "FR", "FC", "LFE", "BL", "BR")
IDS = {"SLFT": "FL", "MLFT": "FL", "SRGT": "FR", "MRGT": "FR", "C": "FC", "LFE": "LFE", "LS": "BL", "RS": "BR"}
# The IDs of two channels, and those of more.
WRITTEN = {2: [b"SLFT", b"SRGT"]}
WIDE = {"FL": b"MLFT", "FR": b"MRGT", "FC": b"C", "BL": b"LS", "BR": b"RS"}


class Channels(int):
    """How many channels there are. `names` has the loudspeaker of each, such as ("FL", "FR"), as far as the file names
    them, and is empty if it only numbers them. `mask` is the channel mask of a WAVE file: 0 if there is none, as of
    channels in another order."""

    names: tuple[str, ...]
    mask: int

    def __new__(cls, count: int, names: tuple[str, ...] = (), mask: int = 0) -> Channels:
        made = super().__new__(cls, count)
        made.names, made.mask = names, mask
        return made

    def __reduce__(self) -> tuple[type[Channels], tuple[int, tuple[str, ...], int]]:
        return Channels, (int(self), self.names, self.mask)


class Mark(NamedTuple):
    """A mark of a DSDIFF file: its place in seconds and in bits of a channel, its type (0 starts a track, 1 stops one, 2
    starts a programme, 4 is an index), its title, its channel (0 for all) and its flags."""

    seconds: float
    bits: int
    type: int
    title: str
    channel: int = 0
    flags: int = 0


def channels_of(it: Description) -> Channels:
    """The channels of a file, and their loudspeakers: by the IDs of a DSDIFF file, by the type of a DSF file."""
    if not it.is_form:
        names = tuple(name for bit, name in enumerate(SPEAKERS) if it.mask >> bit & 1)
        return Channels(it.channels, names, it.mask)
    ids = [it.ids[at : at + 4].decode("latin-1").rstrip(" \0") for at in range(0, len(it.ids), 4)]
    is_named = any(ids) and not all(name[:1] == "C" and name[1:].isdigit() and len(name) == 4 for name in ids)
    return Channels(it.channels, tuple(IDS.get(name, name) for name in ids) if is_named else (), it.mask)


def spoken(channels: Channels) -> tuple[Channels, list[int] | None]:
    """The channels in the order of the mask of their loudspeakers, and the places that they have in the file; None if
    these are the same. If one has no known loudspeaker, or two have the same, the mask is 0 and the order that of the
    file."""
    bits = [SPEAKERS.index(name) for name in channels.names if name in SPEAKERS]
    if len(set(bits)) != channels:
        return Channels(channels, channels.names), None
    order = sorted(range(channels), key=bits.__getitem__)
    names = tuple(channels.names[it] for it in order)
    return Channels(channels, names, sum(1 << bit for bit in bits)), None if order == list(range(channels)) else order


def ids_of(it: Description) -> list[bytes]:
    """The IDs that a DSDIFF file has for the channels of a file."""
    if it.is_form:
        return [it.ids[at : at + 4] for at in range(0, len(it.ids), 4)]
    names = channels_of(it).names
    return WRITTEN.get(it.channels) or [(WIDE.get(name) or name.encode()).ljust(4) for name in names]


def marks_of(stored: Stored, source: Source) -> list[Mark]:
    """The marks of a DSDIFF file, in its order, as far as they are there."""
    if not stored.described.is_form:
        return []
    count, rate = stored.described_after(lambda _: False).marks, stored.described.rate
    return [_mark(it, _title(it, source), rate) for it in stored.player.marks(0, count)]


def _title(it: StatedMark, source: Source) -> str:
    data = source.read(source.start + it.title, min(it.length, MOST_BYTES)) if it.length else b""
    try:
        return data.decode("utf-8").rstrip("\0")
    except UnicodeDecodeError:
        return data.decode("latin-1").rstrip("\0")


def _mark(it: StatedMark, title: str, rate: int) -> Mark:
    return Mark(it.place / rate, it.place, it.type, title, it.channel, it.flags)


def tag_of(stored: Stored, source: Source) -> Any:
    """The tag as mutagen reads it; None if there is none. That of a DSF file goes to its end."""
    it = stored.described
    if it.is_form and not it.tag:
        it = stored.described_after(lambda known: known.tag > 0)
    left = source.size() - source.start - it.tag
    if not it.tag or left <= 0:
        return None
    size = min(it.tag_size, left) if it.is_form else left
    return _id3_of(source.read(source.start + it.tag, min(size, MOST_BYTES)))


def _id3_of(tag: bytes) -> Any:
    """What mutagen reads of these bytes; what it raises of a broken tag is a ValueError."""
    if not tag:
        return None
    try:
        from mutagen import id3
    except ImportError:
        raise ImportError("a tag is read by mutagen: install it (python3-mutagen, or pip install mutagen)") from None
    reader: Any = id3
    try:
        return reader.ID3(io.BytesIO(tag))
    except reader.ID3NoHeaderError:
        return None
    except MemoryError:
        raise
    except Exception as why:
        raise ValueError(f"mutagen doesn't read the tag: {str(why) or type(why).__name__}") from why

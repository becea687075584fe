"""Makes DSDIFF files, as bytes: what scripts try dsdarc on, and the takes that they write. A file with no more than its
sound has the bytes that dsdarc writes of it."""
import struct
from collections.abc import Iterable

IDS = {1: [b"C000"], 2: [b"SLFT", b"SRGT"], 5: [b"MLFT", b"MRGT", b"C   ", b"LS  ", b"RS  "]}
VERSION = (b"FVER", bytes([1, 5, 0, 0]))


def chunk(name: bytes, data: bytes) -> bytes:
    return name + struct.pack(">Q", len(data)) + data + b"\0" * (len(data) % 2)


def numbered(channels: int) -> list[bytes]:
    """The IDs of channels that stand for no loudspeakers."""
    return [b"C%03d" % channel for channel in range(channels)]


def property_chunks(
    rate: int, channels: int, compression: bytes = b"DSD ", ids: Iterable[bytes] | None = None
) -> list[tuple[bytes, bytes]]:
    """ID and data of each chunk that a sound's PROP has to have; channels have their usual IDs where none are given."""
    return [
        (b"FS  ", struct.pack(">I", rate)),
        (b"CHNL", struct.pack(">H", channels) + b"".join(ids or IDS.get(channels) or numbered(channels))),
        (b"CMPR", compression + b"\x0enot compressed"),
    ]


def mark_data(
    text: bytes,
    hours: int = 0,
    minutes: int = 0,
    seconds: int = 0,
    samples: int = 0,
    offset: int = 0,
    kind: int = 0,
    channel: int = 0,
) -> bytes:
    """The data of a mark's chunk, MARK."""
    return struct.pack(">HBBIiHHHI", hours, minutes, seconds, samples, offset, kind, channel, 0, len(text)) + text


def mark(text: bytes) -> bytes:
    """A chunk of the form with one mark, at the first sample."""
    return chunk(b"DIIN", chunk(b"MARK", mark_data(text)))


def comments(texts: list[bytes]) -> bytes:
    """A chunk of the form with general comments, whose time is the earliest."""
    data = struct.pack(">H", len(texts))
    for text in texts:
        data += struct.pack(">HBBBBHHI", 0, 1, 1, 0, 0, 0, 0, len(text)) + text + b"\0" * (len(text) % 2)
    return chunk(b"COMT", data)


def comment_texts(data: bytes) -> list[bytes]:
    """The texts of the data of a chunk of comments, as far as they are whole."""
    texts, at = [], 2
    for _ in range(struct.unpack_from(">H", data)[0] if len(data) >= 2 else 0):
        if at + 14 > len(data):
            break
        size = struct.unpack_from(">I", data, at + 10)[0]
        texts.append(data[at + 14 : at + 14 + size])
        at += 14 + size + size % 2
    return texts


def dsdiff(
    rate: int,
    channels: int,
    sound: bytes,
    compression: bytes = b"DSD ",
    ids: Iterable[bytes] | None = None,
    more: bytes = b"",
    kept: bytes = b"",
) -> bytes:
    """The file of a sound, the bytes of all channels in turn, with more chunks of the form after it, and kept ones in
    its property."""
    inner = b"".join(chunk(*it) for it in property_chunks(rate, channels, compression, ids))
    body = chunk(*VERSION) + chunk(b"PROP", b"SND " + inner + kept) + chunk(b"DSD ", sound) + more
    return chunk(b"FRM8", b"DSD " + body)


def around(rate: int, channels: int, size: int, more: bytes = b"") -> tuple[bytes, bytes]:
    """What comes before and after a sound of that many bytes in such a file."""
    empty = dsdiff(rate, channels, b"", more=more)
    head = empty[: len(empty) - len(more)]
    rest = b"\0" * (size % 2) + more
    form = len(head) - 12 + size + len(rest)
    return b"FRM8" + struct.pack(">Q", form) + head[12:-8] + struct.pack(">Q", size), rest

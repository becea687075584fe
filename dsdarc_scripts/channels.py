"""Reads DSD files: their rate, and of each channel how many bits it has and their SHA-256.

The bits are hashed as bytes, the earliest bit the most significant, with zeros after the last. So the same sound has
the same sums in DSDIFF and in both kinds of DSF. This reads files by its own means, not by dsdarc: what both agree on
was seen twice. It expects whole files, as dsdarc accepts them.
"""
import dataclasses
import hashlib
import os
import struct
from collections.abc import Iterator
from typing import BinaryIO

from dsdarc_scripts.outputs import Refused

BLOCK = 4096
MOST_CHANNELS = 6
TURNED = bytes(int(f"{byte:08b}"[::-1], 2) for byte in range(256))
# The IDs that DSDIFF has for the loudspeakers of a DSF file's channels, and for those of its channel type 5.
FRONT, BACK, LOW = ("MLFT", "MRGT", "C   "), ("LS  ", "RS  "), ("LFE ",)
SPEAKERS = {1: FRONT[2:], 2: ("SLFT", "SRGT"), 3: FRONT, 4: FRONT[:2] + BACK, 5: FRONT + BACK, 6: FRONT + LOW + BACK}
FRONT_TYPE = 5


class Unread(Refused):
    """The file isn't read."""


@dataclasses.dataclass
class Sound:
    """What a file's sound is and where it is: `width` bits per sample in blocks, or `None` in DSDIFF. `ids` has the IDs of
    its channels, four bytes each, of a DSF file those of its loudspeakers."""

    rate: int
    count: int
    bits: int
    width: int | None
    start: int
    stop: int
    ids: bytes = b""


def take(file: BinaryIO, count: int) -> bytes:
    """The next bytes of a file, which has to have them."""
    try:
        data = file.read(count)
    except (ValueError, OverflowError, MemoryError):
        raise Unread("it ends early") from None
    if len(data) != count:
        raise Unread("it ends early")
    return data


def skip(file: BinaryIO, count: int) -> None:
    """Passes over bytes of a file, which has to have them."""
    if count > os.fstat(file.fileno()).st_size - file.tell():
        raise Unread("it ends early")
    file.seek(count, os.SEEK_CUR)


def chunks(data: bytes) -> Iterator[tuple[bytes, bytes]]:
    """The chunks of a DSDIFF range that is held: ID and data."""
    at = 0
    while at + 12 <= len(data):
        name, size = struct.unpack_from(">4sQ", data, at)
        yield name, data[at + 12 : at + 12 + size]
        at += 12 + size + size % 2


def property_of(data: bytes) -> tuple[int, int, bytes]:
    """Rate, number of channels and their IDs of a sound's PROP."""
    found = dict(chunks(data[4:]))
    rate, count = struct.unpack_from(">I", found[b"FS  "])[0], struct.unpack_from(">H", found[b"CHNL"])[0]
    return rate, count, found[b"CHNL"][2 : 2 + 4 * count]


def dsdiff_sound(file: BinaryIO) -> Sound:
    """The sound of a DSDIFF file, which comes after FRM8, its size and its type."""
    shape = None
    while True:
        name, size = struct.unpack(">4sQ", take(file, 12))
        if name == b"DSD ":
            break
        if name == b"DST ":
            raise Unread("its sound is compressed (DST): unpack it with another tool first")
        if name == b"PROP":
            data = take(file, size)
            if data[:4] == b"SND ":
                shape = property_of(data)
            skip(file, size % 2)
        else:
            skip(file, size + size % 2)
    if shape is None:
        raise Unread("the sound comes before its property")
    rate, count, ids = shape
    return Sound(rate, count, size // count * 8, None, file.tell(), file.tell() + size, ids)


def dsf_sound(file: BinaryIO) -> Sound:
    """The sound of a DSF file, which comes after its first chunk."""
    name, size = struct.unpack("<4sQ", take(file, 12))
    if name != b"fmt ":
        raise Unread("it has no format")
    fields = take(file, size - 12)
    _, _, kind, count, rate, width, bits, block = struct.unpack_from("<IIIIIIQI", fields)
    if block != BLOCK:
        raise Unread("its blocks have another size")
    take(file, 12)
    groups = -(-bits // (8 * BLOCK))
    speakers = FRONT + LOW if (kind, count) == (FRONT_TYPE, 4) else SPEAKERS.get(count, ())
    return Sound(
        rate, count, bits, width, file.tell(), file.tell() + groups * count * BLOCK, "".join(speakers).encode()
    )


def sound_of(file: BinaryIO) -> Sound:
    """The sound of a file that is read from its first byte."""
    head = file.read(4)
    if head not in (b"FRM8", b"DSD "):
        raise Unread("it is neither DSDIFF nor DSF")
    try:
        take(file, 12 if head == b"FRM8" else 24)
        sound = dsdiff_sound(file) if head == b"FRM8" else dsf_sound(file)
    except (LookupError, struct.error, ArithmeticError):
        raise Unread("its header has numbers that no such file can have") from None
    if not 1 <= sound.count <= MOST_CHANNELS:
        raise Unread(f"it has {sound.count} channels")
    return sound


def pieces(file: BinaryIO, sound: Sound) -> Iterator[list[bytes]]:
    """The sound's bits, at most a block of each channel at a time: bytes, the earliest bit the most significant."""
    file.seek(sound.start)
    left = sound.bits
    while left > 0:
        here = min(left, 8 * BLOCK)
        size = (here + 7) // 8
        left -= here
        if sound.width is None:
            data = take(file, size * sound.count)
            yield [data[channel :: sound.count] for channel in range(sound.count)]
        else:
            yield [cleared(take(file, BLOCK)[:size], sound.width, here) for _ in range(sound.count)]


def span(file: BinaryIO, sound: Sound, first: int, stop: int) -> list[bytes]:
    """Of each channel the bytes of the bits `first`, a multiple of 8, to `stop` - 1, which the sound has."""
    skipped = first // 8 if sound.width is None else first // (8 * BLOCK) * BLOCK
    part = dataclasses.replace(sound, start=sound.start + skipped * sound.count, bits=stop - 8 * skipped)
    joined = [b"".join(it) for it in zip(*pieces(file, part))]
    return [it[first // 8 - skipped :] for it in joined]


def cleared(data: bytes, width: int, bits: int) -> bytes:
    """A block of DSF with its earliest bit first, and zeros after the last."""
    if width == 1:
        data = data.translate(TURNED)
    if bits % 8:
        data = data[:-1] + bytes([data[-1] & 0xFF00 >> bits % 8])
    return data


def read(name: str) -> tuple[int, list[tuple[int, str]]]:
    """Rate of a file, and for each channel its number of bits and their SHA-256."""
    with open(name, "rb") as file:
        sound = sound_of(file)
        sums = [hashlib.sha256() for _ in range(sound.count)]
        for piece in pieces(file, sound):
            for total, data in zip(sums, piece):
                total.update(data)
    return sound.rate, [(sound.bits, total.hexdigest()) for total in sums]

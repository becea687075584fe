"""Reads WAVE files: rate, channels, bits of a sample and frames, and the channel mask of an extensible format chunk.

Such files are read, and what precedes their samples is made, by docs/WAVE.md alone, not by dsdarc: what both agree on was seen
twice.
"""
import struct
from collections import namedtuple
from collections.abc import Iterator

from dsdarc_scripts.outputs import Refused

PLAIN, EXTENSIBLE = 1, 0xFFFE
PCM_SUBFORMAT = bytes.fromhex("0100000000001000800000aa00389b71")
# No size is as large as this.
SIZE_LIMIT = 2**32

# What a file holds. The mask is None in a plain format chunk; the samples are bytes, as in the file.
Wave = namedtuple("Wave", "rate channels width mask samples")


class Unread(Refused):
    """The file isn't read."""


def chunks(data: bytes) -> Iterator[tuple[bytes, bytes]]:
    """The chunks of a file: ID and data."""
    at = 12
    while at + 8 <= len(data):
        name, size = struct.unpack_from("<4sI", data, at)
        yield name, data[at + 8 : at + 8 + size]
        at += 8 + size + size % 2


def shape_of(form: bytes) -> tuple[int, int, int, int, int | None]:
    """Channels, rate, bytes of a frame and bits of a sample, and the channel mask, None in a plain format chunk."""
    if len(form) < 16:
        raise Unread("its format is cut")
    tag, channels, rate, _, block, width = struct.unpack_from("<HHIIHH", form)
    if not channels or block != channels * width // 8 or not block:
        raise Unread(f"its frames have {block} bytes for {channels} channels of {width} bits")
    if tag == PLAIN:
        return channels, rate, block, width, None
    if tag != EXTENSIBLE:
        raise Unread(f"its format is {tag:#x}")
    if len(form) < 40:
        raise Unread("its format is cut")
    extension, valid, mask = struct.unpack_from("<HHI", form, 16)
    if (extension, valid, form[24:]) != (22, width, PCM_SUBFORMAT):
        raise Unread("its samples are no whole numbers of that width")
    return channels, rate, block, width, mask


def read(data: bytes) -> Wave:
    """What a file's bytes hold."""
    if data[:4] != b"RIFF" or data[8:12] != b"WAVE":
        raise Unread("it is no WAVE file")
    found = dict(chunks(data))
    if b"fmt " not in found or b"data" not in found:
        raise Unread("it has no format, or no samples")
    channels, rate, _, width, mask = shape_of(found[b"fmt "])
    return Wave(rate, channels, width, mask, found[b"data"])


def format_of(rate: int, channels: int, width: int) -> bytes:
    """The data of the format chunk that is written: extensible for 24 bits, or more than two channels."""
    block = channels * width // 8
    fields = struct.pack("<HIIHH", channels, rate, rate * block, block, width)
    if width == 24 or channels > 2:
        return struct.pack("<H", EXTENSIBLE) + fields + struct.pack("<HHI", 22, width, 0) + PCM_SUBFORMAT
    return struct.pack("<H", PLAIN) + fields


def riff_size(channels: int, width: int, frames: int) -> int:
    """The size that the RIFF chunk of this number of frames has: of the file but its first 8 bytes."""
    data = frames * channels * width // 8
    return 20 + len(format_of(0, channels, width)) + data + data % 2


def head_of(rate: int, channels: int, width: int, frames: int) -> bytes:
    """What precedes the samples of this number of frames."""
    form = format_of(rate, channels, width)
    head = b"RIFF" + struct.pack("<I", riff_size(channels, width, frames)) + b"WAVEfmt " + struct.pack("<I", len(form))
    return head + form + b"data" + struct.pack("<I", frames * channels * width // 8)

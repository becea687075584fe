"""Writes bits as a DSDIFF or DSF file: whole, or not at all."""
from __future__ import annotations

import builtins
import contextlib
import errno
import operator
import os
import secrets
import stat
import struct
from collections.abc import Callable, Iterator
from typing import Any, BinaryIO, NamedTuple, SupportsIndex

import numpy
import numpy.typing

Bytes = numpy.typing.NDArray[numpy.uint8]
Name = str | bytes | os.PathLike[str] | os.PathLike[bytes]

RATES = (1_000_000, 50_000_000)
MOST_CHANNELS = 6
MOST_BITS = 1 << 36
BLOCK = 4096  # bytes of a channel that follow each other in a DSF file
PIECE = 64 * BLOCK  # rows that are written at once
# What `dsdarc convert` calls that many channels: their IDs in a DSDIFF file, and their type in a DSF file.
IDS = {2: [b"SLFT", b"SRGT"]}
TYPES = {1: 1, 2: 2, 3: 3, 4: 4, 5: 6, 6: 7}
# Each byte with its bits in the other order.
SWAPPED = numpy.array([int(f"{byte:08b}"[::-1], 2) for byte in range(256)], numpy.uint8)


class _Sound(NamedTuple):
    """What is written: a row of bytes for each 8 bits, bits of a channel, and their rate."""

    rows: Bytes
    stored: int
    rate: int

    @property
    def channels(self) -> int:
        return int(self.rows.shape[1])

    def pieces(self) -> Iterator[Bytes]:
        """The rows, with zeros where the last one has no bits."""
        for at in range(0, len(self.rows), PIECE):
            piece = self.rows[at : at + PIECE]
            if at + PIECE >= len(self.rows) and self.stored % 8:
                piece = piece.copy()
                piece[-1] &= 256 - (256 >> self.stored % 8)
            yield piece


def write(file: Name, bits: Any, rate: SupportsIndex, count: SupportsIndex | None = None) -> None:
    """Writes bits as a DSF file (1.01), or as a DSDIFF file (1.5) if the name ends in `.dff`. The rate is in hertz.

    The bits are an array with a column for each channel, or a flat one for one channel. It is of `uint8`, as `Sound.bits`
    gives it, 8 bits in each, the most significant the earliest; or of `bool`, one bit in each. `count` is how many bits of
    a channel there are, if the last byte has fewer than 8. A DSDIFF file has whole bytes.

    A file that is there is replaced once the new one is whole. If anything is raised, it stays as it was."""
    name = os.fsdecode(file)
    ending = os.path.splitext(name)[1].lower()
    if ending not in (".dsf", ".dff"):
        raise ValueError(f"the name of a file ends in .dsf or .dff: {name!r}")
    sound = _sound(bits, rate, count)
    if ending == ".dff" and sound.stored % 8:
        raise ValueError(f"a DSDIFF file has whole bytes of each channel, and not {sound.stored} bits")
    _replace(name, _write_dff if ending == ".dff" else _write_dsf, sound)


def _sound(bits: Any, rate: SupportsIndex, count: SupportsIndex | None) -> _Sound:
    """What is written of an array."""
    array = numpy.frombuffer(bits, numpy.uint8) if isinstance(bits, bytes) else numpy.asarray(bits)
    if array.dtype not in (numpy.uint8, numpy.bool_):
        raise ValueError(f"bits are an array of uint8 or bool, and not of {array.dtype}")
    array = array[:, numpy.newaxis] if array.ndim == 1 else array
    if array.ndim != 2 or not 1 <= array.shape[1] <= MOST_CHANNELS:
        raise ValueError(
            f"bits have a column for each of 1 to {MOST_CHANNELS} channels, and not the shape {array.shape}"
        )
    is_packed = array.dtype == numpy.uint8
    most = len(array) * 8 if is_packed else len(array)
    given = most if count is None else _whole("number of bits", count)
    if not max(0, most - 7 if is_packed else most) <= given <= most:
        raise ValueError(f"the array has {most} bits of each channel, and not {given}")
    hertz = _whole("rate", rate)
    if not RATES[0] <= hertz <= RATES[1]:
        raise ValueError(f"the rate is from {RATES[0]} to {RATES[1]} Hz, and not {hertz}")
    if given > MOST_BITS:
        raise ValueError(f"a channel has at most {MOST_BITS} bits, and not {given}")
    return _Sound(array if is_packed else numpy.packbits(array, axis=0), given, hertz)


def _whole(name: str, number: SupportsIndex) -> int:
    try:
        return operator.index(number)
    except TypeError:
        raise TypeError(f"the {name} is a whole number, and not {number!r}") from None


def _chunk(name: bytes, data: bytes) -> bytes:
    return name + struct.pack(">Q", len(data)) + data + bytes(len(data) % 2)


def begin_dff(rate: int, ids: list[bytes], size: int, after: int = 0) -> bytes:
    """What a DSDIFF file has before so many bytes of sound, which are followed by so many others."""
    properties = _chunk(b"FS  ", struct.pack(">I", rate))
    properties += _chunk(b"CHNL", struct.pack(">H", len(ids)) + b"".join(ids))
    properties += _chunk(b"CMPR", b"DSD \x0enot compressed")
    header = b"DSD " + _chunk(b"FVER", bytes([1, 5, 0, 0])) + _chunk(b"PROP", b"SND " + properties)
    form = b"FRM8" + struct.pack(">Q", len(header) + 12 + size + size % 2 + after) + header
    return form + b"DSD " + struct.pack(">Q", size)


def _write_dff(out: BinaryIO, sound: _Sound) -> None:
    size = len(sound.rows) * sound.channels
    ids = IDS.get(sound.channels) or [b"C%03d" % channel for channel in range(sound.channels)]
    out.write(begin_dff(sound.rate, ids, size))
    for piece in sound.pieces():
        out.write(piece.tobytes())
    out.write(bytes(size % 2))


def _write_dsf(out: BinaryIO, sound: _Sound) -> None:
    groups = -(-len(sound.rows) // BLOCK)
    size = groups * sound.channels * BLOCK
    form = (1, 0, TYPES[sound.channels], sound.channels, sound.rate, 1)
    out.write(b"DSD " + struct.pack("<QQQ", 28, 92 + size, 0))
    out.write(b"fmt " + struct.pack("<Q6IQII", 52, *form, sound.stored, BLOCK, 0))
    out.write(b"data" + struct.pack("<Q", 12 + size))
    for piece in sound.pieces():
        filled = numpy.zeros((-(-len(piece) // BLOCK) * BLOCK, sound.channels), numpy.uint8)
        filled[: len(piece)] = SWAPPED[piece]
        out.write(filled.reshape(-1, BLOCK, sound.channels).transpose(0, 2, 1).tobytes())


def _replace(name: str, fill: Callable[[BinaryIO, _Sound], None], sound: _Sound) -> None:
    """Has a file beside the one of this name filled, which then gets its place."""
    target = os.path.realpath(name)
    old = _replaceable(name)
    part = os.path.join(os.path.dirname(target), f".dsdarc-{os.getpid()}-{secrets.token_hex(8)}")
    try:
        with builtins.open(part, "xb") as out:
            if old is not None:
                os.fchmod(out.fileno(), stat.S_IMODE(old.st_mode))
                with contextlib.suppress(OSError):
                    os.fchown(out.fileno(), old.st_uid, old.st_gid)
            fill(out, sound)
            out.flush()
            os.fsync(out.fileno())
        os.replace(part, target)
    except BaseException as error:
        with contextlib.suppress(OSError):
            os.remove(part)
        if isinstance(error, OSError):
            error.filename, error.filename2 = name, None
        raise
    # The file is there: what a folder can't keep of that is no fault.
    with contextlib.suppress(OSError):
        folder = os.open(os.path.dirname(target), os.O_RDONLY | os.O_DIRECTORY)
        try:
            os.fsync(folder)
        finally:
            os.close(folder)


def _replaceable(name: str) -> os.stat_result | None:
    """The state of the file that is replaced; None if there is none. A folder, a pipe, a device or a file that can't be
    written is refused."""
    try:
        old = os.stat(name)
    except FileNotFoundError:
        return None
    if stat.S_ISDIR(old.st_mode):
        raise IsADirectoryError(errno.EISDIR, os.strerror(errno.EISDIR), name)
    if not stat.S_ISREG(old.st_mode):
        raise ValueError(f"{name} is a pipe or a device: write to a file")
    if not os.access(name, os.W_OK):
        raise PermissionError(errno.EACCES, os.strerror(errno.EACCES), name)
    return old

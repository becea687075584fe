"""What the workflow keeps of a file besides its sound, and old files made of that again, piece by piece."""
import dataclasses
import hashlib
import struct
from collections.abc import Iterable, Iterator
from typing import BinaryIO

from dsdarc_scripts import channels

PIECE = 1 << 20
# Where the head of a DSF file has its bits per sample.
WIDTH_AT = 60


def copied(file: BinaryIO, count: int | None = None) -> Iterator[bytes]:
    """The next bytes of a file, piece by piece."""
    while count is None or count > 0:
        data = file.read(PIECE if count is None else min(PIECE, count))
        if not data:
            return
        if count is not None:
            count -= len(data)
        yield data


def laced(piece: list[bytes], width: int | None) -> bytes:
    """A piece of all channels as a DSF file of this width has it, or a DSDIFF file."""
    if width is None:
        data = bytearray(len(piece) * len(piece[0]))
        for channel, part in enumerate(piece):
            data[channel :: len(piece)] = part
        return bytes(data)
    turned = (part.translate(channels.TURNED) if width == 1 else part for part in piece)
    return b"".join(part.ljust(channels.BLOCK, b"\0") for part in turned)


def width_of(head: str) -> int | None:
    """Bits per sample of the file that a head is of, or None of a DSDIFF file."""
    with open(head, "rb") as file:
        data = channels.take(file, WIDTH_AT + 4)
    return None if data[:4] == b"FRM8" else struct.unpack_from("<I", data, WIDTH_AT)[0]


def made_again(converted: str, kept: dict[str, str]) -> Iterator[bytes]:
    """The bytes of an old file, piece by piece; `kept` has the names of what was kept of it by their endings."""
    width = width_of(kept[".head"])
    with open(kept[".head"], "rb") as file:
        yield from copied(file)
    with open(converted, "rb") as file:
        sound, last = channels.sound_of(file), None
        for piece in channels.pieces(file, sound):
            if last is not None:
                yield last
            last = laced(piece, width)
    for ending, other in ((".fill", last), (".id3", None), (".tail", None)):
        if ending in kept:
            with open(kept[ending], "rb") as file:
                yield from copied(file)
        elif other is not None:
            yield other


def write(name: str, data: Iterable[bytes]) -> str:
    with open(name, "wb") as file:
        for piece in data:
            file.write(piece)
    return name


def last_of(file: BinaryIO, sound: channels.Sound) -> bytes | None:
    """The last blocks of a DSF file, where their fill isn't zero; else None."""
    if sound.width is None or sound.bits == 0:
        return None
    size = sound.count * channels.BLOCK
    group = dataclasses.replace(sound, start=sound.stop - size, bits=(sound.bits - 1) % (8 * channels.BLOCK) + 1)
    last = next(channels.pieces(file, group))
    file.seek(group.start)
    data = file.read(size)
    return None if data == laced(last, sound.width) else data


def keep_all_but_sound(source: str, front: str) -> dict[str, str]:
    """Writes what a file has besides its sound, by the endings of what was written."""
    with open(source, "rb") as file:
        sound = channels.sound_of(file)
        file.seek(0)
        kept = {".head": write(front + ".head", copied(file, sound.start))}
        last = last_of(file, sound)
        if last is not None:
            kept[".fill"] = write(front + ".fill", [last])
        file.seek(sound.stop)
        start = file.read(3)
        if start:
            ending = ".id3" if start == b"ID3" else ".tail"
            file.seek(sound.stop)
            kept[ending] = write(front + ending, copied(file))
    return kept


def sum_of_pieces(data: Iterable[bytes]) -> str:
    total = hashlib.sha256()
    for piece in data:
        total.update(piece)
    return total.hexdigest()

"""Covers: what kind of picture a file is, and how large, as far as its bytes are whole."""
import dataclasses
import struct
import zlib

from dsdarc_scripts.outputs import Refused

PNG = b"\x89PNG\r\n\x1a\n"
# Marks of a JPEG file without a length, and those of its frame.
BARE = (0x01, *range(0xD0, 0xD8))
FRAMES = (*range(0xC0, 0xC4), *range(0xC5, 0xC8), *range(0xC9, 0xCC), *range(0xCD, 0xD0))


@dataclasses.dataclass
class Picture:
    """A whole picture: its media type, its size in pixels, the bits of a pixel, and its bytes."""

    mime: str
    width: int
    height: int
    depth: int
    data: bytes


def png(data: bytes) -> Picture:
    """A PNG file, whose chunks have to be whole."""
    at, shape = len(PNG), None
    while True:
        size, name = struct.unpack_from(">I4s", data, at)
        inner = data[at + 8 : at + 8 + size]
        if len(data) < at + 12 + size or zlib.crc32(name + inner) != struct.unpack_from(">I", data, at + 8 + size)[0]:
            raise Refused("it is a PNG file that is cut or damaged")
        if name == b"IHDR":
            shape = struct.unpack_from(">IIBB", inner)
        if name == b"IEND":
            break
        at += 12 + size
    if shape is None:
        raise Refused("it is a PNG file that is cut or damaged")
    width, height, depth, kind = shape
    return Picture("image/png", width, height, depth * {0: 1, 2: 3, 3: 1, 4: 2, 6: 4}.get(kind, 3), data)


def jpeg(data: bytes) -> Picture:
    """A JPEG file, which has to have a frame and an end."""
    at, shape = 2, None
    while data[at] == 0xFF:
        mark = data[at + 1]
        if mark == 0xFF:
            at += 1
        elif mark in BARE:
            at += 2
        else:
            if mark in FRAMES:
                shape = struct.unpack_from(">BHHB", data, at + 4)
            if mark in (0xD9, 0xDA):
                break
            at += 2 + struct.unpack_from(">H", data, at + 2)[0]
    if shape is None or data.rfind(b"\xff\xd9") < at:
        raise Refused("it is a JPEG file that is cut or damaged")
    bits, height, width, count = shape
    return Picture("image/jpeg", width, height, bits * count, data)


def picture(data: bytes) -> Picture:
    """What kind of picture these bytes are."""
    try:
        found = png(data) if data.startswith(PNG) else jpeg(data) if data.startswith(b"\xff\xd8\xff") else None
    except (struct.error, IndexError):
        raise Refused("it is a picture that is cut or damaged") from None
    if found is None:
        raise Refused("it is no JPEG or PNG picture" if data else "it is empty")
    if not found.width or not found.height:
        raise Refused("it is a picture without a size")
    return found

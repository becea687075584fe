"""Whole DSDIFF and DSF files, which tests break: with marks, other chunks and tags, of 1 to 6 channels."""
import dataclasses
import random
import struct

from dsdarc_scripts.dsdiffs import chunk, comments, dsdiff, mark_data

RATE, BLOCK = 2_822_400, 4096


@dataclasses.dataclass
class Whole:
    """A file before it is broken: its bytes, where its sound begins and how long that is, its number of channels and
    bits, its tag, and the texts of its marks."""

    data: bytes
    start: int
    size: int
    count: int
    bits: int
    tag: bytes
    marks: list[bytes]

    @property
    def is_dsf(self) -> bool:
        return self.data[:4] == b"DSD "


def tag(chance: random.Random) -> bytes:
    """A tag of some frames, the last one long."""
    frames = b""
    for name in (b"TIT2", b"TPE1", b"APIC"):
        text = b"\3" + bytes(chance.randrange(65, 90) for _ in range(chance.choice((3, 20, 300))))
        size = bytes(len(text) >> shift & 127 for shift in (21, 14, 7, 0))
        frames += name + size + b"\0\0" + text
    return b"ID3\4\0\0" + bytes(len(frames) >> shift & 127 for shift in (21, 14, 7, 0)) + frames


def whole_dsdiff(chance: random.Random) -> Whole:
    count = chance.choice((1, 2, 2, 3, 5, 6))
    sound = chance.randbytes(count * chance.randrange(1, 6000))
    texts = [bytes(chance.randrange(97, 122) for _ in range(chance.randrange(9))) for _ in range(chance.randrange(4))]
    marks = b"".join(chunk(b"MARK", mark_data(it, offset=9 * number)) for number, it in enumerate(texts))
    its_tag = tag(chance) if chance.random() < 0.5 else b""
    more = [chunk(b"DIIN", marks)] if texts else []
    more += [chunk(b"ID3 ", its_tag)] if its_tag else []
    more += [comments([b"hello"])] if chance.random() < 0.5 else []
    more += [chunk(b"MANF", b"made" + chance.randbytes(9))] if chance.random() < 0.3 else []
    chance.shuffle(more)
    kept = chunk(b"LSCO", b"\0\0") if chance.random() < 0.3 else b""
    data = dsdiff(RATE, count, sound, more=b"".join(more), kept=kept)
    return Whole(data, data.index(sound), len(sound), count, len(sound) // count * 8, its_tag, texts)


def whole_dsf(chance: random.Random) -> Whole:
    count, width, bits = chance.choice((1, 2, 2, 5, 6)), chance.choice((1, 8)), chance.randrange(1, 4 * 8 * BLOCK)
    groups = -(-bits // (8 * BLOCK))
    sound = chance.randbytes(groups * count * BLOCK)
    its_tag = tag(chance) if chance.random() < 0.5 else b""
    kind = {1: 1, 2: 2, 5: 6, 6: 7}[count]
    form = struct.pack("<IIIIIIQII", 1, 0, kind, count, RATE, width, bits, BLOCK, 0)
    size = 92 + len(sound) + len(its_tag)
    head = b"DSD " + struct.pack("<QQQ", 28, size, 92 + len(sound) if its_tag else 0)
    head += b"fmt " + struct.pack("<Q", 52) + form + b"data" + struct.pack("<Q", 12 + len(sound))
    return Whole(head + sound + its_tag, 92, len(sound), count, bits, its_tag, [])


def bits_before(it: Whole, place: int) -> int:
    """How many bits of each channel are whole before a place of the file."""
    there = max(min(place - it.start, it.size), 0)
    if not it.is_dsf:
        return there // it.count * 8
    groups, rest = divmod(there, it.count * BLOCK)
    return min(8 * (groups * BLOCK + max(rest - (it.count - 1) * BLOCK, 0)), it.bits)


def places_of(data: bytes, name: bytes) -> int:
    """Where the size of a chunk is."""
    return data.index(name) + 4


def with_size(data: bytes, at: int, size: int, order: str) -> bytes:
    return data[:at] + struct.pack(f"{order}Q", size) + data[at + 8 :]

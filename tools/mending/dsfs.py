"""What a broken DSF file holds (docs/DSF.md)."""
import dataclasses
import struct

from tools.mending import parts
from tools.mending.parts import Broken, Mended, Part, Range, View, counted

BLOCK = 4096
GROUP_BITS = 8 * BLOCK
LEAST_FORMAT = 52
FORMAT_AT = 28
# How far from the first byte the sound's header is looked for.
FARTHEST = 4096
TAG = (b"ID3",)
OLD_TAG = 128  # bytes of a tag ID3v1, which programs put after all else


@dataclasses.dataclass
class Header:
    """The fields of a file, and where its sound begins. `format` is the chunk `fmt `, without its header."""

    size: int
    tag: int
    format: bytes
    data: int
    sound: int

    @property
    def channels(self) -> int:
        return struct.unpack_from("<I", self.format, 12)[0]

    @property
    def bits(self) -> int:
        return struct.unpack_from("<Q", self.format, 24)[0]


def header_of(view: View, mended: Mended) -> Header:
    """The header of a file, whose chunks are where their IDs are."""
    head = view.data(0, FARTHEST)
    if len(head) < 92:
        raise Broken(f"the file ends within its header, after {counted(view.size)}")
    if head[FORMAT_AT : FORMAT_AT + 4] != b"fmt ":
        raise Broken(f"its header is broken at byte {view.base + FORMAT_AT}, where its format should be")
    first, size, tag, stated = (struct.unpack_from("<Q", head, at)[0] for at in (4, 12, 20, FORMAT_AT + 4))
    at = FORMAT_AT + stated
    if head[at : at + 4] != b"data" or stated < LEAST_FORMAT:
        at = head.find(b"data", FORMAT_AT + LEAST_FORMAT)
        mended.wrong.append("the size of its format lies")
    if first != FORMAT_AT:
        mended.wrong.append("the size of its first chunk lies")
    if at < 0 or at + 12 > len(head):
        raise Broken("there is no sound in it")
    found = Header(size, tag, head[FORMAT_AT + 12 : at], struct.unpack_from("<Q", head, at + 4)[0], at + 12)
    mended.channels = found.channels
    mended.rate, mended.width = struct.unpack_from("<II", found.format, 16)
    if not 1 <= found.channels <= 6 or struct.unpack_from("<I", found.format, 32)[0] != BLOCK:
        raise Broken("its header says something else than blocks of 4096 bytes for 1 to 6 channels")
    return found


def needed(bits: int, channels: int) -> int:
    """How many bytes the blocks of that many bits have."""
    return -(-bits // GROUP_BITS) * channels * BLOCK


def used(bits: int, channels: int) -> int:
    """The same without the fill of the last block."""
    whole = (bits + 7) // 8
    return needed(bits, channels) - -whole % BLOCK


def bits_in(size: int, channels: int) -> int:
    """How many bits of each channel so many bytes of blocks hold whole."""
    groups, rest = divmod(size, channels * BLOCK)
    return 8 * (groups * BLOCK + max(rest - (channels - 1) * BLOCK, 0))


def tag_at(view: View, at: int) -> bool:
    """Whether a tag begins at a place that ends with the file, or before an old tag that does."""
    size = parts.tag_size(view.data(at, parts.ID3_HEAD))
    return size is not None and view.size - at - size in (0, OLD_TAG)


def find_tag(view: View, header: Header, mended: Mended) -> int | None:
    """Where the tag begins; the header may say another place, or none."""
    least = header.sound + used(header.bits, header.channels)
    stated, is_tag = header.tag, parts.tag_size(view.data(header.tag, parts.ID3_HEAD)) is not None
    if stated and least <= stated <= view.size and (is_tag or stated == view.size):
        return stated
    found = next((it for it in view.find(TAG, min(least, view.size)) if tag_at(view, it)), None)
    if found is None and least > view.size or found is None and header.bits == 0:
        found = next((it for it in view.find(TAG, header.sound) if tag_at(view, it)), None)
    if found is not None:
        mended.wrong.append(
            "the place of its tag is wrong" if stated else "its tag is there, and no place of one is stated"
        )
        return found
    if stated and least <= stated <= view.size:
        return stated
    if stated:
        mended.wrong.append("the place of its tag is wrong, or the tag was cut off")
        mended.left.append("the tag: there is none in what is left of the file")
    return None


def judge_sound(view: View, header: Header, stop: int, mended: Mended, is_to_end: bool) -> None:
    """Finds how many bits are kept of the sound, which goes to a place at most."""
    there, channels = stop - header.sound, header.channels
    wanted, most = needed(header.bits, channels), bits_in(there, channels)
    mended.stated = header.bits if 0 < header.bits <= parts.MOST_BITS else None
    mended.bits = min(header.bits, most) if header.bits else most
    after = there - wanted
    if header.bits == 0 and there > 0:
        mended.wrong.append("its number of samples is 0: the recorder was perhaps switched off")
    elif mended.stated is None and header.bits:
        mended.wrong.append("its number of samples is one that no recording has")
    elif after < 0 and mended.bits == header.bits:
        mended.wrong.append(f"{counted(-after)} of the last block's fill are missing")
    elif after < 0:
        mended.wrong.append(f"the file ends {counted(-after)} before its sound does")
    elif after > 0 and is_to_end:
        mended.wrong.append(f"{counted(after)} more sound follow")
        mended.bits = most
    elif after > 0 and header.data - 12 != there:
        mended.left.append(f"{counted(after)} after the sound; --to-end takes them for sound")
    if (after < 0 or header.bits == 0 or is_to_end) and mended.bits:
        parts.note_zeros(mended, view, stop)


def judge_sizes(view: View, header: Header, stop: int, mended: Mended) -> None:
    """Says which sizes lie, but for those of what the end of the file cut off."""
    if header.size > view.size and needed(header.bits, header.channels) > view.size - header.sound:
        return
    if header.size != view.size:
        mended.wrong.append(f"the file's size is stated as {header.size:,}, and is {view.size:,}")
    if header.data - 12 != stop - header.sound:
        there = stop - header.sound + 12
        mended.wrong.append(f"the size of data is stated as {header.data:,}, and {there:,} bytes are there")


def last_group(view: View, header: Header, bits: int, width: int) -> tuple[int, list[Part]]:
    """Where the whole groups of blocks end that are kept, and the blocks of the last bits, filled with zeros."""
    groups, rest = divmod(bits, GROUP_BITS)
    at = header.sound + groups * header.channels * BLOCK
    size, blocks = -(-rest // 8), list[Part]()
    for channel in range(header.channels if rest else 0):
        data = bytearray(view.data(at + channel * BLOCK, size).ljust(BLOCK, b"\0"))
        if rest % 8:
            data[size - 1] &= (1 << rest % 8) - 1 if width == 1 else 0xFF00 >> rest % 8 & 0xFF
        blocks.append(bytes(data))
    return at, blocks


def assembled(view: View, header: Header, tag: list[Part], mended: Mended) -> None:
    """Puts the mended file together."""
    assert mended.width is not None
    stop, blocks = last_group(view, header, mended.bits, mended.width)
    format_ = header.format[:24] + struct.pack("<Q", mended.bits) + header.format[32:]
    sound = stop - header.sound + parts.size_of(blocks)
    start = FORMAT_AT + 12 + len(format_) + 12
    place, size = start + sound if parts.size_of(tag) else 0, start + sound + parts.size_of(tag)
    mended.parts = [
        b"DSD " + struct.pack("<QQQ", FORMAT_AT, size, place) + b"fmt " + struct.pack("<Q", len(format_) + 12),
        format_ + b"data" + struct.pack("<Q", sound + 12),
        Range(header.sound, stop - header.sound),
        *blocks,
        *tag,
    ]


def find(view: View, is_to_end: bool, lone_tag: Range | None) -> Mended:
    """What can be kept of a file that begins with `DSD `."""
    mended = Mended()
    header = header_of(view, mended)
    mended.sound = header.sound
    place = find_tag(view, header, mended)
    stop = view.size if place is None else place
    judge_sound(view, header, stop, mended, is_to_end)
    judge_sizes(view, header, stop, mended)
    tag = parts.tag_parts(view, place, view.size, mended) if place is not None else []
    if lone_tag and not tag:
        tag = [lone_tag]
    assembled(view, header, tag, mended)
    return mended

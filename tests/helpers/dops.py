"""WAVE files of DoP samples, by the DoP open standard 1.1 and docs/WAVE.md alone: the file of a recording's bits, and what
such a file has, or why it is refused. It shares nothing with the program.

A sample has 24 bits: the marker, 0x05 and 0xFA in turn, and 16 bits of the recording, the earliest of them the highest.
All channels of a frame have the same marker. If the bits don't fill the last frame, silence does, 0x69 again and again,
and a chunk `DoPn` after the data says in eight bytes how many there are.
"""
import struct
from collections import namedtuple
from collections.abc import Sequence

from dsdarc_scripts import waves

SILENCE = 0x69
MARKERS = (0x05, 0xFA)
RATES = range(62_500, 3_125_001)

# What a file has: the rate of the bits, and each channel's, as bytes of which the earliest bit is the highest, and how
# many there are.
Bits = namedtuple("Bits", "rate channels count")


class Refused(Exception):
    """The refusal's text."""


def refuse(is_wrong: object, text: str) -> None:
    if is_wrong:
        raise Refused(text)


def filled(channel: bytes, count: int) -> bytes:
    """A channel of so many bits, with silence up to a whole frame."""
    size = -(-count // 16) * 2
    value = int.from_bytes(channel.ljust(size, b"\0")[:size], "big") >> (8 * size - count) << (8 * size - count)
    silence = int.from_bytes(bytes([SILENCE]) * size, "big") & ((1 << (8 * size - count)) - 1)
    return (value | silence).to_bytes(size, "big")


def samples_of(channels: Sequence[bytes], count: int, first: int = 0) -> bytes:
    """The samples of channels of so many bits, the first with this marker."""
    made = bytearray()
    full = [filled(it, count) for it in channels]
    for frame in range(-(-count // 16)):
        for channel in full:
            early, late = channel[2 * frame : 2 * frame + 2]
            made += bytes((late, early, MARKERS[(first + frame) % 2]))
    return bytes(made)


def wave_of(rate: int, channels: Sequence[bytes], count: int) -> bytes:
    """The WAVE file of channels of so many bits at this rate."""
    samples = samples_of(channels, count)
    head = waves.head_of(rate // 16, len(channels), 24, -(-count // 16))
    rest = samples + bytes(len(samples) % 2)
    if count % 16:
        rest += b"DoPn" + struct.pack("<IQ", 8, count)
    return head[:4] + struct.pack("<I", len(head) + len(rest) - 8) + head[8:] + rest


def find(data: bytes, at: int, name: bytes) -> int | None:
    """The place of the first chunk of this name from a place on."""
    while at + 8 <= len(data):
        if data[at : at + 4] == name:
            return at
        size = int.from_bytes(data[at + 4 : at + 8], "little")
        at += 8 + size + size % 2
    return None


def is_pcm_24(form: bytes) -> bool:
    """Whether the samples are integers of 24 bits, all of them valid, in frames of three bytes a channel."""
    tag, channels, _, _, block, width = struct.unpack_from("<HHIIHH", form)
    if width != 24 or block != 3 * channels:
        return False
    if tag != waves.EXTENSIBLE:
        return bool(tag == waves.PLAIN)
    return len(form) >= 40 and form[18:20] == b"\x18\0" and form[24:40] == waves.PCM_SUBFORMAT


def read(data: bytes) -> Bits:
    """What a file has. Refused with the first fault, by its name and the frame of a broken marker."""
    refuse(len(data) < 12 or data[:4] != b"RIFF" or data[8:12] != b"WAVE", "NotWave")
    place = find(data, 12, b"data")
    if place is None:
        raise Refused("NoData")
    format_at = find(data, 12, b"fmt ")
    if format_at is None or format_at > place:
        raise Refused("NoFormat")
    size = int.from_bytes(data[format_at + 4 : format_at + 8], "little")
    refuse(size < 16 or format_at + 8 + size + size % 2 > place, "NoFormat")
    form = data[format_at + 8 : format_at + 8 + size]
    refuse(not is_pcm_24(form), "NotPcm24")
    channels, rate = struct.unpack_from("<HI", form, 2)
    refuse(not 1 <= channels <= 6, "BadChannelNumber")
    refuse(rate not in RATES, "BadRate")
    size, there = int.from_bytes(data[place + 4 : place + 8], "little"), len(data) - place - 8
    refuse(size == 2**32 - 1 or (size == 0 and there > 0), "NoSize")
    refuse(there < size, "DataCut")
    refuse(size % (3 * channels), "PartFrame")
    samples = data[place + 8 : place + 8 + size]
    check_markers(samples, channels)
    count = count_of(data, place + 8 + size + size % 2, size // 3 // channels)
    return Bits(16 * rate, [channel_of(samples, channels, c, count) for c in range(channels)], count)


def check_markers(samples: bytes, channels: int) -> None:
    """Whether each sample has its frame's marker, and the first frame either."""
    found = samples[2::3]
    first = int(found[:1] == b"\xfa")
    for number, marker in enumerate(found):
        frame = number // channels
        refuse(marker != MARKERS[(first + frame) % 2], f"BadMarker {frame}")


def count_of(data: bytes, after: int, frames: int) -> int:
    """How many bits each channel has."""
    at = find(data, after, b"DoPn")
    if at is None:
        return 16 * frames
    refuse(int.from_bytes(data[at + 4 : at + 8], "little") < 8 or len(data) < at + 16, "CountCut")
    count = int.from_bytes(data[at + 8 : at + 16], "little")
    refuse(not 16 * frames - 16 < count <= 16 * frames, "BadCount")
    return count


def channel_of(samples: bytes, channels: int, c: int, count: int) -> bytes:
    """The first bits of a channel, with zeros after them up to a whole byte."""
    made = bytearray(2 * (len(samples) // 3 // channels))
    made[0::2] = samples[3 * c + 1 :: 3 * channels]
    made[1::2] = samples[3 * c :: 3 * channels]
    own = made[: -(-count // 8)]
    if count % 8:
        own[-1] &= 0xFF << (8 - count % 8) & 0xFF
    return bytes(own)

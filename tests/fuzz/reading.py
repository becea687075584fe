"""A plain reading of files by docs/DSDIFF.md and docs/DSF.md: what `info` has to print, and the bits; or the first
refusal. Samples of them by docs/PROJECTS.md. It shares nothing with the program."""
import struct
from collections.abc import Callable, Iterator
from typing import Any

from tests.fuzz.judging import LAYOUTS

RATE = range(1_000_000, 50_000_001)
MOST = 2**36
DSF_LAYOUTS = {1: 1, 2: 2, 3: 3, 4: 4, 5: 4, 6: 5, 7: 6}


class Refused(Exception):
    """The refusal's text."""


def refuse(is_wrong: int, text: str) -> None:
    if is_wrong:
        raise Refused(text)


def read(data: bytes) -> tuple[dict[str, Any], Callable[..., Any]]:
    """What is printed of a file, and a function that answers the bit of a channel at a place. Refused where it isn't
    read."""
    if len(data) >= 16 and data[:4] == b"FRM8" and data[12:16] == b"DSD ":
        return read_dsdiff(data)
    refuse(data[:4] != b"DSD ", "UnknownForm")
    return read_dsf(data)


# DSDIFF.


def walk(data: bytes, start: int, stop: int) -> Iterator[tuple[bytes, int, bytes]]:
    """The chunks of a range: ID, where its head is, its data."""
    at = start
    while at < stop:
        refuse(stop - at < 12, f"Dsdiff Chunk HeadCut {at}")
        size = int.from_bytes(data[at + 4 : at + 12], "big")
        refuse(size > stop - at - 12, f"Dsdiff Chunk DataCut {at}")
        yield data[at : at + 4], at, data[at + 12 : at + 12 + size]
        at += 12 + size + size % 2


def once(chunks: list[tuple[bytes, int, bytes]], kinds: tuple[bytes, bytes, bytes]) -> dict[bytes, tuple[int, bytes]]:
    """The chunks of these kinds by kind. The first that comes a second time is refused."""
    found = {}
    for name, at, inner in chunks:
        kind = name if name != b"PROP" or inner[:4] == b"SND " else None
        if kind in kinds:
            refuse(kind in found, f"Dsdiff Twice {name.hex()}")
            found[kind] = at, inner
    return found


def read_dsdiff(data: bytes) -> tuple[dict[str, Any], Callable[..., Any]]:
    size = int.from_bytes(data[4:12], "big")
    refuse(size < 4 or 12 + size > len(data) + 1, "Dsdiff FormCut")
    top = list(walk(data, 16, min(12 + size, len(data))))
    refuse(not top or top[0][0] != b"FVER" or len(top[0][2]) < 4, "Dsdiff NoVersion")
    refuse(top[0][2][0] != 1, "Dsdiff BadVersion")
    found = once(top, (b"FVER", b"PROP", b"DSD "))
    refuse(b"PROP" not in found, "Dsdiff NoProperty")
    place, property_data = found[b"PROP"]
    inner = list(walk(data, place + 16, place + 12 + len(property_data)))
    info = read_property(inner)
    refuse(b"DSD " not in found, "Dsdiff NoSound")
    refuse(found[b"DSD "][0] < place, "Dsdiff SoundBeforeProperty")
    sound = len(found[b"DSD "][1])
    refuse(sound % info["channels"], "Dsdiff PartFrame")
    info["samples"] = 8 * sound // info["channels"]
    refuse(info["samples"] > MOST, "Dsdiff TooLong")
    marks, others = read_masters(data, top, info["rate"])
    others += sum(name not in (b"FS  ", b"CHNL", b"CMPR") for name, _, _ in inner)
    others += sum(name not in (b"FVER", b"DSD ", b"DIIN", b"PROP") for name, _, _ in top)
    others += sum(name == b"PROP" and it[:4] != b"SND " for name, _, it in top)
    start, channels = found[b"DSD "][0] + 12, info["channels"]

    def bit_at(channel: int, place: int) -> int:
        return data[start + place // 8 * channels + channel] >> (7 - place % 8) & 1

    return info | {"form": "dsdiff", "marks": len(marks), "mark": marks, "others": others, "tag": 0}, bit_at


def read_property(chunks: list[tuple[bytes, int, bytes]]) -> dict[str, Any]:
    found = {name: it for name, (_, it) in once(chunks, (b"FS  ", b"CHNL", b"CMPR")).items()}
    field, channels, compression = (found.get(it, b"") for it in (b"FS  ", b"CHNL", b"CMPR"))
    refuse(len(field) < 4, "Dsdiff NoRate")
    number = int.from_bytes(channels[:2], "big")
    refuse(len(channels) < 2 + 4 * number or len(channels) < 2, "Dsdiff NoChannels")
    refuse(len(compression) < 4, "Dsdiff NoCompression")
    refuse(compression[:4] != b"DSD ", "Dsdiff Compressed")
    rate = int.from_bytes(field[:4], "big")
    refuse(rate not in RATE, "Dsdiff BadRate")
    refuse(not 1 <= number <= 6, "Dsdiff BadChannelNumber")
    ids = " ".join(channels[2 + 4 * c : 6 + 4 * c].hex() for c in range(number))
    return {"rate": rate, "channels": number, "ids": ids, "layout": LAYOUTS[number - 1]}


def read_masters(data: bytes, top: list[tuple[bytes, int, bytes]], rate: int) -> tuple[list[str], int]:
    """The lines of the marks of all `DIIN`, and how many other chunks are there."""
    marks, others = [], 0
    for name, at, inner in top:
        if name != b"DIIN":
            continue
        chunks = list(walk(data, at + 12, at + 12 + len(inner)))
        for kind, _, it in chunks:
            if kind != b"MARK":
                others += 1
                continue
            refuse(len(it) < 22, "Dsdiff BadMark")
            hours, minutes, seconds, samples, offset, type_, channel, _, count = struct.unpack(">HBBIiHHHI", it[:22])
            refuse(len(it) < 22 + count, "Dsdiff BadMark")
            place = ((hours * 60 + minutes) * 60 + seconds) * rate + samples + offset
            marks.append(f"{place} type {type_} channel {channel}")
    return marks, others


# DSF.


def read_dsf(data: bytes) -> tuple[dict[str, Any], Callable[..., Any]]:
    refuse(len(data) < 80, "Dsf HeadCut")
    first, _, pointer = struct.unpack("<QQQ", data[4:28])
    size = int.from_bytes(data[32:40], "little")
    refuse(first != 28 or data[28:32] != b"fmt " or size < 52, "Dsf BadFormat")
    at = 28 + size
    refuse(len(data) < at + 12, "Dsf HeadCut")
    version, form, layout, channels, rate, per_sample, count, block = struct.unpack("<IIIIIIQI", data[40:76])
    room = int.from_bytes(data[at + 4 : at + 12], "little")
    refuse(data[at : at + 4] != b"data" or room < 12 or form != 0, "Dsf BadFormat")
    refuse(version != 1, "Dsf BadVersion")
    refuse(not 1 <= channels <= 6, "Dsf BadChannelNumber")
    refuse(rate not in RATE, "Dsf BadRate")
    refuse(per_sample not in (1, 8), "Dsf BadBits")
    refuse(block != 4096, "Dsf BadBlock")
    refuse(count > MOST, "Dsf TooLong")
    stop = at + 12 + -(-count // 32768) * channels * 4096
    refuse(stop - at > room or stop > len(data), "Dsf DataCut")
    refuse(pointer and not stop <= pointer <= len(data), "Dsf BadPointer")
    ids = [b"SLFT", b"SRGT"] if channels == 2 else [b"C%03d" % c for c in range(channels)]

    def bit_at(channel: int, place: int) -> int:
        byte = data[at + 12 + (place // 32768 * channels + channel) * 4096 + place % 32768 // 8]
        return byte >> (place % 8 if per_sample == 1 else 7 - place % 8) & 1

    info = {
        "form": "dsf" if per_sample == 1 else "dsf8",
        "rate": rate,
        "channels": channels,
        "samples": count,
        "ids": " ".join(it.hex() for it in ids),
        "layout": layout if DSF_LAYOUTS.get(layout) == channels else LAYOUTS[channels - 1],
        "marks": 0,
        "mark": [],
        "others": 0,
        "tag": len(data) - pointer if pointer else 0,
    }
    return info, bit_at


def bits_of(data: bytes) -> list[list[int]]:
    """The channels of a recording's file as lists of bits."""
    info, bit_at = read(data)
    return [[bit_at(channel, place) for place in range(info["samples"])] for channel in range(info["channels"])]


# Samples.


def sample(
    info: dict[str, Any], bit_at: Callable[..., Any], decimate: dict[str, Any], channel: int, number: int
) -> int:
    """A sample of what a recording plays."""
    taps, shift, most = decimate["taps"], decimate["shift"], 1 << (decimate["width"] - 1)
    place = number * decimate["factor"] + decimate["delay"]
    total = 0
    for k, tap in enumerate(taps):
        if 0 <= place - k < info["samples"]:
            total += tap if bit_at(channel, place - k) else -tap
    return max(-most, min(most - 1, (total + (1 << shift >> 1)) >> shift))

"""Bits by the library (tests/library/bits.c) against a second reading of the files, written here."""
import os
import random

from dsdarc_scripts.dsdiffs import chunk, dsdiff, mark_data
from tests.helpers.trials import demand, get
from tests.helpers.trials import said as run
from tests.library.playing import PROGRAM, frames_of

SILENCE = 0x69
TURNED = bytes(int(f"{byte:08b}"[::-1], 2) for byte in range(256))
KINDS = ["msb", "lsb", "dop", "dop32", "msb-planar", "lsb-planar", "dop-planar", "dop32-planar"]


def low(value: int, size: int) -> bytes:
    return value.to_bytes(size, "little")


def dsf(rate: int, count: int, channels: list[bytes], bits: int, tag: bytes) -> bytes:
    """A DSF file of channels of so many bits, each packed with the earliest bit the most significant."""
    blocks = []
    for block in range(-(-count // 32768)):
        for channel in channels:
            part = channel[4096 * block : 4096 * (block + 1)].ljust(4096, b"\0")
            blocks.append(part if bits == 8 else part.translate(TURNED))
    sound = b"".join(blocks)
    layout = {1: 1, 2: 2, 3: 3, 4: 4, 5: 6, 6: 7}[len(channels)]
    format = low(1, 4) + low(0, 4) + low(layout, 4) + low(len(channels), 4) + low(rate, 4) + low(bits, 4)
    format = b"fmt " + low(52, 8) + format + low(count, 8) + low(4096, 4) + bytes(4)
    size = 28 + 52 + 12 + len(sound)
    head = b"DSD " + low(28, 8) + low(size + len(tag), 8) + low(size if tag else 0, 8)
    return head + format + b"data" + low(12 + len(sound), 8) + sound + tag


def read(file: bytes) -> tuple[int, list[bytes]]:
    """How many bits each channel of a file has, and their bytes, the earliest bit the most significant."""
    if file[:4] == b"DSD ":
        number, bits = int.from_bytes(file[52:56], "little"), int.from_bytes(file[60:64], "little")
        count, sound = int.from_bytes(file[64:72], "little"), file[92:]
        planes = [
            b"".join(sound[k : k + 4096] for k in range(4096 * c, len(sound), 4096 * number)) for c in range(number)
        ]
        return count, [plane if bits == 8 else plane.translate(TURNED) for plane in planes]
    at, number = 16, 0
    while file[at : at + 4] != b"DSD ":
        if file[at : at + 4] == b"PROP":
            place = file.index(b"CHNL", at)
            number = int.from_bytes(file[place + 12 : place + 14], "big")
        size = int.from_bytes(file[at + 4 : at + 12], "big")
        at += 12 + size + size % 2
    sound = file[at + 12 : at + 12 + int.from_bytes(file[at + 4 : at + 12], "big")]
    return len(sound) // number * 8, [sound[c::number] for c in range(number)]


def filled(count: int, channel: bytes, unit: int) -> bytes:
    """The bytes of a channel, with silence up to whole units of so many bytes."""
    size = -(-count // (8 * unit)) * unit
    mask = 255 >> count % 8 if count % 8 else 0
    made = bytearray(channel[: -(-count // 8)])
    if mask:
        made[-1] = made[-1] & ~mask | SILENCE & mask
    return bytes(made).ljust(size, bytes([SILENCE]))


def wanted(kind: str, file: bytes) -> tuple[bytes, int]:
    """The frames that a kind has of a file, and how many bytes one has."""
    count, channels = read(file)
    if kind.startswith("dop"):
        each = [filled(count, channel, 2) for channel in channels]
        made = bytearray()
        for frame in range(len(each[0]) // 2):
            for channel in each:
                sample = bytes([channel[2 * frame + 1], channel[2 * frame], 0xFA if frame % 2 else 0x05])
                made += low(int.from_bytes(sample, "little", signed=True) % (1 << 32), 4) if "32" in kind else sample
        return bytes(made), (4 if "32" in kind else 3) * len(channels)
    each = [filled(count, channel, 1) for channel in channels]
    if kind.startswith("lsb"):
        each = [channel.translate(TURNED) for channel in each]
    return b"".join(map(bytes, zip(*each))), len(channels)


def try_bits(chance: random.Random, folder: str, bits: str) -> None:
    """One file of random sound in each kind, whole and from a frame on. `bits` is bits.c, built."""
    channels = chance.choice([1, 2, 2, 3, 4, 5, 6])
    size = chance.choice([0, 1, 2, 7, 4095, 4096, 4097, 8192, 20000, 70001])
    sound = chance.randbytes(channels * size)
    count = max(0, 8 * size - chance.choice([0, 0, 1, 3, 7, 8, 9]))
    marks = chunk(b"DIIN", chunk(b"MARK", mark_data(b"first")) + chunk(b"MARK", mark_data(b"2", 0, 0, 1, 7, -9, 4, 1)))
    tag = chunk(b"ID3 ", b"ID3 tag")
    files = [dsdiff(2822400, channels, sound, more=marks + tag)]
    for order in (1, 8):
        files.append(
            dsf(2822400, count, [sound[c::channels] for c in range(channels)], order, chance.choice([b"", b"ID3 tag"]))
        )
    for place, file in enumerate(files):
        name, out = os.path.join(folder, f"bits.{'dsf' if place else 'dff'}"), os.path.join(folder, "bits.out")
        with open(name, "wb") as to:
            to.write(file)
        for kind in KINDS:
            whole, align = wanted(kind, file)
            for seed in (0, chance.randrange(1, 1 << 60)):
                status, said = run(bits, kind, name, out, str(seed))
                demand(status == 0 and get(out) == whole, f"other {kind} of {size} x {channels}, {place}: {said}")
                known = f"tag {len(file) - 8} 7 mark 0 0 0 0 5 first mark 2822398 4 1 0 1 2 marks 2"
                demand(known in said or place > 0, f"{kind} of {size} x {channels}: other marks or another tag: {said}")
            first = chance.randrange(len(whole) // align + 1)
            status, said = run(bits, kind, name, out, str(chance.randrange(1, 1 << 60)), str(first))
            demand(status == 0 and get(out) == whole[first * align :], f"other {kind} from {first} on: {said}")
    filter = os.path.join(os.path.dirname(os.path.dirname(os.path.dirname(os.path.realpath(__file__)))), "filters")
    if size > 0:
        wave = os.path.join(folder, "bits.wav")
        run(PROGRAM, "play", os.path.join(filter, "dsd64-to-88200-24.toml"), name, wave)
        status, said = run(bits, "ready", name, out, str(chance.randrange(1, 1 << 60)))
        demand(status == 0 and get(out) == frames_of(get(wave))[0], f"other frames by the ready filter: {said}")

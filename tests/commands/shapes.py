"""Recordings of one to six channels in each form, three takes, and each number of weights: each command does what it
does of one channel. Files are made here of the bytes of each channel; samples, masters and certificates come from the
second reading of the documents in tests/fuzz."""
import itertools
import random
from collections.abc import Iterator, Sequence
from typing import Any

from dsdarc_scripts import waves
from dsdarc_scripts.dsdiffs import dsdiff, numbered
from tests.commands.asking import CHECK, Case, demand, done, rejected
from tests.commands.small_files import RATE, changed, dsf, info_lines
from tests.fuzz import bridging, reading
from tests.fuzz.bases import Cue, decimate_text, splice_text

CHANNELS = range(1, 7)
FORMS = ("dsdiff", "dsf", "dsf8")
TAKES = ("a", "b", "c")

# The bytes of a channel: of part of a block, and of one more than a block.
SIZES = (37, 4097)

# IDs of loudspeakers: left, right and centre in front, low sound, left and right at the back.
FIVE = (b"MLFT", b"MRGT", b"C   ", b"LS  ", b"RS  ")
SIX = (b"MLFT", b"MRGT", b"C   ", b"LFE ", b"LS  ", b"RS  ")

# What is played: each sample as it is summed, to 16 bits; and every 32 bits, shifted, to 24.
FILTERS: tuple[dict[str, Any], ...] = (
    {"taps": [1, 2, 3, 4], "factor": 8, "delay": 3, "shift": 0, "width": 16},
    {"taps": [5 * k % 37 - 9 for k in range(75)], "factor": 32, "delay": 40, "shift": 1, "width": 24},
)

# Cues of three takes of eight bytes a channel, with two fades and a line between them: 12 bytes in all. Twelve weights
# want eleven bits in a cue, and as many more than a fade has in front of the next. The first cue has 24 bits.
CUES = (Cue(0, 16, 40, 3), Cue(1, 20, 42, 2), Cue(2, 24, 45, 1, None, (4, -4)), Cue(0, 40, 63))
FIRST_BRIDGE, TAKE_SIZE, MASTER_SIZE = 24, 8, 12

# The first so many are the weights, 2 to 12.
WEIGHTS = (3, 5, -2, 7, 11, 11, 7, 5, 3, -2, 1, 4)
NUMBERS = range(2, 13)

EARLIEST_LOWEST = bytes(int(f"{byte:08b}"[::-1], 2) for byte in range(256))


def sounds(seed: str, channels: int, size: int) -> list[bytes]:
    """The bytes of each channel, the earliest bit of a byte its highest."""
    return [random.Random(f"{seed} {channel}").randbytes(size) for channel in range(channels)]


def file_of(form: str, channels: list[bytes], ids: Sequence[bytes] | None = None) -> bytes:
    """The file of a form that has these bytes in its channels."""
    size = len(channels[0])
    if form == "dsdiff":
        ids = ids or (None if len(channels) == 2 else numbered(len(channels)))
        return dsdiff(RATE, len(channels), bytes(itertools.chain(*zip(*channels))), ids=ids)
    blocks = range(0, size, 4096)
    sound = b"".join(channel[at : at + 4096].ljust(4096, b"\0") for at in blocks for channel in channels)
    sound = sound.translate(EARLIEST_LOWEST) if form == "dsf" else sound
    return dsf(1 if form == "dsf" else 8, 8 * size, sound, len(channels), len(sound))


def bits_of(sound: bytes) -> list[int]:
    return [byte >> k & 1 for byte in sound for k in range(7, -1, -1)]


def sound_of(bits: list[int]) -> bytes:
    text = "".join(map(str, bits))
    return bytes(int(text[at : at + 8], 2) for at in range(0, len(text), 8))


# What `info` describes, and what is converted.


def converted() -> Iterator[Case]:
    """Each form is described, and written in each form; it says as much of four channels in another layout."""
    for number, size in itertools.product(CHANNELS, SIZES):
        channels = sounds("converted", number, size)
        files = {form: file_of(form, channels) for form in FORMS}
        for form, data in files.items():
            steps = [done("info in", info_lines(form, 8 * size, channels=number))]
            steps += [done(f"convert {it} in {it}", "converted dropped 0", {it: made}) for it, made in files.items()]
            yield Case({"in": data}, steps)
    for ids in (FIVE, SIX):
        data = file_of("dsdiff", sounds("named", len(ids), 9), ids)
        line = info_lines("dsdiff", 72, channels=len(ids), ids=ids)
        yield Case({"in": data}, [done("info in", line), done("convert dsdiff in in", "converted dropped 0")])
    # The channel type is at 48.
    for number, kind, layout in ((4, 5, 5), (4, 4, 4), (3, 5, 3), (6, 2, 7)):
        data = changed(file_of("dsf", sounds("laid out", number, 9)), 48, kind)
        yield Case({"in": data}, [done("info in", info_lines("dsf", 72, channels=number, layout=layout))])


# What is played.


def wave_of(channels: list[bytes], decimate: dict[str, Any]) -> bytes:
    """The WAVE file of these channels."""
    bits = [bits_of(it) for it in channels]
    count, width = len(bits[0]), decimate["width"]
    frames = -(-count // decimate["factor"])
    every = (
        reading.sample({"samples": count}, lambda c, place: bits[c][place], decimate, channel, number)
        for number in range(frames)
        for channel in range(len(bits))
    )
    samples = b"".join(it.to_bytes(width // 8, "little", signed=True) for it in every)
    return waves.head_of(RATE // decimate["factor"], len(bits), width, frames) + samples + bytes(len(samples) % 2)


def played() -> Iterator[Case]:
    """Each form is played by both filters."""
    for number, decimate in itertools.product(CHANNELS, FILTERS):
        channels = sounds("played", number, SIZES[0])
        wave, text = wave_of(channels, decimate), decimate_text(**decimate).encode()
        for form in FORMS:
            step = done("play p.toml in out", f"played {len(wave)} bytes", {"out": wave})
            yield Case({"in": file_of(form, channels), "p.toml": text}, [step])


# What is cut and checked.


def cut(weights: list[int], number: int) -> Iterator[Case]:
    """Three takes of so many channels, each in another form, are cut to each form and accepted; masters with another
    bit are rejected."""
    channels = [sounds(f"take {it}", number, TAKE_SIZE) for it in TAKES]
    takes = [[bits_of(sound) for sound in it] for it in channels]
    bits, entries, total = bridging.master(weights, takes, CUES)
    cert = bridging.written(weights, entries)
    master = [sound_of(it) for it in bits]
    demand(len(master[0]) == MASTER_SIZE, f"a master of {len(master[0])} bytes a channel")
    files = {name: file_of(form, it) for name, form, it in zip(TAKES, FORMS, channels)}
    files["e.toml"] = splice_text(weights, TAKES, CUES).encode()
    steps = []
    for form in FORMS:
        made = {"m.dff": file_of(form, master), "c.cert": cert}
        steps.append(done(f"edit {form} e.toml m.dff c.cert", f"edited total {total}", made))
        steps.append(done(CHECK, f"accepted total {total}"))
    yield Case(files, steps)
    for data, line in other_masters(weights, takes, bits, cert):
        yield Case(files | {"m.dff": data, "c.cert": cert}, [rejected(CHECK, line)])


def other_masters(
    weights: list[int], takes: list[list[list[int]]], bits: list[list[int]], cert: bytes
) -> Iterator[tuple[bytes, str]]:
    """Masters of which a bit of the last channel is the other, and the first reason against them."""
    for place in (5, 8 * MASTER_SIZE - 1):
        yield with_turned(bits, place)[1], f"CuedBit {len(bits) - 1} {place}"
    other, data = with_turned(bits, FIRST_BRIDGE)
    line = bridging.verdict(weights, takes, [*CUES], other, cert)
    demand(line.startswith("rejected Cert "), f"a bridge with another bit is {line}")
    yield data, line.strip().removeprefix("rejected ")


def with_turned(bits: list[list[int]], place: int) -> tuple[list[list[int]], bytes]:
    """The channels of a master with the other bit at a place of the last, and their file."""
    *front, last = bits
    other = [*front, [bit ^ (at == place) for at, bit in enumerate(last)]]
    return other, file_of("dsdiff", [sound_of(it) for it in other])


def shape_cases() -> Iterator[Case]:
    """The tables of recordings by their number of channels, and of cuts by their number of weights too."""
    yield from converted()
    yield from played()
    for number in CHANNELS:
        yield from cut(list(WEIGHTS[:3]), number)
    for count, number in itertools.product(NUMBERS, (1, 2)):
        yield from cut(list(WEIGHTS[:count]), number)

#!/usr/bin/env python3
"""Makes an archive of a hundred small DSD files to try a workflow on: make_archive.py FOLDER.

DSDIFF files are written here, DSF files by dsdarc (or what DSDARC names) from these. Fourteen are broken or of a kind
that is refused, two of a rate that the usual filters don't have, and two end inside a byte.
"""
import os
import sys
from collections.abc import Iterator

sys.path.insert(0, os.path.dirname(os.path.dirname(os.path.realpath(__file__))))
from dsdarc_scripts import outputs

outputs.begin()
import argparse
import contextlib
import random
import struct
import subprocess

from dsdarc_scripts import room
from dsdarc_scripts.dsdiffs import chunk, dsdiff, mark
from dsdarc_scripts.program import PROGRAM

RATES = [2_822_400, 2_822_400, 5_644_800, 3_072_000, 11_289_600, 6_144_000]
NAMES = [
    "{nr:02} track.dff",
    "{nr:02} - Größe & Maß.dff",
    '{nr:02} it\'s "quoted".DFF',
    "{nr:02} [live] {{take}}.dff",
    "{nr:02} 100% $HOME `x`.dff",
    "-{nr:02} first.dff",
]


@contextlib.contextmanager
def part_of(name: str, data: bytes) -> Iterator[str]:
    """A file of the data beside a name, while it is needed."""
    part = name + ".part"
    os.makedirs(os.path.dirname(name), exist_ok=True)
    try:
        # What is there may be a link to another file.
        with contextlib.suppress(FileNotFoundError):
            os.remove(part)
        with open(part, "xb") as file:
            file.write(data)
        yield part
    finally:
        with contextlib.suppress(FileNotFoundError):
            os.remove(part)


def write(name: str, data: bytes) -> None:
    """Writes a file, whole or not at all."""
    with part_of(name, data) as part:
        os.replace(part, name)


def write_dsf(name: str, form: str, data: bytes) -> None:
    """Writes the DSF file of a DSDIFF file's data."""
    with part_of(name, data) as part:
        try:
            done = subprocess.run([PROGRAM, "convert", form, part, name], capture_output=True, text=True)
        except OSError as error:
            raise outputs.Refused(f"no program runs: {PROGRAM}: {error.strerror}") from None
        if done.returncode != 0:
            line = done.stderr.strip()
            room.check(line, os.path.dirname(name), lambda: room.copied_size(part))
            raise outputs.Refused(f"{line or f'status {done.returncode}'}: {outputs.shown_name(name)}")


def good(folder: str, number: int, chance: random.Random) -> None:
    """A whole file: its form, rate, channels and length go by its number."""
    rate = RATES[number % len(RATES)]
    channels = [2, 2, 1, 6, 5, 2, 3, 4][number % 8]
    count = 2**11 + chance.randrange(2**15)
    more = mark(b"one") + chunk(b"COMT", b"\0\0") if number % 7 == 0 else b""
    place = ["", "Artist A/Disc 1", "Artist A/Disc 2", "Künstler Ö/an album/CD 1"][number % 4]
    name = os.path.join(folder, place, NAMES[number % len(NAMES)].format(nr=number))
    data = dsdiff(rate, channels, chance.randbytes(channels * count), more=more)
    if number % 3:
        write_dsf(os.path.splitext(name)[0] + ".dsf", "dsf" if number % 2 else "dsf8", data)
    else:
        write(name, data)


def patched(data: bytes, at: int, new: bytes) -> bytes:
    return data[:at] + new + data[at + len(new) :]


def broken(folder: str, chance: random.Random) -> None:
    """Files that are refused, each for its own reason."""
    stereo = chance.randbytes(40_000)
    whole = dsdiff(2_822_400, 2, stereo)
    made = os.path.join(folder, "broken", "x.dsf")
    write_dsf(made, "dsf", whole)
    with open(made, "rb") as file:
        dsf = file.read()
    os.remove(made)
    for name, data in {
        "empty.dff": b"",
        "a text.dsf": b"no sound here\n",
        "cut in the sound.dff": whole[:20_000],
        "cut in the head.dff": whole[:40],
        "packed (DST).dff": dsdiff(2_822_400, 2, stereo, compression=b"DST "),
        "part frame.dff": dsdiff(2_822_400, 2, stereo[:-1]),
        "seven channels.dff": dsdiff(2_822_400, 7, stereo[: 7 * 5000]),
        "slow rate.dff": dsdiff(44_100, 2, stereo),
        "cut mark.dff": dsdiff(2_822_400, 2, stereo, more=chunk(b"DIIN", chunk(b"MARK", b"short"))),
        "cut in the sound.dsf": dsf[:20_000],
        "cut in the head.dsf": dsf[:50],
        "two bits.dsf": patched(dsf, 60, struct.pack("<I", 2)),
        "other blocks.dsf": patched(dsf, 72, struct.pack("<I", 1024)),
        "tag behind the end.dsf": patched(dsf, 20, struct.pack("<Q", len(dsf) + 1)),
    }.items():
        write(os.path.join(folder, "broken", name), data)
    for name, bits in {"odd end.dsf": 159_997, "one bit.dsf": 1}.items():
        write(os.path.join(folder, "odd", name), patched(dsf, 64, struct.pack("<Q", bits)))
    for name, rate in {"other rate.dff": 2_822_401, "fast rate.dff": 22_579_200}.items():
        write(os.path.join(folder, "odd", name), dsdiff(rate, 2, stereo))


def main() -> int:
    parser = argparse.ArgumentParser(description=__doc__.partition(": ")[0] + ".")
    parser.add_argument("folder", help="the folder to make, or to add to")
    folder, chance = parser.parse_args().folder, random.Random(1)
    with room.reported("FOLDER"):
        broken(folder, chance)
        for number in range(82):
            good(folder, number, chance)
    print(f"{sum(len(files) for _, _, files in os.walk(folder))} files")
    return 0


if __name__ == "__main__":
    sys.exit(outputs.ended(main))

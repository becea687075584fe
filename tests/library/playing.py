"""What the trials of the library share: the program, what is built beside it, and how they say what they find."""
import os
import random

from dsdarc_scripts.dsdiffs import dsdiff
from tests.helpers.trials import ROOT, demand, get
from tests.helpers.trials import said as run

BUILT = os.path.join(ROOT, "crates", "dsdarc", "out")
PROGRAM = os.environ.get("DSDARC") or os.path.join(BUILT, "dsdarc")


def frames_of(wave: bytes) -> tuple[bytes, int]:
    """The frames of a WAVE file, and how many bytes one has."""
    at, align = 12, 0
    while wave[at : at + 4] != b"data":
        if wave[at : at + 4] == b"fmt ":
            align = int.from_bytes(wave[at + 20 : at + 22], "little")
        at += 8 + int.from_bytes(wave[at + 4 : at + 8], "little")
    return wave[at + 8 : at + 8 + int.from_bytes(wave[at + 4 : at + 8], "little")], align


def played(folder: str, name: str, size: int) -> tuple[str, str, str, bytes, int]:
    """Files of two channels of random sound, of which each has this many bytes, with a filter, the frames that `play`
    makes of them, and how many bytes one has."""
    dff, dsf, wave = (os.path.join(folder, f"{name}.{it}") for it in ("dff", "dsf", "wav"))
    filter = os.path.join(ROOT, "filters", "dsd64-to-88200-24.toml")
    with open(dff, "wb") as file:
        file.write(dsdiff(2822400, 2, random.Random(size).randbytes(2 * size)))
    run(PROGRAM, "convert", "dsf", dff, dsf)
    run(PROGRAM, "play", filter, dsf, wave)
    return dff, dsf, filter, *frames_of(get(wave))


def try_file(
    chance: random.Random, folder: str, cut: list[str], filters: list[str], what: str
) -> tuple[str, str, str, bytes, int]:
    """One file of random sound, played by cut.c: whole, in both forms, and a part of it. `cut` is how that is run."""
    channels, filter = chance.choice([1, 2, 2, 3, 6]), os.path.join(ROOT, chance.choice(filters))
    sound = chance.randbytes(channels * chance.choice([1, 40, 3000, 20000, 90000]))
    dff, dsf = os.path.join(folder, "in.dff"), os.path.join(folder, "in.dsf")
    with open(dff, "wb") as file:
        file.write(dsdiff(2822400, channels, sound))
    demand(run(PROGRAM, "convert", "dsf", dff, dsf)[0] == 0, "no DSF file")
    wave, out = os.path.join(folder, "out.wav"), os.path.join(folder, "out.pcm")
    demand(run(PROGRAM, "play", filter, dff, wave)[0] == 0, "not played")
    frames, align = frames_of(get(wave))
    count = len(frames) // align
    for name in (dff, dsf):
        for seed in (0, chance.randrange(1, 1 << 60)):
            status, said = run(*cut, filter, name, out, str(seed))
            demand(status == 0 and get(out) == frames, f"{what}: other frames of {name[-3:]}: {said}")
        start = chance.randrange(count + 1)
        stop = chance.randrange(start, count + 1)
        status, said = run(*cut, filter, name, out, str(chance.randrange(1 << 60)), str(start), str(stop))
        is_part = status == 0 and get(out) == frames[start * align : stop * align]
        demand(is_part, f"{what}: another part: {said}")
    return dff, dsf, filter, frames, align


def changed(folder: str, chance: random.Random) -> list[str]:
    """Files that the random calls change: short ones, so that many runs come to their end."""
    files = []
    for channels in (1, 2, 3, 6):
        for size in (1, 40, 700, 5000):
            dff, dsf = (os.path.join(folder, f"changed-{channels}-{size}.{it}") for it in ("dff", "dsf"))
            with open(dff, "wb") as file:
                file.write(dsdiff(2822400, channels, chance.randbytes(channels * size)))
            demand(run(PROGRAM, "convert", "dsf", dff, dsf)[0] == 0, "no DSF file")
            files += [dff, dsf]
    return files


def compiled(source: str, *flags: str) -> None:
    status, said = run(
        os.environ.get("CC", "cc"), "-I", os.path.join(ROOT, "library"), os.path.join(ROOT, source), *flags
    )
    demand(status == 0, f"{source} isn't compiled: {said}")

"""Files that follow each other, by the library (tests/library/joined.c): the bits are those that a second reading gives of
one file with the sound of all, and the frames by a filter those that `play` writes of it."""
import os
import random
import re

from dsdarc_scripts.dsdiffs import dsdiff
from tests.helpers.trials import ROOT, demand, get
from tests.helpers.trials import said as run
from tests.library.bitwise import dsf, wanted
from tests.library.playing import PROGRAM, frames_of

RATE = 2_822_400
KINDS = ["msb", "lsb", "dop"]
SIZES = [0, 1, 2, 7, 4095, 4096, 4097, 8193, 20000, 70001]
# By a ready filter as well: the rate and width by which the library finds it.
READY = {f"dsd64-to-{rate}-{width}": f"{rate}/{width}" for rate, width in ((88200, 24), (44100, 16))}


def put(folder: str, name: str, data: bytes) -> str:
    path = os.path.join(folder, name)
    with open(path, "wb") as file:
        file.write(data)
    return path


def made(chance: random.Random, folder: str, name: str, channels: int, sound: bytes, rate: int = RATE) -> str:
    """A file of this sound, a byte of each channel in turn, in any form."""
    if chance.random() < 0.4:
        return put(folder, f"{name}.dff", dsdiff(rate, channels, sound))
    each, tag = [sound[c::channels] for c in range(channels)], chance.choice([b"", b"ID3 tag"])
    return put(folder, f"{name}.dsf", dsf(rate, 8 * len(each[0]), each, chance.choice([1, 8]), tag))


def try_joined(chance: random.Random, folder: str, joined: list[str]) -> None:
    """A few files of random sound in each kind. `joined` is how joined.c is run."""
    channels, out = chance.choice([1, 2, 2, 3, 6]), os.path.join(folder, "joined.out")
    sounds = [chance.randbytes(channels * chance.choice(SIZES)) for _ in range(chance.randrange(1, 5))]
    files = [made(chance, folder, f"joined{k}", channels, sound) for k, sound in enumerate(sounds)]
    whole = dsdiff(RATE, channels, b"".join(sounds))
    for kind in KINDS:
        frames, align = wanted(kind, whole)
        unit = 16 if kind == "dop" else 8
        report = f"{len(frames) // align} {RATE} {RATE // unit} {channels} {24 if kind == 'dop' else 8}\n"
        for seed in (0, chance.randrange(1, 1 << 60)):
            status, said = run(*joined, kind, out, str(seed), *files)
            is_right = status == 0 and get(out) == frames and said == report
            demand(is_right, f"other {kind} of {[len(it) for it in sounds]} x {channels}: {status}, {said}")


def made_filter(chance: random.Random, folder: str) -> str:
    """A filter of any numbers within the limits, among them one tap alone, and a factor that isn't a power of two."""
    count = chance.choice([1, 2, 9, 64, 700, 4096])
    taps = [chance.randrange(-1000, 1001) for _ in range(count)]
    lines = [
        "[decimate]",
        f"taps = {taps}",
        f"factor = {chance.choice([8, 16, 24, 32, 40, 56, 64, 96, 1008])}",
        f"delay = {chance.choice([0, count // 2, count - 1])}",
        f"shift = {chance.randrange(8)}",
        f"width = {chance.choice([16, 24])}",
    ]
    return put(folder, "made.toml", "\n".join([*lines, ""]).encode())


def try_filtered(chance: random.Random, folder: str, joined: list[str]) -> None:
    """The same by filters: the frames are those that `play` writes of the joined recording."""
    channels, out, wave = (
        chance.choice([1, 2, 2, 3, 6]),
        os.path.join(folder, "joined.out"),
        os.path.join(folder, "joined.wav"),
    )
    sounds = [chance.randbytes(channels * chance.choice(SIZES)) for _ in range(chance.randrange(1, 6))]
    files = [made(chance, folder, f"filtered{k}", channels, sound) for k, sound in enumerate(sounds)]
    whole = put(folder, "whole.dff", dsdiff(RATE, channels, b"".join(sounds)))
    ready = {os.path.join(ROOT, "filters", f"{name}.toml"): wish for name, wish in READY.items()}
    for filter in (*ready, made_filter(chance, folder)):
        demand(run(PROGRAM, "play", filter, whole, wave)[0] == 0, f"{filter}: not played")
        frames, align = frames_of(get(wave))
        factor = int(re.findall(rb"^factor = (\d+)", get(filter), re.MULTILINE)[0])
        report = f"{len(frames) // align} {RATE} {RATE // factor} {channels} {8 * align // channels}\n"
        for seed in (0, chance.randrange(1, 1 << 60)):
            kind = chance.choice([filter, ready.get(filter, filter)])
            status, said = run(*joined, kind, out, str(seed), *files)
            is_right = status == 0 and get(out) == frames and said == report
            demand(is_right, f"other frames by {kind} of {[len(it) for it in sounds]} x {channels}: {status}, {said}")


def try_misfits(chance: random.Random, folder: str, joined: list[str]) -> None:
    """Files that can't be joined are refused where their sound starts, and the recording ends with those before."""
    out, sound = os.path.join(folder, "joined.out"), chance.randbytes(2 * 9001)
    first = [made(chance, folder, f"fits{k}", 2, sound) for k in range(2)]
    each = [sound[::2], sound[1::2]]
    others = [
        ("push NotJoined\n", made(chance, folder, "rate", 2, sound, 2 * RATE)),
        ("push NotJoined\n", made(chance, folder, "channels", 3, chance.randbytes(3 * 9001))),
        ("push NotJoined\n", put(folder, "bits.dsf", dsf(RATE, 8 * 9001 - 3, each, 8, b""))),
        ("push FileRefused\n", put(folder, "text.dsf", b"This is no recording.")),
    ]
    whole, wave = put(folder, "whole.dff", dsdiff(RATE, 2, sound + sound)), os.path.join(folder, "joined.wav")
    demand(run(PROGRAM, "play", os.path.join(ROOT, "examples", "decimate.toml"), whole, wave)[0] == 0, "not played")
    for kind in (*KINDS, os.path.join(ROOT, "examples", "decimate.toml")):
        frames = wanted(kind, get(whole))[0] if kind in KINDS else frames_of(get(wave))[0]
        for why, other in others:
            status, said = run(*joined, kind, out, str(chance.randrange(1 << 60)), *first, other, first[0])
            is_right = status == 0 and get(out) == frames and said.startswith(why)
            demand(is_right, f"{os.path.basename(other)} after others, {kind}: {status}, {said}")
    status, said = run(*joined, "msb", out, "0", others[2][1])
    demand(
        said == "push NotJoined\nend NoChoice\n0 0 0 0 0\n",
        f"a file that doesn't end on a whole byte: {status}, {said}",
    )
    cut = put(folder, "cut.dff", get(made(chance, folder, "uncut", 2, sound))[:-4097])
    status, said = run(*joined, "msb", out, "0", cut, first[0])
    demand(said.startswith("next FileRefused\nend AfterFault\n"), f"a file that is cut short: {status}, {said}")
    odd = put(folder, "odd.toml", b"[decimate]\ntaps = [1]\nfactor = 1000\ndelay = 0\nshift = 0\nwidth = 16\n")
    text, none = put(folder, "text.toml", b"x = 1"), put(folder, "none.toml", b"")
    for kind, why in ((odd, "RateNotDivided"), (text, "UnknownKey"), (none, "NoDecimation"), ("88200/17", "NoFilter")):
        status, said = run(*joined, kind, out, "0", first[0])
        demand(said.startswith(f"push {why}\n"), f"the filter {kind}: {status}, {said}")

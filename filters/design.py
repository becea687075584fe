#!/usr/bin/python3
"""Designs the decimation projects of this folder, and writes them and their index: design.py [--check] [FOLDER].

Each run writes the same bytes. With --check nothing is written: it says which files differ from what is designed, and
ends with status 1 if any do."""
import argparse
import os
import sys
from dataclasses import dataclass
from pathlib import Path

os.environ.setdefault("OMP_NUM_THREADS", "1")

sys.path.insert(0, str(Path(__file__).resolve().parents[1]))
from dsdarc_scripts import outputs

outputs.begin()
import numpy as np
from scipy import signal

MOST_TAPS = 4095  # odd, so that one tap is the middle; a project has room for 4096
MOST_SUM = 2**30  # of the taps' absolute values
BEST = 145.0  # no window is asked for more dB than this: rounding the taps costs more
IMAGES = 155.0  # how far the images of a filter that was made at a lower rate are put down, in dB
GAP = 100.0  # Hz between two parts of a pass- or a stopband of an equiripple filter
STEP = 4  # equiripple filters are made at the rate divided by this
COLUMNS = 110
INDEX = "index.txt"
INDEX_SAYS = """\
# The ready filters of this folder, a line each: the name of the file, the rates of the sound that it is for (Hz, with
# commas between them), the factor by which it divides that rate, the width of its samples (bits), its gain (dB).
"""


@dataclass(frozen=True)
class Source:
    """A stored rate: its name in the files' names, Hz, and other rates that its filters are for, by the ratio alone."""

    name: str
    rate: int
    also: tuple[int, ...] = ()


@dataclass(frozen=True)
class Design:
    """A filter: kHz where the passband ends and where the stopband begins.

    Without parts it is a windowed sine. Else it is equiripple: the parts of the passband are given by the kHz to which
    each goes and its weight, those of the stopband by the kHz from which each goes and its weight."""

    source: Source
    out: int
    passing: float
    stopping: float
    passes: tuple[tuple[float, float], ...] = ()
    stops: tuple[tuple[float, float], ...] = ()


@dataclass(frozen=True)
class Variant:
    """What a file makes of a filter: bits of a sample, and by how many powers of two it is louder than 0 dB."""

    suffix: str
    width: int
    louder: int
    says: str


DSD64, DSD128, DSD256 = (
    Source("dsd64", 2_822_400),
    Source("dsd128", 5_644_800),
    Source("dsd256", 11_289_600, (12_288_000,)),
)
DSD3072, DSD6144 = Source("dsd3072", 3_072_000), Source("dsd6144", 6_144_000)

DESIGNS = (
    Design(DSD64, 44_100, 20.0, 24.1, ((20.0, 1.0),), ((24.1, 100.0), (60.0, 3000.0))),
    Design(DSD64, 88_200, 31.2, 44.1),
    Design(DSD64, 176_400, 62.4, 88.2),
    Design(DSD64, 352_800, 100.0, 176.4),
    Design(DSD128, 44_100, 19.5, 24.6, ((17.0, 7.0), (19.5, 1.0)), ((24.6, 4200.0), (100.0, 250_000.0))),
    Design(DSD128, 88_200, 31.2, 44.1),
    Design(DSD128, 176_400, 62.4, 88.2),
    Design(DSD128, 352_800, 124.8, 176.4),
    Design(DSD256, 88_200, 30.0, 58.2),
    Design(DSD256, 176_400, 62.4, 88.2),
    Design(DSD256, 352_800, 124.8, 176.4),
    Design(DSD3072, 48_000, 21.5, 26.5, ((21.5, 1.0),), ((26.5, 100.0), (60.0, 3000.0))),
    Design(DSD3072, 96_000, 34.0, 48.0),
    Design(DSD3072, 192_000, 68.0, 96.0),
    Design(DSD3072, 384_000, 110.0, 192.0),
    Design(DSD6144, 48_000, 20.0, 28.0, ((20.0, 1.0),), ((28.0, 100.0), (100.0, 10_000.0))),
    Design(DSD6144, 96_000, 34.0, 48.0),
    Design(DSD6144, 192_000, 68.0, 96.0),
    Design(DSD6144, 384_000, 136.0, 192.0),
)

PLAIN = "0 dB: stored ones alone play at full scale."
LOUD = "6.02 dB up, for recordings at the usual level of an SACD, half of full scale; louder ones clip."
VARIANTS = (
    Variant("24", 24, 0, PLAIN),
    Variant("24-plus6", 24, 1, LOUD),
    Variant("16", 16, 0, PLAIN),
    Variant("16-plus6", 16, 1, LOUD),
)


def windowed_sine(rate: int, passing: float, stopping: float, most: int, best: float = BEST) -> np.ndarray:
    """A sine under a Kaiser window, as far down as `most` taps allow, or `best` dB; the edges are in Hz."""
    width = (stopping - passing) / rate
    down = min(best, 14.36 * width * (most - 1) + 7.95)
    number = int(np.ceil((down - 7.95) / (14.36 * width))) // 2 * 2 + 1
    turn = (passing + stopping) / rate
    places = np.arange(number) - number // 2
    return turn * np.sinc(turn * places) * signal.windows.kaiser(number, signal.kaiser_beta(down))


def parts_of(design: Design, half: float) -> tuple[list[float], list[float]]:
    """The edges in Hz of all parts of the pass- and the stopband, which `half` ends, and their weights."""
    edges, start = [], 0.0
    for end, _ in design.passes:
        edges += [start, end * 1e3]
        start = end * 1e3 + GAP
    ends = [begin * 1e3 - GAP for begin, _ in design.stops[1:]] + [half]
    for (begin, _), end in zip(design.stops, ends):
        edges += [begin * 1e3, end]
    return edges, [weight for _, weight in design.passes + design.stops]


def equiripple(design: Design) -> np.ndarray:
    """A filter of least greatest error at a lower rate, and a window that takes away its images at the full one."""
    rate = design.source.rate
    low = rate / STEP
    stopping = design.stopping * 1e3
    images = windowed_sine(rate, design.passing * 1e3, low - stopping, MOST_TAPS, IMAGES)
    number = (MOST_TAPS - len(images)) // STEP // 2 * 2 + 1
    edges, weights = parts_of(design, low / 2)
    taps = signal.remez(
        number,
        edges,
        [1.0] * len(design.passes) + [0.0] * len(design.stops),
        weight=weights,
        fs=low,
        maxiter=200,
        grid_density=32,
    )
    spread = np.zeros((number - 1) * STEP + 1)
    spread[::STEP] = taps
    return np.convolve(spread, images)


def response_of(design: Design) -> np.ndarray:
    """The taps, not yet rounded; they add up to 1."""
    if design.passes:
        taps = equiripple(design)
    else:
        taps = windowed_sine(design.source.rate, design.passing * 1e3, design.stopping * 1e3, MOST_TAPS)
    taps = (taps + taps[::-1]) / 2
    return taps / taps.sum()


def trimmed(taps: np.ndarray) -> np.ndarray:
    """Symmetric taps without the zeros at both ends."""
    first = int(np.flatnonzero(taps)[0])
    return taps[first : len(taps) - first]


def rounded(taps: np.ndarray) -> tuple[list[int], int]:
    """The taps times the greatest power of two that the limit of their sum allows, rounded, and its exponent."""
    for exponent in range(30, 0, -1):
        whole = np.rint(taps * 2.0**exponent).astype(np.int64)
        if np.abs(whole).sum() <= MOST_SUM:
            return [int(tap) for tap in trimmed(whole)], exponent
    raise ValueError("the taps do not fit")


def lines_of(taps: list[int]) -> list[str]:
    """The taps in lines of limited length."""
    lines, line = [], " "
    for tap in taps:
        number = f" {tap},"
        if len(line) + len(number) > COLUMNS:
            lines.append(line)
            line = " "
        line += number
    return lines + [line.removesuffix(",")]


def text_of(design: Design, variant: Variant, taps: list[int], exponent: int) -> str:
    """The project's text."""
    source = design.source
    shift = exponent - (variant.width - 1) - variant.louder
    return "\n".join(
        [
            f"# {source.rate} Hz to {design.out} Hz, {variant.width} bits, linear phase, to {design.passing:g} kHz.",
            f"# {variant.says}",
            "[decimate]",
            "taps = [",
            *lines_of(taps),
            "]",
            f"factor = {source.rate // design.out}",
            f"delay = {len(taps) // 2}",
            f"shift = {shift}",
            f"width = {variant.width}",
            "",
        ]
    )


def variants_of(design: Design) -> list[Variant]:
    """Files of 16 bits are made for the rates of a Compact Disc and of video alone."""
    return [variant for variant in VARIANTS if variant.width == 24 or design.out < 50_000]


def name_of(design: Design, variant: Variant) -> str:
    return f"{design.source.name}-to-{design.out}-{variant.suffix}.toml"


def names() -> list[str]:
    """The names of all files that are made."""
    return [INDEX] + [name_of(design, variant) for design in DESIGNS for variant in variants_of(design)]


def index() -> str:
    """The list of all filters, by their names: what each is for."""
    lines = []
    for design in DESIGNS:
        source = design.source
        rates = ",".join(map(str, (source.rate, *source.also)))
        for it in variants_of(design):
            factor = source.rate // design.out
            lines.append(f"{name_of(design, it)} {rates} {factor} {it.width} {6 * it.louder}\n")
    return INDEX_SAYS + "".join(sorted(lines))


def files() -> dict[str, str]:
    """The text of each file, by its name."""
    texts = {INDEX: index()}
    for design in DESIGNS:
        taps, exponent = rounded(response_of(design))
        for variant in variants_of(design):
            texts[name_of(design, variant)] = text_of(design, variant, taps, exponent)
    return texts


def check(folder: Path, texts: dict[str, str]) -> bool:
    """Says which files of the folder are others than those designed."""
    paths = [*sorted(folder.glob("*.toml")), *folder.glob(INDEX)]
    there = {path.name: path.read_text(encoding="ascii", errors="replace") for path in paths}
    differing = sorted(name for name in texts.keys() | there.keys() if texts.get(name) != there.get(name))
    for name in differing:
        print(f"{name} differs")
    print(f"{len(texts)} files designed, {len(differing)} differ")
    return not differing


def main() -> int:
    parser = argparse.ArgumentParser(description=__doc__.split("\n")[0])
    parser.add_argument("folder", nargs="?", type=Path, default=Path(__file__).parent)
    parser.add_argument("--check", action="store_true", help="compare with the files that are there, write nothing")
    asked = parser.parse_args()
    if not asked.folder.is_dir():
        raise outputs.Refused(f"{outputs.shown_name(str(asked.folder))} is no folder")
    if asked.check:
        return 0 if check(asked.folder, files()) else 1
    with outputs.Outputs() as made:
        for name in names():
            made.add("FOLDER", asked.folder / name)
        texts = files()
        for name, text in texts.items():
            made.put(asked.folder / name, text)
    print(f"{len(texts)} files written")
    return 0


if __name__ == "__main__":
    sys.exit(outputs.ended(main))

#!/usr/bin/python3
"""Plays a test tone by the built program and measures the WAVE: tone.py [--program PROGRAM] [--exact] [FILTER ..].

The tone is a sine of 1 kHz at -6 dB, made by a delta-sigma modulator (modulator/modulate.c, compiled with CC or cc) at
the stored rate of each filter, 6 seconds of one channel as DSDIFF. Where ffmpeg is installed, it decodes the same tone
to the same rate and width, by its own resampler and by soxr. Without names it takes the filters for 24 bits at 0 dB of
DSD64 and DSD128. With --exact ffmpeg is left out, and every sample is compared with a convolution of scipy; the status
is 1 where one differs. The program is bin/dsdarc, or what DSDARC or --program names."""
import argparse
import os
import re
import shutil
import sys
from dataclasses import dataclass
from pathlib import Path

os.environ.setdefault("OMP_NUM_THREADS", "1")

FOLDER = Path(__file__).resolve().parent
sys.path.insert(0, str(Path(__file__).resolve().parents[1]))
from dsdarc_scripts import outputs

outputs.begin()
import numpy as np
from scipy import signal

from dsdarc_scripts import project_texts, waves
from dsdarc_scripts.dsdiffs import dsdiff
from dsdarc_scripts.outputs import Refused
from dsdarc_scripts.program import PROGRAM, must
from modulator import modulators

HERTZ = 1000
DECIBELS = -6.0
SECONDS = 6
SKIPPED = 1  # seconds at both ends of a WAVE file that are not measured
SKIPPED_OF_BITS = 2  # of the stored bits
LOW, HIGH = 20, 20_000  # the audio band, in Hz
NEAR = 25  # bins (of 1/4 Hz in a WAVE file) to both sides that belong to a line of the window's spectrum
SHAPE = 38.0  # of the Kaiser window: what is away from a line is some 300 dB down


@dataclass(frozen=True)
class Figures:
    """What is seen of the tone: dB, of noise and peak to full scale (noise to that of a sine), and microseconds."""

    level_error: float
    distortion_and_noise: float
    noise: float
    peak: float
    late: float


def make_tone(program: Path, path: Path, rate: int) -> None:
    """Writes the tone, and says how far the modulator went."""
    modulator = modulators.modulator_for(rate)
    arguments = [modulators.SEED, rate * SECONDS // 8, rate, HERTZ, 10 ** (DECIBELS / 20)]
    sound, largest = modulators.run(program, modulator, rate, arguments)
    path.write_bytes(dsdiff(rate, 1, sound))
    print(f"tone at {rate} Hz: order {modulator.order}, at most {largest} before the quantizer", file=sys.stderr)


def read_wave(path: Path) -> tuple[int, int, np.ndarray]:
    """Rate, width and samples of a WAVE file of one channel, full scale being 1."""
    wave = waves.read(path.read_bytes())
    if wave.width == 16:
        return wave.rate, wave.width, np.frombuffer(wave.samples, "<i2") / 2.0**15
    parts = np.frombuffer(wave.samples, np.uint8).reshape(-1, 3).astype(np.int32)
    whole = parts[:, 0] << 8 | parts[:, 1] << 16 | parts[:, 2] << 24
    return wave.rate, wave.width, (whole >> 8) / 2.0**23


def measure(samples: np.ndarray, rate: int, skipped: int, gain: float) -> Figures:
    """The figures of the tone but for so many seconds at both ends; the gain is that at which it was played, in dB."""
    first, number = skipped * rate, (SECONDS - 2 * skipped) * rate
    part = samples[first : first + number]
    window = signal.windows.kaiser(number, SHAPE, sym=False)
    turns = np.exp(-2j * np.pi * HERTZ * np.arange(first, first + number) / rate)
    tone = 2 * (part * window * turns).sum() / window.sum()
    power = np.abs(np.fft.rfft(part * window)) ** 2 * 2 / ((window**2).sum() * number)
    hertz = np.fft.rfftfreq(number, 1 / rate)
    away = NEAR * rate / number
    rest = (hertz >= LOW) & (hertz <= HIGH) & (np.abs(hertz - HERTZ) > away)
    quiet = rest & (np.abs(hertz - np.rint(hertz / HERTZ) * HERTZ) > away)
    level = np.abs(tone)
    return Figures(
        level_error=20 * np.log10(level) - DECIBELS - gain,
        distortion_and_noise=10 * np.log10(power[rest].sum() / (level**2 / 2)),
        noise=10 * np.log10(2 * power[quiet].sum()),
        peak=20 * np.log10(np.abs(part).max()),
        late=-np.angle(tone * 1j) / (2 * np.pi * HERTZ) * 1e6,
    )


def measure_wave(path: Path, gain: float) -> Figures:
    rate, _, samples = read_wave(path)
    return measure(samples, rate, SKIPPED, gain)


def measure_tone(path: Path, rate: int) -> Figures:
    """The figures of the stored bits themselves, of fewer seconds."""
    return measure(stored_bits(path, rate), rate, SKIPPED_OF_BITS, 0.0)


def stored_bits(path: Path, rate: int) -> np.ndarray:
    """The tone's signal, -1 and 1."""
    return np.unpackbits(np.frombuffer(path.read_bytes()[-rate * SECONDS // 8 :], np.uint8)) * 2.0 - 1.0


def differing(table: dict, bits: np.ndarray, played: np.ndarray) -> int:
    """How many samples aren't those of docs/PLAYING.md, by a convolution whose error is far below 1."""
    # Not by the library: this is what the program is compared with.
    sums = np.rint(signal.oaconvolve(bits, np.array(table["taps"], dtype=float))).astype(np.int64)
    due = sums[np.arange(0, len(bits), table["factor"]) + table["delay"]]
    most = 2 ** (table["width"] - 1)
    right = np.clip((due + (1 << table["shift"] >> 1)) >> table["shift"], -most, most - 1)
    return int((right != np.rint(played * most)).sum()) if len(right) == len(played) else max(len(right), len(played))


def row(name: str, way: str, figures: Figures) -> str:
    cells = [
        name,
        way,
        f"{round(figures.level_error, 4) + 0.0:.4f} dB",
        f"{figures.distortion_and_noise:.1f} dB",
        f"{figures.noise:.1f} dB",
        f"{figures.peak + 0.0:.2f} dB",
        f"{round(figures.late, 2) + 0.0:.2f} µs",
    ]
    return "| " + " | ".join(cells) + " |"


def play(program: str, project: Path, tone: Path, out: Path) -> None:
    must(program, "play", project, tone, out)


def decode(tone: Path, out: Path, rate: int, width: int, options: str) -> None:
    command: list[str | Path] = [
        "ffmpeg",
        "-v",
        "error",
        "-y",
        "-threads",
        "1",
        "-i",
        tone,
        "-af",
        f"aresample={rate}{options}",
    ]
    must(*command, "-c:a", f"pcm_s{width}le", out)


def table_of(project: Path) -> dict:
    return project_texts.read_decimate(project)


def compare(program: str, project: Path, tone: Path, out: Path) -> list[str]:
    """The rows of a filter: the program's, and those of ffmpeg."""
    table = table_of(project)
    gain = 20 * np.log10(abs(sum(table["taps"])) / 2.0 ** (table["width"] - 1 + table["shift"]))
    play(program, project, tone, out)
    name = f"`{project.stem}`"
    rows = [row(name, "`dsdarc`", measure_wave(out, gain))]
    if shutil.which("ffmpeg"):
        rate, width, _ = read_wave(out)
        for way, options in (("FFmpeg", ""), ("FFmpeg, soxr", ":resampler=soxr:precision=28")):
            decode(tone, out, rate, width, options)
            rows.append(row(name, way, measure_wave(out, 0.0)))
    return rows


def compare_exactly(program: str, project: Path, tone: Path, out: Path) -> int:
    """How many samples differ, which it prints."""
    play(program, project, tone, out)
    _, _, samples = read_wave(out)
    number = differing(table_of(project), stored_bits(tone, stored_rate(project)), samples)
    print(f"{project.stem}: {len(samples)} samples, {number} differ", flush=True)
    return number


def stored_rate(project: Path) -> int:
    """The rate of a filter's recordings: the new one, which its name says, times its factor."""
    said = re.search(r"-to-(\d{1,8})-(?:16|24)(?:-plus6)?$", project.stem)
    rate = int(said[1]) * table_of(project)["factor"] if said else 0
    if not 1_000_000 <= rate <= 50_000_000:
        raise Refused(
            f"{outputs.shown_name(str(project))}: its name doesn't end with -to-RATE-WIDTH of a filter for 1 to 50 MHz"
        )
    return rate


def usual() -> list[Path]:
    filters = [*FOLDER.glob("dsd64-to-*-24.toml"), *FOLDER.glob("dsd128-to-*-24.toml")]
    return sorted(filters, key=lambda path: (stored_rate(path), int(path.stem.split("-")[2])))


def tone_for(modulate: Path, rate: int) -> Path:
    """The tone at a rate, made where it isn't there yet."""
    tone = modulate.parent / f"{rate}.dff"
    if not tone.exists():
        make_tone(modulate, tone, rate)
    return tone


def print_figures(program: str, filters: list[Path], modulate: Path) -> None:
    print("| filter | played by | level error | THD+N | noise | peak | late by |\n" + "|" + "---|" * 7)
    printed = set()
    for project in filters:
        rate = stored_rate(project)
        tone = tone_for(modulate, rate)
        if rate not in printed:
            print(row(f"{rate} Hz", "(the stored bits)", measure_tone(tone, rate)))
            printed.add(rate)
        print("\n".join(compare(program, project, tone, modulate.parent / "out.wav")), flush=True)


def main() -> int:
    parser = argparse.ArgumentParser(description=__doc__.split("\n")[0])
    parser.add_argument("filters", nargs="*", type=Path, help="projects of this folder")
    parser.add_argument("--program", default=PROGRAM)
    parser.add_argument("--exact", action="store_true", help="compare each sample with a convolution of scipy")
    asked = parser.parse_args()
    filters = asked.filters or usual()
    with outputs.scratch() as name:
        modulate = modulators.compiled(Path(name))
        if not asked.exact:
            print_figures(asked.program, filters, modulate)
            return 0
        out = Path(name) / "out.wav"
        wrong = [compare_exactly(asked.program, it, tone_for(modulate, stored_rate(it)), out) for it in filters]
        return 1 if any(wrong) else 0


if __name__ == "__main__":
    sys.exit(outputs.ended(main))

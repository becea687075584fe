"""Measures WAVE files of linear PCM, piece by piece: peak, clipped samples, offset, silence at both ends, the course of
the level, and the spectrum. Levels are in dB relative to full scale."""
import contextlib
import dataclasses
import os
import re
import shutil
import subprocess
import tempfile
from collections.abc import Callable, Iterator
from typing import Any, BinaryIO, cast

import numpy as np

from dsdarc_scripts import waves
from dsdarc_scripts.channels import take
from dsdarc_scripts.outputs import Refused
from workflows import tagging

COLUMNS = 60  # of a level picture
BANDS = 60  # of a spectrum
FLOOR = -160.0  # dB, of what is nothing
SILENCE = -60.0  # dB: a sample above it isn't silence
PIECE = 1 << 18  # frames
SPECTRA = 64  # of a file, at most
LENGTH = 1 << 13  # frames of one spectrum
LOWEST = 20.0  # Hz
TEXTS = {"artist": "TPE1", "title": "TIT2", "album": "TALB"}
# What FFmpeg's ebur128 ends with.
SUMMARY = re.compile(
    rb"ebur128@n(\d+) @ [^\]]*\] Summary:.*?I: +(-?[\d.]+|-?inf) LUFS.*?Peak: +(-?[\d.]+|-?inf) dBFS", re.DOTALL
)
UNKNOWN: dict[str, float | None] = {"loudness": None, "true peak": None}


@dataclasses.dataclass
class Wave:
    """What a file holds: rate, channels, bits of a sample, where its samples begin, and how many frames there are."""

    rate: int
    channels: int
    width: int
    start: int
    frames: int


def wave_of(file: BinaryIO) -> Wave:
    """What a WAVE file holds whose samples are 16 or 24 bits of PCM."""
    form = data = None
    kind = tagging.form_of(file)
    if kind not in tagging.WAVES:
        raise Refused("it is no WAVE file")
    for name, at, size in tagging.chunks(file, kind):
        if name == b"fmt ":
            file.seek(at)
            form = file.read(size)
        elif name == b"data" and data is None:
            data = at, size
    if form is None or data is None:
        raise Refused("it has no format, or no samples")
    channels, rate, block, width, _ = waves.shape_of(form)
    if width not in (16, 24):
        raise Refused(f"its samples have {width} bits")
    return Wave(rate, channels, width, data[0], data[1] // block)


def samples(file: BinaryIO, wave: Wave, first: int, count: int) -> np.ndarray:
    """Frames as whole numbers of 32 bits, the lowest 8 or 16 of them zero."""
    # Of the file that the run made: the library takes four times as long to play the source again as this to read it.
    size = wave.width // 8
    file.seek(wave.start + first * wave.channels * size)
    # Four bytes from each sample's place, less the bytes before it, which belong to another.
    data = bytes(4 - size) + take(file, count * wave.channels * size)
    wide = np.ndarray(count * wave.channels, "<i4", data, 0, size) & np.int32(-1 << (32 - wave.width))
    return wide.reshape(count, wave.channels)


def level(value: float) -> float:
    """An amplitude in dB."""
    return float(20 * np.log10(value)) if value > 0 else FLOOR


def heard(piece: np.ndarray) -> np.ndarray:
    """The frames of a piece that aren't silent."""
    limit = 2**31 * 10 ** (SILENCE / 20)
    return np.flatnonzero(((piece > limit) | (piece < -limit)).any(axis=1))


class Course:
    """What is gathered from the pieces of a file."""

    def __init__(self, wave: Wave) -> None:
        self.wave = wave
        self.sums, self.clipped = np.zeros(wave.channels), 0
        # The first frame that isn't silent, and where the last piece begins that has such a one.
        self.first: int | None = None
        self.last_piece = 0
        # A column of the picture is as many frames long, but the last.
        self.step = max(-(-wave.frames // COLUMNS), 1)
        self.highs, self.squares = np.zeros(COLUMNS), np.zeros(COLUMNS)

    def add(self, at: int, piece: np.ndarray) -> None:
        """Takes the frames from a place on."""
        high, low = int(piece.max()), int(piece.min())
        edge = 1 << (32 - self.wave.width)
        if high >= (1 << 31) - edge or low == -(1 << 31):
            self.clipped += int(np.count_nonzero(piece >= (1 << 31) - edge) + np.count_nonzero(piece == -(1 << 31)))
        if max(high, -low) > 2**31 * 10 ** (SILENCE / 20):
            self.first = at + int(heard(piece)[0]) if self.first is None else self.first
            self.last_piece = at
        for channel in range(self.wave.channels):
            self.sums[channel] += piece[:, channel].sum(dtype=np.int64)
        column = at // self.step
        while column * self.step < at + len(piece):
            part = piece[max(column * self.step - at, 0) : (column + 1) * self.step - at]
            loud = max(int(part.max()), -int(part.min())) / 2.0**31
            plain = part.astype(np.float32).reshape(-1)
            self.highs[column] = max(self.highs[column], loud)
            self.squares[column] += float(np.dot(plain, plain)) / 2.0**62 / self.wave.channels
            column += 1

    def silence(self, file: BinaryIO) -> list[float] | None:
        """Seconds of silence at the start and the end, or None where all is silent."""
        if self.first is None:
            return None
        count = min(PIECE, self.wave.frames - self.last_piece)
        last = self.last_piece + int(heard(samples(file, self.wave, self.last_piece, count))[-1])
        return [self.first / self.wave.rate, (self.wave.frames - 1 - last) / self.wave.rate]

    def figures(self, file: BinaryIO) -> dict[str, Any]:
        wave, frames = self.wave, max(self.wave.frames, 1)
        counts = np.clip(frames - self.step * np.arange(COLUMNS), 1, self.step)
        return {
            "rate": wave.rate,
            "width": wave.width,
            "channels": wave.channels,
            "seconds": wave.frames / wave.rate,
            "peak": level(self.highs.max()),
            "clipped": self.clipped,
            "offset": level(np.abs(self.sums).max() / frames / 2**31),
            "silence": self.silence(file),
            "highs": [round(level(it), 1) for it in self.highs],
            "means": [round(level(it), 1) for it in np.sqrt(self.squares / counts)],
        }


def spectrum(file: BinaryIO, wave: Wave) -> list[float]:
    """The mean of some spectra, evenly over the file, in bands as wide as their pitch: a full-scale sine is 0 dB."""
    length = min(LENGTH, wave.frames)
    if length < 64:
        return []
    window = np.hanning(length)
    places = np.unique(np.linspace(0, wave.frames - length, min(SPECTRA, -(-wave.frames // length))).astype(int))
    power = np.zeros(length // 2 + 1)
    for place in places:
        piece = samples(file, wave, int(place), length) / 2.0**31
        power += np.square(np.abs(np.fft.rfft(piece * window[:, None], axis=0))).mean(axis=1)
    power *= 4 / np.square(window.sum()) / len(places)
    edges = np.geomspace(LOWEST, wave.rate / 2, BANDS + 1) * length / wave.rate
    bands = []
    for low, high in zip(edges, edges[1:]):
        first = min(int(low), len(power) - 1)
        bands.append(round(level(np.sqrt(power[first : max(int(np.ceil(high)), first + 1)].max())), 1))
    return bands


@contextlib.contextmanager
def decoded(file: BinaryIO) -> Iterator[BinaryIO]:
    """The WAVE file that a FLAC file is of; any other is given as it is."""
    if tagging.form_of(file) != b"fLaC":
        yield file
        return
    with tempfile.TemporaryFile() as made:
        os.lseek(file.fileno(), 0, os.SEEK_SET)
        command = ["flac", "--silent", "--decode", "--stdout", "-"]
        try:
            done = subprocess.run(command, stdin=file, stdout=made, stderr=subprocess.DEVNULL, check=False)
        except OSError:
            raise Refused("flac isn't installed: apt-get install flac") from None
        if done.returncode:
            raise Refused("flac can't decode it")
        yield cast(BinaryIO, made)


def has_loudness() -> bool:
    """Whether loudness can be measured here."""
    return shutil.which("ffmpeg") is not None


def loudness(paths: list[str], go_on: Callable[[], None]) -> list[dict[str, float | None]]:
    """The integrated loudness of files by EBU R128 in LUFS, and their true peaks in dBFS, as one FFmpeg measures them by its
    ebur128; None of what it can't read. `go_on` is called meanwhile, as by `measure`."""
    found = by_ffmpeg(paths, go_on)
    if len(paths) > 1 and len(found) < len(paths):
        # One that can't be read keeps the others from being measured.
        found = {at: it for at, path in enumerate(paths) for it in by_ffmpeg([path], go_on).values()}
    return [dict(zip(UNKNOWN, found[at])) if at in found else dict(UNKNOWN) for at in range(len(paths))]


def by_ffmpeg(paths: list[str], go_on: Callable[[], None]) -> dict[int, list[float]]:
    """The loudness and true peak of files by their places among them; none of any if one can't be read."""
    options = ["-nostdin", "-hide_banner", "-nostats"]
    options += [it for path in paths for it in ("-i", f"file:{os.path.abspath(path)}")]
    filters = (f"[{at}:a]ebur128@n{at}=peak=true:framelog=verbose[o{at}]" for at in range(len(paths)))
    options += ["-filter_complex", ";".join(filters)]
    options += [it for at in range(len(paths)) for it in ("-map", f"[o{at}]", "-f", "null", "-")]
    with tempfile.TemporaryFile() as said:
        child = subprocess.Popen(["ffmpeg", *options], stdin=subprocess.DEVNULL, stdout=subprocess.DEVNULL, stderr=said)
        try:
            while child.poll() is None:
                go_on()
                with contextlib.suppress(subprocess.TimeoutExpired):
                    child.wait(0.2)
        except BaseException:
            child.kill()
            child.wait()
            raise
        said.seek(0)
        # It prints one for each time that it begins, and the first before the sound.
        rows = {int(number): values for number, *values in SUMMARY.findall(said.read())}
    return {} if child.returncode else {at: [max(float(it), FLOOR) for it in each] for at, each in rows.items()}


def texts(name: str) -> dict[str, str]:
    """Title, artist and album of a WAVE or FLAC file, as far as its tag has them and mutagen reads it."""
    if not tagging.has_mutagen():
        return {}
    from mutagen.flac import FLAC

    try:
        with open(name, "rb") as file:
            is_flac = tagging.form_of(file) == b"fLaC"
        data = b"" if is_flac else tagging.tag_of(name)
        if not is_flac and not data:
            return {}
        found: Any = FLAC(name) if is_flac else tagging.id3(data)
        rows = ((key, found.get(key if is_flac else frame)) for key, frame in TEXTS.items())
        return {key: "; ".join(map(str, it if is_flac else it.text)) for key, it in rows if it}
    except tagging.broken():
        return {}
    except Refused:
        return {}


def measure(name: str, go_on: Callable[[], None]) -> dict[str, Any]:
    """The figures of a file. `go_on` is called before each piece, and may raise what ends this."""
    with open(name, "rb") as named, decoded(named) as file:
        wave = wave_of(file)
        course = Course(wave)
        for at in range(0, wave.frames, PIECE):
            go_on()
            course.add(at, samples(file, wave, at, min(PIECE, wave.frames - at)))
        return course.figures(file) | {"spectrum": spectrum(file, wave)}

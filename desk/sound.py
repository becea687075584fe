"""What is heard: frames of takes by the library, as `dsdarc play` writes them, and the mix that they make.

A take is played by the ready filter for 88.2 or 96 kHz. A frame of the mix is the sum of the frames of the clips there,
times their gains. Where a clip doesn't begin a whole number of frames from its place in the take, its frames are read
between those of the take, by a low-pass of 32 taps. What lies above 40 kHz, and what new bits add, isn't heard in it."""
import threading
from dataclasses import dataclass
from functools import lru_cache
from typing import Any

import dsdarc
import numpy as np

from cuts import curves
from cuts.gains import FULL
from desk.mixes import Clip, Clips
from dsdarc_scripts.explained import shown_name
from dsdarc_scripts.outputs import Refused

WISH = "88200/24,96000/24"
HALF = 16  # frames on each side that are read between
BANDS = 96  # of a spectrum
LOWEST = 20.0  # Hz
SIZE = 1 << 13  # frames of a spectrum
MOST_PIECES = 64  # of a selection whose spectrum is shown
SILENT = 0.01  # the level of a decoder that gives only what is above others
MOST_WHOLE = 30  # seconds of a selection that is measured as a whole


class Source:
    """A file that is played. Threads may share it: one reads at a time."""

    def __init__(self, path: str) -> None:
        self.path, self.lock = path, threading.Lock()
        try:
            self.sound = dsdarc.open(path, filter=WISH)
        except (dsdarc.Fault, OSError, ValueError) as error:
            why = getattr(error, "strerror", None) or str(error)
            raise Refused(f"{shown_name(path)}: {why}") from None
        info = self.sound.info
        self.rate, self.count, self.frames, self.width = info.samplerate, info.channels, info.frames, info.width
        self.factor, self.source_rate = info.source_rate // info.samplerate, info.source_rate

    def numbers(self, first: int, count: int) -> np.ndarray:
        """Frames from one on, a row for each, as the numbers of a WAVE file; 0 before the first and after the last."""
        found = np.zeros((max(count, 0), self.count), np.int32)
        low, high = max(first, 0), min(first + count, self.frames)
        if low < high:
            with self.lock:
                if self.sound.tell() != low:
                    self.sound.seek(low)
                try:
                    part = self.sound.read(high - low, "native", always_2d=True)
                except dsdarc.Fault as fault:
                    raise Refused(f"{shown_name(self.path)}: {fault.name}: it isn't the file that was opened") from None
            found[low - first : low - first + len(part)] = part
        return found

    def data(self, first: int, count: int) -> bytes:
        """The bytes of frames that are there, as `dsdarc play` writes them."""
        low, high = max(first, 0), min(first + count, self.frames)
        if low >= high:
            return b""
        numbers = np.ascontiguousarray(self.numbers(low, high - low), "<i4")
        return numbers.view(np.uint8).reshape(-1, 4)[:, : self.width // 8].tobytes()

    def close(self) -> None:
        with self.lock:
            try:
                self.sound.close()
            except dsdarc.Fault:
                pass  # what it was has been read already


@lru_cache(maxsize=256)
def taps_between(part: float) -> np.ndarray:
    """The low-pass that gives what lies a part of a frame after one."""
    places = np.arange(-HALF + 1, HALF + 1) - part
    window = np.kaiser(2 * HALF + 1, 9.0)
    shape = np.interp(places, np.arange(-HALF, HALF + 1), window)
    taps = np.sinc(places) * shape
    return taps / taps.sum()


def frames_of(source: Source, place: int, count: int) -> np.ndarray:
    """Frames of a take from a bit on; 1 is full scale."""
    first, rest = divmod(place, source.factor)
    scale = 2.0 ** (1 - source.width)
    if rest == 0:
        return source.numbers(first, count) * scale
    rows = source.numbers(first - HALF + 1, count + 2 * HALF - 1) * scale
    taps = taps_between(rest / source.factor)
    return np.stack([np.correlate(rows[:, it], taps, "valid") for it in range(source.count)], axis=1)


@dataclass(frozen=True)
class Heard:
    """A clip with the points of each channel's gain."""

    clip: Clip
    points: list[list[tuple[int, int]]]


@lru_cache(maxsize=4096)
def heard(clip: Clip, count: int) -> Heard:
    rows = clip.rows
    return Heard(clip, rows if len(rows) == count else rows * count)


def mixed(sources: list[Source], clips: Clips, totals: list[float], first: int, count: int) -> np.ndarray:
    """Frames of the mix from one on, a row for each; 1 is full scale. `totals` has the level of each decoder: one that
    gives only what is above others has 0, and its clips aren't heard."""
    factor, channels = sources[0].factor, sources[0].count
    found = np.zeros((count, channels))
    for clip in clips.values():
        low = max(first, -(-clip.at // factor))
        high = min(first + count, -(-clip.stop // factor))
        if low >= high or abs(totals[clip.decoder]) < SILENT:
            continue
        part = totals[clip.decoder] * frames_of(sources[clip.take], low * factor + clip.start - clip.at, high - low)
        places = np.arange(low, high) * factor - clip.at
        rows = heard(clip, channels).points
        for channel in range(channels):
            if rows[channel]:
                part[:, channel] *= curves.gains_at(rows[channel], places) / FULL
        found[low - first : high - first] += part
    return found


def decibels(value: float) -> float | None:
    return round(20 * float(np.log10(value)), 2) if value > 0 else None


def measured(read: Any, rate: int, first: int, count: int) -> dict[str, Any]:
    """Peak and RMS of each channel in dB to full scale, and the spectrum of both together. `read` gives frames. Of a long
    selection some pieces are looked at, evenly spread."""
    is_whole = count <= MOST_WHOLE * rate
    size = SIZE if count >= SIZE else 1 << max(count.bit_length() - 1, 6)
    pieces = max(min(-(-2 * count // size) - 1, MOST_PIECES), 1)  # they overlap, as far as there are few
    starts = np.linspace(first, first + max(count - size, 0), pieces).astype(np.int64)
    whole = read(first, count) if is_whole else None
    window = np.hanning(size)
    power, looked = np.zeros(size // 2 + 1), 0
    peaks: Any = 0.0
    squares: Any = 0.0
    for start in starts.tolist():
        rows = whole[start - first : start - first + size] if whole is not None else read(start, size)
        if len(rows) < size:
            rows = np.pad(rows, ((0, size - len(rows)), (0, 0)))
        power += (np.abs(np.fft.rfft(rows * window[:, None], axis=0)) ** 2).mean(axis=1)
        if whole is None:
            peaks = np.maximum(peaks, np.abs(rows).max(axis=0))
            squares, looked = squares + (rows**2).sum(axis=0), looked + size
    if whole is not None and len(whole):
        peaks, squares, looked = np.abs(whole).max(axis=0), (whole**2).sum(axis=0), len(whole)
    levels = np.sqrt(power / pieces) * 2 / window.sum()
    return {
        "peak": [decibels(float(it)) for it in np.atleast_1d(peaks)],
        "rms": [decibels(float(it)) for it in np.atleast_1d(np.sqrt(squares / max(looked, 1)))],
        "spectrum": bands(levels, rate, size),
        "sampled": not is_whole,
    }


def bands(levels: np.ndarray, rate: int, size: int) -> list[list[float | None]]:
    """The greatest level in each of some bands that are equally wide on a scale of octaves: the middle in Hz, and dB."""
    edges = np.geomspace(LOWEST, rate / 2, BANDS + 1)
    found = list[list[float | None]]()
    for low, high in zip(edges, edges[1:]):
        first = int(np.ceil(low * size / rate))
        last = max(int(np.ceil(high * size / rate)), first + 1)
        part = levels[first:last]
        if len(part):
            found.append([round(float(np.sqrt(low * high)), 1), decibels(float(part.max()))])
    return found

"""What of a one-bit signal is heard: all below 20 kHz. Full scale is stored ones alone; levels are in dB to it."""
import math
from functools import lru_cache
from typing import TYPE_CHECKING, Any

import numpy as np

if TYPE_CHECKING:
    from cuts.takes import Signals

# Low-passes, windows and convolutions, just as scipy.signal makes them: loading that takes longer than a cut.

COSINES = (0.35875, 0.48829, 0.14128, 0.01168)  # of the window of Blackman and Harris


@lru_cache
def fft() -> Any:
    """scipy's spectra. They are loaded when they are first needed, as that takes longer than to open a take."""
    from scipy import fft as found

    return found


@lru_cache
def special() -> Any:
    """scipy's functions, which are loaded so, too."""
    from scipy import special as found

    return found


def kaiser_lowpass(turn: float, width: float, down: int) -> np.ndarray:
    """Taps of linear phase, an odd number, with the sum 1, by Kaiser's window: what they pass ends at a turn, and falls
    around it in a width, both relative to half the rate. What they stop is more than 50 dB down."""
    number = int(np.ceil((down - 7.95) / 2.285 / (np.pi * width) + 1)) | 1
    shape, half = 0.1102 * (down - 8.7), (number - 1) / 2.0
    places = np.arange(0, number)
    window = special().i0(shape * np.sqrt(1 - ((places - half) / half) ** 2.0)) / special().i0(shape)
    taps = turn * np.sinc(turn * (places - 0.5 * (number - 1))) * window
    return taps / np.sum(taps)


def blackman_harris(size: int) -> np.ndarray:
    """The window for spectra of so many places."""
    turns = np.linspace(-np.pi, np.pi, size + 1)
    found = np.zeros(size + 1)
    for number, it in enumerate(COSINES):
        found += it * np.cos(number * turns)
    return found[:-1]


def block_for(length: int, count: int) -> int:
    """The size of the spectra by which a row of some length is convolved fastest with so many taps."""
    over = count - 1
    if 1 < count < length / 2:
        best = -over * special().lambertw(-1 / (2 * math.e * over), k=-1).real
        size = fft().next_fast_len(math.ceil(best))
        if size < length:
            return size
    return fft().next_fast_len(length + over, True)


def convolved(rows: np.ndarray, taps: np.ndarray) -> np.ndarray:
    """Each row convolved with the taps, at the places for which all taps are inside of it."""
    length, count = rows.shape[-1], len(taps)
    size = block_for(length, count)
    step, over = size - count + 1, count - 1
    pieces = -(-length // step)
    padded = np.pad(rows, [(0, 0)] * (rows.ndim - 1) + [(0, pieces * step - length)])
    parts = fft().rfft(padded.reshape(*rows.shape[:-1], pieces, step), size, axis=-1) * fft().rfft(taps, size)
    made = fft().irfft(parts, size, axis=-1)
    found = made[..., :step].copy()
    found[..., 1:, :over] += made[..., :-1, step:]
    last = made[..., -1:, step:].reshape(*rows.shape[:-1], -1)
    whole = np.concatenate([found.reshape(*rows.shape[:-1], -1), last], axis=-1)
    return whole[..., over:length]


PASSED, STOPPED = 20_000, 24_000  # Hz: the low-pass passes what is below, and stops what is above
DOWN = 120  # dB
CLICK = 0.005  # seconds: A-weighted clicks are relative to a sine at full scale of this length
LEAST_LOUD = 1e-15


@lru_cache
def lowpass(rate: int, passed: int, stopped: int, down: int = DOWN) -> np.ndarray:
    """Taps of linear phase, an odd number, with the sum 1; what they stop is `down` dB down."""
    taps = kaiser_lowpass((passed + stopped) / 2 / (0.5 * rate), (stopped - passed) / (rate / 2), down)
    return taps / taps.sum()


def decibels(magnitude: float) -> float:
    return 20 * float(np.log10(max(magnitude, LEAST_LOUD)))


class Hearing:
    """The low-pass of a rate: its taps, how many there are to each side of the middle one (half), and how many places
    a click is computed from (size), unless it is wide."""

    def __init__(self, rate: int) -> None:
        self.rate = rate
        self.taps = lowpass(rate, PASSED, STOPPED)
        self.half = len(self.taps) // 2
        self.size = self.size_for(0)

    def size_for(self, wider: int) -> int:
        """How many places a click needs that is wider by that many places to each side."""
        return 1 << int(np.ceil(np.log2(5.5 * self.half + 2 * wider)))

    @lru_cache(maxsize=8)
    def spectrum(self, size: int) -> np.ndarray:
        """That of the low-pass, for that many places."""
        return fft().rfft(np.roll(np.pad(self.taps, (0, size - len(self.taps))), -self.half)).real

    @lru_cache(maxsize=8)
    def weighting(self, size: int) -> np.ndarray:
        """The A-weighting of spectra of so many places."""
        return weighting(fft().rfftfreq(size, 1 / self.rate))

    def click(self, error: np.ndarray, wider: int = 0) -> np.ndarray:
        """What is heard of an error, no more than the reach of the low-pass and `wider` places away from its middle."""
        # Not by the library: an error is no sequence of bits, and every place is wanted.
        size = len(error)
        heard = fft().irfft(fft().rfft(error) * self.spectrum(size), size)
        reach = min(self.half + wider, size // 2)
        heard[: size // 2 - reach] = 0
        heard[size // 2 + reach :] = 0
        return heard

    def peak(self, error: np.ndarray, wider: int = 0) -> float:
        """The peak of the click of an error, in dB."""
        return decibels(np.abs(self.click(error, wider)).max())

    def levels(self, error: np.ndarray, wider: int = 0) -> tuple[float, float]:
        """Peak and A-weighted energy of the click of an error, in dB."""
        heard = self.click(error, wider)
        power = (np.abs(fft().rfft(heard)) * self.weighting(len(heard))) ** 2
        energy = (2 * power.sum() - power[0] - power[-1]) / len(heard)
        return decibels(np.abs(heard).max()), decibels(np.sqrt(energy / (CLICK * self.rate / 2)))


def weighting(hertz: np.ndarray) -> np.ndarray:
    """The A-weighting of IEC 61672 at these frequencies, 1 at 1 kHz."""

    def response(it: np.ndarray) -> np.ndarray:
        square = it * it
        return (12194**2 * square**2) / (
            (square + 20.6**2) * np.sqrt((square + 107.7**2) * (square + 737.9**2)) * (square + 12194**2)
        )

    return response(hertz) / response(np.array(1000.0))


@lru_cache
def hearing_of(rate: int) -> Hearing:
    return Hearing(rate)


# Up to which frequency a take holds sound, and from where on only the noise of its modulator.
#
# The sound falls towards high frequencies, and the noise rises. Where the spectrum of a take is least both are the
# same, and above it nothing tells them apart. So the sound is what a low-pass passes that falls around there.

# Hz, where low-passes end: they pass what is below the first number and stop what is above the second.
BANDS = ((22_000, 26_000), (24_000, 30_000), (26_000, 34_000), (35_000, 50_000), (50_000, 75_000))
USUAL = BANDS[2]
PIECES = 64  # of a take, evenly spread, whose spectra are added up
LINE = 3e-3  # seconds: about the length of a spectrum
SMOOTHED = 5  # lines of a spectrum that are taken together
LOWEST = 21_000  # Hz
HIGHEST = 1 / 40  # of the rate
SILENT = 1e-16  # of the power of white noise: what is below isn't distinguished

Band = tuple[int, int]


def powers(take: "Signals") -> np.ndarray:
    """The power spectrum of a take in pieces from all its parts, a row for each channel; that of white noise is 1."""
    size = 1 << round(np.log2(LINE * take.rate))
    window = blackman_harris(size)
    count = min(max(take.bits // (2 * size), 1), PIECES)
    found = np.zeros((take.count, size // 2 + 1))
    for number in range(count):
        first = number * max(take.bits - 2 * size, 0) // max(count - 1, 1)
        signs = take.signs(first, first + 2 * size)
        for start in (0, size // 2, size):
            spectrum = fft().rfft(signs[:, start : start + size] * window, axis=1)
            found += spectrum.real**2 + spectrum.imag**2
    return found / (3 * count * np.sum(window**2))


def least(rate: int, row: np.ndarray) -> float | None:
    """The frequency (Hz) above the audio band at which a power spectrum is least; none if there is nothing there at
    all, as in digital silence."""
    hertz = np.linspace(0, rate / 2, len(row))
    smooth = np.convolve(np.log(row + SILENT), np.ones(SMOOTHED), "same")
    inside = (hertz >= LOWEST) & (hertz <= HIGHEST * rate)
    lowest = int(smooth[inside].argmin())
    is_nothing = smooth[inside][lowest] < SMOOTHED * np.log(2 * SILENT)
    return None if is_nothing else float(hertz[inside][lowest])


def band_at(hertz: float | None) -> Band:
    """The band whose end is nearest to a frequency, or the usual one."""
    if hertz is None:
        return USUAL
    wanted = hertz
    return min(BANDS, key=lambda it: abs(np.log(sum(it) / 2 / wanted)))


def bands_of(take: "Signals") -> list[Band]:
    """The band of each channel of a take."""
    return [band_at(least(take.rate, row)) for row in powers(take)]


def wider(band: Band) -> Band:
    """The same a seventh higher: another estimate of the sound."""
    more = round(0.15 * band[0], -3)
    return band[0] + int(more), band[1] + int(more)


# Spectra of errors as they are seen from each place of a take: of all errors before it, or from it on.

RISE = 4_000  # bits at 2,822,400 Hz over which errors are let in, far from where they count


def rise_of(rate: int) -> int:
    """The same at a rate."""
    return RISE * rate // 2_822_400


def let_in(errors: np.ndarray, rate: int, most: int | None = None) -> np.ndarray:
    """Errors with a slow rise at their start, of `most` bits at most. It has no edges: what they would leave in the
    audio band is next to nothing, but its moment is known from far away."""
    rise = rise_of(rate)
    part = np.clip(np.arange(errors.shape[-1]) / (rise if most is None else max(min(rise, most), 1)), 0, 1)
    return errors * part**3 * (10 - 15 * part + 6 * part**2)


def ahead(errors: np.ndarray, turns: np.ndarray, first: int) -> np.ndarray:
    """The spectrum of all errors before a place, as seen from it: a column for each place from `first` to after the
    last, a row for each line, which turns by an angle a bit."""
    places, found = np.arange(len(errors) + 1), []
    for turn in turns:
        waves = np.exp(1j * turn * places)
        sums = np.cumsum(errors * waves[:-1].conj())
        found.append(np.append(0, sums)[first:] * waves[first:])
    return np.array(found)


def from_place_on(errors: np.ndarray, turns: np.ndarray, stop: int) -> np.ndarray:
    """The spectrum of all errors from a place on, as seen from it: a column for each place before `stop`. Seen from
    after it, times are turned, and the place itself is one bit away."""
    seen = ahead(errors[::-1], turns, len(errors) - stop + 1)[:, ::-1]
    return np.conj(seen) * np.exp(1j * turns)[:, None]

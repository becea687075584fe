"""Mixes of takes whose true signals are known (`trials`): rendered, cut and checked, for the figures of
cuts/FIGURES.md. What is left of each stretch of new bits is found as by the null test, and against the true signals."""
import itertools
import re
import sys
from collections.abc import Iterator
from dataclasses import dataclass
from pathlib import Path

import numpy as np

from cuts import gains, hearing, mix_texts, null_tests, trials
from cuts.hearing import decibels, hearing_of
from cuts.list_mixes import LIMIT, USUAL, Made
from cuts.takes import Take
from dsdarc_scripts.outputs import Refused
from dsdarc_scripts.program import finished

RENDER = Path(__file__).resolve().with_name("render")
NEW = re.compile(r"new bits from .* \(bits (\d+) to (\d+)\): .*")
RESIDUAL = re.compile(r"residual (-\d+\.\d+) dB")
SECONDS = 0.8  # of each take
AROUND = 1e-3  # seconds before and after new bits in which they are judged, as cuts are
EVERY = 8  # places, of which one is judged: the null test takes an eighth of the time, and finds 0.2 dB less at most


def fades(curve: str) -> str:
    """Two clips with a short pause between them."""
    first = f"0 {{0}} 5ms 395ms in 100ms {curve}, out 150ms {curve}"
    return f"{first}\n+20ms {{1}} 5ms 395ms in 150ms {curve}, out 100ms {curve}\n"


def crossfade(time: str, curve: str) -> str:
    """Two clips, the one faded into the other."""
    return f"0 {{0}} 5ms 400ms in 100ms s\n-{time} {{1}} 60ms 500ms crossfade {time} {curve}, out 100ms s\n"


# Lists whose lines name two takes, by what they try; and those of takes with several channels, and with six.
MIXES = {
    **{f"fades in and out, {it}": fades(it) for it in ("linear", "power", "s", "exponential")},
    **{f"crossfade of 0.1 s, {it}": crossfade("100ms", it) for it in ("linear", "power", "s", "exponential")},
    "crossfade of 10 ms, power": crossfade("10ms", "power"),
    "a level of -3 dB": "0 {0} 5ms 305ms in 100ms s\n+0s {0} 305ms 450ms -3 dB\n+0s {0} 450ms 790ms out 100ms s\n",
    "a pause of 0.7 s": "0 {0} 5ms 395ms in 100ms s, out 100ms s\n+700ms {1} 5ms 395ms in 100ms s, out 100ms s\n",
    "an overlap": "0 {0} 5ms 400ms in 100ms s, -6 dB\n-150ms {1} 20ms 500ms in 100ms s, -6 dB, out 100ms s\n",
    "inside a byte": "0 {0} @20001 @900006 in 100ms s\n+@0 {1} @500001 @1400017 in @300003 s, out 100ms s\n",
}
BALANCE = {
    "channel 1 at -2.5 dB": "0 {0} 5ms 305ms in 100ms s\n+0s {0} 305ms 450ms channel 1 -2.5 dB\n"
    "+0s {0} 450ms 790ms out 100ms s\n",
    "channel 0 off, faded": "0 {0} 5ms 395ms in 100ms s, out 100ms s\n-100ms {1} 60ms 590ms in 100ms s, out 100ms s, "
    "channel 0 off\n",
}
SIX = ("fades in and out, s", "crossfade of 0.1 s, power", "inside a byte", "channel 1 at -2.5 dB")


def lists_for(count: int) -> dict[str, str]:
    """The lists that are tried of takes with so many channels."""
    found = MIXES | (BALANCE if count > 1 else {})
    return {it: text for it, text in found.items() if count < 6 or it in SIX}


@dataclass(frozen=True)
class Seen:
    """What is left of a stretch of new bits in its loudest channel (dB to full scale), as `render` prints it and against
    the true signals. `off` is how far the loudest of its master is from what the null test finds (dB)."""

    printed: float
    true: float
    off: float


def true_sound(mix: mix_texts.Mix, trues: list[np.ndarray]) -> np.ndarray:
    """The mix of the true signals of its takes, a row for each channel."""
    found = np.zeros((len(trues[0]), mix.length))
    for clip in mix.clips:
        for channel, row in enumerate(found):
            sound = trues[clip.take][channel, clip.start : clip.start + clip.length]
            row[clip.at : clip.stop] += gains.gain_row(clip.points(channel), 0, clip.length) * sound
    return found


def left(master: Take, wanted: np.ndarray) -> np.ndarray:
    """How loud what is heard of a master less its true sound is at each place, in its loudest channel."""
    taps = hearing_of(master.rate).taps
    errors = np.pad(master.signs(0, master.bits) - wanted, ((0, 0), (len(taps) // 2,) * 2))
    return np.abs(hearing.convolved(errors, taps)).max(axis=0)


def rendered(mix: Path, project: Path) -> list[tuple[int, int, float]]:
    """Renders a mix: from where to where each stretch of new bits is, and its loudest residual as it is printed."""
    status, out, err = finished([sys.executable, RENDER, mix, "-o", project, "--keep-going"])
    rows = [(found, RESIDUAL.findall(found[0])) for found in map(NEW.fullmatch, out.decode().splitlines()) if found]
    if status == 2 or not rows:
        raise Refused(f"{mix}: {err.decode(errors='replace').strip() or 'nothing of it is new'}")
    return [(int(it[1]), int(it[2]), max(map(float, levels))) for it, levels in rows]


def tried(folder: Path, made: list[trials.Made], text: str) -> list[Seen]:
    """Renders a list of two takes that were made, cuts and checks its master, and measures each stretch of new bits."""
    name, project = folder / "mix.toml", folder / "project.toml"
    names = [f'"{it.path}"' for it in made]
    written = Made.of("list", text.format(*names), USUAL).mix_text(LIMIT, "list", "mix")
    name.write_text(re.sub(r"(?m)^every = \d+$", f"every = {EVERY}", written), encoding="utf-8")
    mix, _ = mix_texts.read(name)
    stretches = rendered(name, project)
    path = trials.cut_and_checked(project, "dsf" if mix.length % 8 else "dsdiff")
    master, answer = Take(path), null_tests.answer(name, path)
    trues = {str(it.path): it.true for it in made}
    heard, around = left(master, true_sound(mix, [trues[it] for it in mix.takes])), round(AROUND * master.rate)
    off = abs(max(it.level for it in answer.stretches) - max(printed for _, _, printed in stretches))
    peaks = [heard[max(first - around, 0) : stop + around].max() for first, stop, _ in stretches]
    return [Seen(printed, decibels(float(peak)), off) for (_, _, printed), peak in zip(stretches, peaks)]


def over_seeds(
    folder: Path, program: Path, count: int, rate: int, seeds: list[int]
) -> Iterator[tuple[str, list[Seen]]]:
    """What is seen of each list, of takes of different music in so many channels, which are made by several seeds."""
    asked = [trials.TakesAsked("music", rate, count, SECONDS, it) for it in seeds]
    takes = [trials.make(folder, program, it) for it in asked]
    for what, text in lists_for(count).items():
        yield what, [it for made in takes for it in tried(folder, made, text)]
    for it in itertools.chain(*takes):
        it.path.unlink()

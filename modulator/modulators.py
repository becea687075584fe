"""The delta-sigma modulator of one bit (modulate.c, compiled with CC or cc) and its noise transfers."""
import os
import signal
import subprocess
from dataclasses import dataclass
from functools import lru_cache
from pathlib import Path
from typing import Any

import numpy as np
from numpy.polynomial import legendre

from dsdarc_scripts.outputs import Refused

FOLDER = Path(__file__).resolve().parent

AUDIO = 20_000  # Hz: the zeros of the noise transfer lie below
SEED = 88172645463325252

# Denominators of noise transfers that are often used, by order and greatest gain: just what `poles_of` computes. The
# modules that it loads take longer to load than a cut takes to be made.
POLES = {
    (7, 1.4): [
        1.0,
        -6.327950726214892,
        17.19085216682616,
        -25.987968025362544,
        23.60912329927293,
        -12.88816227529025,
        3.914310853971995,
        -0.5102040816326531,
    ],
    (7, 1.3): [
        1.0,
        -6.475696321627832,
        17.990352949635913,
        -27.79380569589268,
        25.788165698009898,
        -14.369551122798365,
        4.452250697263576,
        -0.5917159763316184,
    ],
    (5, 1.5): [
        1.0,
        -4.192282151138504,
        7.0857914157082815,
        -6.029607383511101,
        2.581207938963348,
        -0.44444444401209554,
    ],
    (5, 1.3): [1.0, -4.476146395354404, 8.039183172751839, -7.239786642068571, 3.268552428892148, -0.5917159763243617],
    (4, 1.3): [1.0, -3.4767208563705125, 4.562759005031947, -2.6764964637833697, 0.5917159825103558],
}
STABLE = 3  # what enters the quantizer stays below this


class Unstable(Exception):
    """What entered the quantizer grew too large."""


@dataclass(frozen=True)
class Modulator:
    """A noise transfer: its order, its greatest gain, and what is added before the quantizer (triangular, at most)."""

    order: int
    gain: float
    dither: float


def modulator_for(rate: int) -> Modulator:
    """Order 7 for DSD64, so that its noise is below what is measured with it; else order 5 is enough."""
    return Modulator(7, 1.4, 0.1) if rate < 4_000_000 else Modulator(5, 1.5, 0.1)


@lru_cache
def noise_transfer(modulator: Modulator, rate: int) -> tuple[np.ndarray, np.ndarray]:
    """Numerator and denominator: Butterworth's poles, and the zeros of a Legendre polynomial over the audio band."""
    zeros = np.exp(2j * np.pi * AUDIO / rate * legendre.legroots([0] * modulator.order + [1]))
    poles = POLES.get((modulator.order, modulator.gain))
    return np.real(np.poly(zeros)), poles_of(modulator) if poles is None else np.array(poles)


def poles_of(modulator: Modulator) -> np.ndarray:
    """The denominator of a noise transfer."""
    from scipy import optimize
    from scipy import signal as signals

    def excess(turn: float) -> float:
        return 1 / signals.butter(modulator.order, turn, "high")[0][0] - modulator.gain

    turn = optimize.brentq(excess, 1e-3, 0.9)
    return np.real(np.poly(signals.butter(modulator.order, turn, "high", output="zpk")[1]))


def compiled(folder: Path) -> Path:
    """The modulator's program, made in a folder, in which the compiler has its own files too."""
    program = folder / "modulate"
    compiler = os.environ.get("CC", "cc")
    command: list[str | Path] = [compiler, "-O1", "-o", program, FOLDER / "modulate.c", "-lm"]
    how: dict[str, Any] = {
        "stdout": subprocess.DEVNULL,
        "stderr": subprocess.PIPE,
        "env": os.environ | {"TMPDIR": str(folder)},
    }
    try:
        running = subprocess.Popen(command, start_new_session=True, **how)
    except (OSError, ValueError) as error:
        raise Refused(f"the C compiler {compiler!r} can't be run ({error}): install one, or name it by CC") from None
    try:
        err = running.communicate()[1]
    except BaseException:
        os.killpg(running.pid, signal.SIGKILL)
        running.wait()
        raise
    if running.returncode:
        said = (err.decode(errors="replace").strip().splitlines() or ["it says nothing"])[-1]
        raise Refused(f"{compiler} can't compile modulate.c in {folder}: {said}")
    return program


def run(program: Path, modulator: Modulator, rate: int, arguments: list, samples: bytes = b"") -> tuple[bytes, float]:
    """The bytes, and what entered the quantizer at most. Arguments are a seed, how many bytes, and perhaps a word for
    the past at the end, how often and by what step of the seed, or a sine."""
    zeros, poles = noise_transfer(modulator, rate)
    numbers = [*(repr(float(it)) for it in [*poles[1:], *zeros[1:]]), str(modulator.dither)]
    line: list[str | Path] = [program, str(modulator.order), *numbers, *(str(it) for it in arguments)]
    # Files in memory: through pipes it would be slower than the modulator.
    with open(os.memfd_create("samples"), "w+b") as given, open(os.memfd_create("bytes"), "w+b") as made:
        given.write(samples)
        given.seek(0)
        done = subprocess.run(line, stdin=given, stdout=made, stderr=subprocess.PIPE, check=False)
        made.seek(0)
        data = made.read()
    if done.returncode:
        raise Refused(f"the modulator ended with status {done.returncode}")
    largest = float(done.stderr)
    if not largest < STABLE:
        raise Unstable(f"the modulator is not stable: {largest} before the quantizer")
    return data, largest


def modulated(
    program: Path,
    modulator: Modulator,
    rate: int,
    samples: np.ndarray,
    seed: int = SEED,
    state: np.ndarray | None = None,
    again: tuple[int, ...] = (),
) -> bytes:
    """The bits of a signal with a multiple of 8 samples, the earliest bit the most significant; stored ones are 1. The
    state is what the quantizer's errors were before, and the same after the noise transfer, the newest first. With
    `again`, how many times and a step, the signal is modulated so often, each time with a seed larger by the step."""
    before = np.zeros(2 * modulator.order) if state is None else state
    numbers = np.concatenate([before, samples]).tobytes()
    return run(program, modulator, rate, [seed, len(samples) // 8, *again], numbers)[0]


def modulated_on(
    program: Path, modulator: Modulator, rate: int, samples: np.ndarray, seed: int, state: np.ndarray
) -> tuple[bytes, np.ndarray]:
    """The bits of a part of a signal as `modulated` gives them, and the state with which the next part goes on."""
    numbers, count = np.concatenate([state, samples]).tobytes(), len(samples) // 8
    data = run(program, modulator, rate, [seed, count, "end"], numbers)[0]
    return data[:count], np.frombuffer(data[count:], np.float64)

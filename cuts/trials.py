"""Takes whose true signals are known: made of tones, notes and noise by the modulator, as DSDIFF and as 64-bit
floats."""
from dataclasses import dataclass, replace
from pathlib import Path

import numpy as np
from scipy import signal

from cuts import fading, masters, measuring, placing, takes
from cuts.hearing import PASSED, STOPPED, hearing_of, lowpass
from cuts.projects import Project
from cuts.takes import Signals, Take
from dsdarc_scripts.outputs import Refused
from dsdarc_scripts.program import PROGRAM, must
from modulator import modulators

NOTES = [130.8, 164.8, 196.0, 220.0, 261.6, 329.6, 392.0, 523.3, 659.3, 880.0]
SLOW = 88_200  # music is made at about this rate, and brought to the takes'
LEAD = 0.05  # seconds that a modulator runs before a take begins

KINDS = ("tone", "piece", "music")
NARROW = (20_000, 22_000)  # Hz: where the sound of the kind "narrow" ends, which is else as "music"
TWICE = ("tone", "piece")  # of these both takes are at the same place of the same sound


@dataclass(frozen=True)
class Made:
    """A take that was made: its file, and its true signals, a row for each channel."""

    path: Path
    true: np.ndarray


def noise(rate: int, number: int, decibels: float, random: np.random.Generator) -> np.ndarray:
    """Noise as of a microphone: flat to 20 kHz, falling above."""
    lead = int(LEAD * rate)
    sections = signal.butter(4, 20_000, fs=rate, output="sos")
    found = signal.sosfilt(sections, random.standard_normal(number + lead))[lead:]
    return 10 ** (decibels / 20) * found / found.std()


def music(rate: int, number: int, random: np.random.Generator) -> np.ndarray:
    """Chords of notes that fade, with twelve harmonics, vibrato and soft noise, at most 0.4."""
    times = rate // SLOW
    slow = rate / times
    count = number // times + 400
    time = np.arange(count) / slow
    found = np.zeros(count)
    for start in np.arange(-0.11, time[-1], 0.11):
        first = max(int(np.ceil(start * slow)), 0)
        since = time[first:] - start
        for hertz in random.choice(NOTES, 3, replace=False):
            loud = (1 - np.exp(-since / 0.004)) * np.exp(-since / random.uniform(0.1, 0.4))
            phase = random.uniform(0, 2 * np.pi)
            turn = 2 * np.pi * hertz * since + phase
            for harmonic in range(1, 13):
                bent = harmonic * turn + 0.3 * np.sin(2 * np.pi * 5.5 * since)
                strength = random.uniform(0.3, 1) * harmonic**-1.2
                found[first:] += strength * loud * np.exp(-since * harmonic * 2) * np.sin(bent)
    band = signal.sosfilt(signal.butter(2, [300, 8000], "band", fs=slow, output="sos"), random.standard_normal(count))
    found += 0.02 * found.std() * band / band.std()
    fast = signal.resample_poly(found, times, 1, window=("kaiser", 12.0))[200 * times :][:number]
    return 0.4 * fast / np.abs(fast).max()


def narrowed(rate: int, row: np.ndarray) -> np.ndarray:
    """A signal without what lies above the audio band."""
    taps = lowpass(rate, *NARROW)
    return signal.oaconvolve(np.pad(row, len(taps) // 2, mode="edge"), taps, mode="valid")


def signals(kind: str, rate: int, number: int, seed: int) -> list[np.ndarray]:
    """The two true signals of one channel. Each has noise and an offset of its own: no two takes have one sum."""
    if kind == "narrow":
        return [narrowed(rate, it) for it in signals("music", rate, number, seed)]
    both = np.random.default_rng([seed, 0])
    each = [np.random.default_rng([seed, it]) for it in (1, 2)]
    if kind == "music":
        bases, level = [music(rate, number, it) for it in each], -80.0
    elif kind == "piece":
        bases, level = [music(rate, number, both)] * 2, -70.0
    else:
        turn = 2 * np.pi * both.uniform(700, 1400) * np.arange(number) / rate + both.uniform(0, 2 * np.pi)
        bases, level = [0.5 * np.sin(turn)] * 2, -80.0
    return [it + noise(rate, number, level, random) + random.uniform(-1e-3, 1e-3) for it, random in zip(bases, each)]


@dataclass(frozen=True)
class TakesAsked:
    """Two takes of so many channels, of a rate, and the modulators that make them: those for the rate if left out."""

    kind: str
    rate: int
    count: int
    seconds: float
    seed: int
    modulators: tuple = ()

    @property
    def name(self) -> str:
        orders = "".join(f"-{it.order}" for it in self.modulators)
        return f"{self.kind}-{self.rate}-{self.count}-{self.seed}{orders}"


def make(folder: Path, program: Path, asked: TakesAsked) -> list[Made]:
    """Makes both takes in a folder, by the modulator's program."""
    number, lead = int(asked.rate * asked.seconds) // 8 * 8, int(asked.rate * LEAD) // 8 * 8
    kinds = asked.modulators or [modulators.modulator_for(asked.rate)] * 2
    rows = [signals(asked.kind, asked.rate, number, 1000 * asked.seed + channel) for channel in range(asked.count)]
    made = []
    for take, modulator in enumerate(kinds):
        true = np.stack([row[take] for row in rows])
        sounds = []
        for channel, row in enumerate(true):
            whole = np.concatenate([np.zeros(lead + 8 * take), row])
            started = int(np.random.default_rng([asked.seed, channel, take, 7]).integers(1, 2**63))
            sounds.append(modulators.modulated(program, modulator, asked.rate, whole, started)[lead // 8 + take :])
        path = folder / f"{asked.name}-{take}.dff"
        path.write_bytes(takes.dsdiff_of(asked.rate, sounds))
        made.append(Made(path, true))
    return made


# Masters of made takes, cut by the built program and judged by its `check`, for the figures of cuts/FIGURES.md.

SECONDS = 0.4
CUTS = 8  # in a master
EDGE = 0.02  # seconds at both ends of a take in which nothing is cut
REFERENCES = ("to 20 kHz", "estimated", "true")


@dataclass(frozen=True)
class Way:
    """How the cuts of a master are made: with bridges of `bridge` bits, and then moved, faded or left as they are. The
    take of seams gets its name when they are made."""

    bridge: int = 0
    weights: tuple[int, ...] = (1, 1)
    wish: placing.PlaceAsked | fading.FadeAsked | None = None


@dataclass(frozen=True)
class Seen:
    """What a cut clicks in its loudest channel by each reference, peak and A-weighted, and what was predicted."""

    levels: dict[str, tuple[float, float]]
    predicted: float | None


def project_text(names: list[str], way: Way, bits: int, rate: int, seed: int) -> str:
    """Cues that take turns, cut at random places; with a bridge nothing comes earlier or later."""
    random = np.random.default_rng([seed, 99])
    edge = int(EDGE * rate)
    apart = (bits - 2 * edge) // CUTS
    places = [edge + apart * it + int(random.integers(apart // 4, apart * 3 // 4)) for it in range(CUTS)]
    text = f"[splice]\nweights = {list(way.weights)}\ntakes = [{', '.join(map(repr, names))}]\n"
    start = 0
    for number, stop in enumerate([*places, bits]):
        text += f"\n[[splice.cue]]\ntake = {number % 2}\nstart = {start}\nstop = {stop}\n"
        if number < CUTS and way.bridge:
            text += f"bridge = {way.bridge}\n"
        start = stop + way.bridge
    return text


def cut_and_checked(project: Path, form: str) -> Path:
    """The master of a project, which `check` has to accept."""
    master, cert = project.with_suffix(".dff"), project.with_suffix(".cert")
    must(PROGRAM, "edit", form, project, master, cert)
    must(PROGRAM, "check", project, master, cert)
    cert.unlink()
    return master


def loudest(levels: list[tuple[float, float]]) -> tuple[float, float]:
    return max(it[0] for it in levels), max(it[1] for it in levels)


def measured(project: Project, master: Signals, made: list[Made], predicted: list[float]) -> list[Seen]:
    """What each cut clicks; what was made has to hold the takes' bits."""
    hearing = hearing_of(project.rate)
    trues = [it.true for it in made]
    named = {
        "to 20 kHz": measuring.decoded(project, (PASSED, STOPPED)),
        "estimated": measuring.decoded(project),
        "true": measuring.known(project, trues),
    }
    found = []
    for number, spot in enumerate(project.spots()):
        levels = {name: loudest(measuring.levels(hearing, project, master, spot, it)) for name, it in named.items()}
        found.append(Seen(levels, predicted[number] if predicted else None))
        if not measuring.are_owned(project, spot):
            raise Refused("a transition doesn't hold the takes' bits")
    if measuring.wrong_cue(project, master) is not None:
        raise Refused("a cue doesn't hold its take's bits")
    return found


def moved(project: Project, program: Path, wish: placing.PlaceAsked | fading.FadeAsked) -> list[float]:
    """Makes all cuts, and returns how loudly each will click in its loudest channel."""
    cuts = range(len(project.spots()))
    for number in cuts:
        if isinstance(wish, placing.PlaceAsked):
            placing.place(project, number, wish)
        else:
            fading.fade(project, program, number, wish)
    project.end_with_a_byte()
    return [loudest(masters.Seen(project, it).clicks)[0] for it in cuts]


def tried(folder: Path, program: Path, asked: TakesAsked, made: list[Made], way: Way) -> list[Seen]:
    """Cuts a master of two takes that were made, and measures it."""
    path = folder / "project.toml"
    names = [str(it.path) for it in made]
    bits = made[0].true.shape[1]
    path.write_text(project_text(names, way, bits, asked.rate, asked.seed), encoding="utf-8")
    predicted: list[float] = []
    if way.wish is not None:
        project, name = Project(path), str(folder / "project.seams.dff")
        predicted = moved(project, program, replace(way.wish, take=name))
        path.write_text(project.text(), encoding="utf-8")
        if project.seams:
            Path(name).write_bytes(project.seam_file())
        for it in project.made_shifted():
            with open(it.name, "wb") as file:
                it.write(file)
    project = Project(path)
    master = cut_and_checked(path, "dsf" if project.length() % 8 else "dsdiff")
    return measured(project, Take(master), made, predicted)


def over_seeds(folder: Path, program: Path, asked: TakesAsked, ways: list[Way], seeds: list[int]) -> list[list[Seen]]:
    """The same by several seeds, a list for each way."""
    found: list[list[Seen]] = [[] for _ in ways]
    for seed in seeds:
        one = replace(asked, seed=seed)
        made = make(folder, program, one)
        for sofar, way in zip(found, ways):
            sofar += tried(folder, program, one, made, way)
        for it in made:
            it.path.unlink()
    return found

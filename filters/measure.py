#!/usr/bin/python3
"""Measures the filters of this folder from their finished files: measure.py [--plots] [--check] [FOLDER].

Nothing is known of how a filter was made: the taps are read from the TOML text, and the stored rate from the file's
name and its factor. It prints two tables; --plots draws each response to responses/NAME.png; --check ends with status
1 where a limit of projects or a target is missed, or where README.md does not hold these tables."""
import argparse
import io
import os
import re
import sys
from dataclasses import dataclass
from pathlib import Path

os.environ.setdefault("OMP_NUM_THREADS", "1")

sys.path.insert(0, str(Path(__file__).resolve().parents[1]))
from dsdarc_scripts import outputs

outputs.begin()
import numpy as np

from dsdarc_scripts import project_texts
from dsdarc_scripts.explained import shown_name
from dsdarc_scripts.outputs import Refused

POINTS = 2**20  # of the Fourier transform: 256 for each tap or more
LOWEST = 1e-12  # below this, magnitudes are drawn and printed as this


@dataclass(frozen=True)
class Target:
    """What a file must reach: kHz of passband, dB of ripple in it, dB by which what folds into it is put down."""

    passing: float
    ripple: float
    down: float


SLOW = Target(19.5, 0.4, 100.0)  # for 44.1 and 48 kHz
FAST = Target(24.0, 0.001, 130.0)


@dataclass(frozen=True)
class Project:
    """A file as it was read; the rate is the stored one."""

    name: str
    out: int
    rate: int
    width: int
    taps: np.ndarray
    factor: int
    delay: int
    shift: int

    def full(self) -> float:
        """The sum of taps that plays stored ones at full scale."""
        return 2.0 ** (self.width - 1 + self.shift)

    def target(self) -> Target:
        return SLOW if self.out < 50_000 else FAST


@dataclass(frozen=True)
class Measured:
    """A response: kHz and dB."""

    passing: float
    ripple: float
    ripple_in_target: float
    folding: float
    folding_in_target: float
    beyond: float
    three_down: float


def read(path: Path) -> Project:
    """The project of a file whose name ends with -to-RATE-WIDTH or that and -plus6."""
    said = re.fullmatch(r"\w+-to-(\d+)-(16|24)(-plus6)?", path.stem)
    if not said:
        raise Refused(f"{shown_name(str(path))}: its name doesn't end with -to-RATE-WIDTH, as a filter's")
    table = project_texts.read_decimate(path)
    if table["width"] != int(said[2]):
        raise Refused(f"{shown_name(str(path))}: it has another width than its name")
    if sum(table["taps"]) == 0:
        raise Refused(f"{shown_name(str(path))}: its taps add up to 0, so no response can be given relative to 0 Hz")
    out = int(said[1])
    taps = np.array(table["taps"], dtype=np.int64)
    return Project(
        path.stem, out, out * table["factor"], table["width"], taps, table["factor"], table["delay"], table["shift"]
    )


def broken_limits(project: Project) -> list[str]:
    """The limits of projects that the file breaks, and what else its name or this folder promises of its numbers."""
    limits = {
        "taps": 1 <= len(project.taps) <= 4096 and int(np.abs(project.taps).max()) < 2**31,
        "sum of taps": int(np.abs(project.taps).sum()) <= 2**30,
        "factor": project.factor % 8 == 0 and 8 <= project.factor <= 1024,
        "delay": 0 <= project.delay < len(project.taps),
        "shift": 0 <= project.shift <= 30,
        "width": project.width in (16, 24),
        "symmetry": bool(np.array_equal(project.taps, project.taps[::-1])),
        "gain": abs(gain_of(project) - (6.0206 if project.name.endswith("-plus6") else 0.0)) < 0.0001,
        "delay in the middle": 2 * project.delay == len(project.taps) - 1,
    }
    return [f"{project.name}: {name}" for name, kept in limits.items() if not kept]


def decibels(ratio: np.ndarray | float) -> np.ndarray:
    return 20 * np.log10(np.maximum(ratio, LOWEST))


def gain_of(project: Project) -> float:
    """The level at which stored ones alone would play, in dB to full scale."""
    return float(decibels(abs(float(project.taps.sum())) / project.full()))


def response(project: Project) -> tuple[np.ndarray, np.ndarray]:
    """Frequencies in Hz up to half of the stored rate, and magnitudes, 1 being that of frequency 0."""
    # The spectrum of the taps themselves: no sound is decimated for it, which the library could do.
    magnitudes = np.abs(np.fft.rfft(project.taps.astype(float), POINTS)) / abs(float(project.taps.sum()))
    return np.fft.rfftfreq(POINTS, 1 / project.rate), magnitudes


def folded_to(project: Project, hertz: np.ndarray) -> np.ndarray:
    """The frequency at which each sounds once every `factor`th place is left."""
    return np.abs(hertz - np.rint(hertz / project.out) * project.out)


def folding_into(project: Project, hertz: np.ndarray, magnitudes: np.ndarray, edge: float) -> float:
    """The greatest magnitude of all that is above half of the new rate and folds to `edge` or below."""
    folds = (hertz > project.out / 2) & (folded_to(project, hertz) <= edge)
    return float(magnitudes[folds].max(initial=LOWEST))


def ripple_to(hertz: np.ndarray, magnitudes: np.ndarray, edge: float) -> float:
    """The greatest deviation from frequency 0, in dB."""
    return float(np.abs(decibels(magnitudes[hertz <= edge])).max())


def passband(project: Project, hertz: np.ndarray, magnitudes: np.ndarray) -> float:
    """The highest edge in whole 100 Hz to which the ripple and what folds keep to the target, in Hz."""
    target = project.target()
    ripples = np.abs(decibels(magnitudes)) > target.ripple
    folds = (hertz > project.out / 2) & (decibels(magnitudes) > -target.down)
    half = project.out / 2
    beyond = min(hertz[ripples].min(initial=half), folded_to(project, hertz[folds]).min(initial=half))
    return max(0.0, float(np.ceil(beyond / 100) - 1) * 100)


def measured(project: Project) -> Measured:
    hertz, magnitudes = response(project)
    edge = passband(project, hertz, magnitudes)
    return Measured(
        passing=edge / 1e3,
        ripple=ripple_to(hertz, magnitudes, edge),
        ripple_in_target=ripple_to(hertz, magnitudes, project.target().passing * 1e3),
        folding=float(-decibels(folding_into(project, hertz, magnitudes, edge))),
        folding_in_target=float(-decibels(folding_into(project, hertz, magnitudes, project.target().passing * 1e3))),
        beyond=float(-decibels(magnitudes[hertz >= project.out / 2].max())),
        three_down=float(hertz[np.argmax(magnitudes < 10 ** (-3 / 20))]) / 1e3,
    )


def missed(project: Project, seen: Measured) -> list[str]:
    """The targets that the filter misses."""
    target = project.target()
    limits = {
        "passband": seen.passing >= target.passing,
        "ripple": seen.ripple_in_target <= target.ripple,
        "folding": seen.folding >= target.down,
    }
    return [f"{project.name}: {name}" for name, kept in limits.items() if not kept]


def figure(number: float) -> str:
    """A ripple in dB with two figures that count, without a power of ten."""
    return f"{number:.{max(1, 1 - int(np.floor(np.log10(max(number, 1e-9)))))}f}"


def stem_of(project: Project) -> str:
    """The part of the name that files of the same taps share."""
    return re.sub(r"-(16|24)(-plus6)?$", "", project.name)


def response_row(project: Project, seen: Measured) -> str:
    cells = [
        f"`{stem_of(project)}`",
        f"{seen.passing:.1f} kHz",
        f"{figure(seen.ripple)} dB",
        f"-{seen.folding:.1f} dB",
        f"{figure(seen.ripple_in_target)} dB",
        f"-{seen.folding_in_target:.1f} dB",
        f"-{seen.beyond:.1f} dB",
        f"{seen.three_down:.1f} kHz",
        f"{project.delay / project.rate * 1e3:.2f} ms",
    ]
    return "| " + " | ".join(cells) + " |"


def level_row(project: Project) -> str:
    gain = round(gain_of(project), 4) + 0.0
    worst = float(decibels(float(np.abs(project.taps).sum()) / project.full()))
    numbers = [len(project.taps), project.factor, project.delay, project.shift]
    cells = [f"`{project.name}.toml`", f"{gain:.4f} dB", f"{worst:+.2f} dB", *(str(number) for number in numbers)]
    return "| " + " | ".join(cells) + " |"


def tables(projects: list[Project]) -> tuple[list[list[str]], list[str]]:
    """Both tables, as lines, and what is missed."""
    responses = [
        "| filter | passband to | ripple in it | folds into it | ripple to 24 (19.5) kHz | folds below 24 (19.5) kHz | "
        "from half of the new rate on | 3 dB down at | half of its length |",
        "|" + "---|" * 9,
    ]
    levels = ["| file | gain | greatest sample | taps | `factor` | `delay` | `shift` |", "|" + "---|" * 7]
    faults: list[str] = []
    seen: dict[str, Project] = {}
    for project in projects:
        faults += broken_limits(project)
        levels.append(level_row(project))
        first = seen.setdefault(stem_of(project), project)
        if first is project:
            result = measured(project)
            faults += missed(project, result)
            responses.append(response_row(project, result))
        elif not np.array_equal(first.taps, project.taps) or first.rate != project.rate:
            faults.append(f"{project.name}: other taps than {first.name}")
    return [responses, levels], faults


def envelope(hertz: np.ndarray, values: np.ndarray, edges: np.ndarray) -> tuple[np.ndarray, np.ndarray]:
    """The greatest value between each two edges that have one."""
    places = np.searchsorted(hertz, edges)
    kept = [(a, b) for a, b in zip(places[:-1], places[1:]) if b > a]
    return np.array([hertz[a] for a, _ in kept]), np.array([values[a:b].max() for a, b in kept])


def drawn(project: Project) -> bytes:
    """A picture (PNG) of the whole response, and of the passband closely."""
    import matplotlib

    matplotlib.use("Agg")
    import matplotlib.pyplot as plt

    hertz, magnitudes = response(project)
    target = project.target()
    edge = passband(project, hertz, magnitudes) / 1e3
    shape, (whole, near) = plt.subplots(1, 2, figsize=(9, 2.8), width_ratios=(2, 1), layout="constrained")
    places, heights = envelope(hertz, decibels(magnitudes), np.geomspace(1e3, project.rate / 2, 1500))
    whole.semilogx(places / 1e3, heights, linewidth=0.8)
    whole.xaxis.set_major_formatter("{x:g}")
    whole.axvline(project.out / 2e3, color="0.5", linewidth=0.8, linestyle="--")
    whole.axhline(-target.down, color="tab:red", linewidth=0.8)
    whole.set(xlim=(1, project.rate / 2e3), ylim=(-180, 10), xlabel="kHz", ylabel="dB", title=stem_of(project))
    close = hertz <= project.out / 2
    room = 2.5 * max(ripple_to(hertz, magnitudes, edge * 1e3), target.ripple / 200)
    places, heights = hertz[close][::16], decibels(magnitudes[close][::16])
    drawn = np.abs(heights) < 2 * room
    near.plot(places[drawn] / 1e3, heights[drawn], linewidth=0.8)
    near.axvline(edge, color="tab:red", linewidth=0.8)
    near.set(xlim=(0, project.out / 2e3), ylim=(-room, room), xlabel="kHz", title=f"passband, to {edge:.1f} kHz")
    near.ticklabel_format(axis="y", style="plain")
    for panel in (whole, near):
        panel.grid(linewidth=0.3)
    file = io.BytesIO()
    shape.savefig(file, dpi=80, metadata={"Software": None}, pil_kwargs={"optimize": True})
    plt.close(shape)
    return file.getvalue()


def draw_all(projects: list[Project], folder: Path) -> None:
    """Draws the response of each filter that a folder has for 24 bits."""
    inputs = [(f"{it.name}.toml", folder / f"{it.name}.toml") for it in projects]
    with outputs.Outputs(inputs) as files:
        files.folder(folder / "responses")
        for project in projects:
            if project.name.endswith("-24"):
                path = folder / "responses" / f"{stem_of(project)}.png"
                files.add("--plots", path)
                files.put(path, drawn(project))


def main() -> int:
    parser = argparse.ArgumentParser(description=__doc__.split("\n")[0])
    parser.add_argument("folder", nargs="?", type=Path, default=Path(__file__).parent)
    parser.add_argument("--plots", action="store_true", help="draw each response")
    parser.add_argument("--check", action="store_true", help="status 1 where something is missed")
    asked = parser.parse_args()
    if not asked.folder.is_dir():
        raise Refused(f"{shown_name(str(asked.folder))} is no folder")
    projects = [read(path) for path in asked.folder.glob("*.toml")]
    if not projects:
        raise Refused(f"{shown_name(str(asked.folder))} has no filters, whose names end with .toml")
    projects.sort(key=lambda project: (project.rate, project.out, -project.width, project.name))
    printed, faults = tables(projects)
    print("\n\n".join("\n".join(table) for table in printed))
    if asked.plots:
        draw_all(projects, asked.folder)
    if asked.check:
        text = (asked.folder / "README.md").read_text(encoding="utf-8", errors="replace")
        faults += [f"README.md: not the table of {table[0]}" for table in printed if "\n".join(table) not in text]
    for fault in faults:
        print(f"missed: {fault}", file=sys.stderr)
    return 1 if asked.check and faults else 0


if __name__ == "__main__":
    sys.exit(outputs.ended(main))

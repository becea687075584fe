"""The null test of a master, which the program makes, and what it prints (docs/NULL_TEST.md)."""
import os
import re
from dataclasses import dataclass
from pathlib import Path

from cuts.projects import Spot
from dsdarc_scripts.explained import lines_of, shown_name
from dsdarc_scripts.outputs import Refused
from dsdarc_scripts.program import PROGRAM, finished

COMMAND = [PROGRAM, "--explain", "nulltest"]  # the names of a mix and a master come after it
STRETCH = re.compile(r"channel (\d+) first (\d+) last (\d+) residual \d+ dBFS (\S+) place (\d+)")


@dataclass(frozen=True)
class Stretch:
    """A line of the null test: the channel, its first and its last judged place, the greatest residual (dB to full
    scale) and where it is."""

    channel: int
    first: int
    last: int
    level: float
    place: int

    def has(self, spot: Spot) -> bool:
        """Whether a cut is in it."""
        return self.first <= spot.place + spot.length and spot.place <= self.last


@dataclass(frozen=True)
class Answer:
    """What the null test prints of a master: its stretches, and whether it accepts the master, or why not."""

    mix: str
    stretches: list[Stretch]
    verdict: str

    @property
    def is_accepted(self) -> bool:
        return self.verdict.startswith("accepted")

    def level(self, spot: Spot, channel: int) -> float | None:
        """The greatest residual at a cut in a channel; none if nothing is judged there."""
        return max((it.level for it in self.stretches if it.channel == channel and it.has(spot)), default=None)


def beside(project: Path) -> Path:
    """The name of the mix of a project, as `place` and `fade` give it."""
    return Path(f"{os.path.splitext(project)[0]}.mix.toml")


def answer(mix: Path, master: Path) -> Answer:
    """What the null test says of a master, in the folder from which the takes are named."""
    names = [it if not it.startswith("-") else f"./{it}" for it in map(str, (mix, master))]
    try:
        status, out, err = finished([*COMMAND, *names])
    except OSError as error:
        why = f"the program {shown_name(PROGRAM)} can't be run ({error.strerror}): build it, or name it by DSDARC"
        raise Refused(why) from None
    lines = out.decode(errors="replace").splitlines()
    if status not in (0, 1) or not lines:
        said = ": ".join(lines_of(err.decode(errors="replace"))) or f"status {status}"
        raise Refused(f"{shown_name(str(mix))}: the null test can't be made: {said}")
    rows = [found.groups() for found in map(STRETCH.fullmatch, lines) if found]
    stretches = [Stretch(int(it[0]), int(it[1]), int(it[2]), float(it[3]), int(it[4])) for it in rows]
    return Answer(shown_name(str(mix)), stretches, lines[-1])

"""What a run over an archive left in OUT, a row for each file: of the workflow (`Snakefile`) or of `play_all`."""
import concurrent.futures
import dataclasses
import functools
import os
import re
import subprocess
from typing import Any

from dsdarc_scripts import names
from dsdarc_scripts.explained import shown_name
from dsdarc_scripts.outputs import Refused
from dsdarc_scripts.program import PROGRAM
from workflows import tagging

# The lists of play_all.
SUMS, REFUSED = "SHA256SUMS", "refused.txt"
# What files end with that are played.
PLAYED = (".wav", ".flac")
# How a line of refused.txt goes on after a name.
SAID = re.compile(
    r"(.*): (fault: .*|no (?:filter|tracks:) .*|flac: .*|status \d+|stopped|the program ended .*)", re.DOTALL
)


@dataclasses.dataclass
class Row:
    """What is known of a file. `kept` is what is kept beside it, `sums` are SHA-256 by what they are of, `refusals`
    steps and faults, a fault with its second line."""

    name: str
    form: str = ""
    rate: int | None = None
    channels: int | None = None
    samples: int | None = None
    pcm: str | None = None
    dropped: int | None = None
    kept: list = dataclasses.field(default_factory=list)
    sums: dict = dataclasses.field(default_factory=dict)
    refusals: list = dataclasses.field(default_factory=list)
    figures: dict | None = None


def plain(shown: str) -> str:
    """A name as it was before it was written on a line (`names.shown`, `names.listed`)."""
    return re.sub(r"\\([\\nrt])", lambda it: {"\\": "\\", "n": "\n", "r": "\r", "t": "\t"}[it[1]], shown)


def lines_of(path: str) -> list[str]:
    with open(path, encoding="utf-8", errors="surrogateescape") as file:
        return file.read().split("\n")[:-1]


def sums_of(path: str) -> dict[str, str]:
    """The sums of a list as sha256sum writes it, by names."""
    sums = {}
    for line in lines_of(path):
        total, _, shown = line.removeprefix("\\").partition("  ")
        sums[plain(shown)] = total
    return sums


def is_of_waves(path: str) -> bool:
    """Whether a list of sums, if it is there, is one of WAVE and FLAC files alone."""
    return not os.path.lexists(path) or all(name.endswith(PLAYED) for name in sums_of(path))


def take_report(row: Row, found: dict[str, Any]) -> None:
    """Takes what the program reports of a file."""
    row.form, row.rate, row.channels, row.samples = (
        found.get("form", ""),
        *(int(found[key]) if key in found else None for key in ("rate", "channels", "samples")),
    )


# A run of the workflow.


def kept_beside(found: dict[str, Any]) -> list[str]:
    """What of a file isn't in its converted one, and is kept beside it; and what became of its tag."""
    kept = [os.path.splitext(path)[1] for path in found["kept"]]
    tags = {"handed on" if tag == tagging.HANDED_ON else f"left out: {tag}" for tag in found.get("tags", {}).values()}
    return [*kept, *(f"tag {tag}" for tag in sorted(tags))]


def refused_steps(path: str) -> list[list[str]]:
    """Step, fault and name of each line of refused.tsv; a line that begins with a tab goes on with the fault before."""
    found: list[list[str]] = []
    for line in lines_of(path):
        if line.startswith("\t") and found:
            found[-1][1] += "\n" + line[1:]
        else:
            step, fault, shown = line.split("\t", 2)
            found.append([step, fault, plain(shown)])
    return found


def of_workflow(out: str) -> list[Row]:
    """The rows of a run of the workflow."""
    table = names.load(os.path.join(out, names.TABLE))
    results = names.load(os.path.join(out, "results.json"))
    sums = sums_of(os.path.join(out, "SHA256SUMS"))
    rows = {name: Row(name) for _, name, *_ in table["refused"]}
    for key, entry in table["files"].items():
        found = results.get(entry["name"])
        if found is None:
            continue
        row = rows[entry["name"]] = Row(entry["name"], pcm=found["pcm"])
        row.dropped = found["dropped"] if found["converted"] else None
        take_report(row, names.load(os.path.join(out, "work", "looks", f"{key}.json")))
        row.kept = kept_beside(found)
        made = {"file": found["sha256"], "converted": sums.get(found["converted"]), "WAVE": sums.get(found["pcm"])}
        row.sums = {what: total for what, total in made.items() if total}
    for step, fault, name in refused_steps(os.path.join(out, "refused.tsv")):
        rows.setdefault(name, Row(name)).refusals.append((step, fault))
    return list(rows.values())


# A run of play_all.


def refusals_of(path: str) -> dict[str, str]:
    """What refused.txt says of each name; a line that begins with a tab goes on with the one before it."""
    found = {}
    name = None
    for line in lines_of(path):
        parts = SAID.fullmatch(line)
        if line.startswith("\t") and name is not None:
            found[name] += "\n" + line[1:].removeprefix("fault: ")
        elif parts:
            name = plain(parts[1])
            found[name] = parts[2].removeprefix("fault: ")
    return found


def asked(archive: str, row: Row) -> None:
    """Asks the program what a file of the archive holds. A track, which is in a folder of the album's name, has
    what the album has, but for its length."""
    path = os.path.abspath(os.path.join(archive, row.name))
    is_track = os.path.isfile(os.path.dirname(path))
    if is_track:
        path = os.path.dirname(path)
    if not os.path.isfile(path):
        return
    try:
        done = subprocess.run([PROGRAM, "info", path], capture_output=True, check=False)
    except ValueError:
        return
    if done.returncode == 0:
        take_report(row, dict(line.split(" ", 1) for line in done.stdout.decode().split("\n") if line))
        row.samples = None if is_track else row.samples


def of_play_all(out: str, archive: str | None, pool: concurrent.futures.Executor) -> list[Row]:
    """The rows of a run of play_all; what its files hold is asked where the archive is named."""
    sums = sums_of(os.path.join(out, SUMS))
    said = refusals_of(os.path.join(out, REFUSED))
    rows = [
        Row(os.path.splitext(name)[0], pcm=name, sums={"FLAC" if name.endswith(".flac") else "WAVE": total})
        for name, total in sums.items()
    ]
    rows += [Row(name, refusals=[("play", fault)]) for name, fault in said.items()]
    if archive is not None:
        if not os.path.isdir(archive):
            raise Refused(f"{shown_name(archive)} is no folder: name the archive that was played")
        list(pool.map(functools.partial(asked, archive), rows))
    return rows


def rows_of(out: str, archive: str | None, pool: concurrent.futures.Executor) -> list[Row]:
    """The rows of a run, by their names."""
    try:
        if os.path.isfile(os.path.join(out, "results.json")):
            rows = of_workflow(out)
        elif os.path.isfile(os.path.join(out, "refused.txt")):
            rows = of_play_all(out, archive, pool)
        else:
            raise Refused(f"{shown_name(out)} holds no run that ended: there is neither results.json nor refused.txt")
    except (LookupError, TypeError, ValueError, AttributeError):
        raise Refused(f"{shown_name(out)} holds lists that no run wrote, or that were changed") from None
    return sorted(rows, key=lambda row: row.name)

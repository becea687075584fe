"""Makes the page of a run: one HTML file that needs no other, with small pictures as SVG."""
import dataclasses
import os
from workflows.runs import Row
from typing import Any

import jinja2
from dsdarc_scripts.explained import shown_letter
from workflows import measured

TEMPLATE = os.path.join(os.path.dirname(os.path.abspath(__file__)), "page.html.j2")
LOWEST = {"level": -72.0, "spectrum": -150.0}  # dB, at the lower edge of a picture
WIDTH, HEIGHT = 60, 32
TOP = ord("?")  # The letter of the upper edge: none of those after it has a meaning in HTML.
WIDEST, PICTURE = 34, 17  # digits, of a column of texts and of one with pictures
# The share of the window that a column has at most, in percent, as the digits of some fonts are wide.
SHARE = 18
# The first ones are in sight in a window of 1280 pixels, and on a phone.
COLUMNS = (
    "file",
    "tag",
    "refused",
    "duration",
    "loudness",
    "true peak",
    "level",
    "spectrum",
    "peak",
    "clipped",
    "offset",
    "silence",
    "form",
    "rate",
    "channels",
    "PCM",
    "dropped",
    "kept beside",
    "SHA-256",
)
IN_SIGHT = COLUMNS.index("level") + 1
NUMBERS = {
    "rate",
    "channels",
    "duration",
    "PCM",
    "loudness",
    "true peak",
    "peak",
    "clipped",
    "offset",
    "silence",
    "dropped",
}
KINDS = (("refused", "refused"), ("clipped", "clipped"), ("dropped", "something dropped"), ("unplayed", "not played"))
LEGEND = (
    "Levels are in dB relative to full scale, over all channels. Loudness and true peak: by EBU R128, as FFmpeg measures "
    "them. Clipped: samples at the largest or the smallest value. "
    "Offset: the mean of the channel that is farthest off. Silence: seconds at the start and the end in which no sample "
    f"is above {measured.SILENCE:g} dB. Level: peak and mean over time, down to {LOWEST['level']:g} dB. Spectrum: from "
    f"{measured.LOWEST:g} Hz to half the rate by pitch, down to {LOWEST['spectrum']:g} dB. Dropped: marks, chunks or "
    "tags that the converted file has no place for."
)


@dataclasses.dataclass
class Cell:
    """What a cell shows, its class, and its data: `v` is the number by which it is sorted ('' is none; otherwise it is
    sorted by the text), `x` the sums, `h`, `m` and `s` the heights of its picture."""

    shown: str
    classes: str = ""
    data: dict = dataclasses.field(default_factory=dict)


@dataclasses.dataclass
class Line:
    """A row of the page."""

    cells: list
    kinds: str
    refusals: bool


def visible(text: str) -> str:
    """A text on one line, of letters that a page can show."""
    return "".join(map(shown_letter, text))


def number(value: float | None, spelled: str = "{}", unit: str = "") -> Cell:
    """A cell with a number, or an empty one."""
    if value is None:
        return Cell("", "n", {"v": ""})
    return Cell(spelled.format(value) + unit, "n", {"v": round(value, 4)})


def decibels(value: float, spelled: str) -> Cell:
    """A cell with a level; that of nothing is minus infinity."""
    cell = number(value, spelled, " dB")
    if value <= measured.FLOOR:
        cell.shown = "-∞ dB"
    return cell


def duration(seconds: float | None) -> Cell:
    if seconds is None:
        return number(None)
    if seconds < 1:
        return Cell(f"{1000 * seconds:.0f} ms", "n", {"v": round(seconds, 4)})
    minutes, rest = divmod(round(seconds, 1), 60)
    return Cell(f"{int(minutes)}:{rest:04.1f}", "n", {"v": round(seconds, 4)})


def height(value: float, kind: str) -> int:
    """How far a level is from the upper edge of a picture."""
    return round(min(max(value / LOWEST[kind], 0), 1) * HEIGHT)


def heights(levels: list[float], kind: str) -> str:
    """How far each level of a picture is from its upper edge, a letter each: the page draws it once it is seen."""
    return "".join(chr(TOP + height(value, kind)) for value in levels)


def level_cell(figures: dict[str, Any]) -> Cell:
    return Cell("", "p", {"h": heights(figures["highs"], "level"), "m": heights(figures["means"], "level")})


def spectrum_cell(figures: dict[str, Any]) -> Cell:
    return Cell("", "p", {"s": heights(figures["spectrum"], "spectrum")} if figures["spectrum"] else {})


def figure_cells(figures: dict[str, Any] | None) -> dict[str, Cell]:
    """The cells of what was measured, by their columns."""
    if figures is None or "fault" in figures:
        return {"PCM": Cell(visible((figures or {}).get("fault", "")), "w")}
    silence = Cell("all", "n", {"v": round(figures["seconds"], 4)})
    if figures["silence"]:
        silence = number(sum(figures["silence"]))
        silence.shown = "{:.2f} + {:.2f} s".format(*figures["silence"])
    return {
        "PCM": Cell(f"{figures['rate']}/{figures['width']}", "n", {"v": figures["rate"]}),
        "peak": decibels(figures["peak"], "{:z.1f}"),
        "clipped": number(figures["clipped"]),
        "offset": decibels(figures["offset"], "{:z.0f}"),
        "silence": silence,
        "level": level_cell(figures),
        "spectrum": spectrum_cell(figures),
        "loudness": number(figures.get("loudness"), "{:z.1f}", " LUFS"),
        "true peak": number(None) if figures.get("true peak") is None else decibels(figures["true peak"], "{:z.1f}"),
        "tag": tag_cell(figures.get("tag", {})),
    }


def tag_cell(tag: dict[str, str]) -> Cell:
    """The cell of what a tag says."""
    said = ": ".join(filter(None, (tag.get("artist"), tag.get("title"))))
    album = f" ({tag['album']})" if tag.get("album") else ""
    return Cell(visible(said + album).strip(), "w")


def sums_cell(sums: dict[str, str]) -> Cell:
    """The sums, of which the first digits are seen until they are asked for."""
    if not sums:
        return Cell("")
    return Cell(
        next(iter(sums.values()))[:8], "x", {"x": "\n".join(f"{total}  {what}" for what, total in sums.items())}
    )


def seconds_of(row: Row) -> float | None:
    """How long a file is: by its samples, or else by what was played of it."""
    if row.samples is not None and row.rate:
        return row.samples / row.rate
    return (row.figures or {}).get("seconds")


def line_of(row: Row) -> Line:
    """The row of a file."""
    figures, has_figures = row.figures, row.figures is not None and "fault" not in row.figures
    said = "\n".join(f"{step}: {fault}" for step, fault in row.refusals)
    shown = {
        "file": Cell(visible(row.name), "w"),
        "form": Cell(row.form),
        "rate": number(row.rate),
        "channels": number(row.channels),
        "duration": duration(seconds_of(row)),
        "dropped": number(row.dropped),
        "kept beside": Cell(", ".join(row.kept), "w"),
        "SHA-256": sums_cell(row.sums),
        "refused": Cell("\n".join(map(visible, said.split("\n"))), "w f"),
    } | figure_cells(figures)
    cells = [shown.get(it) or (number(None) if it in NUMBERS else Cell("")) for it in COLUMNS]
    is_kind = {
        "refused": bool(row.refusals),
        "clipped": figures is not None and has_figures and figures["clipped"] > 0,
        "dropped": (row.dropped or 0) > 0,
        "unplayed": row.pcm is None,
    }
    return Line(cells, " ".join(kind for kind, holds in is_kind.items() if holds), bool(row.refusals))


def widths(lines: list[Line]) -> list[int]:
    """The widths of the columns, in digits. Rows of fixed columns are laid out alone, and only once they are seen."""
    longest = [len(column) + 2 for column in COLUMNS]
    for line in lines:
        for place, cell in enumerate(line.cells):
            longest[place] = max(
                longest[place], PICTURE if "p" in cell.classes else 0, *map(len, cell.shown.split("\n"))
            )
    return [min(it, WIDEST) + 1 for it in longest]


def summary(rows: list[Row], lines: list[Line]) -> str:
    """The counts of all, in a sentence."""
    counts = {kind: sum(kind in line.kinds.split() for line in lines) for kind, _ in KINDS}
    seconds = sum(seconds_of(row) or 0 for row in rows)
    unit, size = next((it for it in (("hours", 3600), ("minutes", 60)) if seconds >= it[1]), ("seconds", 1))
    return (
        f"{len(rows)} files, {seconds / size:.1f} {unit}; {len(rows) - counts['unplayed']} played, {counts['refused']} refused at "
        f"some step; {counts['clipped']} clipped, {counts['dropped']} with marks, chunks or tags dropped."
    )


def page(title: str, rows: list[Row]) -> str:
    """The text of the page."""
    loader = jinja2.FileSystemLoader(os.path.dirname(TEMPLATE))
    template = jinja2.Environment(loader=loader, autoescape=True).get_template(os.path.basename(TEMPLATE))
    lines = [line_of(row) for row in rows]
    return template.render(
        title=visible(title),
        summary=summary(rows, lines),
        kinds=KINDS,
        columns=COLUMNS,
        widths=widths(lines),
        widest=SHARE,
        numbers=NUMBERS,
        in_sight=IN_SIGHT,
        rows=lines,
        legend=LEGEND,
        width=WIDTH,
        height=HEIGHT,
        top=TOP,
    )

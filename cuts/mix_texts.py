"""Mix texts that are read (docs/NULL_TEST.md) with their takes, and what their comments say.

A mix has no key for a title, nor for the list that it was made of. So in the table of a clip a line

    # title = "Second song"

says the title of what begins there, and each `# line = ".."` is a line of the list. `# curve = ".."` is the curve of the
list's fades that name none."""
import re
import tomllib
from collections.abc import Iterator
from dataclasses import dataclass, field
from pathlib import Path

from cuts.albums import MOST_TITLE
from cuts.takes import Signals, opened, unlike
from dsdarc_scripts.explained import shown_name
from dsdarc_scripts.outputs import Refused
from tools.null_testing.mixes import Mix, MixFault, read_mix

TABLE = re.compile(r"\s*\[\[?[^\[\],]*[A-Za-z][^\[\],]*\]\]?\s*(#.*)?")
CLIP = re.compile(r"\s*\[\[\s*mix\s*\.\s*clip\s*\]\]\s*(#.*)?")
COMMENT = re.compile(r"\s*#\s*(title|line|curve)\s*=\s*(.*)")


def read(name: str | Path) -> tuple[Mix, str]:
    """A mix, and its text."""
    data = Path(name).read_bytes()
    try:
        return read_mix(data), data.decode("utf-8-sig")
    except MixFault as error:
        why = str(error).removeprefix("Mix ")
        more = "; if it is a list, cuts/mix makes a mix of it" if why.startswith("NotToml") else ""
        raise Refused(f"{shown_name(str(name))}: {why}: it is no mix as docs/NULL_TEST.md says{more}") from None


def takes_of(mix: Mix, name: str) -> list[Signals]:
    """The takes of a mix, which are found from the folder that the script runs in."""
    shown = shown_name(name)
    takes: list[Signals] = [
        opened(it, f"{shown}: take {number}, {shown_name(it)}") for number, it in enumerate(mix.takes)
    ]
    demand_alike(mix, takes, shown)
    return takes


def demand_alike(mix: Mix, takes: list[Signals], name: str) -> None:
    """The takes are of one kind, and have all that the clips name."""
    for number, it in enumerate(takes):
        differing = unlike(it, takes[0])
        if differing:
            why = f"take {number}, {shown_name(it.name)}, has {differing[0]}, and take 0 has {differing[1]}"
            raise Refused(f"{name}: {why}")
    for number, clip in enumerate(mix.clips):
        bits = takes[clip.take].bits
        if clip.start + clip.length > bits:
            end = clip.start + clip.length
            why = f"ends at bit {end} of take {clip.take}, which has {bits} bits"
            raise Refused(f"{name}: clip {number}, counted from 0, {why}")
        if clip.gains is not None and len(clip.gains) != takes[0].count:
            why = f"{len(clip.gains)} lists of gains, and the takes have {takes[0].count} channels"
            raise Refused(f"{name}: clip {number}, counted from 0, has {why}")


# What comments say.


@dataclass(frozen=True)
class Comment:
    """A comment that says something: its line, the clip in whose table it is, if it is in one, what it is, and what it
    says."""

    line: int
    clip: int | None
    key: str
    value: str


@dataclass
class Notes:
    """What comments say of a clip: the title that begins with it, and lines of the list."""

    title: str | None = None
    lines: list[str] = field(default_factory=list)


def comments_in(text: str) -> Iterator[Comment]:
    """The comments of a mix that say something."""
    clip, is_inside = -1, False
    for line, row in enumerate(text.split("\n"), 1):
        if TABLE.fullmatch(row):
            is_inside = CLIP.fullmatch(row) is not None
            clip += is_inside
        elif found := COMMENT.fullmatch(row.rstrip("\r")):
            yield Comment(line, clip if is_inside else None, found[1], found[2])


def said(value: str) -> str | None:
    """A text as TOML has it, or nothing if it is none."""
    try:
        found = tomllib.loads(f"it = {value}")
    except ValueError:
        return None
    return found["it"] if set(found) == {"it"} and isinstance(found["it"], str) else None


def title_of(comment: Comment, name: str) -> str:
    """The title that a comment says."""
    title, where = said(comment.value), f"{name}, line {comment.line}"
    if title is None:
        raise Refused(f'{where}: a title is a text such as # title = "Second song"')
    if len(title.encode()) > MOST_TITLE:
        raise Refused(f"{where}: a title has at most {MOST_TITLE} bytes")
    return title


def notes_in(text: str, count: int, name: str) -> tuple[list[Notes], str | None]:
    """What the comments of a mix say of that many clips, and the curve of fades that name none."""
    found, curve = [Notes() for _ in range(count)], None
    for it in comments_in(text):
        if it.key == "curve":
            curve = said(it.value)
        elif it.clip is not None and it.clip < count and it.key == "title":
            found[it.clip].title = title_of(it, name)
        elif it.clip is not None and it.clip < count and (line := said(it.value)) is not None:
            found[it.clip].lines.append(line)
    return found, curve


def titles_of(mix: Mix, text: str, name: str, least: int) -> list[tuple[int, str]]:
    """The titles of a mix by their places, which are at least some bits from each other and from both ends."""
    found, shown = dict[int, str](), shown_name(name)
    for clip, notes in zip(mix.clips, notes_in(text, len(mix.clips), shown)[0]):
        if notes.title is not None and found.setdefault(clip.at, notes.title) != notes.title:
            raise Refused(f"{shown}: two clips that begin at place {clip.at} have different titles")
    places = sorted(found)
    for one, other in zip(places, [*places[1:], mix.length]):
        if other - one < least or 0 < one < least:
            raise Refused(f"{shown}: the title at place {one} is less than {least} bits from the next one")
    return [(it, found[it]) for it in places]

"""Recordings with several tracks: where tracks begin, by DSDIFF marks or by a cue sheet, and masters that the program
cuts of them and judges. Titles and names are kept as far as files can have them."""
import contextlib
import dataclasses
import json
import os
import re
import struct
import unicodedata
from collections.abc import Iterator
from typing import BinaryIO

from cuts import sheets
from dsdarc_scripts import channels, explained, outputs, room
from dsdarc_scripts.explained import shown_name
from dsdarc_scripts.outputs import Refused
from dsdarc_scripts.program import PROGRAM, finished
from dsdarc_scripts.project_texts import MOST_CUES, MOST_TAKES

ENDINGS = {"dsdiff": ".dff", "dsf": ".dsf", "dsf8": ".dsf"}
START = 0  # the type of a mark at which a track starts
MOST_TITLE = 255  # bytes of a mark's text that a project may have
MOST_NAME = 200  # bytes of a title in a name
MARK = struct.Struct(">HBBIiHHHI")
# What a DSDIFF file says of itself outside of a tag, by the chunks in DIIN: a count of four bytes, and a text.
EDITED = {"artist": b"DIAR", "title": b"DITI"}
# What some system takes for more than a letter of a name.
UNSAFE = re.compile(r'[/\\:*?"<>|]')
NUMBERED = re.compile(r"(\d{2,3})(?:(?: - | |\.|_|-)(.*))?", re.ASCII | re.DOTALL)


@dataclasses.dataclass
class Recording:
    """What the program reports of a file."""

    name: str
    form: str
    rate: int
    channels: int
    samples: int


@dataclasses.dataclass
class Track:
    """Part of a recording: bits `start` to `stop` - 1. What comes before the first track has the number 0."""

    number: int
    title: str | None
    start: int
    stop: int = 0


def asked(what: str, name: str, *arguments: str, folder: str | None = None) -> str:
    """What the program prints; a fault is one of that file, and is explained in the same line."""
    program = os.path.abspath(PROGRAM) if "/" in PROGRAM else PROGRAM
    try:
        status, out, err = finished([program, "--explain", *arguments], folder)
    except OSError as error:
        raise Refused(
            f"the program {program} can't be run ({error.strerror}): build it, or name it by DSDARC"
        ) from None
    if status:
        said = ": ".join(explained.lines_of((err or out).decode(errors="replace")))
        raise Refused(f"{what}, {shown_name(name)}: {said or f'the program ended with status {status}'}")
    return out.decode()


def recording(what: str, name: str) -> Recording:
    """What a file holds; it may have any name."""
    if not os.path.isfile(name):
        os.stat(name)
        raise Refused(f"{what}, {shown_name(name)}: it is no file")
    with outputs.scratch() as folder:
        os.symlink(os.path.abspath(name), os.path.join(folder, "take"))
        lines = asked(what, name, "info", "take", folder=folder).splitlines()
    found = dict(line.split(" ", 1) for line in lines)
    return Recording(name, found["form"], *(int(found[key]) for key in ("rate", "channels", "samples")))


# Where tracks begin.


def text_of(data: bytes) -> str:
    """A text that says nothing of its encoding."""
    try:
        return data.decode("utf-8-sig")
    except UnicodeDecodeError:
        return data.decode("cp1252", errors="replace")


def form_chunks(file: BinaryIO) -> Iterator[tuple[bytes, int]]:
    """ID and size of each chunk of a DSDIFF form; the file is at its data."""
    size = struct.unpack(">4sQ", channels.take(file, 12))[1]
    at, stop = 16, min(12 + size, os.fstat(file.fileno()).st_size)
    while at + 12 <= stop:
        file.seek(at)
        name, size = struct.unpack(">4sQ", channels.take(file, 12))
        yield name, size
        at += 12 + size + size % 2


def marks_of(found: Recording) -> list[tuple[int, str, int]]:
    """Place, text and type of each mark of a DSDIFF file, in the order in which the program reports them."""
    marks = []
    if found.form == "dsdiff":
        with open(found.name, "rb") as file:
            for name, size in form_chunks(file):
                for inner, data in channels.chunks(channels.take(file, size)) if name == b"DIIN" else ():
                    if inner == b"MARK":
                        hours, minutes, seconds, samples, offset, kind, _, _, count = MARK.unpack_from(data)
                        place = ((hours * 60 + minutes) * 60 + seconds) * found.rate + samples + offset
                        text = text_of(data[MARK.size : MARK.size + count]).rstrip("\0")
                        marks.append((place, text, kind))
    return marks


def edited_texts(name: str) -> dict[str, str]:
    """Artist and title that a DSDIFF file has outside of a tag, as far as it has them."""
    found = dict[str, str]()
    with open(name, "rb") as file:
        if file.read(4) != b"FRM8":
            return found
        file.seek(0)
        for name_, size in form_chunks(file):
            inside = dict(channels.chunks(channels.take(file, size))) if name_ == b"DIIN" else {}
            for key, inner in EDITED.items():
                data = inside.get(inner, b"")
                text = text_of(data[4 : 4 + int.from_bytes(data[:4], "big")]).rstrip("\0").strip()
                if text:
                    found.setdefault(key, text)
    return found


def starts_in(marks: list[tuple[int, str, int]], bits: int) -> list[tuple[int, str]]:
    """Place and text of each mark inside of a recording at which a track starts, in their order."""
    return sorted((place, text) for place, text, kind in marks if kind == START and 0 <= place < bits)


def starts_of(found: Recording) -> list[tuple[int, str]]:
    """The same of a DSDIFF file."""
    return starts_in(marks_of(found), found.samples)


def marked(found: Recording) -> list[Track]:
    """The tracks of an album by its marks, without their ends."""
    starts = starts_of(found)
    if not starts:
        raise Refused(f"{shown_name(found.name)} has no marks of tracks: name a cue sheet by --cue")
    return [Track(number, title, place) for number, (place, title) in enumerate(starts, 1)]


def cued(found: Recording, name: str) -> list[Track]:
    """The tracks of an album by a cue sheet, without their ends."""
    half = sheets.FRAMES // 2
    rows = [(it["number"], it["title"], it["at"] * found.rate + half) for it in sheets.tracks_of(name)]
    return [Track(number, title, at // sheets.FRAMES) for number, title, at in rows]


def in_bytes(tracks: list[Track], found: Recording) -> Iterator[str]:
    """Lets tracks begin at whole bytes, as DSDIFF files hold them: a line for each that begins earlier for that."""
    if found.samples % 8:
        raise Refused(
            f"{shown_name(found.name)} has {found.samples} bits a channel, and a DSDIFF file holds whole bytes, "
            "multiples of 8: take --form dsf"
        )
    for track in tracks:
        early = track.start % 8
        if early:
            track.start -= early
            bits = "1 bit" if early == 1 else f"{early} bits"
            yield f"track {track.number} starts {bits} earlier, at bit {track.start}: DSDIFF holds whole bytes"


def whole(tracks: list[Track], found: Recording) -> list[Track]:
    """Tracks with their ends: each goes on to the next, and what comes before the first is a part of its own."""
    if tracks[0].start > 0:
        tracks = [Track(0, None, 0), *tracks]
    for track, following in zip(tracks, [*tracks[1:], Track(0, None, found.samples)]):
        track.stop = following.start
        if track.stop <= track.start:
            place = track.start / found.rate
            raise Refused(f"track {track.number} at {place:.3f} s has no bits: the next starts or the album ends there")
    return tracks


# Names.


def shortened(text: str, most: int) -> str:
    """As much of a text as a number of bytes holds, cut between two letters."""
    return text.encode(errors="replace")[:most].decode(errors="ignore")


def is_control(letter: str) -> bool:
    return unicodedata.category(letter) in ("Cc", "Cs", "Zl", "Zp")


def digits_for(tracks: list[Track]) -> int:
    """How many digits the numbers of tracks have in names."""
    return 3 if tracks[-1].number > 99 else 2


def file_name(track: Track, ending: str, digits: int = 2) -> str:
    """A name that every system takes: the number, and of the title what is no place, no blank at an end and not long."""
    title = "".join("_" if is_control(it) else it for it in UNSAFE.sub("_", track.title or ""))
    title = shortened(title.strip(" "), MOST_NAME).rstrip(" .")
    return f"{track.number:0{digits}}{' - ' if title else ''}{title}{ending}"


def named(name: str) -> tuple[int | None, str]:
    """Number and title that a file's name says."""
    stem = os.fsencode(os.path.splitext(os.path.basename(name))[0]).decode(errors="replace")
    parts = NUMBERED.fullmatch(stem)
    return (int(parts[1]), parts[2] or "") if parts else (None, stem)


# Masters.


def quoted(text: str) -> str:
    """A text as TOML has it; JSON spells all but one letter so."""
    return json.dumps(text, ensure_ascii=False).replace("\x7f", "\\u007f")


def cue(take: int, track: Track) -> str:
    """A cue of a project, with the title of a track."""
    lines = ["", "[[splice.cue]]", f"take = {take}", f"start = {track.start}", f"stop = {track.stop}"]
    if track.title is not None:
        lines.append(f"title = {quoted(shortened(track.title, MOST_TITLE))}")
    return "\n".join(lines) + "\n"


def project(count: int, parts: list[tuple[int, Track]]) -> str:
    """A project of plain cuts: of each part the number of its take and the track."""
    takes = ", ".join(f'"take{number}"' for number in range(count))
    return f"[splice]\nweights = [1, 1]\ntakes = [{takes}]\n" + "".join(cue(take, track) for take, track in parts)


@contextlib.contextmanager
def leaving_nothing(made: str) -> Iterator[None]:
    """Where a block ends early, removes what the program was writing beside a file."""
    try:
        yield
    except BaseException:
        folder, name = os.path.split(os.path.abspath(made))
        with contextlib.suppress(OSError):
            for each in os.listdir(folder):
                if each.startswith(f".{name}.dsdarc-"):
                    os.remove(os.path.join(folder, each))
        raise


def make(form: str, takes: list[str], parts: list[tuple[int, Track]], what: tuple[str, str], made: str) -> None:
    """Has the program cut a master and judge it: `takes` are names, `parts` pairs of a take's number and a track.
    `made` is a file beside which the master is written, and which it replaces."""
    assert len(takes) <= MOST_TAKES and len(parts) <= MOST_CUES
    with outputs.scratch() as folder, leaving_nothing(made):
        for number, name in enumerate(takes):
            os.symlink(os.path.abspath(name), os.path.join(folder, f"take{number}"))
        os.symlink(os.path.abspath(made), os.path.join(folder, "master"))
        with open(os.path.join(folder, "project.toml"), "w", encoding="utf-8") as file:
            file.write(project(len(takes), parts))
        try:
            asked(*what, "edit", form, "project.toml", "master", "cert", folder=folder)
        except Refused as fault:
            size = sum(os.path.getsize(name) for name in takes)
            if "fault: WriteFailed" in str(fault) and not room.has_room(os.path.dirname(made), size):
                raise OSError(room.full().errno, room.full().strerror, what[1]) from None
            raise
        if not asked(*what, "check", "project.toml", "master", "cert", folder=folder).startswith("accepted "):
            raise Refused(f"{what[0]}, {shown_name(what[1])}: the program doesn't accept it")

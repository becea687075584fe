"""What a track of an album is called, and a file that is played whole: texts by the names of comments in FLAC files, from
the cue sheet, the marks and the tag of the source, and the ID3 tag of a track.

The tag of a track has all frames of the album's, byte for byte, but for those that the track has of its own, and for those
that give places in the album's sound."""
import dataclasses
import re

from cuts import albums, sheets
from dsdarc_scripts.explained import shown_name
from dsdarc_scripts.outputs import Refused
from workflows import frames, jobs, tagging

# The frames that comments are made of, and those that make them.
FRAMES = {
    "TITLE": ("TIT2",),
    "ARTIST": ("TPE1",),
    "ALBUM": ("TALB",),
    "ALBUMARTIST": ("TPE2",),
    "COMPOSER": ("TCOM",),
    "CONDUCTOR": ("TPE3",),
    "DATE": ("TDRC", "TYER"),
    "GENRE": ("TCON",),
    "ISRC": ("TSRC",),
}
NUMBERS = {"TRCK": ("TRACKNUMBER", "TRACKTOTAL"), "TPOS": ("DISCNUMBER", "DISCTOTAL")}
# The frames that give places or a length of the album's sound.
PLACES = ("TLEN", "CHAP", "CTOC", "ETCO", "MLLT", "SYLT", "SYTC", "POSS", "ASPI", "SEEK")
# What a tag holds of dates.
DATE = re.compile(r"\d{4}(?:-\d\d(?:-\d\d)?)?", re.ASCII)
# A text that the system takes as an argument.
LONGEST = 100_000

Comments = dict[str, list[str]]


@dataclasses.dataclass
class Place:
    """Which track of an album one is: its number, its title, and the number of the last one."""

    number: int
    title: str | None
    count: int


def plain(text: str) -> str:
    """A text that a comment can have."""
    return text.replace("\0", "").encode(errors="replace").decode()[:LONGEST].strip()


def take_number(found: Comments, frame: str, text: str) -> None:
    """Takes a number, as 3 or 3/12."""
    number, total = NUMBERS[frame]
    one, _, other = text.partition("/")
    found[number], found[total] = [plain(one)], [plain(other)]


def of_tag(data: bytes) -> tuple[Comments, bytes | None]:
    """The comments that a tag makes as mutagen reads it, and its front cover, or the first picture."""
    found, tag = Comments(), tagging.id3(data)
    for comment, names in FRAMES.items():
        texts = [getattr(it, "genres", it.text) for name in names for it in tag.getall(name)]
        found[comment] = [plain(str(text)) for each in texts for text in each]
    for name in NUMBERS:
        for each in tag.getall(name):
            take_number(found, name, str(each.text[0] if each.text else ""))
    covers = sorted(tag.getall("APIC"), key=lambda it: it.type != frames.FRONT_COVER)
    return found, covers[0].data if covers else None


def of_frames(tag: frames.Tag) -> Comments:
    """The comments that the frames of a tag make, as they are."""
    found = Comments()
    for comment, names in FRAMES.items():
        found[comment] = [plain(text) for name in names for text in tag.texts(name)]
    for name in NUMBERS:
        for text in tag.texts(name):
            take_number(found, name, text)
    return found


def of_sheet(sheet: str | None) -> tuple[sheets.Texts, str | None]:
    """What a sheet says, and why it is left out, or None."""
    try:
        return sheets.texts_of(sheet), None
    except OSError as error:
        return sheets.Texts(), f"its cue sheet is left out: it can't be read: {error.strerror}"
    except Refused as why:
        said = str(why).removeprefix(shown_name(sheet or "")).lstrip(": ")
        return sheets.Texts(), f"its cue sheet is left out: {said}"


def edited_texts(path: str) -> dict[str, str]:
    """Artist and title that a DSDIFF file has outside of a tag."""
    try:
        return {key: plain(text) for key, text in albums.edited_texts(path).items()}
    except jobs.BROKEN:
        return {}


def add(found: Comments, comment: str, text: str | None) -> None:
    """Adds a comment where there is none."""
    if text and not any(found.get(comment, ())):
        found[comment] = [plain(text)]


def add_album(found: Comments, said: dict[str, str]) -> None:
    """Adds what a sheet says of the album, where the tag doesn't."""
    for key, text in said.items():
        if key not in ("TITLE", "ARTIST"):
            add(found, key, text)


def of_whole(path: str, found: Comments, said: sheets.Texts) -> Comments:
    """The comments of a file that is played whole: those of its tag, with what only its sheet or other chunks say."""
    edited = edited_texts(path)
    add(found, "ALBUM", said.album.get("TITLE"))
    add(found, "ALBUMARTIST", said.album.get("ARTIST"))
    add(found, "ARTIST", edited.get("artist"))
    add(found, "TITLE", edited.get("title"))
    add_album(found, said.album)
    return found


def of_track(path: str, place: Place, found: Comments, said: sheets.Texts) -> Comments:
    """The comments of a track: its own title, number and performer, and what tag, sheet and other chunks say of the
    album."""
    edited, own = edited_texts(path), said.tracks.get(place.number, {})
    for text in (said.album.get("TITLE"), *found.get("TITLE", []), edited.get("title")):
        add(found, "ALBUM", text)
    add(found, "ALBUMARTIST", said.album.get("ARTIST") or edited.get("artist"))
    add_album(found, said.album)
    found |= {key: [plain(text)] for key, text in own.items() if key != "TITLE"}
    if "ARTIST" not in own and "ARTIST" in said.album:
        found["ARTIST"] = [plain(said.album["ARTIST"])]
    add(found, "ARTIST", edited.get("artist"))
    found["TITLE"] = [plain(place.title)] if place.title else []
    found["TRACKNUMBER"], found["TRACKTOTAL"] = [str(place.number)], [str(place.count)]
    return found


def number_of(found: Comments, frame: str) -> list[str]:
    """The text of a frame of numbers, as 3 or 3/12."""
    one, other = ("".join(found.get(it, [])[:1]) for it in NUMBERS[frame])
    return [f"{one}/{other}" if other else one] if one else []


def tag_of_track(path: str, data: bytes, place: Place, said: sheets.Texts) -> bytes:
    """The bytes of a track's tag, of the bytes of the album's, which may be none."""
    tag = frames.parsed(data) if data else frames.Tag()
    before = of_frames(tag)
    found = of_track(path, place, dict(before), said)
    tag.frames = [it for it in tag.frames if it.name not in PLACES]
    for comment, names in FRAMES.items():
        texts = [it for it in found.get(comment, []) if it]
        if comment == "DATE":
            # Before ID3v2.4 a date is a year, or has a day.
            texts = [it[:4] if tag.version < 4 and len(it) == 7 else it for it in texts if DATE.fullmatch(it)]
        if texts != [it for it in before[comment] if it] and (texts or comment != "DATE"):
            tag.set_texts(names[0], texts)
    for name in NUMBERS:
        if number_of(found, name) != number_of(before, name):
            tag.set_texts(name, number_of(found, name))
    return tag.data()


def tag_of_album(path: str) -> tuple[bytes, str | None]:
    """The bytes of an album's tag, or none, and why it is left out, or None."""
    try:
        data = tagging.tag_of(path)
        return frames.parsed(data).data() if data else b"", None
    except Refused as why:
        return b"", f"its tag is left out: {why}"


def give(path: str, place: Place, sheet: str | None, made: str) -> str | None:
    """Gives a file that was made of a track its tag; one without the album's frames if it doesn't take these. Returns what
    became of the album's, nothing where it has none."""
    data, why = tag_of_album(path)
    texts, left_out = of_sheet(sheet)
    said = tagging.give(tag_of_track(path, data, place, texts), made)
    if data and said != tagging.HANDED_ON:
        why = said
        tagging.give(tag_of_track(path, b"", place, texts), made)
    return why or left_out or (None if said == tagging.HANDED_ON and not data else said)

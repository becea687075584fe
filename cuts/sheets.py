"""Cue sheets: in what letters they are, where their tracks begin, and what they say of these."""
import contextlib
import dataclasses
import re
from collections.abc import Iterator
from typing import Any

from dsdarc_scripts.explained import shown_name
from dsdarc_scripts.outputs import Refused

FRAMES = 75  # of a second
MOST = 1 << 20  # bytes
LONGEST_SHOWN = 80
INDEX = re.compile(r"(\d{1,2})\s+(\d{1,4}):([0-5]\d):([0-6]\d|7[0-4])", re.ASCII)
ENDS = re.compile("\r\n|\r|\n")
MARKED = ((b"\xef\xbb\xbf", "utf-8-sig"), (b"\xff\xfe\0\0", "utf-32"), (b"\xff\xfe", "utf-16"), (b"\xfe\xff", "utf-16"))
# What other texts, read as Shift-JIS, don't have: kana, and four bytes of two letters beyond ASCII.
KANA = re.compile("[\u3041-\u3096\u30a1-\u30fe]")
KANJI = re.compile(rb"(?:[\x81-\x9f\xe0-\xfc][\x80-\xfc]){2}")
NARROW = re.compile("[\uff61-\uff9f]")
# What the comments REM say.
REMARKS = {
    "DATE": "DATE",
    "GENRE": "GENRE",
    "COMPOSER": "COMPOSER",
    "DISCNUMBER": "DISCNUMBER",
    "TOTALDISCS": "DISCTOTAL",
}
SAID = {"TITLE": "TITLE", "PERFORMER": "ARTIST", "SONGWRITER": "COMPOSER", "ISRC": "ISRC"}


@dataclasses.dataclass
class Line:
    """A line of a sheet: its number, its first word in capital letters, what follows that, and all of it."""

    number: int
    key: str
    rest: str
    text: str

    @property
    def shown(self) -> str:
        return repr(self.text[:LONGEST_SHOWN])


@dataclasses.dataclass
class Texts:
    """What a sheet says of its album, and of tracks by their numbers: texts by the names of comments."""

    album: dict[str, str] = dataclasses.field(default_factory=dict)
    tracks: dict[int, dict[str, str]] = dataclasses.field(default_factory=dict)


def read_as(data: bytes, encoding: str) -> str | None:
    """A text, if the bytes are one in an encoding."""
    with contextlib.suppress(UnicodeError):
        text = data.decode(encoding)
        return None if "\0" in text else text
    return None


def is_japanese(text: str, data: bytes) -> bool:
    """Whether what can be read as Shift-JIS is likely that, and not Windows-1252."""
    return bool(KANA.search(text) or KANJI.search(data) and not NARROW.search(text))


def decoded(data: bytes) -> str | None:
    """The text of a sheet. What begins with no mark of its encoding is UTF-16 if it has zero bytes, and else the first
    that fits of UTF-8, Shift-JIS that looks like Japanese, Windows-1252 and Shift-JIS."""
    for mark, encoding in MARKED:
        if data.startswith(mark):
            return read_as(data, encoding)
    if b"\0" in data:
        return read_as(data, "utf-16-le" if data[1::2].count(0) > data[::2].count(0) else "utf-16-be")
    text = read_as(data, "utf-8")
    if text is not None:
        return text
    japanese = read_as(data, "cp932")
    if japanese is not None and is_japanese(japanese, data):
        return japanese
    text = read_as(data, "cp1252")
    return japanese if text is None else text


def text_of(name: str) -> str:
    """The text of a sheet."""
    with open(name, "rb") as file:
        data = file.read(MOST + 1)
    if len(data) > MOST:
        raise Refused(f"{shown_name(name)}: it has more than 1 MB, and is no cue sheet")
    text = decoded(data)
    if text is None:
        known = "UTF-8, UTF-16, Windows-1252 nor Shift-JIS"
        raise Refused(f"{shown_name(name)}: its letters are neither {known}: save it as UTF-8")
    return text


def lines_of(name: str) -> Iterator[Line]:
    """The lines of a sheet that aren't empty."""
    for number, line in enumerate(ENDS.split(text_of(name)), 1):
        words = line.split(None, 1)
        if words:
            yield Line(number, words[0].upper(), words[1].strip() if len(words) > 1 else "", line.strip())


def unquoted(text: str) -> str:
    return text[1:-1] if len(text) > 1 and text[0] == text[-1] == '"' else text


def indexed(name: str, line: Line, track: dict[str, Any] | None) -> None:
    """Takes a line INDEX into a track, if it is that of its start."""
    parts = INDEX.fullmatch(line.rest)
    if track is None or parts is None:
        raise Refused(f"{shown_name(name)}, line {line.number}: no index as INDEX 01 00:00:00 of a track: {line.shown}")
    if int(parts[1]) == 1:
        track["at"] = (int(parts[2]) * 60 + int(parts[3])) * FRAMES + int(parts[4])


def tracks_of(name: str) -> list[dict[str, Any]]:
    """Number, title and start (in 75ths of a second) of each track of a sheet."""
    tracks, files = list[Any](), 0
    for line in lines_of(name):
        last = tracks[-1] if tracks else None
        files += line.key == "FILE"
        if files > 1:
            raise Refused(
                f"{shown_name(name)}, line {line.number}: a second FILE; the sheet has to be one of one recording"
            )
        if line.key == "TRACK":
            digits = line.rest.split()[:1] or [""]
            if not re.fullmatch(r"\d{1,3}", digits[0], re.ASCII) or int(digits[0]) <= (last["number"] if last else 0):
                raise Refused(f"{shown_name(name)}, line {line.number}: no track of a higher number: {line.shown}")
            tracks.append({"number": int(digits[0]), "title": ""})
        elif line.key == "TITLE" and last:
            last["title"] = unquoted(line.rest)
        elif line.key == "INDEX":
            indexed(name, line, last)
    for track in tracks:
        if "at" not in track:
            raise Refused(f"{shown_name(name)}: track {track['number']} has no INDEX 01")
    if not tracks:
        raise Refused(f"{shown_name(name)} has no tracks: it is no cue sheet")
    return tracks


def texts_of(name: str | None) -> Texts:
    """What a sheet says; nothing where there is none."""
    found, number = Texts(), 0
    for line in lines_of(name) if name is not None else ():
        key, rest = SAID.get(line.key), line.rest
        if line.key == "TRACK":
            digits = re.match(r"\d{1,3}\b", rest, re.ASCII)
            number = int(digits[0]) if digits else number + 1
        elif line.key == "REM":
            word, _, rest = rest.replace("\t", " ").partition(" ")
            key = REMARKS.get(word.upper())
        text = unquoted(rest.strip()).strip()
        if key and text:
            (found.tracks.setdefault(number, {}) if number else found.album)[key] = text
    return found

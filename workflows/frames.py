"""ID3 tags by their frames (ID3v2.2, 2.3 and 2.4), each of which stays as its bytes unless it is replaced.

A program that reads a tag and writes it again changes much of it: its version, how texts are encoded, and what it doesn't
know. Here the frames that are named are other ones afterwards, and nothing else, but for what described the old bytes: the
padding, the footer and the extended header with its checksum. New frames are of the tag's own version."""
import contextlib
import dataclasses
import re
import struct
import zlib
from collections.abc import Callable, Iterable

from dsdarc_scripts.outputs import Refused

UNSYNCED, EXTENDED, EXPERIMENTAL, FOOTER = 0x80, 0x40, 0x20, 0x10
HEAD = 10
MOST = (1 << 28) - 1  # bytes of a tag, and of a frame in ID3v2.4
MOST_OLD = (1 << 24) - 1  # bytes of a frame in ID3v2.2
MOST_TEXT = 1 << 20  # bytes of a text that is read
NAMES = {
    2: re.compile(rb"[A-Z][A-Z0-9]{2}"),
    3: re.compile(rb"[A-Z][A-Z0-9]{2}[A-Z0-9 \0]"),
    4: re.compile(rb"[A-Z][A-Z0-9]{2}[A-Z0-9 \0]"),
}
# The names in ID3v2.2 of frames that are written and read here.
OLD = {
    "TIT2": "TT2",
    "TPE1": "TP1",
    "TPE2": "TP2",
    "TPE3": "TP3",
    "TALB": "TAL",
    "TCOM": "TCM",
    "TCON": "TCO",
    "TRCK": "TRK",
    "TPOS": "TPA",
    "TSRC": "TRC",
    "TLEN": "TLE",
    "TYER": "TYE",
    "TDAT": "TDA",
    "TIME": "TIM",
    "APIC": "PIC",
    "ETCO": "ETC",
    "MLLT": "MLL",
    "SYLT": "SLT",
    "SYTC": "STC",
}
NEW = {old: name for name, old in OLD.items()}
# What says when a recording was made: one is replaced by another.
DATES = ("TDRC", "TYER", "TDAT", "TIME")
ENCODINGS = ("latin-1", "utf-16", "utf-16-be", "utf-8")
FRONT_COVER = 3


class Broken(Refused):
    """The bytes aren't a whole tag, and why."""


def spread(size: int) -> bytes:
    """A size with seven bits in each byte."""
    return bytes(size >> each & 0x7F for each in (21, 14, 7, 0))


def gathered(data: bytes) -> int:
    """The size that four such bytes are."""
    if len(data) < 4 or max(data) > 0x7F:
        raise Broken("it has a size that is none")
    return sum(it << each for it, each in zip(data, (21, 14, 7, 0)))


def unsynced(data: bytes) -> bytes:
    """Bytes in which nothing looks like the start of MPEG sound."""
    made = re.sub(rb"\xff(?=[\xe0-\xff\0])", b"\xff\0", data)
    return made + b"\0" if made.endswith(b"\xff") else made


def synced(data: bytes) -> bytes:
    return data.replace(b"\xff\0", b"\xff")


def raw_length(data: bytes, at: int, count: int, is_unsynced: bool) -> int:
    """How many bytes from a place on are that many once they are synced."""
    length = count
    while is_unsynced:
        more = count + data.count(b"\xff\0", at, at + length)
        if more == length:
            # The zero after a last 0xFF belongs to it.
            return length + (length > 0 and data[at + length - 1 : at + length + 1] == b"\xff\0")
        length = more
    return length


@dataclasses.dataclass
class Frame:
    """A frame: its name, as ID3v2.4 has it, and its bytes in the tag, header and all."""

    name: str
    raw: bytes


@dataclasses.dataclass
class Tag:
    """A tag: its version, its flags, whether sizes of frames in ID3v2.4 have eight bits in each byte, as some programs
    wrote them, its frames, what is in the tag after them, if that isn't padding, and what follows the tag."""

    version: int = 4
    revision: int = 0
    flags: int = 0
    is_plain: bool = False
    frames: list[Frame] = dataclasses.field(default_factory=list)
    rest: bytes = b""
    after: bytes = b""

    @property
    def is_unsynced(self) -> bool:
        return bool(self.flags & UNSYNCED)

    def size_of(self, size: bytes) -> int:
        return gathered(size) if self.version == 4 and not self.is_plain else int.from_bytes(size, "big")

    # Reading.

    def contents(self, frame: Frame) -> bytes | None:
        """What a frame has after its header, plain, and its begin if it is packed; None where it is encrypted or damaged."""
        raw = synced(frame.raw) if self.is_unsynced and self.version < 4 else frame.raw
        if self.version == 2:
            return raw[6:]
        flags, data = raw[9], raw[HEAD:]
        if self.version == 3:
            skipped, is_packed, is_encrypted = 4 * (flags >> 7) + (flags >> 5 & 1), flags & 0x80, flags & 0x40
        else:
            skipped, is_packed, is_encrypted = (flags >> 6 & 1) + 4 * (flags & 1), flags & 8, flags & 4
            data = synced(data) if flags & 2 or self.is_unsynced else data
        if is_encrypted:
            return None
        if not is_packed:
            return data[skipped:]
        try:
            return zlib.decompressobj().decompress(data[skipped:], MOST_TEXT)
        except zlib.error:
            return None

    def texts(self, name: str) -> list[str]:
        """The texts of all frames of a name."""
        found = list[str]()
        for frame in self.frames:
            data = self.contents(frame) if frame.name == name and len(frame.raw) <= MOST_TEXT else None
            if data and data[0] < len(ENCODINGS):
                text = data[1:].decode(ENCODINGS[data[0]], errors="replace").replace("\ufeff", "")
                found += text.rstrip("\0").split("\0")
        return found

    def picture(self, frame: Frame) -> tuple[int, str] | None:
        """The type of a picture, and its description; None where a frame is no picture that is read."""
        data = self.contents(frame) if frame.name == "APIC" else None
        at = 4 if self.version == 2 else data.find(b"\0", 1) + 1 if data else 0
        if not data or not 0 < at < len(data) or data[0] >= len(ENCODINGS):
            return None
        text = data[at + 1 : at + 1 + 512].decode(ENCODINGS[data[0]], errors="replace")
        return data[at], text.partition("\0")[0]

    def is_front(self, frame: Frame) -> bool:
        """Whether a frame is a front cover."""
        found = self.picture(frame)
        return found is not None and found[0] == FRONT_COVER

    # Writing.

    def made(self, name: str, data: bytes) -> Frame:
        """A new frame."""
        if self.version == 2:
            if len(data) > MOST_OLD:
                raise Refused("an ID3v2.2 tag has no room for a frame of more than 16 MB")
            raw = OLD[name].encode() + len(data).to_bytes(3, "big") + data
        elif self.version == 3 or not self.is_unsynced:
            size = spread(len(data)) if self.version == 4 and not self.is_plain else struct.pack(">I", len(data))
            raw = name.encode() + size + bytes(2) + data
        else:
            data = unsynced(data)
            size = struct.pack(">I", len(data)) if self.is_plain else spread(len(data))
            return Frame(name, name.encode() + size + b"\0\2" + data)
        return Frame(name, unsynced(raw) if self.is_unsynced and self.version < 4 else raw)

    def text(self, name: str, texts: list[str]) -> Frame:
        """A new frame of texts. Before ID3v2.4 there is no UTF-8, and programs differ in what Latin-1 is."""
        if self.version == 4:
            return self.made(name, b"\3" + "\0".join(texts).encode(errors="replace"))
        joined = "/".join(texts)
        if joined.isascii():
            return self.made(name, b"\0" + joined.encode())
        return self.made(name, b"\1\xff\xfe" + joined.encode("utf-16-le", errors="replace"))

    def date(self, date: str) -> list[Frame]:
        """New frames for a date, as 1998, 1998-07 or 1998-07-16."""
        year, month, day = (date.split("-") + ["", ""])[:3]
        if self.version == 4:
            return [self.text("TDRC", [date])]
        if month and not day:
            raise Refused(f"its tag is ID3v2.{self.version}, which has no month without a day: name the day, too")
        return [self.text("TYER", [year]), *([self.text("TDAT", [day + month])] if day else [])]

    def cover(self, mime: str, data: bytes) -> Frame:
        """A new frame of a front cover, with a description that no other picture has."""
        found = (self.picture(it) for it in self.frames if not self.is_front(it))
        taken = {it[1] for it in found if it}
        name = next(it for it in ("Cover", *(f"Cover {each}" for each in range(2, 9999))) if it not in taken)
        kind = {"image/png": b"PNG"}.get(mime, b"JPG") if self.version == 2 else mime.encode() + b"\0"
        return self.made("APIC", b"\0" + kind + bytes([FRONT_COVER]) + name.encode() + b"\0" + data)

    def replace(self, is_replaced: Callable[[Frame], bool], made: Iterable[Frame], before: str = "") -> None:
        """Puts new frames in the place of others: that of the first of these, or else that of the first frame of another
        name, or the end."""
        places = (number for number, it in enumerate(self.frames) if is_replaced(it))
        others = (number for number, it in enumerate(self.frames) if it.name == before)
        place = next(places, next(others, len(self.frames)))
        front = [it for it in self.frames[:place] if not is_replaced(it)]
        self.frames = [*front, *made, *(it for it in self.frames[place:] if not is_replaced(it))]

    def set_texts(self, name: str, texts: list[str]) -> None:
        """Sets the texts of frames; none takes them out."""
        is_date = name in DATES
        made = (self.date(texts[0]) if is_date else [self.text(name, texts)]) if texts else []
        self.replace(lambda it: it.name == name or is_date and it.name in DATES, made, "APIC")

    def set_cover(self, mime: str, data: bytes) -> None:
        """Sets the front cover, as the first picture, which many players show."""
        made = self.cover(mime, data)
        self.frames = [it for it in self.frames if not self.is_front(it)]
        self.replace(lambda _: False, [made], "APIC")

    def data(self) -> bytes:
        """The bytes of the tag, with what follows it."""
        parts = [it.raw for it in self.frames]
        if self.is_unsynced and self.version < 4 and parts and parts[-1].endswith(b"\xff"):
            parts.append(b"\0")
        parts.append(self.rest)
        size = sum(map(len, parts))
        if size > MOST:
            raise Refused("its tag would be longer than the 256 MB that an ID3 tag may have")
        flags = self.flags & (UNSYNCED | EXPERIMENTAL)
        head = b"ID3" + bytes([self.version, self.revision, flags]) + spread(size)
        return b"".join([head, *parts, self.after])


def begin_of(tag: Tag, body: bytes) -> int:
    """Where the frames begin, after an extended header. Some programs set its flag and write none."""
    if not tag.flags & EXTENDED or tag.version == 2 or NAMES[tag.version].fullmatch(body[:4]):
        return 0
    is_unsynced = tag.is_unsynced and tag.version == 3
    first = raw_length(body, 0, 4, is_unsynced)
    if tag.version == 3:
        at = raw_length(body, 0, 4 + int.from_bytes(synced(body[:first])[:4], "big"), is_unsynced)
    else:
        at = gathered(body[:4])
    if not 4 < at <= len(body):
        raise Broken("its extended header isn't whole")
    return at


def take_frames(tag: Tag, body: bytes) -> None:
    """Takes the frames of a tag, and what follows them."""
    at, head = begin_of(tag, body), 6 if tag.version == 2 else HEAD
    letters, is_unsynced, last = 3 if tag.version == 2 else 4, tag.is_unsynced and tag.version < 4, "header"
    while at < len(body) and body[at]:
        begin = raw_length(body, at, head, is_unsynced)
        front = synced(body[at : at + begin]) if is_unsynced else body[at : at + begin]
        if len(front) < head or not NAMES[tag.version].fullmatch(front[:letters]):
            raise Broken(f"what follows its {last} is no frame")
        name = front[:letters].decode("ascii").rstrip(" \0")
        length = raw_length(body, at, head + tag.size_of(front[letters : 2 * letters]), is_unsynced)
        if at + length > len(body):
            raise Broken(f"its frame {name} is longer than what is left of the tag")
        # Some programs write names of ID3v2.2 in later tags.
        tag.frames.append(Frame(NEW.get(name, name), body[at : at + length]))
        at, last = at + length, f"frame {name}"
    tag.rest = body[at:] if body[at:].strip(b"\0") else b""


def head_of(data: bytes) -> tuple[Tag, int]:
    """A tag without its frames, of its first bytes, and where it says that these end."""
    if data[:3] != b"ID3" or len(data) < HEAD:
        raise Broken("it doesn't begin as an ID3 tag")
    version, revision, flags = data[3:6]
    if version not in NAMES or version == 2 and flags & EXTENDED:
        raise Broken("it is of a kind of ID3 that isn't known")
    return Tag(version, revision, flags), HEAD + gathered(data[6:HEAD])


def readings(tag: Tag) -> list[Tag]:
    """The ways in which the frames of a tag may be read: in ID3v2.4 some programs wrote sizes as in 2.3."""
    plain = dataclasses.replace(tag, is_plain=True, frames=[])
    return [tag, plain] if tag.version == 4 else [tag]


def parsed(data: bytes) -> Tag:
    """A tag of its bytes, all of which have to be frames, padding, or what follows."""
    found, stop = head_of(data)
    if stop > len(data):
        raise Broken(f"it says that it has {stop:,} bytes, and there are {len(data):,}")
    has_footer = found.version == 4 and found.flags & FOOTER and data[stop : stop + 3] == b"3DI"
    found.after = data[stop + HEAD * bool(has_footer) :]
    faults = list[Broken]()
    for each in readings(found):
        try:
            take_frames(each, data[HEAD:stop])
            return each
        except Broken as why:
            faults.append(why)
    raise faults[0]


def whole(data: bytes) -> Tag:
    """The frames that are whole of a tag that is cut; it has none where no frame is."""
    found, _ = head_of(data)
    tried = readings(found)
    for each in tried:
        with contextlib.suppress(Broken):
            take_frames(each, data[HEAD:])
    return max(tried, key=lambda it: sum(len(each.raw) for each in it.frames))

"""Hands the ID3 tag of a DSF, DSDIFF or WAVE file on to another one; the sound stays as it is.

A DSF file has its tag at its end, a DSDIFF file in a chunk `ID3 `, a WAVE file in a chunk `id3 `. The tag is handed on as
its bytes, which are read again. If mutagen is installed, it has to read the same of the tag before and after."""
import hashlib
import io
import os
import struct
from collections.abc import Iterator
from importlib.util import find_spec
from typing import Any, BinaryIO

from dsdarc_scripts import channels
from dsdarc_scripts.outputs import Refused

# How chunks are laid out, by the first bytes of a file: ID and size, where they begin, and the tag's; programs look for
# none in an RF64 file.
FORMS = {
    b"FRM8": (struct.Struct(">4sQ"), 16, (b"ID3 ",)),
    b"RIFF": (struct.Struct("<4sI"), 12, (b"id3 ", b"ID3 ")),
    b"RF64": (struct.Struct("<4sI"), 12, ()),
}
WAVES = (b"RIFF", b"RF64")
PIECE = 1 << 20
# A WAVE file has no more bytes after its first 8 than this.
MOST_WAVE = 2**32 - 1
# The flag of an extended header, and more bytes than that has.
EXTENDED, MORE = 0x40, 64
HANDED_ON = "handed on"
NOT_INSTALLED = "python3-mutagen isn't installed"
# The frames of texts, by the fields that are set and shown.
FIELDS = {
    "artist": "TPE1",
    "album": "TALB",
    "title": "TIT2",
    "album-artist": "TPE2",
    "composer": "TCOM",
    "conductor": "TPE3",
    "genre": "TCON",
    "date": "TDRC",
    "disc": "TPOS",
    "track": "TRCK",
}


class Untagged(Refused):
    """The tag isn't handed on, and why."""


def has_mutagen() -> bool:
    return find_spec("mutagen") is not None


def broken() -> tuple[type[Exception], ...]:
    """What mutagen raises for a broken file or tag."""
    more = AssertionError, AttributeError, LookupError, MemoryError, OverflowError, TypeError, ValueError, struct.error
    if not has_mutagen():
        return more
    from mutagen import MutagenError

    return MutagenError, *more


def chunks(file: BinaryIO, form: bytes) -> Iterator[tuple[bytes, int, int]]:
    """ID, first byte and size of each chunk of a DSDIFF or WAVE file. What follows a DSDIFF form isn't of the file. In an
    RF64 file (EBU Tech 3306) the size of the samples is in the first chunk."""
    head, at, _ = FORMS[form]
    stop = os.fstat(file.fileno()).st_size
    samples_size = MOST_WAVE
    if form == b"FRM8":
        file.seek(0)
        stop = min(stop, head.size + head.unpack(channels.take(file, head.size))[1])
    while at + head.size <= stop:
        file.seek(at)
        name, size = head.unpack(channels.take(file, head.size))
        if name == b"ds64":
            samples_size = struct.unpack("<8xQ", channels.take(file, 16))[0]
        if form == b"RF64" and name == b"data" and size == MOST_WAVE:
            size = samples_size
        yield name, at + head.size, size
        at += head.size + size + size % 2


def form_of(file: BinaryIO) -> bytes:
    file.seek(0)
    return file.read(4)


def tag_of(name: str) -> bytes:
    """The bytes of a file's tag, empty where it has none."""
    with open(name, "rb") as file:
        form = form_of(file)
        if form == b"DSD ":
            file.seek(20)
            place = struct.unpack("<Q", channels.take(file, 8))[0]
            if place == 0 or place > os.fstat(file.fileno()).st_size:
                return b""
            file.seek(place)
            return file.read()
        for chunk, at, size in chunks(file, form) if form in FORMS else ():
            if chunk in FORMS[form][2]:
                file.seek(at)
                return file.read(min(size, os.fstat(file.fileno()).st_size - at))
    return b""


def sound_range(file: BinaryIO) -> tuple[int, int]:
    """The first byte of a file's sound, and the one after it."""
    form = form_of(file)
    if form in WAVES:
        for chunk, at, size in chunks(file, form):
            if chunk == b"data":
                return at, at + size
        raise Untagged("it has no samples")
    file.seek(0)
    sound = channels.sound_of(file)
    return sound.start, sound.stop


def sound_sum(name: str) -> bytes:
    """The SHA-256 of a file's sound, as its bytes."""
    total = hashlib.sha256()
    with open(name, "rb") as file:
        at, stop = sound_range(file)
        file.seek(at)
        while at < stop:
            data = channels.take(file, min(PIECE, stop - at))
            total.update(data)
            at += len(data)
    return total.digest()


def said_by(frame: Any) -> str:
    """What a frame says, to be compared; of a picture, which may be large, a digest."""
    values = {key: hashlib.sha256(it).hexdigest() if isinstance(it, bytes) else it for key, it in vars(frame).items()}
    return f"{frame.FrameID} {values!r}"


def frames(tags: Any) -> list[str]:
    """What a tag says, to be compared; nothing where there is none."""
    return sorted(map(said_by, tags.values())) if tags else []


def is_extended(tag: bytes) -> bool:
    return len(tag) > 5 and bool(tag[5] & EXTENDED)


def id3(tag: bytes) -> Any:
    """The bytes of a tag as mutagen has them. After an extended header it wants as many more as that has."""
    from mutagen.id3 import ID3

    try:
        return ID3(io.BytesIO(tag + bytes(MORE) if is_extended(tag) else tag))
    except broken():
        raise Untagged("its tag is no ID3 tag that mutagen reads") from None


def read(tag: bytes) -> list[str]:
    """What the bytes of a tag say."""
    return frames(id3(tag))


def read_back(name: str) -> list[str]:
    """What the tag of a file says that mutagen opens by its form, where it can."""
    if is_extended(tag_of(name)):
        return read(tag_of(name))
    from mutagen.dsdiff import DSDIFF
    from mutagen.dsf import DSF
    from mutagen.wave import WAVE

    with open(name, "rb") as file:
        form = form_of(file)
    return frames({b"DSD ": DSF, b"FRM8": DSDIFF, b"RIFF": WAVE}[form](name).tags)


def remove(name: str) -> None:
    """Removes the tag of a file."""
    from mutagen import dsdiff, dsf, wave

    with open(name, "rb") as file:
        form = form_of(file)
    {b"DSD ": dsf, b"FRM8": dsdiff, b"RIFF": wave}[form].delete(name)


def remove_all(name: str) -> None:
    """Removes the tags of a file, as some programs leave two; mutagen removes the first."""
    size = None
    while tag_of(name) and os.path.getsize(name) != size:
        size = os.path.getsize(name)
        remove(name)


def insert(file: BinaryIO, at: int, data: bytes) -> None:
    """Inserts bytes into a file, before those from a place on."""
    stop = file.seek(0, os.SEEK_END)
    while stop > at:
        first = max(stop - PIECE, at)
        file.seek(first)
        moved = channels.take(file, stop - first)
        file.seek(first + len(data))
        file.write(moved)
        stop = first
    file.seek(at)
    file.write(data)


def add_chunk(file: BinaryIO, form: bytes, tag: bytes) -> None:
    """Adds a tag to a DSDIFF or WAVE file, after its last chunk, whose pad may be missing; before what follows the form."""
    head, end, names = FORMS[form]
    size = file.seek(0, os.SEEK_END)
    file.seek(0)
    stated = head.size + head.unpack(channels.take(file, head.size))[1]
    for _, at, length in chunks(file, form):
        if end in (stated, stated + 1):
            break
        end = at + length + length % 2
    if end > size + 1:
        raise Untagged("its last chunk isn't whole")
    place = min(end, size)
    data = bytes(end - place) + head.pack(names[0], len(tag)) + tag + bytes(len(tag) % 2)
    stop = place + len(data)
    if form == b"RIFF" and stop > MOST_WAVE:
        raise Untagged("a WAVE file has no room for it below 4 GiB")
    insert(file, place, data)
    file.seek(0)
    file.write(head.pack(form, stop - head.size))


def write(name: str, tag: bytes) -> None:
    """Writes a tag into a file that has none, in its place."""
    with open(name, "r+b") as file:
        form = form_of(file)
        if form == b"DSD ":
            end = file.seek(0, os.SEEK_END)
            file.write(tag)
            file.seek(12)
            file.write(struct.pack("<QQ", end + len(tag), end))
        elif form in FORMS and FORMS[form][2]:
            add_chunk(file, form, tag)
        else:
            raise Untagged("it has no place for a tag")
        file.flush()
        os.fsync(file.fileno())


def heard(tag: bytes) -> tuple[list[str] | None, str]:
    """What the bytes of a tag say, or None where mutagen doesn't read them, or isn't installed; and what is wrong with
    them, or nothing."""
    if not has_mutagen():
        return None, "" if tag.startswith(b"ID3") else "its tag is no ID3 tag"
    try:
        return read(tag), ""
    except Untagged as why:
        return None, str(why)


def put(name: str, tag: bytes, is_compared: bool = False, takes_any: bool = False) -> None:
    """Puts a tag into a file that no one else reads yet, in the place of the one that it has. Its sound has to be the
    same before and after, unless that is compared elsewhere. What is no ID3 tag is refused, unless `takes_any`. Where this
    fails the file isn't to be used."""
    said, why = heard(tag)
    if why and not takes_any:
        raise Untagged(why)
    before = None if is_compared else sound_sum(name)
    try:
        if tag_of(name):
            remove_all(name)
        write(name, tag)
        back = None if said is None else read_back(name)
    except broken() as error:
        raise Untagged(f"the tag can't be written: {str(error) or type(error).__name__}") from None
    if not is_compared and sound_sum(name) != before:
        raise Untagged("its sound would be another")
    if back != said or tag_of(name) != tag:
        raise Untagged("the tag is read back as another one")


def hand_on(source: str, name: str, is_compared: bool = False, takes_any: bool = False) -> str | None:
    """Gives a file that was just made the tag of its source, where it has none. Returns nothing where there is none to
    hand on, else whether it was, or why not; then the file is as it was."""
    return give(tag_of(source), name, is_compared, takes_any)


def give(tag: bytes, name: str, is_compared: bool = False, takes_any: bool = False) -> str | None:
    """The same of the bytes of a tag."""
    if not tag or tag_of(name):
        return None
    with open(name, "rb") as file:
        head, size = file.read(28), os.path.getsize(name)
    try:
        put(name, tag, is_compared, takes_any)
    except Refused as why:
        with open(name, "r+b") as file:
            file.write(head)
            file.truncate(size)
        return str(why)
    return HANDED_ON

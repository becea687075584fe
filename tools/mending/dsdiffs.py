"""What a broken DSDIFF file holds (docs/DSDIFF.md): a walk over its chunks that believes a size only where a chunk or
the file's end follows."""
import dataclasses
import struct

from tools.mending import parts
from tools.mending.parts import Broken, Mended, Part, Range, View, counted

HEAD = struct.Struct(">4sQ")
# What a form has, and what a sound's property has.
FORM = (b"FVER", b"PROP", b"DSD ", b"DST ", b"DSTI", b"COMT", b"DIIN", b"MANF", b"ID3 ")
PROPERTY = (b"FS  ", b"CHNL", b"CMPR", b"ABSS", b"LSCO")
AFTER = (b"COMT", b"DIIN", b"ID3 ", b"MANF", b"DSTI")
VERSION = bytes([1, 5, 0, 0])
# How many chunks are looked at, at most, to see which sizes fit together.
MOST_TRIED = 1_000_000
MARK_SIZE = 22
TEXT_AT = 18


@dataclasses.dataclass
class Chunk:
    name: bytes
    data: list[Part]


def written(name: bytes, data: list[Part]) -> list[Part]:
    """A chunk of the mended file, with its pad."""
    size = parts.size_of(data)
    return [HEAD.pack(name, size), *data, *([b"\0"] if size % 2 else [])]


def shown(name: bytes) -> str:
    return name.decode("ascii").rstrip()


def is_name(name: bytes) -> bool:
    return len(name) == 4 and all(0x20 <= byte <= 0x7E for byte in name)


class Walk:
    """What is found in a file. `version`, `fields` (of the property) and `others` are kept."""

    def __init__(self, view: View, is_to_end: bool) -> None:
        self.view, self.is_to_end, self.mended = view, is_to_end, Mended()
        self.version: bytes | None = None
        self.fields: list[Chunk] = []
        self.others: list[Chunk] = []
        self.stop, self.sound_size = -1, 0
        self.form_stop = 12 + self.head(0)[1]
        self.count = self.tried = 0
        self.has_property = self.is_cut = False

    def head(self, at: int) -> tuple[bytes, int]:
        """ID and size of a chunk; nothing where the file ends before."""
        data = self.view.data(at, 12)
        name, size = HEAD.unpack(data) if len(data) == 12 else (b"", 0)
        return name, size

    def place(self, at: int) -> str:
        return f"{self.view.base + at:,}"

    def is_end(self, at: int) -> bool:
        """Whether a chunk's data and pad may end here by the file's end, also with the last pad missing."""
        return at in (self.view.size, self.view.size + 1)

    def is_chain(self, at: int) -> bool:
        """Whether chunks go from a place exactly to the file's end."""
        for _ in range(parts.MOST_CHUNKS):
            if self.is_end(at):
                return True
            self.tried += 1
            if self.tried > MOST_TRIED:
                raise Broken("it has too much that looks like chunks to tell which are")
            name, size = self.head(at)
            if not is_name(name) or at + 12 + size > self.view.size:
                return False
            at += 12 + size + size % 2
        return False

    def is_next(self, at: int, names: tuple[bytes, ...] = FORM) -> bool:
        """Whether the file ends at a place, or a chunk begins there."""
        return self.is_end(at) or self.head(at)[0] in names or at < self.view.size and self.is_chain(at)

    # The sound.

    def take_sound(self, at: int, size: int) -> int:
        """Finds where the sound ends that begins at a place; returns where chunks go on."""
        mended, view = self.mended, self.view
        mended.sound, end = at, at + size
        mended.stated = size if 0 < size < parts.MOST_BITS else None
        following = end + size % 2
        is_stated = end <= view.size and (self.is_next(following) or view.size - following < 12)
        if is_stated and not (size == 0 and view.size > at and not self.is_next(at)):
            self.stop = end
            return following
        found = next((it for it in self.view.find(AFTER, at) if self.is_chain(it)), None)
        if found is not None:
            self.stop = found
            mended.wrong.append("the size of its sound lies: chunks follow at another place")
            return found
        if 0 < size < view.size - at and self.form_stop == following and not self.is_to_end:
            self.stop = end
            mended.wrong.append(f"{counted(view.size - following)} after the form belong to no chunk")
            mended.left.append(f"{counted(view.size - following)} after the form; --to-end takes them for sound")
            return view.size
        self.stop = view.size
        self.judge_end(size)
        return view.size

    def judge_end(self, size: int) -> None:
        """Says why the sound is taken to go to the file's end."""
        there = self.view.size - self.mended.sound
        if size == 0:
            why = "the size of its sound is 0: the recorder was perhaps switched off"
        elif self.mended.stated is None:
            why = "the size of its sound is one that no recording has: the recorder was perhaps switched off"
        elif size > there:
            self.is_cut = self.form_stop > self.view.size
            why = f"the file ends {counted(size - there)} before its sound does"
        else:
            why = f"the size of its sound lies: {counted(there - size)} more follow"
        self.mended.wrong.append(why)
        parts.note_zeros(self.mended, self.view, self.stop)

    # The property.

    def natural(self, at: int, name: bytes) -> int | None:
        """The size that a chunk of the property, or FVER, has by what it holds."""
        data = self.view.data(at + 12, 5)
        sizes = {b"FVER": 4, b"FS  ": 4, b"ABSS": 8, b"LSCO": 2}
        if name == b"CHNL" and len(data) >= 2:
            return 2 + 4 * int.from_bytes(data[:2], "big")
        if name == b"CMPR" and len(data) == 5:
            return 5 + data[4]
        return sizes.get(name)

    def sized(self, at: int, names: tuple[bytes, ...], stop: int = -1) -> int | None:
        """The size of a chunk that another follows: the stated one, or the one by what it holds."""
        name, size = self.head(at)
        for each in (size, self.natural(at, name)):
            if each is not None and at + 12 + each <= self.view.size:
                following = at + 12 + each + each % 2
                if following == stop or self.head(following)[0] in names or self.is_end(following):
                    if each != size:
                        self.mended.wrong.append(f"the size of {shown(name)} at byte {self.place(at)} lies")
                    return each
        return None

    def take_property(self, at: int, size: int) -> int:
        """Takes the chunks of a sound's property; returns where chunks go on."""
        inner, stop = at + 16, at + 12 + size
        end = inner  # of the last chunk without its pad, which may be missing
        while (name := self.head(inner)[0]) in PROPERTY or inner < stop and name not in (b"", *FORM):
            found = self.sized(inner, (*PROPERTY, *FORM), stop)
            if found is None and inner + 12 + self.head(inner)[1] < stop and is_name(name):
                found = self.head(inner)[1]
            if found is None:
                raise Broken(f"its header is broken at byte {self.place(inner)}, in what says rate and channels")
            self.fields.append(Chunk(name, [Range(inner + 12, found)]))
            self.step()
            end = inner + 12 + found
            inner = end + found % 2
        if stop not in (inner, end) and inner < self.view.size:
            self.mended.wrong.append(f"the size of PROP at byte {self.place(at)} lies")
        self.has_property = True
        return inner

    def field(self, name: bytes, least: int, what: str) -> bytes:
        data = next((it.data[0] for it in self.fields if it.name == name), None)
        if not isinstance(data, Range) or data.size < least:
            raise Broken(f"nothing in it says {what}")
        return self.view.data(data.at, least)

    # Other chunks.

    def step(self) -> None:
        self.count += 1
        if self.count > parts.MOST_CHUNKS:
            raise Broken(f"it has more than {parts.MOST_CHUNKS:,} chunks")

    def is_mark(self, at: int, size: int) -> bool:
        """Whether a mark has its fields and its text."""
        return size >= MARK_SIZE and MARK_SIZE + int.from_bytes(self.view.data(at + TEXT_AT, 4), "big") <= size

    def take_edited(self, at: int, stop: int) -> None:
        """Takes the chunks of a DIIN that are whole, as far as one follows another."""
        kept, lost, first = list[Part](), 0, at
        while at + 12 <= stop:
            name, size = self.head(at)
            end = at + 12 + size
            if not is_name(name) or end > stop:
                break
            if name == b"MARK" and not self.is_mark(at + 12, size):
                if at > first:
                    kept.append(Range(first, at - first))
                first, lost = end + size % 2, lost + 1
            self.step()
            at = end + size % 2
        at = min(at, stop)
        if at > first:
            kept.append(Range(first, at - first))
        if at < stop or lost:
            self.mended.wrong.append("its marks are broken or cut")
            self.mended.left.append(f"{counted(stop - at)} of DIIN that hold no whole chunk" if at < stop else "")
            self.mended.left.append(f"{counted(lost, 'mark')} without all of its fields" if lost else "")
        if kept:
            self.others.append(Chunk(b"DIIN", kept))

    def take_other(self, at: int, name: bytes, size: int, stop: int, is_whole: bool) -> None:
        """Takes a chunk of the form that ends at a place, or what is whole of it."""
        if name == b"DIIN":
            self.take_edited(at + 12, stop)
        elif name == b"ID3 ":
            kept = parts.tag_parts(self.view, at + 12, stop, self.mended)
            self.others += [Chunk(name, kept)] if kept else []
        elif is_whole:
            self.others.append(Chunk(name, [Range(at + 12, size)]))
        else:
            self.mended.left.append(f"the chunk {shown(name)} at byte {self.place(at)}: it is cut, or its size lies")

    def take(self, at: int, name: bytes, size: int) -> int:
        """Takes one chunk of the form; returns where the next one begins."""
        self.step()
        if name == b"DST ":
            raise Broken("its sound is compressed (DST): unpack it with another tool first")
        if name == b"DSD " and self.stop < 0:
            return self.take_sound(at + 12, size)
        if name == b"PROP" and self.view.data(at + 12, 4) == b"SND " and not self.has_property:
            return self.take_property(at, size)
        following = at + 12 + size + size % 2
        is_whole = at + 12 + size <= self.view.size and self.is_next(following)
        if name == b"FVER" and self.version is None:
            found = self.sized(at, FORM)
            self.version = self.view.data(at + 12, size if found is None else found)
            return at + 12 + found + found % 2 if found is not None else self.resumed(at, name)
        if name in (b"FVER", b"DSD ") or name == b"PROP" and self.view.data(at + 12, 4) == b"SND ":
            self.mended.wrong.append(f"there is a second {shown(name)}")
            self.mended.left.append(f"the second {shown(name)}, at byte {self.place(at)}")
            return following
        if is_whole:
            self.take_other(at, name, size, at + 12 + size, True)
            return following
        going_on = self.resumed(at, name)
        self.take_other(at, name, size, going_on, False)
        return going_on

    def resumed(self, at: int, name: bytes) -> int:
        """Where chunks go on after one whose size lies, or the file's end."""
        self.mended.wrong.append(f"the chunk {shown(name)} at byte {self.place(at)} is cut, or its size lies")
        for found in self.view.find(AFTER if self.stop >= 0 else FORM, at + 12):
            if self.is_chain(found) or self.stop < 0 and self.head(found)[0] in (b"PROP", b"DSD "):
                return found
        return self.view.size

    def chunks(self) -> None:
        """Walks over the whole form."""
        at = 16
        while at + 12 <= self.view.size:
            name, size = self.head(at)
            if not is_name(name):
                self.mended.wrong.append(f"no chunk begins at byte {self.place(at)}")
                self.mended.left.append(f"{counted(self.view.size - at)} from there on")
                break
            at = self.take(at, name, size)
        else:
            if at < self.view.size:
                self.mended.wrong.append("it ends within the header of a chunk")
                self.mended.left.append(f"its last {counted(self.view.size - at)}")


def demand_header(walk: Walk) -> None:
    """Takes rate and channels."""
    mended, view = walk.mended, walk.view
    if walk.stop < 0 and (not walk.has_property or view.size < 200):
        raise Broken(f"the file ends within its header, after {counted(view.size)}")
    if walk.stop < 0:
        raise Broken("there is no sound in it")
    mended.rate = int.from_bytes(walk.field(b"FS  ", 4, "its rate"), "big")
    mended.channels = int.from_bytes(walk.field(b"CHNL", 2, "how many channels it has"), "big")
    if walk.field(b"CMPR", 4, "whether it is compressed") != b"DSD ":
        raise Broken("its sound is compressed: unpack it with another tool first")
    if not 1 <= mended.channels <= 6:
        raise Broken(f"it has {mended.channels} channels, and files of 1 to 6 are read")


def judge_rest(walk: Walk) -> None:
    """Says what is wrong beside the chunks."""
    mended, view = walk.mended, walk.view
    if walk.version is None:
        mended.wrong.append("the chunk with its version is missing")
    if walk.form_stop == view.size + 1:
        mended.wrong.append("its last pad byte is missing")
    elif walk.form_stop != view.size and not walk.is_cut:
        stated = walk.form_stop - 12
        mended.wrong.append(f"the form's size is {stated:,}, and should be {view.size - 12:,}" if stated else "")
        mended.wrong.append("" if stated else "the form's size is 0")
    if (walk.stop - mended.sound) % mended.channels:
        mended.wrong.append("its sound ends within a frame")


def assembled(walk: Walk, lone_tag: Range | None) -> None:
    """Puts the mended file together."""
    mended = walk.mended
    size = (walk.stop - mended.sound) // mended.channels * mended.channels
    mended.bits = size // mended.channels * 8
    if mended.stated is not None:
        mended.stated = mended.stated // mended.channels * 8
    if lone_tag and not any(it.name == b"ID3 " for it in walk.others):
        walk.others.append(Chunk(b"ID3 ", [lone_tag]))
    fields = [part for it in walk.fields for part in written(it.name, it.data)]
    body = [
        *written(b"FVER", [VERSION if walk.version is None else walk.version]),
        *written(b"PROP", [b"SND ", *fields]),
        *written(b"DSD ", [Range(mended.sound, size)]),
        *(part for it in walk.others for part in written(it.name, it.data)),
    ]
    mended.parts = [HEAD.pack(b"FRM8", 4 + parts.size_of(body)), b"DSD ", *body]


def find(view: View, is_to_end: bool, lone_tag: Range | None) -> Mended:
    """What can be kept of a file that begins with FRM8."""
    if view.data(12, 4) != b"DSD ":
        raise Broken("it is no DSDIFF file: its form has another type, or ends before it")
    walk = Walk(view, is_to_end)
    walk.chunks()
    demand_header(walk)
    judge_rest(walk)
    assembled(walk, lone_tag)
    return walk.mended

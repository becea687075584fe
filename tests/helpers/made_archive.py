"""Makes an archive as people have them: albums in folders, with tags, covers, cue sheets, marks and broken files. What
went in is noted, so that a test can ask for it once the archive was worked on."""
import dataclasses
import io
import os
import random
import struct
import zlib

from dsdarc_scripts.dsdiffs import chunk, dsdiff, mark_data
from tests.helpers.archives import dsdarc
from tests.helpers.trials import get, put

RATES = (2_822_400,) * 6 + (5_644_800, 11_289_600, 3_072_000, 6_144_000)
COUNTS = (2,) * 7 + (1, 5, 6)
WORDS = (
    "Tide",
    "Gr\u00f6\u00dfe",
    "\u4e2d\u6587",
    "it's `x` & $(y)",
    "-o",
    "a=b",
    'say "hi"',
    "Ni\u00f1o",
    "100%",
    "First light",
)
NAMES = ("{} song", "it's `touch PWNED` {}", "{} $(x); *", "\u00fc {}", "-{}", "{}\n.", '{} "q"', "{}, {{y}}")
JPEG = b"\xff\xd8\xff\xe0\0\4JF\xff\xc0\0\x0b\x08\0\x28\0\x3c\1\1\x11\0\xff\xda\0\x08\1\1\0\0\x3f\0scan\xff\xd9"
FRAMES = {
    "TITLE": "TIT2",
    "ARTIST": "TPE1",
    "ALBUM": "TALB",
    "ALBUMARTIST": "TPE2",
    "COMPOSER": "TCOM",
    "GENRE": "TCON",
}
FRAMES |= {"DATE": "TDRC", "TRACKNUMBER": "TRCK"}
BLOCK = 4096


@dataclasses.dataclass
class One:
    """A file of the archive: its form, rate, channels and bits of each; the comments that a FLAC file of it has to
    have, and its cover; its tracks, each with title and performer. Of a broken file, how many bits of each channel are
    there, or None if it can't be mended. One may be broken and read as an empty recording all the same."""

    name: str
    form: str
    rate: int
    count: int
    bits: int
    comments: dict[str, str] = dataclasses.field(default_factory=dict)
    cover: bytes | None = None
    tag: bytes = b""
    tracks: list[tuple[str, str]] = dataclasses.field(default_factory=list)
    is_broken: bool = False
    left: int | None = None
    is_read: bool = False


def png(width: int, height: int, chance: random.Random) -> bytes:
    """A whole PNG file of random pixels."""
    rows = b"".join(b"\0" + chance.randbytes(3 * width) for _ in range(height))
    parts = (
        (b"IHDR", struct.pack(">IIBBBBB", width, height, 8, 2, 0, 0, 0)),
        (b"IDAT", zlib.compress(rows)),
        (b"IEND", b""),
    )
    return b"\x89PNG\r\n\x1a\n" + b"".join(
        struct.pack(">I", len(it)) + name + it + struct.pack(">I", zlib.crc32(name + it)) for name, it in parts
    )


def tag_of(comments: dict[str, str], cover: bytes | None, version: int) -> bytes:
    """The bytes of an ID3 tag."""
    from mutagen import id3

    made, data = id3.ID3(), io.BytesIO()
    for comment, text in comments.items():
        made.add(getattr(id3, FRAMES[comment])(encoding=3 if version == 4 else 1, text=[text]))
    if cover:
        mime = "image/png" if cover[1:4] == b"PNG" else "image/jpeg"
        made.add(id3.APIC(encoding=0, mime=mime, type=3, desc="", data=cover))
    if version == 3:
        made.update_to_v23()
    made.save(data, v2_version=version, padding=lambda _: 0)
    return data.getvalue()


def edited(comments: dict[str, str], tracks: list[tuple[str, str]], bits: int) -> bytes:
    """The chunk of a DSDIFF form with marks of tracks, artist and title."""
    places = (bits * number // max(len(tracks), 1) // 8 * 8 for number in range(len(tracks)))
    inner = b"".join(chunk(b"MARK", mark_data(title.encode(), offset=at)) for at, (title, _) in zip(places, tracks))
    for name, key in ((b"DIAR", "ARTIST"), (b"DITI", "TITLE")):
        text = comments.get(key, "").encode()
        inner += chunk(name, struct.pack(">I", len(text)) + text) if text else b""
    return chunk(b"DIIN", inner)


def sheet(album: str, performer: str, tracks: list[tuple[str, str]], seconds: float, end: str) -> str:
    """The text of a cue sheet."""
    lines = [f'PERFORMER "{performer}"', f'TITLE "{album}"', 'FILE "x.dsf" WAVE']
    for number, (title, who) in enumerate(tracks):
        frame = int(75 * seconds * number / len(tracks))
        lines += [f"  TRACK {number + 1:02} AUDIO", f'    TITLE "{title}"', f'    PERFORMER "{who}"']
        lines += [f"    INDEX 01 00:{frame // 75:02}:{frame % 75:02}"]
    return end.join([*lines, ""])


def lettered(letter: str, coding: str, other: str) -> str:
    """A letter that an encoding has, or another one."""
    return letter if letter.encode(coding, "ignore") else other


def with_tag(data: bytes, tag: bytes) -> bytes:
    """A DSF file with a tag."""
    return data[:12] + struct.pack("<QQ", len(data) + len(tag), len(data)) + data[28:] + tag


class Archive:
    """Files that are made below a folder."""

    def __init__(self, folder: str, size: int) -> None:
        self.folder, self.chance = folder, random.Random(size)
        self.files, self.beside = list[One](), dict[str, bytes]()
        for number in range(size - max(size * 12 // 200, 12)):
            self.add(number)
        for number in range(size - len(self.files)):
            self.spoil(number)
        for name, data in self.beside.items():
            put(f"{folder}/{name}", data)

    def comments(self, number: int) -> dict[str, str]:
        """What a tag says; some say little, and some nothing."""
        chance = self.chance
        said = {key: f"{chance.choice(WORDS)} {number}" for key in FRAMES if chance.random() < 0.8}
        said |= {"DATE": str(1950 + number % 70)} if "DATE" in said else {}
        said |= {"TRACKNUMBER": f"{1 + number % 12}/12"} if "TRACKNUMBER" in said else {}
        return {key: text.strip() for key, text in said.items()}

    def name(self, number: int, ending: str) -> str:
        folder = ("", "disc 1/", "deep/er/")[number % 3]
        return "song.dsf" if number == 1 else folder + NAMES[number % len(NAMES)].format(number) + ending

    def sound(self, it: One, more: bytes, kept: bytes = b"") -> bytes:
        """The file of random bits in its form."""
        size = it.bits // 8
        data = dsdiff(it.rate, it.count, self.chance.randbytes(it.count * size), more=more, kept=kept)
        if it.form == "dsdiff":
            return data
        put("made.dff", data)
        dsdarc("convert", it.form, "made.dff", "made.dsf")
        return get("made.dsf")

    def one(self, number: int, form: str) -> One:
        """A file, of a tenth to three tenths of a second."""
        rate, count = RATES[number % len(RATES)], COUNTS[number // 3 % len(COUNTS)]
        bits = int(rate * (0.1 + 0.2 * self.chance.random())) // 8 * 8
        return One(self.name(number, ".dff" if form == "dsdiff" else ".dsf"), form, rate, count, bits)

    def add(self, number: int) -> None:
        """A whole file."""
        it, chance = self.one(number, ("dsdiff", "dsf", "dsf8", "dsdiff", "dsf")[number % 5]), self.chance
        if number % 4 != 3:
            it.comments = self.comments(number)
        if number % 3 == 1 and it.comments:
            it.cover = JPEG if number % 2 else png(8 + number % 9, 7, chance)
        has_marks, has_sheet = it.form == "dsdiff" and number % 5 == 0, number % 5 == 1
        if has_marks or has_sheet:
            it.tracks = [
                (f"{chance.choice(WORDS)} {each}", f"Guest {each}" if has_sheet else "") for each in range(1, 4)
            ]
        in_form = has_marks and number % 2 == 0
        tag = tag_of(it.comments, it.cover, 3 + number % 2) if it.comments and not in_form else b""
        if in_form:
            it.comments = {key: text for key, text in it.comments.items() if key in ("ARTIST", "TITLE")}
            it.cover = None
        it.tag = tag
        more = edited(it.comments if in_form else {}, it.tracks, it.bits) if has_marks else b""
        more += chunk(b"ID3 ", tag) if tag and it.form == "dsdiff" else b""
        data = self.sound(it, more)
        put(f"{self.folder}/{it.name}", with_tag(data, tag) if tag and it.form != "dsdiff" else data)
        if has_sheet:
            self.add_sheet(it, number)
        if number % 10 == 0:
            self.beside[os.path.join(os.path.dirname(it.name), f"cover {number}.png")] = png(20, 20, chance)
        self.files.append(it)

    def add_sheet(self, it: One, number: int) -> None:
        """The sheet beside a file, in one of the encodings that sheets have."""
        codings = ("utf-8", "\n"), ("utf-8-sig", "\r\n"), ("cp1252", "\n"), ("utf-16", "\r\n"), ("cp932", "\r\n")
        coding, end = codings[number // 5 % len(codings)]
        other = {"cp1252": "\u00e9", "cp932": "\u30bd"}.get(coding, "")
        it.tracks = [("".join(lettered(each, coding, other) for each in title), who) for title, who in it.tracks]
        it.tracks = [(title.replace('"', "'"), who) for title, who in it.tracks]
        text = sheet(f"Album {number}", f"Band {number}", it.tracks, it.bits / it.rate, end)
        self.beside[os.path.splitext(it.name)[0] + ".cue"] = text.encode(coding)

    # Broken files.

    def spoil(self, number: int) -> None:
        """A file that is broken in one of twelve ways."""
        ways = (
            self.cut_form,
            self.cut_blocks,
            self.switched_off,
            self.no_samples,
            self.no_fill,
            self.wrong_form_size,
            self.wrong_tag_place,
            self.cut_tag,
            self.compressed,
            self.text,
            self.empty,
            self.header_alone,
        )
        it = One(f"broken/{number}", "dsdiff", 2_822_400, 2, 300_000, is_broken=True)
        data = ways[number % len(ways)](it)
        put(f"{self.folder}/{it.name}", data)
        self.files.append(it)

    def form(self, it: One) -> bytes:
        """A whole DSDIFF file with a tag."""
        it.name += ".dff"
        it.comments = {"TITLE": f"Broken {it.name}"}
        it.tag = tag_of(it.comments, None, 4)
        return self.sound(it, chunk(b"ID3 ", it.tag))

    def blocks(self, it: One) -> bytes:
        """A whole DSF file with a tag."""
        it.name, it.form = it.name + ".dsf", "dsf"
        it.comments = {"TITLE": f"Broken {it.name}"}
        it.tag = tag_of(it.comments, None, 4)
        return with_tag(self.sound(it, b""), it.tag)

    def cut_form(self, it: One) -> bytes:
        data = self.form(it)
        start = data.index(b"DSD ", data.index(b"not compressed")) + 12
        it.left, it.comments = 8 * 20_000, {}
        return data[: start + 2 * 20_000 + 1]

    def cut_blocks(self, it: One) -> bytes:
        data = self.blocks(it)
        it.left, it.comments = 8 * (2 * BLOCK + 7), {}
        return data[: 92 + 4 * BLOCK + BLOCK + 7]

    def switched_off(self, it: One) -> bytes:
        data = self.form(it)
        at = data.index(b"DSD ", data.index(b"not compressed"))
        it.left, it.comments = it.bits, {}
        return data[:4] + bytes(8) + data[12 : at + 4] + bytes(8) + data[at + 12 : at + 12 + it.bits // 4]

    def no_samples(self, it: One) -> bytes:
        data = self.blocks(it)
        groups = -(-it.bits // (8 * BLOCK))
        it.left, it.is_read = groups * 8 * BLOCK, True
        return data[:64] + bytes(8) + data[72:]

    def no_fill(self, it: One) -> bytes:
        data = self.blocks(it)
        it.left, it.comments = it.bits, {}
        fill = BLOCK - (it.bits // 8 - 1) % BLOCK - 1
        stop = 92 + -(-it.bits // (8 * BLOCK)) * 2 * BLOCK - fill
        return data[:12] + struct.pack("<QQ", stop, 0) + data[28:stop]

    def wrong_form_size(self, it: One) -> bytes:
        data = self.form(it)
        it.left = it.bits
        return data[:4] + struct.pack(">Q", 2**40) + data[12:]

    def wrong_tag_place(self, it: One) -> bytes:
        data = self.blocks(it)
        it.left = it.bits
        return data[:20] + struct.pack("<Q", len(data) + 99) + data[28:]

    def cut_tag(self, it: One) -> bytes:
        data = self.form(it)
        it.left, it.comments = it.bits, {}
        return data[:-9]

    def compressed(self, it: One) -> bytes:
        data = self.form(it)
        at = data.index(b"CMPR")
        return data[: at + 12] + b"DST " + data[at + 16 :].replace(b"DSD ", b"DST ", 1)

    def text(self, it: One) -> bytes:
        it.name += ".dsf"
        return b"This is no recording.\n"

    def empty(self, it: One) -> bytes:
        it.name += ".dff"
        return b""

    def header_alone(self, it: One) -> bytes:
        return self.blocks(it)[:92]

"""The mix text that the desk shows and changes (docs/NULL_TEST.md).

Of a text that is read, all that isn't a clip stays as it is, letter by letter, and so does the table of each clip that
nobody changed, with the comments before it and inside. A new text is read again before it is written, and must hold just
the clips that are meant. Writing replaces the file by one that is whole and on the device, or leaves it as it was."""
import contextlib
import errno
import hashlib
import itertools
import json
import os
import re
import secrets
import stat
import unicodedata
from collections.abc import Callable
from dataclasses import dataclass
from typing import Any

import tomlkit
from tomlkit.exceptions import TOMLKitError

from cuts import mix_texts, mixes
from cuts.albums import MOST_TITLE, quoted
from cuts.clips import WHOLE, Clip as Made, Decoder
from cuts.curves import Fade
from cuts.hearing import decibels
from cuts.list_mixes import LIMIT
from cuts.mix_texts import CLIP, TABLE, said
from cuts.takes import Take
from cuts.times import clock
from desk import shapes
from desk.shapes import Shape, whole
from dsdarc_scripts.explained import shown_name
from dsdarc_scripts.outputs import Refused
from tools.null_testing import mixes as read_mixes
from tools.null_testing.mixes import MOST_OVERLAPPING, MOST_PLACES, Mix, MixFault, read_mix

MOST_CLIPS = mixes.MOST_CLIPS
MOST_TEXT = 1 << 27  # bytes of a mix text
COMMENT = re.compile(r"\s*#\s*(shape|overlap)\s*=\s*(.*)")
LINE = re.compile(r"[^\n]*\n|[^\n]+")
SIDES = ("in", "out")

# The fades of a clip that cover an overlap because it was moved there, by their sides, and what they replaced.
Overlap = tuple[tuple[str, Fade | None], ...]


@dataclass(frozen=True)
class Clip:
    """A clip: bits of a take from `start` on at places of the mix from `at` on, and how loud it is there."""

    take: int
    decoder: int
    start: int
    at: int
    length: int
    title: str | None = None
    shape: Shape = Shape()
    overlap: Overlap = ()

    @property
    def stop(self) -> int:
        return self.at + self.length

    def points(self, channel: int) -> list[tuple[int, int]]:
        """The points of the gain of a channel; none if it is 1."""
        return self.shape.points(self.length, channel)

    @property
    def rows(self) -> list[list[tuple[int, int]]]:
        """The points of all channels, or of each."""
        return [self.points(it) for it in range(len(self.shape.lines))]

    def to_json(self) -> dict[str, Any]:
        found: dict[str, Any] = {
            key: getattr(self, key) for key in ("take", "decoder", "start", "at", "length", "title")
        }
        return found | self.shape.to_json() | ({"overlap": overlap_json(self.overlap)} if self.overlap else {})


def overlap_json(overlap: Overlap) -> dict[str, Any]:
    return {side: [it.bits, it.curve] if it else None for side, it in overlap}


def overlap_from(value: object, shape: Shape, length: int) -> Overlap:
    """Which fades cover an overlap, and what they replaced: of sides that fade."""
    if value is None:
        return ()
    if not isinstance(value, dict) or not set(value) <= set(SIDES):
        raise Refused("overlap has the sides in and out")
    fading = {"in": shape.rise, "out": shape.fall}
    rows = [(side, shapes.fade_from(value[side], length, f"overlap {side}")) for side in SIDES if side in value]
    return tuple(it for it in rows if fading[it[0]])


Clips = dict[int, Clip]


def ordered(clips: Clips) -> list[int]:
    """The numbers of clips in the order of the text."""
    return sorted(clips, key=lambda it: (clips[it].at, it))


@dataclass(frozen=True)
class Head:
    """What a text says besides its clips: the limit in dB, if there is one, by how much each decoder makes a steady sound
    louder (0 if it gives what is above others), and which of them a new clip of each take has."""

    limit: float | None
    totals: list[float]
    numbers: list[int]


@dataclass(frozen=True)
class Limits:
    """What the clips of a mix may name: how many bits each take has, the number of channels, and decoders."""

    bits: list[int]
    channels: int
    head: Callable[[], Head]


def clip_from(value: object, limits: Limits) -> Clip:
    """A clip as the page sends it. Without a decoder it has the usual one of its take."""
    if not isinstance(value, dict):
        raise Refused("a clip has a take, its place and its length")
    take, head = whole(value.get("take"), 0, len(limits.bits) - 1, "take"), limits.head()
    decoder = value.get("decoder")
    decoder = head.numbers[take] if decoder is None else whole(decoder, 0, len(head.totals) - 1, "decoder")
    start = whole(value.get("start"), 0, max(limits.bits[take] - 1, 0), "start")
    length = whole(value.get("length"), 1, max(limits.bits[take] - start, 1), "length")
    if start + length > limits.bits[take]:
        raise Refused("the clip ends after its take")
    at = whole(value.get("at"), 0, MOST_PLACES - length, "at")
    title = value.get("title")
    if title is not None:
        if not isinstance(title, str) or len(title.encode(errors="replace")) > MOST_TITLE:
            raise Refused(f"a title has at most {MOST_TITLE} bytes")
        if any(unicodedata.category(it) == "Cs" for it in title):
            raise Refused("a title is a text")
    shape = shapes.from_json(value, length, limits.channels)
    overlap = overlap_from(value.get("overlap"), shape, length)
    return Clip(take, decoder, start, at, length, title or None, shape, overlap)


def demand_title(title: str | None) -> None:
    """A title that is typed is one line. A text may have others, which stay."""
    if any(unicodedata.category(it) in ("Cc", "Zl", "Zp") for it in title or ""):
        raise Refused("a title is one line of letters")


def demand_together(clips: Clips) -> None:
    """A mix has room for its clips."""
    if len(clips) > MOST_CLIPS:
        raise Refused(f"a mix has room for {MOST_CLIPS} clips")
    # Where clips end at a place, this counts before those that begin there.
    ends = sorted([(it.at, 1) for it in clips.values()] + [(it.stop, -1) for it in clips.values()])
    if max(itertools.accumulate((change for _, change in ends), initial=0)) > MOST_OVERLAPPING:
        raise Refused(f"at most {MOST_OVERLAPPING} clips may overlap")


def plain(clip: Clip) -> read_mixes.Clip:
    """The clip as the null test reads it."""
    rows = clip.rows
    one, each = (rows[0], None) if len(rows) == 1 else ([], rows)
    return read_mixes.Clip(clip.take, clip.decoder, clip.start, clip.at, clip.length, one, each)


# Reading.


def comments_of(text: str) -> dict[tuple[int, str], str]:
    """What comments say of clips, by the numbers of these and the first word."""
    found, clip, is_inside = dict[tuple[int, str], str](), -1, False
    for row in text.split("\n"):
        if TABLE.fullmatch(row):
            is_inside = CLIP.fullmatch(row) is not None
            clip += is_inside
        elif is_inside and (it := COMMENT.fullmatch(row.rstrip("\r"))):
            value = said(it[2])
            if value is not None:
                found[clip, it[1]] = value
    return found


def overlap_said(comment: str | None, shape: Shape, length: int) -> Overlap:
    """The same by a comment; none if that says something else."""
    try:
        return overlap_from(json.loads(comment or "null"), shape, length)
    except (ValueError, Refused, RecursionError):
        return ()


def clips_in(mix: Mix, text: str, name: str, channels: int) -> Clips:
    """The clips of a text, by their numbers."""
    notes, _ = mix_texts.notes_in(text, len(mix.clips), name)
    comments = comments_of(text)
    found = Clips()
    for number, (it, note) in enumerate(zip(mix.clips, notes)):
        rows = [it.points(channel) for channel in range(channels)]
        if it.gains is None or all(row == rows[0] for row in rows):
            rows = rows[:1]
        shape = shapes.shape_of(rows, it.length, comments.get((number, "shape")))
        overlap = overlap_said(comments.get((number, "overlap")), shape, it.length)
        found[number] = Clip(it.take, it.decoder, it.start, it.at, it.length, note.title, shape, overlap)
    return found


@dataclass(frozen=True)
class Block:
    """Lines of a text: those of the clip of a number, with the comment right before its table, or others."""

    clip: int | None
    text: str


def blocks_of(text: str) -> list[Block]:
    """The text in blocks, which are all of it."""
    rows = LINE.findall(text)
    clip, found = -1, list[tuple[int, int | None]]([(0, None)])
    for number, row in enumerate(rows):
        line = row.rstrip("\r\n")
        if not TABLE.fullmatch(line):
            continue
        first = number
        while first > 0 and rows[first - 1].lstrip().startswith("#"):
            first -= 1
        if first > 0 and not rows[first - 1].strip():
            first -= 1
        if CLIP.fullmatch(line):
            clip += 1
            found.append((first, clip))
        else:
            found.append((first, None))
    ends = [*(it for it, _ in found[1:]), len(rows)]
    made = [Block(clip, "".join(rows[first:stop])) for (first, clip), stop in zip(found, ends)]
    return [it for it in made if it.text]


def clip_block(clip: Clip, names: list[str], rate: int) -> str:
    """The table of a clip, with a comment that says where it is."""
    where = f"{shown_name(names[clip.take])} from {clock(clip.at, rate)} to {clock(clip.stop, rate)}"
    text = f"\n# {where}\n[[mix.clip]]\n"
    if clip.title is not None:
        text += f"# title = {quoted(clip.title)}\n"
    if (comment := clip.shape.comment(clip.length)) is not None:
        text += f"# shape = {quoted(comment)}\n"
    if clip.overlap:
        text += f"# overlap = {quoted(json.dumps(overlap_json(clip.overlap)))}\n"
    for key in ("take", "decoder", "start", "at", "length"):
        text += f"{key} = {getattr(clip, key)}\n"
    return text + mixes.gains_of(clip.rows)


class Document:
    """A mix text with its clips, and what it becomes with others. `order` has their numbers as they come in the text."""

    def __init__(self, name: str, text: str, base: Clips, names: list[str], rate: int) -> None:
        self.name, self.text, self.base, self.names, self.rate = name, text, base, names, rate
        self.order = sorted(base)

    def is_now(self, text: str, clips: Clips) -> None:
        """Notes that the text was written, by `text_of`, with these clips."""
        self.text, self.base, self.order = text, dict(clips), ordered(clips)

    def text_of(self, clips: Clips) -> str:
        """The text with these clips. It is the same text as before if nothing was changed."""
        if not clips:
            raise Refused("a mix has at least one clip: put a part of a take into it first")
        if clips == self.base:
            return self.text
        made = self.by_blocks(clips)
        if made is None or not self.holds(made, clips):
            made = self.by_tables(clips)
            if not self.holds(made, clips):
                raise Refused(f"{shown_name(self.name)}: its text can't be changed: write it anew by dsdarc-mix")
        return made

    def by_blocks(self, clips: Clips) -> str | None:
        """The text with the blocks of clips that stay, and new ones; nothing if its clips are no tables of their own."""
        blocks = blocks_of(self.text)
        tables = [it.text for it in blocks if it.clip is not None]
        if len(tables) != len(self.order):
            return None
        kept = dict(zip(self.order, tables))
        rows = []
        for number in ordered(clips):
            is_same = number in kept and self.base.get(number) == clips[number]
            rows.append(kept[number] if is_same else clip_block(clips[number], self.names, self.rate))
        # Where the first clip was; or before the first decoder, if there was none.
        starts = [number for number, it in enumerate(blocks) if it.clip is not None] or [
            number for number, it in enumerate(blocks) if "[[mix.decoder]]" in it.text
        ]
        first = min(starts, default=len(blocks))
        head = "".join(it.text for it in blocks[:first])
        tail = "".join(it.text for it in blocks[first:] if it.clip is None)
        body = "".join(it if it.endswith("\n") else f"{it}\n" for it in rows)
        return (head if head.endswith("\n") or not head else f"{head}\n") + body + tail

    def by_tables(self, clips: Clips) -> str:
        """The text with all clips anew, for one whose clips are no tables of their own."""
        try:
            document = tomlkit.parse(self.text)
            table: Any = document["mix"]
            if "clip" in table:
                table.remove("clip")
            rows = tomlkit.aot()
            for number in ordered(clips):
                block: Any = tomlkit.parse(clip_block(clips[number], self.names, self.rate))
                rows.append(block["mix"]["clip"][0])
            table.append("clip", rows)
            return tomlkit.dumps(document)
        except (TOMLKitError, ValueError, KeyError) as error:
            raise Refused(f"{shown_name(self.name)}: its text can't be changed: {error}") from None

    def holds(self, made: str, clips: Clips) -> bool:
        """Whether a text is the same mix with these clips."""
        try:
            found, notes = read_mix(made.encode()), mix_texts.notes_in(made, len(clips), self.name)[0]
        except (MixFault, UnicodeEncodeError, Refused):
            return False
        wanted = [plain(clips[it]) for it in ordered(clips)]
        alike = len(found.clips) == len(wanted) and all(map(is_same_clip, found.clips, wanted))
        titles = [clips[it].title for it in ordered(clips)]
        return alike and [it.title for it in notes] == titles and found.takes == self.names


def is_same_clip(one: read_mixes.Clip, other: read_mixes.Clip) -> bool:
    """Whether two clips are alike: a gain of 1 has one point, or none."""
    keys = ("take", "decoder", "start", "at", "length")
    rows = [[it.gain] if it.gains is None else it.gains for it in (one, other)]
    full = [[row or [(0, read_mixes.GAIN)] for row in it] for it in rows]
    if len(full[0]) != len(full[1]):
        full = [it if len(it) > 1 else it * max(map(len, full)) for it in full]
    return all(getattr(one, it) == getattr(other, it) for it in keys) and full[0] == full[1]


def head_of(mix: Mix, numbers: list[int]) -> Head:
    """That of a mix."""
    totals = [sum(it) / mix.unit for it in mix.decoders]
    limit = decibels(mix.limit / (2 * mix.unit * sum(mix.audible)))
    return Head(round(limit, 2) if mix.limit else None, totals, numbers)


def usual(mix: Mix, take: int) -> int:
    """The decoder that most clips of a take have."""
    found = [it.decoder for it in mix.clips if it.take == take] or [it.decoder for it in mix.clips]
    return max(set(found), key=lambda it: (found.count(it), -it))


# A text for new takes.


def decoder_of(take: Take) -> Decoder:
    """What decodes a take: a low-pass of its widest channel."""
    return WHOLE, max(take.bands, key=lambda it: it[1])


def new_text(name: str, takes: list[Take]) -> tuple[str, Head]:
    """The text of a mix of these takes that has no clips yet, and its head."""
    rows = [Made(number, decoder_of(it), 0, 0, 8, []) for number, it in enumerate(takes)]
    mix = mixes.Mix(takes[0].rate, rows, {number: it.name for number, it in enumerate(takes)})
    head = mixes.head_of("A mix that was made at the desk", LIMIT, name)
    totals = [float(mix.taps[it].sum() / mix.unit) for it in mix.decoders]
    found = Head(LIMIT, totals, [mix.decoders.index(it.decoder) for it in rows])
    return mixes.mix_text(mix, head, LIMIT, []), found


def with_takes(text: str, mix: Mix, takes: list[Take]) -> tuple[str, Head]:
    """The text with more takes and the decoders that they need, and its head."""
    document, numbers, known = tomlkit.parse(text), [usual(mix, it) for it in range(len(mix.takes))], [*mix.decoders]
    table: Any = document["mix"]
    for take in takes:
        table["takes"].append(take.name)
        taps = mixes.without_zeros(mixes.summing(mixes.response(take.rate, decoder_of(take)), mix.unit)).tolist()
        if taps not in known:
            row = tomlkit.table()
            row.append("taps", taps)
            table["decoder"].append(row)
            known.append(taps)
        numbers.append(known.index(taps))
    made = tomlkit.dumps(document)
    try:
        return made, head_of(read_mix(made.encode()), numbers)
    except MixFault as error:
        raise Refused(f"with {len(takes)} more takes the mix would be none: {error}") from None


# Files.


def sum_of(data: bytes) -> str:
    return hashlib.sha256(data).hexdigest()


Stamp = tuple[int, int, int, int]


def stamp_of(path: str) -> Stamp | None:
    """What changes where a file is changed; none if there is no file."""
    try:
        it = os.stat(path)
    except OSError:
        return None
    return it.st_dev, it.st_ino, it.st_size, it.st_mtime_ns


def read_bytes(path: str) -> bytes:
    """The bytes of a mix text, of a path that is no link."""
    with open(path, "rb", opener=lambda name, flags: os.open(name, flags | os.O_NOFOLLOW | os.O_NONBLOCK)) as file:
        if not stat.S_ISREG(os.fstat(file.fileno()).st_mode):
            raise Refused(f"{shown_name(path)} is no file: the desk writes the mix in its place")
        data = file.read(MOST_TEXT + 1)
    if len(data) > MOST_TEXT:
        raise Refused(f"{shown_name(path)} is too long for a mix")
    return data


def write_bytes(path: str, data: bytes) -> None:
    """Replaces a file by one that is whole and on the device. After a fault the old one is as it was."""
    folder, last = os.path.split(path)
    part = os.path.join(folder, f".{last}.new-{os.getpid()}-{secrets.token_hex(4)}")
    try:
        with open(part, "xb") as out:
            with contextlib.suppress(FileNotFoundError):
                old = os.stat(path)
                os.fchmod(out.fileno(), stat.S_IMODE(old.st_mode))
                with contextlib.suppress(OSError):
                    os.fchown(out.fileno(), old.st_uid, old.st_gid)
                if not os.access(path, os.W_OK):
                    raise PermissionError(errno.EACCES, os.strerror(errno.EACCES), path)
            out.write(data)
            out.flush()
            os.fsync(out.fileno())
        os.replace(part, path)
    except BaseException as error:
        with contextlib.suppress(OSError):
            os.remove(part)
        if isinstance(error, OSError):
            error.filename, error.filename2 = path, None
        raise
    with contextlib.suppress(OSError):
        handle = os.open(folder, os.O_RDONLY | os.O_DIRECTORY)
        try:
            os.fsync(handle)
        finally:
            os.close(handle)


def free_name(path: str, words: str) -> str:
    """A name that no file has: the path with words and a number."""
    number = 1
    while os.path.lexists(found := f"{path}.{words}-{number}"):
        number += 1
    return found

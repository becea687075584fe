"""Files as usual writers make them, small, to be mutated: DSDIFF, DSF and projects.

A DSDIFF file is also handed out as a tree of chunks, (ID, data) or (ID, type, chunks), so that chunks can be moved and
the sizes round them mended."""
import random
import struct
from collections import namedtuple
from collections.abc import Iterable, Sequence
from typing import Any

from dsdarc_scripts import dsdiffs

RATES = (2_822_400, 5_644_800, 11_289_600)
LAYOUTS = (1, 2, 3, 4, 6, 7)

# A file to be mutated: its form's family, its bytes, the tree (DSDIFF alone), and where its sound is.
Base = namedtuple("Base", "name kind data tree sound")


def chunk_bytes(node: tuple[Any, ...]) -> bytes:
    name, *rest = node
    data = rest[0] if len(rest) == 1 else rest[0] + b"".join(map(chunk_bytes, rest[1]))
    return dsdiffs.chunk(name, data)


def dsdiff_tree(
    rng: random.Random, channels: int, frames: int, rate: int, is_rich: bool
) -> tuple[bytes, bytes, list[tuple[Any, ...]]]:
    property_chunks = dsdiffs.property_chunks(rate, channels)
    chunks = [dsdiffs.VERSION, (b"PROP", b"SND ", property_chunks)]
    if is_rich:
        property_chunks.append((b"ABSS", struct.pack(">HBBI", 1, 2, 3, 4)))
        property_chunks.append((b"LSCO", b"\0\0"))
    chunks.append((b"DSD ", rng.randbytes(channels * frames)))
    if is_rich:
        comment = struct.pack(">HHBBBBHHI", 1, 2003, 12, 31, 23, 59, 0, 0, 5) + b"hello\0"
        chunks += [
            (b"COMT", comment),
            (
                b"DIIN",
                b"",
                [
                    (b"EMID", b"an edit"),
                    (b"MARK", dsdiffs.mark_data(b"one", samples=8)),
                    (b"MARK", dsdiffs.mark_data(b"", 1, 2, 3, 4, -5, 1, 2)),
                    (b"DIAR", struct.pack(">I", 6) + b"artist"),
                    (b"DITI", struct.pack(">I", 5) + b"title"),
                ],
            ),
            (b"MANF", b"abcdsecret"),
        ]
    return (b"FRM8", b"DSD ", chunks)


def dsdiff_of(channels: int, sound: bytes) -> bytes:
    """The DSDIFF file of a sound."""
    tree = dsdiff_tree(random.Random(0), channels, 0, RATES[0], False)
    tree[2][-1] = (b"DSD ", sound)
    return chunk_bytes(tree)


def find_sound(tree: tuple[bytes, bytes, list[tuple[Any, ...]]]) -> tuple[int, int]:
    """The first place of a DSDIFF file's sound and the one after it."""
    at = 16
    for node in tree[2]:
        data = chunk_bytes(node)
        if node[0] == b"DSD ":
            return at + 12, at + 12 + len(node[1])
        at += len(data)
    raise ValueError("no sound")


def dsdiff(
    rng: random.Random, name: str, channels: int, frames: int, rate: int = RATES[0], is_rich: bool = False
) -> Base:
    tree = dsdiff_tree(rng, channels, frames, rate, is_rich)
    return Base(name, "dsdiff", chunk_bytes(tree), tree, find_sound(tree))


def dsf(
    rng: random.Random,
    name: str,
    channels: int,
    count: int,
    rate: int = RATES[0],
    per_sample: int = 1,
    tag: bytes = b"",
    rest: int = 0,
) -> Base:
    groups = -(-count // 32768)
    sound = rng.randbytes(groups * channels * 4096)
    stop = 92 + len(sound)
    head = b"DSD " + struct.pack("<QQQ", 28, stop + rest + len(tag), stop + rest if tag else 0)
    fields = (52, 1, 0, LAYOUTS[channels - 1], channels, rate, per_sample, count, 4096, 0)
    head += b"fmt " + struct.pack("<QIIIIIIQII", *fields)
    head += b"data" + struct.pack("<Q", 12 + len(sound) + rest)
    return Base(name, "dsf", head + sound + bytes(rest) + tag, None, (92, stop))


def recordings(rng: random.Random) -> list[Base]:
    """The recordings that are mutated."""
    tag = b"ID3\x03\0\0\0\0\0\x15TIT2\0\0\0\x0b\0\0\0one title!"
    return [
        dsdiff(rng, "mono", 1, 1),
        dsdiff(rng, "odd", 1, 77),
        dsdiff(rng, "silent", 2, 0),
        dsdiff(rng, "stereo", 2, 64, is_rich=True),
        dsdiff(rng, "quick", 2, 128, rate=RATES[1], is_rich=True),
        dsdiff(rng, "round", 5, 33, is_rich=True),
        dsdiff(rng, "six", 6, 40, rate=RATES[2]),
        dsf(rng, "bit", 1, 1),
        dsf(rng, "short", 1, 1000, per_sample=8),
        dsf(rng, "tagged", 2, 4096, tag=tag),
        dsf(rng, "eights", 2, 999, rate=RATES[1], per_sample=8, tag=tag, rest=8),
        dsf(rng, "two groups", 1, 32769, tag=tag),
        dsf(rng, "none", 2, 0),
    ]


def decimate_text(taps: Sequence[object], factor: int, delay: int, shift: int, width: int) -> str:
    return f"[decimate]\ntaps = {taps}\nfactor = {factor}\ndelay = {delay}\nshift = {shift}\nwidth = {width}\n"


def filters() -> list[str]:
    """Projects that play."""
    return [
        decimate_text([1, 2, 3, 4], 8, 3, 0, 16),
        decimate_text([-7, 100, 2000, 100, -7], 16, 2, 3, 24),
        decimate_text([1] * 33, 64, 32, 0, 16),
        decimate_text([5 * k % 37 - 9 for k in range(300)], 32, 150, 1, 24),
        decimate_text([2**20, -(2**20), 2**21], 8, 0, 0, 16),
    ]


# A cue. What is None isn't given, so the target is a fade, or the line that has these ends.
Cue = namedtuple("Cue", "take start stop bridge title line", defaults=(None, None, None))


def cue_text(cue: Cue) -> str:
    text = f"\n[[splice.cue]]\ntake = {cue.take}\nstart = {cue.start}\nstop = {cue.stop}\n"
    if cue.bridge is not None:
        text += f"bridge = {cue.bridge}\n"
    if cue.line is not None:
        text += f'target = "line"\nline = {list(cue.line)}\n'
    if cue.title is not None:
        text += f'title = "{cue.title}"\n'
    return text


def splice_text(weights: list[int], takes: Iterable[str], cues: Iterable[tuple]) -> str:
    names = ", ".join(f'"{name}"' for name in takes)
    return f"[splice]\nweights = {weights}\ntakes = [{names}]\n" + "".join(cue_text(Cue(*cue)) for cue in cues)


# A master to be cut: a project's text, its takes by name, and the forms it can be written in.
Cut = namedtuple("Cut", "name project takes forms")


def cuts(rng: random.Random) -> list[Cut]:
    """Projects that cut masters, with their takes."""

    def take(name: str, channels: int, frames: int) -> Base:
        return dsdiff(rng, name, channels, frames)

    any_form = ("dsdiff", "dsf", "dsf8")
    mono = {"a.dff": take("a", 1, 32), "b.dff": take("b", 1, 32)}
    stereo = {"a.dff": take("a", 2, 48), "b.dsf": dsf(rng, "b", 2, 350, tag=b"ID3")}
    many = {"a.dff": take("a", 3, 40), "b.dff": take("b", 3, 30), "c.dff": take("c", 3, 24)}
    to_the_ends = [(0, 0, 256, 20, None, (4, -4)), (1, 0, 40, 12, "two", (0, 0)), (0, 8, 60, 24), (1, 100, 128)]
    return [
        Cut(
            "one bridge",
            splice_text([1, 0], mono, [(0, 0, 8, 1), (1, 2, 9, None, "one")]),
            mono,
            any_form,
        ),
        Cut(
            "plain cuts",
            splice_text([3, -2, 1], mono, [(0, 0, 16, 0, ""), (1, 8, 24), (0, 100, 132)]),
            mono,
            any_form,
        ),
        Cut("lines", splice_text([2, 5, 2], mono, to_the_ends), mono, any_form),
        Cut(
            "two forms",
            splice_text([5, 9, 9, 5], stereo, [(0, 16, 60, 20, "first"), (1, 50, 83, 7), (0, 100, 140, None, "last")]),
            stereo,
            any_form,
        ),
        Cut(
            "three takes",
            splice_text(
                [40, 60, 80, 80, 60, 40], many, [(0, 5, 50, 30), (1, 60, 100, 24), (2, 70, 90, 16), (0, 90, 117)]
            ),
            many,
            ("dsf", "dsf8"),
        ),
    ]

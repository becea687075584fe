"""Parts of recordings: each way to name a place, in each form; and faults, in their order, of which none makes a file or
changes an old one."""
import itertools
from collections.abc import Iterator
from typing import Any

from dsdarc_scripts import waves
from dsdarc_scripts.dsdiffs import chunk, dsdiff, mark_data, numbered
from tests.commands.asking import Case, Step, done, refused
from tests.commands.shapes import FILTERS, FORMS, SIZES, file_of, sounds, wave_of
from tests.commands.small_files import DECIMATE, RATE, UNDIVIDED, mono
from tests.fuzz.bases import decimate_text

# Bytes of each channel: they make as many frames by the first filter, each lasting 2.83 microseconds.
FRAMES = SIZES[0]
OLD = b"what was here"

# The options of a part, its first frame, and the first frame after it.
PARTS = (
    ("--from @0", 0, FRAMES),
    ("--to @37", 0, FRAMES),
    ("--from @5 --to @9", 5, 9),
    ("--from @36", 36, FRAMES),
    ("--from @37", FRAMES, FRAMES),
    ("--from @7 --to @7", 7, 7),
    ("--to @0", 0, 0),
    # A time is the last frame that begins at it or before it: the frame 3 begins at 8,503.4 nanoseconds.
    ("--from 0.000008504", 3, FRAMES),
    ("--from 0.000008503", 2, FRAMES),
    # The frame 38 would begin at 107,709.8 nanoseconds, and the recording ends at the place of frame 37.
    ("--from 0.000107709", FRAMES, FRAMES),
    ("--from 0:00.000008504 --to 0:00:00.0001", 3, 35),
    ("--from 0 --to 0:00.00001", 0, 3),
    ("--to 0.00001 --from @1", 1, 3),
)

# Marks at bits of the recording, and the frame that each is; the last is one before its beginning.
MARKS = ((0, 0), (39, 4), (40, 5), (288, 36), (-9, 0))

# Parts that aren't there, and their first fault.
WRONG = (
    ("--to @38", "PartOutside"),
    ("--from @38", "PartOutside"),
    ("--from 0.00010771", "PartOutside"),
    ("--from 99:00:00", "PartOutside"),
    ("--from @9 --to @8", "PartReversed"),
    ("--from @38 --to @0", "PartOutside"),
    ("--from #5", "NoMark"),
    ("--to #5 --from @38", "NoMark"),
    ("--to #99 --from #98", "NoMark"),
)


def part_of(wave: bytes, channels: int, decimate: dict[str, Any], start: int, stop: int) -> bytes:
    """The WAVE file of these frames of a recording, of which this one is the whole."""
    size = channels * decimate["width"] // 8
    samples = waves.read(wave).samples[start * size : stop * size]
    head = waves.head_of(RATE // decimate["factor"], channels, decimate["width"], stop - start)
    return head + samples + bytes(len(samples) % 2)


def marked(channels: list[bytes]) -> bytes:
    """A DSDIFF file of these channels, with the marks."""
    inner = b"".join(chunk(b"MARK", mark_data(b"", samples=max(at, 0), offset=min(at, 0))) for at, _ in MARKS)
    ids = None if len(channels) == 2 else numbered(len(channels))
    sound = bytes(itertools.chain(*zip(*channels)))
    return dsdiff(RATE, len(channels), sound, ids=ids, more=chunk(b"DIIN", inner))


def played(options: str, wave: bytes, out: str = "out") -> Step:
    return done(f"play {options} p.toml in {out}", f"played {len(wave)} bytes", {out: wave})


def parts() -> Iterator[Case]:
    """Each part of each form, by its first filter, and some by both, of one to three channels."""
    for number, decimate in itertools.product((1, 2, 3), FILTERS):
        channels = sounds("parts", number, FRAMES)
        whole, text = wave_of(channels, decimate), decimate_text(**decimate).encode()
        frames = -(-8 * FRAMES // decimate["factor"])
        for form in FORMS:
            files = {"in": file_of(form, channels), "p.toml": text, "out": OLD}
            if decimate is FILTERS[0]:
                steps = [played(options, part_of(whole, number, decimate, *span)) for options, *span in PARTS]
            else:
                ends = itertools.combinations_with_replacement(range(frames + 1), 2)
                spans = ((f"--from @{start} --to @{stop}", start, stop) for start, stop in ends)
                steps = [played(options, part_of(whole, number, decimate, *span)) for options, *span in spans]
            yield Case(files, steps)
        # Over the recording itself, which is read to its end before.
        wave = part_of(whole, number, decimate, 1, 2)
        yield Case({"in": file_of("dsf", channels), "p.toml": text}, [played("--from @1 --to @2", wave, "in")])


def by_marks() -> Iterator[Case]:
    """Parts between marks, of one channel and of two."""
    for number in (1, 2):
        channels = sounds("marked", number, FRAMES)
        whole = wave_of(channels, FILTERS[0])
        steps = []
        for (first, (_, start)), (last, (_, stop)) in itertools.product(enumerate(MARKS), repeat=2):
            if start <= stop:
                wave = part_of(whole, number, FILTERS[0], start, stop)
                steps.append(played(f"--from #{first} --to #{last}", wave))
            else:
                steps.append(refused(f"play --from #{first} --to #{last} p.toml in new", "PartReversed"))
        yield Case({"in": marked(channels), "p.toml": DECIMATE}, steps)


def faults() -> Iterator[Case]:
    """Faults, in their order: none of them makes a file, and an old one stays."""
    channels = sounds("faults", 1, FRAMES)
    files = {"in": marked(channels), "p.toml": DECIMATE, "old": OLD}
    for (options, line), out in itertools.product(WRONG, ("old", "new")):
        yield Case(files, [refused(f"play {options} p.toml in {out}", line)])
    options = "play --from #5 p.toml in old"
    # The project's file comes first, then all of the recording, then what the project says, and then the part.
    for missing in ("in", "p.toml"):
        yield Case({name: data for name, data in files.items() if name != missing}, [refused(options, "ReadFailed")])
    yield Case(files | {"in": b"", "p.toml": b"?"}, [refused(options, "FileUnread UnknownForm")])
    cut = files["in"][:-4]
    yield Case(files | {"in": cut, "p.toml": b"?"}, [refused(options, "FileUnread Dsdiff FormCut")])
    yield Case(files | {"p.toml": b"?"}, [refused(options, "Project NotToml")])
    yield Case(files | {"p.toml": b""}, [refused(options, "NoDecimation")])
    yield Case(files | {"p.toml": UNDIVIDED}, [refused(options, "RateNotDivided")])
    yield Case(files, [refused("play --to @1 p.toml in none/out", "WriteFailed")])
    yield Case({"in": mono(b""), "p.toml": DECIMATE}, [refused("play --to @1 p.toml in out", "PartOutside")])
    yield Case({"in": mono(b""), "p.toml": DECIMATE}, [played("--to @0", waves.head_of(RATE // 8, 1, 16, 0))])


def part_cases() -> Iterator[Case]:
    """All tables of parts."""
    yield from parts()
    yield from by_marks()
    yield from faults()

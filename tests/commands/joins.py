"""Files that are played between others: the frames of all joined, as they are summed from single bits, also with their
channels in the order of loudspeakers; and why a file is no neighbour of another."""
import itertools
from collections.abc import Iterator
from typing import Any

from dsdarc_scripts import waves
from dsdarc_scripts.dsdiffs import dsdiff
from tests.commands.asking import Case, Step, done
from tests.commands.shapes import FILTERS, FORMS, bits_of, file_of, sounds
from tests.commands.small_files import DECIMATE, FILE, NINE, RATE, TO_PLAY, WAVE, changed, mono, stereo
from tests.fuzz import reading
from tests.fuzz.bases import decimate_text

# How many bytes a channel has before, in the file, and after it.
SIZES = ((5, 37, 9), (4, 3, 1), (600, 5, 600), (1, 4097, 3))
WAYS: tuple[tuple[str, bool, bool], ...] = (
    ("--previous a --next b", True, True),
    ("--next=b", False, True),
    ("--previous a", True, False),
)

# IDs of loudspeakers, the last of a WAVE file's order first.
NAMED = (b"RS  ", b"LS  ", b"LFE ", b"C   ", b"MRGT", b"MLFT")


def joined_wave(before: list[bytes], own: list[bytes], after: list[bytes], decimate: dict[str, Any]) -> bytes:
    """The WAVE file of the frames of all joined whose place lies in the middle."""
    bits = [bits_of(first + middle + last) for first, middle, last in zip(before, own, after)]
    factor, width = decimate["factor"], decimate["width"]
    start, stop = (-(-8 * it // factor) for it in (len(before[0]), len(before[0]) + len(own[0])))
    every = (
        reading.sample({"samples": len(bits[0])}, lambda c, place: bits[c][place], decimate, channel, number)
        for number in range(start, stop)
        for channel in range(len(bits))
    )
    samples = b"".join(it.to_bytes(width // 8, "little", signed=True) for it in every)
    return waves.head_of(RATE // factor, len(bits), width, stop - start) + samples + bytes(len(samples) % 2)


def joined() -> Iterator[Case]:
    """One to six channels in each form, by each filter, with a file before, after or both."""
    shapes = itertools.cycle(itertools.product(SIZES, FILTERS))
    for number, (words, is_before, is_after), form in itertools.product(range(1, 7), WAYS, FORMS):
        sizes, decimate = next(shapes)
        before, own, after = (sounds(f"joined {name}", number, size) for name, size in zip("abc", sizes))
        files = {"a": file_of(form, before), "in": file_of(form, own), "b": file_of("dsdiff", after)}
        files["p.toml"] = decimate_text(**decimate).encode()
        none = [b""] * number
        wave = joined_wave(before if is_before else none, own, after if is_after else none, decimate)
        yield Case(files, [done(f"play {words} p.toml in out", f"played {len(wave)} bytes", {"out": wave})])


def with_room(wave: bytes) -> bytes:
    """The WAVE file with 36 bytes that readers ignore, before its format."""
    size = int.from_bytes(wave[4:8], "little") + 36
    room = b"JUNK" + (28).to_bytes(4, "little") + bytes(28)
    return wave[:4] + size.to_bytes(4, "little") + wave[8:12] + room + wave[12:]


def spoken() -> Iterator[Case]:
    """One to six channels, named in the other order, by each filter; with room in the header or without it."""
    shapes = itertools.cycle(itertools.product(SIZES, FILTERS))
    for number, is_wide, (words, is_before, is_after) in itertools.product(range(1, 7), (False, True), WAYS):
        sizes, decimate = next(shapes)
        before, own, after = (sounds(f"spoken {name}", number, size) for name, size in zip("abc", sizes))
        named = file_of("dsdiff", own, NAMED[-number:])
        files = {"a": file_of("dsf8", before), "in": named, "b": file_of("dsdiff", after)}
        files["p.toml"] = decimate_text(**decimate).encode()
        none = [b""] * number
        sides = (before if is_before else none, own, after if is_after else none)
        first, middle, last = (side[::-1] for side in sides)
        wave = joined_wave(first, middle, last, decimate)
        if decimate["width"] == 24 or number > 2:
            wave = wave[:40] + (2**number - 1).to_bytes(4, "little") + wave[44:]
        if is_wide:
            wave, words = with_room(wave), f"--rf64 {words}"
        line = f"played {len(wave)} bytes"
        yield Case(files, [done(f"play {words} --speakers p.toml in out", line, {"out": wave})])


FAST = dsdiff(2 * RATE, 1, b"\xf0")
FLAC = b"fLaC".ljust(40, b"\0")
IS_FLAC = 'it begins with "fLaC": a FLAC file, not a DSDIFF or DSF file'
HERTZ = "has 5,644,800 Hz, and in.dff (IN) 2,822,400 Hz: play it without"
CHANNELS = "has 2 channels, and in.dff (IN) 1 channel: play it without"
REST = "does not end with a whole byte of each channel: play it without"

# The files, arguments before the others, the fault, and why.
REFUSED: tuple[tuple[dict[str, bytes], str, str, str], ...] = (
    ({}, "--previous none", "Previous ReadFailed", "none (--previous): No such file or directory"),
    ({}, "--next no/ne", "Next ReadFailed", "no/ne (--next): No such file or directory; there is no folder no"),
    ({}, "--next .", "Next ReadFailed", ". (--next): it is a folder"),
    ({"a": FLAC}, "--previous a", "Previous FileUnread UnknownForm", f"a (--previous): {IS_FLAC}"),
    ({"a": FLAC, "b": b""}, "--next b --previous a", "Previous FileUnread UnknownForm", f"a (--previous): {IS_FLAC}"),
    (
        {"b": changed(FILE, 28, 2)},
        "--next b",
        "Next FileUnread Dsdiff BadVersion",
        "b (--next): its version is 2.5.0.0, and only 1 is known: write it anew as DSDIFF 1.5",
    ),
    ({"a": FAST}, "--previous a", "Previous OtherRate", f"a (--previous) {HERTZ} --previous"),
    ({"b": FAST}, "--next b", "Next OtherRate", f"b (--next) {HERTZ} --next"),
    ({"a": stereo(b"ab")}, "--previous a", "Previous OtherChannels", f"a (--previous) {CHANNELS} --previous"),
    ({"b": stereo(b"ab")}, "--next b", "Next OtherChannels", f"b (--next) {CHANNELS} --next"),
)


def refusals() -> Iterator[tuple[dict[str, bytes], str, str, str, dict[str, bytes]]]:
    """Files, arguments, the fault, why, and what is made."""
    for more, words, line, why in REFUSED:
        yield TO_PLAY | more, f"play {words} p.toml in.dff out", line, why, {}
    nine = {"in.dff": stereo(b"ab"), "p.toml": DECIMATE, "n": NINE}
    why = "n (--{0}) does not end with a whole byte of each channel: play it without --{0}"
    yield nine, "play --previous n p.toml in.dff out", "Previous NotWholeBytes", why.format("previous"), {}
    yield nine, "play --next n p.toml in.dff out", "Next NotWholeBytes", why.format("next"), {}
    why = "n (IN) has 9 bits per channel, 1 more than whole bytes: play it without --previous and --next"
    yield nine, "play --next in.dff p.toml n out", "NotWholeBytes", why, {}
    why = "nope (IN): No such file or directory"
    yield TO_PLAY, "play --next none p.toml nope out", "ReadFailed", why, {}
    yield TO_PLAY, "play --speakers --next none p.toml nope out", "ReadFailed", why, {}
    why = "n (IN) has 9 bits per channel, 1 more than whole bytes: play it without --previous and --next"
    yield nine, "play --speakers --next none p.toml n out", "NotWholeBytes", why, {}
    for name, word in (("in.dff", "IN"), ("a", "--previous"), ("b", "--next"), ("p.toml", "PROJECT")):
        files = TO_PLAY | {"a": mono(b"a"), "b": mono(b"b")}
        why = f"{name} (OUT): it is {word} too: give another name"
        yield files, f"play --previous a --next b p.toml in.dff {name}", "WriteFailed", why, {}


def join_cases() -> Iterator[Case]:
    """All tables, as cases."""
    yield from joined()
    yield from spoken()
    for files, words, line, why, made in refusals():
        yield Case(files, [Step(["--explain", *words.split()], 2, f"fault: {line}", made, why)])
        yield Case(files, [Step(words.split(), 2, f"fault: {line}", made)])
    said = "352800 Hz, 16 bits, 1 channel, 0:00:00.000"
    silent = TO_PLAY | {"a": mono(b"")}
    words = "--explain play --previous a --next a p.toml in.dff out"
    yield Case(silent, [Step(words.split(), 0, "played 46 bytes", {"out": WAVE}, said)])
